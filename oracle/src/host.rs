//! What the host hands to the Rust: the word whether copies can be built, the factors that stand in for
//! powf, exp and sin, and the samples of a Mix in the order in which they are asked for.

use std::cell::{Cell, RefCell};

thread_local! {
    static BUILT: Cell<bool> = const { Cell::new(true) };
    static GLIDE: Cell<f32> = const { Cell::new(1.0) };
    static VIBRATO: Cell<f32> = const { Cell::new(1.0) };
    static FILTER: Cell<f32> = const { Cell::new(1.0) };
    static SINE: Cell<f32> = const { Cell::new(0.0) };
    static SAMPLES: RefCell<Samples> = const { RefCell::new(Samples { queue: Vec::new(), at: 0 }) };
}

struct Samples {
    queue: Vec<f32>,
    at: usize,
}

pub fn built() -> bool {
    BUILT.get()
}

pub fn set_built(word: bool) {
    BUILT.set(word);
}

/// The factor of a bend, handed to `set_bend` in place of semitones.
pub fn bend_factor(handed: f32) -> f32 {
    handed
}

pub fn glide() -> f32 {
    GLIDE.get()
}

pub fn set_glide(coefficient: f32) {
    GLIDE.set(coefficient);
}

pub fn vibrato() -> f32 {
    VIBRATO.get()
}

pub fn filter() -> f32 {
    FILTER.get()
}

pub fn sine() -> f32 {
    SINE.get()
}

pub fn set_modulation(vibrato: f32, filter: f32, sine: f32) {
    VIBRATO.set(vibrato);
    FILTER.set(filter);
    SINE.set(sine);
}

/// The samples of one Mix, copy after copy.
pub fn set_samples(queue: Vec<f32>) {
    SAMPLES.with_borrow_mut(|s| *s = Samples { queue, at: 0 });
}

pub fn take_samples(out: &mut [f32]) {
    SAMPLES.with_borrow_mut(|s| {
        out.copy_from_slice(&s.queue[s.at..s.at + out.len()]);
        s.at += out.len();
    });
}

thread_local! {
    static LENT: Cell<&'static [f32]> = const { Cell::new(&[]) };
}

/// The samples of one Mix of the speed comparison, which copies nothing but what the graph hands on.
pub fn lend_samples(samples: &[f32]) {
    // SAFETY: the caller keeps the samples until the Mix is done, and nothing reads them after it.
    LENT.set(unsafe { std::slice::from_raw_parts(samples.as_ptr(), samples.len()) });
}

pub fn take_lent(out: &mut [f32]) {
    let (now, later) = LENT.get().split_at(out.len());
    out.copy_from_slice(now);
    LENT.set(later);
}

/// Whether every sample was asked for.
pub fn samples_used() -> bool {
    SAMPLES.with_borrow(|s| s.at == s.queue.len())
}

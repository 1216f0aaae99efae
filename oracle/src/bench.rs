//! The Rust side of the speed comparison, and the clock of both sides (docs/BENCHMARK.md). The Rattle side is the library `bench`.

#![allow(dead_code, unused_imports, unused_variables)]

mod dsl;
mod dsp;
mod host;
mod instrument;
mod leaf;
mod midi;
mod patch;
mod runtime;
mod streaming;

use std::hint::black_box;

use crate::dsl::Adsr;
use crate::instrument::{Instrument, InstrumentDesign, Modulation, Note, PlayMode, probe};
use crate::leaf::bits;
use crate::patch::Patch;
use crate::streaming::probe as pitch;

// Slices go over as a pointer and a length, as the static library takes them.
unsafe extern "C" {
    fn bench_plan(
        max: u32, unison: u32, first: usize, second: usize, frames: usize, turns: usize,
        half: *mut f32, half_len: usize, whole: *mut f32, whole_len: usize, four: *mut f32, four_len: usize,
        curve: *mut f32, curve_len: usize,
    ) -> u64;
    fn bench_glide(
        max: u32, unison: u32, first: usize, second: usize, frames: usize, turns: usize,
        curve: *mut f32, curve_len: usize,
    ) -> u64;
    fn bench_mix(
        max: u32, unison: u32, first: usize, second: usize, frames: usize, turns: usize,
        half: *mut f32, half_len: usize, whole: *mut f32, whole_len: usize, four: *mut f32, four_len: usize,
        samples: *const f32, samples_len: usize, out: *mut f32, out_len: usize,
    ) -> u64;
    fn bench_event(
        which: u8, max: u32, unison: u32, first: usize, second: usize, turns: usize,
        half: *mut f32, half_len: usize, whole: *mut f32, whole_len: usize, four: *mut f32, four_len: usize,
    ) -> u64;
    fn bench_midi(stream: *const u8, stream_len: usize, turns: usize) -> u64;
    fn clock_gettime(clock: i32, time: *mut [i64; 2]) -> i32;
}

/// Bytes of the Rattle state, which the yardstick copies.
const STATE: usize = 21_376;

#[derive(Clone, Copy, PartialEq)]
enum Call {
    Plan { glides: bool },
    Mix,
    Event(u8),
    Midi,
    Copies,
}

#[derive(Clone, Copy)]
struct Case {
    call: Call,
    max: usize,
    copies: usize,
    first: usize,
    second: usize,
    frames: usize,
}

impl Case {
    fn voices(&self) -> usize {
        self.first + self.second
    }

    fn name(&self) -> String {
        let size = format!("voices={} copies={}", self.voices(), self.copies);
        match self.call {
            Call::Plan { glides: false } => format!("plan-steady {size} frames={}", self.frames),
            Call::Plan { glides: true } => format!("plan-glide {size} frames={}", self.frames),
            Call::Mix => format!("mix {size} frames={}", self.frames),
            Call::Event(n) => format!("{} {size}", EVENTS[n as usize]),
            Call::Midi => "midi".to_string(),
            Call::Copies => "four-copies".to_string(),
        }
    }
}

const EVENTS: [&str; 10] =
    ["note-on", "note-off-none", "pedal-down", "pedal-up", "bend", "brightness", "release", "all-off", "note-off", "check-1"];

/// The memory that the host lends, the same for both sides.
struct Lent {
    half: Vec<f32>,
    whole: Vec<f32>,
    four: Vec<f32>,
    curve: Vec<f32>,
    samples: Vec<f32>,
    out: Vec<f32>,
    stream: Vec<u8>,
}

impl Lent {
    fn new(c: &Case) -> Self {
        let rows = c.voices() * c.copies;
        let mut x = 1u32;
        let mut next = || {
            x = x.wrapping_mul(1_664_525).wrapping_add(1_013_904_223);
            x
        };
        let samples = (0..c.frames * rows).map(|_| ((next() / 256) as i32 - 8_388_608) as f32 / 8_388_608.0).collect();
        Lent {
            half: vec![0.0; 2 * c.first * c.copies],
            whole: vec![0.0; 2 * rows],
            four: vec![0.0; 4],
            curve: vec![0.0; c.frames * rows],
            samples,
            out: vec![0.0; 2 * c.frames],
            stream: if c.call == Call::Midi { stream(&mut next) } else { Vec::new() },
        }
    }
}

/// A long stream: mostly ons and offs under running status, with controllers, bends, clock bytes and the odd exclusive message.
fn stream(next: &mut impl FnMut() -> u32) -> Vec<u8> {
    let mut out = Vec::new();
    while out.len() < 60_000 {
        let x = next() >> 8;
        let (a, b) = ((x >> 3) as u8 & 127, (x >> 10) as u8 & 127);
        match x % 16 {
            0 => out.extend([0xB0, if a < 64 { 64 } else { a }, b]),
            1 => out.extend([0xE0, a, b]),
            2 => out.extend([0xC0, a]),
            3 => out.extend([0xF0, a, b, a, b, 0xF7]),
            4..=6 => out.extend([0x80 | (a & 15), a, b, 0xF8]),
            _ => {
                out.extend([0x90, a, b]);
                (0..x % 5).for_each(|k| out.extend([a ^ k as u8, 0xFE, b]));
            }
        }
    }
    out.extend([0x90, 60, 64]);
    out
}

fn ours(c: &Case, lent: &mut Lent, turns: usize) -> u64 {
    let (max, unison) = (c.max as u32, c.copies as u32);
    let (h, w, f) = (&mut lent.half, &mut lent.whole, &mut lent.four);
    let (hp, hl, wp, wl, fp, fl) = (h.as_mut_ptr(), h.len(), w.as_mut_ptr(), w.len(), f.as_mut_ptr(), f.len());
    let (first, second, frames) = (c.first, c.second, c.frames);
    // SAFETY: each pair is the place and the length of a vector of its own.
    unsafe {
        match c.call {
            Call::Plan { glides: false } => {
                let (p, l) = (lent.curve.as_mut_ptr(), lent.curve.len());
                bench_plan(max, unison, first, second, frames, turns, hp, hl, wp, wl, fp, fl, p, l)
            }
            Call::Plan { glides: true } => {
                let (p, l) = (lent.curve.as_mut_ptr(), lent.curve.len());
                bench_glide(max, unison, first, second, frames, turns, p, l)
            }
            Call::Mix => {
                let (s, o) = (&lent.samples, &mut lent.out);
                let (sp, sl, op, ol) = (s.as_ptr(), s.len(), o.as_mut_ptr(), o.len());
                bench_mix(max, unison, first, second, frames, turns, hp, hl, wp, wl, fp, fl, sp, sl, op, ol)
            }
            Call::Event(n) => bench_event(n, max, unison, first, second, turns, hp, hl, wp, wl, fp, fl),
            Call::Midi => bench_midi(lent.stream.as_ptr(), lent.stream.len(), turns),
            Call::Copies => four_copies(turns),
        }
    }
}

/// The yardstick of the event calls: four copies of a state, one after the other.
#[inline(never)]
fn four_copies(turns: usize) -> u64 {
    let mut places = vec![0u8; 5 * STATE];
    for _ in 0..turns {
        for k in 0..4 {
            let (a, b) = places.split_at_mut((k + 1) * STATE);
            b[..STATE].copy_from_slice(black_box(&a[k * STATE..]));
        }
        black_box(&mut places);
    }
    places[0] as u64
}

fn add(sum: u64, x: u64) -> u64 {
    sum.wrapping_mul(3).wrapping_add(x)
}

fn floats(start: u64, xs: &[f32]) -> u64 {
    xs.iter().fold(start, |sum, x| add(sum, bits(*x) as u64))
}

fn table(inst: &Instrument) -> u64 {
    let rows = probe::rows(inst);
    let stacks = probe::stacks(inst);
    rows.iter().zip(&stacks).fold(rows.len() as u64, |sum, (r, (_, stack))| {
        let p = &stack[0].2;
        let numbers = [r.handle, r.note as u64, r.releasing as u64, r.sustained as u64];
        let sum = numbers.iter().fold(sum, |sum, x| add(sum, *x));
        floats(sum, &[r.level, p.pitch, p.bend])
    })
}

fn start(c: &Case, mode: PlayMode) -> Instrument {
    let mut design = InstrumentDesign::new(Patch::plain());
    design.amp = Adsr { a: 0.0, d: 0.0, s: 0.5, r: 1_000_000.0, punch: 0.0 };
    design.max_voices = c.max;
    design.mode = mode;
    design.unison = c.copies;
    design.unison_width = 0.5;
    design.glide_secs = 1.0;
    host::set_glide(0.000_001);
    design.modulation = Modulation {
        vibrato_rate: 0.0,
        vibrato_cents: 0.0,
        tremolo_rate: 0.0,
        tremolo_depth: 0.0,
        filter_rate: 0.0,
        filter_octaves: 0.0,
    };
    host::set_built(true);
    Instrument::new(design, 48_000).expect("the plain patch builds")
}

fn next_note(note: u8) -> u8 {
    if note < 96 { note + 1 } else { 36 }
}

fn strikes(inst: &mut Instrument, n: usize) {
    let mut note = 36;
    for _ in 0..n {
        probe::note_on(inst, note, 0.75);
        note = next_note(note);
    }
}

fn block(inst: &mut Instrument, lent: &mut Vec<f32>, four: &mut [f32]) {
    // The curve of such a table is its pitch, 1, and serves as the samples.
    lent.fill(1.0);
    host::lend_samples(lent);
    probe::render_block(inst, four);
}

fn build(c: &Case, lent: &mut Lent) -> Instrument {
    if c.call == (Call::Plan { glides: true }) {
        let mut inst = start(c, PlayMode::Mono { legato: false });
        for n in [c.first, c.second] {
            let mut note = 36;
            for _ in 0..n {
                probe::note_on(&mut inst, note, 0.75);
                probe::note_on(&mut inst, 97, 0.75);
                inst.all_notes_off();
                note = next_note(note);
            }
        }
        return inst;
    }
    let mut inst = start(c, PlayMode::Poly);
    strikes(&mut inst, c.first);
    block(&mut inst, &mut lent.half, &mut lent.four);
    inst.all_notes_off();
    strikes(&mut inst, c.second);
    block(&mut inst, &mut lent.whole, &mut lent.four);
    inst
}

/// Plan: the glide of every graph in the chunks of its fill. The numbers stay where the graph keeps them.
#[inline(never)]
fn plans(inst: &mut Instrument, frames: usize, turns: usize) {
    for _ in 0..turns {
        for g in probe::graphs(inst) {
            pitch::glide(g, frames);
        }
    }
}

#[inline(never)]
fn mixes(inst: &mut Instrument, samples: &[f32], out: &mut [f32], turns: usize) {
    for _ in 0..turns {
        host::lend_samples(samples);
        probe::render_block(inst, out);
    }
}

fn event(which: u8, inst: &mut Instrument, note: u8, handle: u64) -> u64 {
    match which {
        0 => return probe::note_on(inst, note, 0.75),
        1 => return inst.note_off(Note(100)) as u64,
        2 => inst.set_sustain(true),
        3 => inst.set_sustain(false),
        4 => inst.set_bend(1.5),
        5 => inst.set_brightness(0.5),
        6 => return probe::release(inst, handle) as u64,
        7 => inst.all_notes_off(),
        _ => return inst.note_off(Note(note)) as u64,
    }
    2
}

#[inline(never)]
fn events(which: u8, inst: &mut Instrument, turns: usize) -> u64 {
    let handle = probe::whole(inst).next - 1;
    let mut note = 36;
    let mut sum = 0;
    for _ in 0..turns {
        sum = add(sum, event(which, inst, note, handle));
        note = next_note(note);
    }
    add(table(inst), sum)
}

/// One more Plan, whose numbers are read.
fn one_plan(inst: &mut Instrument, frames: usize) -> u64 {
    let mut curve = Vec::new();
    for g in probe::graphs(inst) {
        curve.extend(pitch::plan(g, frames));
    }
    floats(table(inst), &curve)
}

/// What a step of the reader answered.
fn told(sum: u64, step: &midi::Step) -> u64 {
    let kind = |sum, kind, value| add(add(sum, kind), value);
    match step {
        midi::Step::Event(midi::Event::On(note, v)) => kind(kind(sum, 1, *note as u64), 1, bits(*v) as u64),
        midi::Step::Event(midi::Event::Off(note)) => kind(sum, 2, *note as u64),
        midi::Step::Event(midi::Event::Pedal(down)) => kind(sum, 3, *down as u64),
        midi::Step::Event(midi::Event::AllOff) => kind(sum, 4, 0),
        midi::Step::Event(midi::Event::Bend(b)) => kind(sum, 5, *b as u64),
        midi::Step::Event(midi::Event::Other) => kind(sum, 6, 0),
        midi::Step::End => kind(sum, 7, 0),
        midi::Step::Refused(n) => kind(sum, 8, *n as u64),
    }
}

#[inline(never)]
fn streams(stream: &[u8], turns: usize) -> u64 {
    let mut sum = 0;
    for _ in 0..turns {
        let mut cursor = midi::Cursor { place: 0, status: 0 };
        loop {
            let (step, next) = midi::step(stream, cursor);
            sum = told(sum, &step);
            cursor = next;
            if matches!(step, midi::Step::End | midi::Step::Refused(_)) {
                break;
            }
        }
    }
    sum
}

fn rust(c: &Case, lent: &mut Lent, turns: usize) -> u64 {
    match c.call {
        Call::Midi => return streams(&lent.stream, turns),
        Call::Copies | Call::Event(9) => return four_copies(turns),
        _ => {}
    }
    let mut inst = build(c, lent);
    match c.call {
        Call::Plan { .. } => {
            plans(&mut inst, c.frames, turns);
            floats(table(&inst), &lent.curve)
        }
        Call::Mix => {
            mixes(&mut inst, &lent.samples, &mut lent.out, turns);
            floats(table(&inst), &lent.out)
        }
        Call::Event(n) => events(n, &mut inst, turns),
        Call::Midi | Call::Copies => unreachable!("answered above"),
    }
}

fn cases() -> Vec<Case> {
    let sizes = [(0, 1), (4, 4), (16, 16), (32, 32)];
    let mut all = Vec::new();
    for call in [Call::Mix, Call::Plan { glides: false }, Call::Plan { glides: true }] {
        for (first, second) in sizes {
            for copies in [1, 8] {
                for frames in [64, 1024] {
                    all.push(Case { call, max: 32, copies, first, second, frames });
                }
            }
        }
    }
    for n in 0..10 {
        for (first, second) in sizes {
            for copies in [1, 8] {
                // A note-on steals at each turn; so the table must hold 2 × max voices.
                let first = if n == 0 { second } else { first };
                let max = if n == 0 { second } else { 32 };
                all.push(Case { call: Call::Event(n), max, copies, first, second, frames: 0 });
            }
        }
    }
    for call in [Call::Midi, Call::Copies] {
        all.push(Case { call, max: 1, copies: 1, first: 0, second: 1, frames: 0 });
    }
    all
}

type Side = fn(&Case, &mut Lent, usize) -> u64;

/// Seconds that this thread has run. Time in which others run does not count.
fn now() -> f64 {
    let mut time = [0i64; 2];
    // SAFETY: `time` has the layout of a timespec on 64-bit Linux; 3 is the clock of the thread.
    unsafe { clock_gettime(3, &mut time) };
    time[0] as f64 + time[1] as f64 / 1e9
}

/// Seconds of one run of a side.
fn clock(side: Side, c: &Case, lent: &mut Lent, turns: usize) -> f64 {
    let start = now();
    black_box(side(black_box(c), lent, black_box(turns)));
    now() - start
}

fn median(mut xs: Vec<f64>) -> f64 {
    xs.sort_by(f64::total_cmp);
    xs[xs.len() / 2]
}

/// Turns that take well above a run without turns.
fn enough(side: Side, c: &Case, lent: &mut Lent) -> usize {
    let mut turns = 8;
    loop {
        let idle = clock(side, c, lent, 0);
        if clock(side, c, lent, turns) > 4.0 * idle + 0.001 || turns >= 1 << 16 {
            return turns;
        }
        turns *= 2;
    }
}

/// Whether both sides answer alike after some turns. Check 1 and the copies have no Rust side.
fn compare(c: &Case, lent: &mut Lent) {
    if matches!(c.call, Call::Copies | Call::Event(9)) {
        return;
    }
    for turns in [1, 5] {
        let (a, b) = match c.call {
            Call::Plan { .. } => {
                let mut inst = build(c, lent);
                plans(&mut inst, c.frames, turns - 1);
                (ours(c, lent, turns), one_plan(&mut inst, c.frames))
            }
            _ => (ours(c, lent, turns), rust(c, lent, turns)),
        };
        assert!(a == b, "{}: the sums differ after {turns} turns: {a:016X} and {b:016X}", c.name());
    }
}

/// Nanoseconds a turn on both sides, and the median of the ratios of neighbouring slices.
fn time(c: &Case, slices: usize) {
    let mut lent = Lent::new(c);
    compare(c, &mut lent);
    let (n, m) = (enough(ours, c, &mut lent), enough(rust, c, &mut lent));
    let (mut a, mut b, mut ratios) = (Vec::new(), Vec::new(), Vec::new());
    for _ in 0..slices {
        let (a0, b0) = (clock(ours, c, &mut lent, 0), clock(rust, c, &mut lent, 0));
        let x = (clock(ours, c, &mut lent, n) - a0) / n as f64;
        let y = (clock(rust, c, &mut lent, m) - b0) / m as f64;
        a.push(x * 1e9);
        b.push(y * 1e9);
        ratios.push(x / y);
    }
    println!("{} ours={:.0} rust={:.0} ratio={:.3}", c.name(), median(a), median(b), median(ratios));
}

/// What callgrind counts.
#[inline(never)]
#[unsafe(no_mangle)]
extern "C" fn bench_measured(which: u32, c: &Case, lent: &mut Lent, turns: usize) -> u64 {
    if which == 0 { ours(c, lent, turns) } else { rust(c, lent, turns) }
}

/// Where callgrind writes what it counted since the mark before.
#[inline(never)]
#[unsafe(no_mangle)]
extern "C" fn bench_mark(n: u64) -> u64 {
    black_box(n)
}

/// Turns that are counted: many of an event, where building the state takes far more than a turn.
fn counted(c: &Case) -> usize {
    if matches!(c.call, Call::Event(_)) { 1000 } else { 4 }
}

/// Each side with 1 turn and with some more, a mark after each. The first run is left out: it finds no memory to take over.
fn count(c: &Case) {
    let mut lent = Lent::new(c);
    println!("{}\t{}", c.name(), counted(c));
    for which in [0, 1] {
        black_box(bench_measured(which, c, &mut lent, 1));
        black_box(bench_mark(0));
        for turns in [1, 1 + counted(c)] {
            black_box(bench_measured(which, c, &mut lent, turns));
            black_box(bench_mark(turns as u64));
        }
    }
}

fn main() {
    let words: Vec<String> = std::env::args().skip(1).collect();
    let wanted = |c: &Case| words[1..].iter().all(|w| c.name().split(' ').any(|x| x == w));
    let slices = 31;
    match words.first().map(String::as_str) {
        Some("time") => cases().iter().filter(|c| wanted(c)).for_each(|c| time(c, slices)),
        Some("count") => {
            bench_mark(0);
            cases().iter().filter(|c| wanted(c)).for_each(count);
        }
        // One side alone, so many turns: for a profiler.
        Some("ours") => {
            let turns = words[1].parse().expect("a number of turns");
            let wanted = |c: &Case| words[2..].iter().all(|w| c.name().split(' ').any(|x| x == w));
            cases().iter().filter(|c| wanted(c)).for_each(|c| println!("{:016X}", ours(c, &mut Lent::new(c), turns)));
        }
        _ => {
            eprintln!("usage: bench time|count [WORDS OF A CASE], bench ours TURNS [WORDS OF A CASE]");
            std::process::exit(2);
        }
    }
}

//! The line format of the program leaf_vectors (README.md): a letter and seven words a line in, a letter and
//! eight words a line out.

use std::io::{BufRead, Result, Write};

use crate::dsl::Adsr;
use crate::instrument::{EnvGen, Modulation, Note, probe};
use crate::streaming::probe as pitch;

/// A float's pattern; a NaN is always 7FC00000.
pub fn bits(x: f32) -> u32 {
    if x.is_nan() { 0x7FC0_0000 } else { x.to_bits() }
}

/// The frequency of every note.
pub fn notes(out: &mut impl Write) -> Result<()> {
    for n in 0..=255u8 {
        writeln!(out, "{:08X}", bits(Note(std::hint::black_box(n)).freq()))?;
    }
    Ok(())
}

struct Leaf {
    env: EnvGen,
    copy: probe::Lone,
    amp: [f32; 4],
    modulation: [f32; 6],
}

/// Document 01's limits of a sample rate.
pub fn rate_fits(rate: u32) -> bool {
    (8_000..=192_000).contains(&rate)
}

fn zero_env() -> EnvGen {
    EnvGen::new(&Adsr { a: 0.0, d: 0.0, s: 0.0, r: 0.0, punch: 0.0 }, 0)
}

fn say(out: &mut impl Write, op: u8, words: &[u32]) -> Result<()> {
    out.write_all(&[op])?;
    for i in 0..8 {
        write!(out, " {:08X}", words.get(i).copied().unwrap_or(0))?;
    }
    out.write_all(b"\n")
}

impl Leaf {
    fn env_words(&self, reply: u32) -> [u32; 6] {
        let e = &self.env;
        [
            reply,
            probe::envelope::stage(e),
            bits(e.level()),
            bits(probe::envelope::rel_from(e)),
            e.faded() as u32,
            e.active() as u32,
        ]
    }

    fn copy_words(&mut self) -> [u32; 8] {
        let (l, r) = self.copy.gains();
        let p = pitch::read(self.copy.graph());
        let cut = p.cutoff.unwrap_or(0.0);
        [
            bits(l),
            bits(r),
            bits(p.pitch),
            bits(p.target),
            bits(p.glide),
            bits(p.bend),
            p.cutoff.is_some() as u32,
            bits(cut),
        ]
    }

    /// A new envelope. The Rust refuses none: the numbers are document 01's.
    fn new_env(&mut self, x: &[u32; 7]) -> u32 {
        self.amp = [0, 1, 2, 3].map(|i| f32::from_bits(x[i]));
        let [a, d, s, r] = self.amp;
        self.env = zero_env();
        if !rate_fits(x[4]) {
            return 2;
        }
        if !self.amp.iter().all(|y| y.is_finite()) {
            return 3;
        }
        self.env = EnvGen::new(&Adsr { a, d, s, r, punch: 0.0 }, x[4]);
        0
    }

    /// n ticks, and a sum over the levels.
    fn ticks(&mut self, n: u32) -> u32 {
        (0..n).fold(0u32, |sum, _| sum.wrapping_mul(16_777_619).wrapping_add(bits(self.env.tick())))
    }

    fn modulation(&self) -> Modulation {
        let [vr, vc, tr, td, fr, fo] = self.modulation;
        Modulation {
            vibrato_rate: vr,
            vibrato_cents: vc,
            tremolo_rate: tr,
            tremolo_depth: td,
            filter_rate: fr,
            filter_octaves: fo,
        }
    }

    /// A design's rate, max, unison, width and glide, with the last amp and modulation. The numbers are document 01's.
    fn design_reply(&self, x: &[u32; 7]) -> u32 {
        if !rate_fits(x[0]) || !(1..=32).contains(&x[1]) || x[2] > 8 {
            return 2;
        }
        let more = [f32::from_bits(x[3]), f32::from_bits(x[4])];
        let all = self.amp.iter().chain(&self.modulation).chain(&more);
        if all.into_iter().all(|y| y.is_finite()) { 0 } else { 3 }
    }

    /// The methods of f32 that the Rust calls. Of two zeros max is +0, as document 01 says, and min is the first.
    fn floats(a: f32, b: f32) -> [u32; 8] {
        let zeros = a == 0.0 && b == 0.0;
        let order = |x: f32| if x.is_nan() { f32::NAN } else { x };
        [
            bits(a.fract()),
            order(a).total_cmp(&order(b)).is_lt() as u32,
            if zeros { 0 } else { bits(a.max(b)) },
            bits(if zeros { a } else { a.min(b) }),
            bits(a.clamp(0.0, 1.0)),
            bits(a.clamp(-1.0, 1.0)),
            a.is_nan() as u32,
            a.is_finite() as u32,
        ]
    }

    /// A line on the envelope: the first word of its answer.
    fn env_line(&mut self, op: u8, x: &[u32; 7]) -> u32 {
        match (op, x[0]) {
            (b'E', _) => return self.new_env(x),
            (b'T', n) => return self.ticks(n),
            (_, 0) => self.env.gate_on(),
            (_, 1) => self.env.gate_off(),
            _ => self.env.kill(),
        }
        0
    }

    /// A line on the copy. Only a glide answers more than the copy.
    fn copy_line(&mut self, op: u8, x: &[u32; 7], out: &mut impl Write) -> Result<()> {
        let f = |i: usize| f32::from_bits(x[i]);
        match op {
            b'C' => self.copy = probe::Lone::build(x[0] as usize, x[1] as usize, f(2), f(3), f(4)),
            b'P' => self.copy.graph().glide_pitch(f(0), f(1)),
            b'B' => self.copy.graph().set_bend(f(0)),
            b'F' => self.copy.graph().set_cutoff(f(0)),
            _ => {
                for eight in pitch::plan(self.copy.graph(), x[0] as usize).chunks(8) {
                    say(out, b'l', &eight.iter().map(|y| bits(*y)).collect::<Vec<_>>())?;
                }
            }
        }
        pitch::settle(self.copy.graph());
        Ok(())
    }

    fn step(&mut self, op: u8, x: &[u32; 7], out: &mut impl Write) -> Result<()> {
        let f = |i: usize| f32::from_bits(x[i]);
        match op {
            b'N' => say(out, op, &[bits(Note(x[0] as u8).freq())]),
            b'X' => say(out, op, &Self::floats(f(0), f(1))),
            b'E' | b'G' | b'T' => {
                let first = self.env_line(op, x);
                say(out, op, &self.env_words(first))
            }
            b'C' | b'P' | b'B' | b'F' | b'L' => {
                self.copy_line(op, x, out)?;
                let words = self.copy_words();
                say(out, op, &words)
            }
            b'M' => {
                self.modulation = [0, 1, 2, 3, 4, 5].map(f);
                say(out, op, &[probe::is_active(&self.modulation()) as u32])
            }
            b'D' => {
                let copies = if x[2] <= 8 { probe::copies(x[2] as usize) as u32 } else { x[2] };
                say(out, op, &[self.design_reply(x), copies])
            }
            _ => panic!("no such line"),
        }
    }
}

pub fn run(out: &mut impl Write) -> Result<()> {
    let copy = probe::Lone::build(0, 1, 0.0, 1.0, 1.0);
    let mut leaf = Leaf { env: zero_env(), copy, amp: [0.0; 4], modulation: [0.0; 6] };
    for line in std::io::stdin().lock().lines() {
        let line = line?;
        let mut x = [0u32; 7];
        for (i, w) in line[2..].split(' ').enumerate() {
            x[i] = u32::from_str_radix(w, 16).expect("hexadecimal");
        }
        leaf.step(line.as_bytes()[0], &x, out)?;
    }
    Ok(())
}

//! Runs the lines of the replay format, or of the script, on the Rust.

use std::io::{BufRead, Result, Write};

use crate::dsl::Adsr;
use crate::host;
use crate::instrument::{EnvGen, Instrument, InstrumentDesign, Modulation, Note, PlayMode, probe};
use crate::leaf::{bits, rate_fits};
use crate::midi;
use crate::parse::{self, Design, Gate, Line, Mode};
use crate::patch::Patch;
use crate::streaming::probe as pitch;

/// FNV-1a of 64 bits over the patterns of floats.
struct Sum(u64);

impl Sum {
    fn new() -> Self {
        Sum(0xCBF2_9CE4_8422_2325)
    }

    fn add(&mut self, x: f32) {
        for byte in bits(x).to_le_bytes() {
            self.0 = (self.0 ^ byte as u64).wrapping_mul(0x100_0000_01B3);
        }
    }
}

/// A Plan that waits for its Mix: its frames, and each copy's pitch before it.
struct Open {
    frames: usize,
    before: Vec<f32>,
}

/// An instrument that was accepted, with the driver's account of the block.
struct Player {
    inst: Instrument,
    max: usize,
    open: Option<Open>,
}

fn settings(amp: [f32; 4]) -> Adsr {
    let [a, d, s, r] = amp;
    Adsr { a, d, s, r, punch: 0.0 }
}

/// The refusal of a design by document 01, or none.
fn refusal(d: &Design) -> Option<u32> {
    if !rate_fits(d.rate) || !(1..=32).contains(&d.max) || d.unison > 8 {
        return Some(2);
    }
    let mut floats = d.amp.iter().chain(&d.modulation).chain([&d.width, &d.glide]);
    if floats.all(|x| x.is_finite()) { None } else { Some(3) }
}

impl Player {
    fn new(d: &Design) -> Self {
        let mut design = InstrumentDesign::new(Patch::plain());
        design.amp = settings(d.amp);
        design.max_voices = d.max as usize;
        design.mode = match d.mode {
            Mode::Poly => PlayMode::Poly,
            Mode::Mono => PlayMode::Mono { legato: false },
            Mode::Legato => PlayMode::Mono { legato: true },
        };
        design.unison = d.unison as usize;
        design.unison_width = d.width;
        // A glide time above 0 makes glide_coeff ask the host.
        design.glide_secs = 1.0;
        host::set_glide(d.glide);
        let [vibrato_rate, vibrato_cents, tremolo_rate, tremolo_depth, filter_rate, filter_octaves] = d.modulation;
        design.modulation =
            Modulation { vibrato_rate, vibrato_cents, tremolo_rate, tremolo_depth, filter_rate, filter_octaves };
        host::set_built(true);
        let inst = Instrument::new(design, d.rate).expect("the plain patch builds");
        Player { inst, max: d.max as usize, open: None }
    }

    fn settle(&mut self) {
        probe::graphs(&mut self.inst).for_each(pitch::settle);
    }

    /// A note-on. What became of which voice is read off the table before and after.
    fn on(&mut self, note: u8, velocity: f32, built: bool, out: &mut impl Write) -> Result<()> {
        let before = probe::rows(&self.inst);
        let held = probe::whole(&self.inst).held;
        let next = probe::whole(&self.inst).next;
        host::set_built(built);
        let handle = probe::note_on(&mut self.inst, note, velocity);
        host::set_built(true);
        self.settle();
        let after = probe::rows(&self.inst);
        let now = |h: u64| after.iter().find(|r| r.handle == h);
        let moved = before.iter().find(|r| now(r.handle).is_some_and(|s| s.releasing && !r.releasing));
        if handle == 0 {
            let deferred = before.iter().any(|r| now(r.handle).is_some_and(|s| s.sustained && !r.sustained));
            let found = moved.is_some() || deferred || held != probe::whole(&self.inst).held;
            return writeln!(out, "(off {})", found as u32);
        }
        if handle < next {
            return writeln!(out, "(kept {handle})");
        }
        if now(handle).is_none() {
            return writeln!(out, "(silent {handle})");
        }
        let taken = before.iter().find(|r| now(r.handle).is_none());
        let full = before.iter().filter(|r| !r.releasing).count() >= self.max;
        let killed = if full { moved.or(taken) } else { moved };
        let name = |r: Option<&probe::Row>| r.map_or(0, |r| r.handle);
        writeln!(out, "(started {handle} {} {})", name(killed), name(taken))
    }

    fn plan(&mut self, n: u32, lend: u32, out: &mut impl Write) -> Result<()> {
        let most = if probe::modulated(&self.inst) { 64 } else { 1024 };
        if !(1..=most).contains(&n) {
            return writeln!(out, "(refused 4)");
        }
        if lend != 0 {
            return writeln!(out, "(refused 7)");
        }
        let frames = n as usize;
        if probe::modulated(&self.inst) {
            probe::apply_modulation(&mut self.inst, frames);
            self.settle();
        }
        let mut before = Vec::new();
        let mut sum = Sum::new();
        let mut count = 0;
        for g in probe::graphs(&mut self.inst) {
            before.push(pitch::read(g).pitch);
            let curve = pitch::open(g, frames);
            count += curve.len();
            curve.iter().for_each(|x| sum.add(*x));
        }
        self.open = Some(Open { frames, before });
        writeln!(out, "(planned {count} {:016X})", sum.0)
    }

    fn mix(&mut self, kind: u32, seed: u32, lent: bool, out: &mut impl Write) -> Result<()> {
        let Some(open) = &self.open else {
            return writeln!(out, "(refused 6)");
        };
        if !lent {
            return writeln!(out, "(refused 7)");
        }
        let frames = open.frames;
        host::set_samples(samples(kind, seed, frames * open.before.len()));
        for (g, before) in probe::graphs(&mut self.inst).zip(&open.before) {
            pitch::rewind(g, *before);
        }
        self.open = None;
        let before = probe::rows(&self.inst);
        let mut stereo = vec![f32::NAN; 2 * frames];
        probe::render_block(&mut self.inst, &mut stereo);
        assert!(host::samples_used(), "a sample was not asked for");
        let mut sum = Sum::new();
        stereo.iter().for_each(|x| sum.add(*x));
        write!(out, "(mixed {frames} {:016X} ", sum.0)?;
        let gone = before.iter().filter(|r| !probe::in_table(&self.inst, r.handle));
        list(out, gone.map(|r| r.handle))?;
        writeln!(out, ")")
    }

    fn voices(&self, out: &mut impl Write) -> Result<()> {
        write!(out, "(voices")?;
        for r in probe::rows(&self.inst) {
            let (f, s) = (r.releasing as u32, r.sustained as u32);
            write!(out, " ({} {} {f} {s} {:08X})", r.handle, r.note, bits(r.level))?;
        }
        writeln!(out, ")")
    }

    fn copies(&self, out: &mut impl Write) -> Result<()> {
        write!(out, "(copies")?;
        for (handle, stack) in probe::stacks(&self.inst) {
            write!(out, " ({handle}")?;
            for (l, r, p) in stack {
                let cutoff = p.cutoff.map_or("-".to_string(), |x| format!("{:08X}", bits(x)));
                let [l, r, pitch, target, glide, bend] = [l, r, p.pitch, p.target, p.glide, p.bend].map(bits);
                write!(out, " ({l:08X} {r:08X} {pitch:08X} {target:08X} {glide:08X} {bend:08X} {cutoff})")?;
            }
            write!(out, ")")?;
        }
        writeln!(out, ")")
    }

    fn state(&self, out: &mut impl Write) -> Result<()> {
        let w = probe::whole(&self.inst);
        let [vib, flt, trem] = w.phases.map(bits);
        let [bend, bright, gain] = [w.bend, w.brightness, w.gain].map(bits);
        let open = self.open.as_ref().map_or(0, |o| o.frames);
        write!(out, "(state {} {} {bend:08X} {bright:08X} ", w.next, w.pedal as u32)?;
        write!(out, "{vib:08X} {flt:08X} {trem:08X} {gain:08X} {open} ")?;
        list(out, w.held.iter().map(|n| *n as u64))?;
        writeln!(out, ")")
    }

    /// A call that only an instrument without an open block takes.
    fn call(&mut self, line: Line, out: &mut impl Write) -> Result<()> {
        match line {
            Line::On { note, velocity, built } => return self.on(note, velocity, built, out),
            Line::Plan { n, lend, vibrato, filter, sine } => {
                host::set_modulation(vibrato, filter, sine);
                return self.plan(n, lend, out);
            }
            Line::Off(note) => {
                let found = self.inst.note_off(Note(note));
                self.settle();
                return writeln!(out, "(off {})", found as u32);
            }
            Line::Release(handle) => {
                let found = probe::release(&mut self.inst, handle);
                return writeln!(out, "(released {})", found as u32);
            }
            Line::Pedal(down) => self.inst.set_sustain(down),
            Line::Bend(factor) => self.inst.set_bend(factor),
            Line::Bright(factor) => self.inst.set_brightness(factor),
            Line::AllOff => self.inst.all_notes_off(),
            _ => unreachable!("not a call"),
        }
        self.settle();
        writeln!(out, "(done)")
    }

    fn line(&mut self, line: Line, out: &mut impl Write) -> Result<()> {
        match line {
            Line::Mix { kind, seed, lend_in, lend_out } => self.mix(kind, seed, lend_in == 0 && lend_out == 0, out),
            Line::Voices => self.voices(out),
            Line::Copies => self.copies(out),
            Line::State => self.state(out),
            Line::Active(handle) => writeln!(out, "(active {})", probe::in_table(&self.inst, handle) as u32),
            Line::Count => writeln!(out, "(count {})", self.inst.active_voices()),
            Line::Find(note) => {
                let found = probe::rows(&self.inst).iter().any(|r| r.note == note && !r.releasing);
                writeln!(out, "(found {})", found as u32)
            }
            _ if self.open.is_some() => writeln!(out, "(refused 5)"),
            call => self.call(call, out),
        }
    }
}

/// Numbers in brackets.
fn list(out: &mut impl Write, numbers: impl Iterator<Item = u64>) -> Result<()> {
    let all: Vec<String> = numbers.map(|n| n.to_string()).collect();
    write!(out, "({})", all.join(" "))
}

/// The samples of a Mix by the seeded source.
fn samples(kind: u32, seed: u32, count: usize) -> Vec<f32> {
    let mut x = seed;
    let next = || {
        x = x.wrapping_mul(1_664_525).wrapping_add(1_013_904_223);
        match kind {
            0 => f32::from_bits(x),
            1 => ((x / 256) as i32 - 8_388_608) as f32 / 8_388_608.0,
            _ => 0.0,
        }
    };
    std::iter::repeat_with(next).take(count).collect()
}

struct Replay {
    player: Option<Player>,
    env: EnvGen,
}

fn zero_env() -> EnvGen {
    EnvGen::new(&settings([0.0; 4]), 0)
}

impl Replay {
    fn design(&mut self, d: &Design, out: &mut impl Write) -> Result<()> {
        self.player = None;
        if let Some(n) = refusal(d) {
            return writeln!(out, "(refused {n})");
        }
        self.player = Some(Player::new(d));
        writeln!(out, "(ready)")
    }

    fn new_env(&mut self, rate: u32, amp: [f32; 4], out: &mut impl Write) -> Result<()> {
        self.env = zero_env();
        if !rate_fits(rate) {
            return writeln!(out, "(refused 2)");
        }
        if !amp.iter().all(|x| x.is_finite()) {
            return writeln!(out, "(refused 3)");
        }
        self.env = EnvGen::new(&settings(amp), rate);
        writeln!(out, "(ready)")
    }

    fn gate(&mut self, gate: Gate, out: &mut impl Write) -> Result<()> {
        match gate {
            Gate::On => self.env.gate_on(),
            Gate::Off => self.env.gate_off(),
            Gate::Kill => self.env.kill(),
        }
        writeln!(out, "(done)")
    }

    fn tick(&mut self, n: u32, out: &mut impl Write) -> Result<()> {
        let mut sum = Sum::new();
        for _ in 0..n {
            sum.add(self.env.tick());
        }
        let e = &self.env;
        let stage = probe::envelope::stage(e);
        let (level, from) = (bits(e.level()), bits(probe::envelope::rel_from(e)));
        writeln!(out, "(ticked {:016X} {stage} {level:08X} {from:08X} {})", sum.0, e.faded() as u32)
    }

    fn line(&mut self, line: Line, out: &mut impl Write) -> Result<()> {
        match line {
            Line::Design(d) => self.design(&d, out),
            Line::Env { rate, amp } => self.new_env(rate, amp, out),
            Line::Gate(gate) => self.gate(gate, out),
            Line::Tick(n) => self.tick(n, out),
            Line::Midi { place, status, stream } => read_midi(place, status, &stream, out),
            other => match &mut self.player {
                Some(player) => player.line(other, out),
                None => writeln!(out, "(refused 1)"),
            },
        }
    }
}

fn read_midi(place: u32, status: u8, stream: &[u8], out: &mut impl Write) -> Result<()> {
    let mut cursor = midi::Cursor { place: place as usize, status };
    loop {
        let (step, next) = midi::step(stream, cursor);
        cursor = next;
        match step {
            midi::Step::Event(midi::Event::On(note, velocity)) => writeln!(out, "(on {note} {:08X})", bits(velocity))?,
            midi::Step::Event(midi::Event::Off(note)) => writeln!(out, "(off {note})")?,
            midi::Step::Event(midi::Event::Pedal(down)) => writeln!(out, "(pedal {})", down as u32)?,
            midi::Step::Event(midi::Event::AllOff) => writeln!(out, "(alloff)")?,
            midi::Step::Event(midi::Event::Bend(w)) => writeln!(out, "(bend {w})")?,
            midi::Step::Event(midi::Event::Other) => writeln!(out, "(other)")?,
            midi::Step::End => return writeln!(out, "(end {} {:02X})", cursor.place, cursor.status),
            midi::Step::Refused(n) => return writeln!(out, "(refused {n} {} {:02X})", cursor.place, cursor.status),
        }
    }
}

/// Whether the script program reads this line too, as it stands.
fn in_script(line: &Line, playing: bool) -> bool {
    match line {
        Line::Design(_) => !playing,
        Line::On { .. } | Line::Voices => playing,
        _ => false,
    }
}

pub fn run(out: &mut impl Write, script: bool) -> Result<()> {
    let mut replay = Replay { player: None, env: zero_env() };
    let mut input = std::io::stdin().lock();
    let mut text = Vec::new();
    loop {
        text.clear();
        if input.read_until(b'\n', &mut text)? == 0 {
            return Ok(());
        }
        if text.last() == Some(&b'\n') {
            text.pop();
        }
        match parse::line(&text) {
            Some(line) if !script || in_script(&line, replay.player.is_some()) => replay.line(line, out)?,
            _ => writeln!(out, "(unread)")?,
        }
    }
}

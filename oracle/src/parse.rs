//! The forms of the replay format. A line that is not one of them is none.

use crate::dsl::Adsr;

#[derive(Clone, Copy, PartialEq)]
pub enum Mode {
    Poly,
    Mono,
    Legato,
}

pub struct Design {
    pub rate: u32,
    pub max: u32,
    pub mode: Mode,
    pub unison: u32,
    pub width: f32,
    pub amp: [f32; 4],
    pub glide: f32,
    pub modulation: [f32; 6],
}

pub enum Gate {
    On,
    Off,
    Kill,
}

pub enum Line {
    Design(Design),
    On { note: u8, velocity: f32, built: bool },
    Off(u8),
    Pedal(bool),
    Bend(f32),
    Bright(f32),
    Release(u64),
    AllOff,
    Plan { n: u32, lend: u32, vibrato: f32, filter: f32, sine: f32 },
    Mix { kind: u32, seed: u32, lend_in: u32, lend_out: u32 },
    Voices,
    Copies,
    State,
    Active(u64),
    Count,
    Find(u8),
    Env { rate: u32, amp: [f32; 4] },
    Gate(Gate),
    Tick(u32),
    Midi { place: u32, status: u8, stream: Vec<u8> },
}

/// What is left of a line.
struct Rest<'a>(&'a [u8]);

impl Rest<'_> {
    fn text(&mut self, t: &str) -> Option<()> {
        self.0 = self.0.strip_prefix(t.as_bytes())?;
        Some(())
    }

    fn digits(&self) -> usize {
        self.0.iter().take_while(|b| b.is_ascii_digit()).count()
    }

    /// A decimal without a leading zero, below 2^64.
    fn long(&mut self) -> Option<u64> {
        let k = self.digits();
        if k == 0 || k > 20 || (k > 1 && self.0[0] == b'0') {
            return None;
        }
        let (number, rest) = self.0.split_at(k);
        self.0 = rest;
        std::str::from_utf8(number).ok()?.parse().ok()
    }

    fn number(&mut self, most: u32) -> Option<u32> {
        let n = self.long()?;
        (n <= most as u64).then_some(n as u32)
    }

    fn flag(&mut self) -> Option<bool> {
        Some(self.number(1)? == 1)
    }

    /// So many capital hexadecimal digits.
    fn hex(&mut self, k: usize) -> Option<u32> {
        let (word, rest) = self.0.split_at_checked(k)?;
        self.0 = rest;
        let mut value = 0;
        for b in word {
            let digit = match b {
                b'0'..=b'9' => b - b'0',
                b'A'..=b'F' => b - b'A' + 10,
                _ => return None,
            };
            value = value << 4 | digit as u32;
        }
        Some(value)
    }

    fn float(&mut self) -> Option<f32> {
        Some(f32::from_bits(self.hex(8)?))
    }

    /// Floats with a space before each.
    fn floats<const N: usize>(&mut self) -> Option<[f32; N]> {
        let mut all = [0.0; N];
        for x in &mut all {
            self.text(" ")?;
            *x = self.float()?;
        }
        Some(all)
    }

    fn spaced(&mut self, most: u32) -> Option<u32> {
        self.text(" ")?;
        self.number(most)
    }

    /// The closing bracket, and nothing after it.
    fn end<T>(&mut self, value: T) -> Option<T> {
        (self.0 == b")").then_some(value)
    }

    fn design(&mut self) -> Option<Line> {
        self.text("(rate")?;
        let rate = self.spaced(u32::MAX)?;
        self.text(") (max")?;
        let max = self.spaced(u32::MAX)?;
        self.text(") (mode ")?;
        let mode = if self.text("poly").is_some() {
            Mode::Poly
        } else if self.text("mono").is_some() {
            Mode::Mono
        } else {
            self.text("legato")?;
            Mode::Legato
        };
        self.text(") (unison")?;
        let unison = self.spaced(u32::MAX)?;
        let [width] = self.floats()?;
        self.text(") (amp")?;
        let amp = self.floats()?;
        self.text(") (glide")?;
        let [glide] = self.floats()?;
        self.text(") (mod")?;
        let modulation = self.floats()?;
        self.text(")")?;
        self.end(Line::Design(Design { rate, max, mode, unison, width, amp, glide, modulation }))
    }

    fn on(&mut self) -> Option<Line> {
        let note = self.number(255)? as u8;
        let [velocity] = self.floats()?;
        self.text(" ")?;
        let built = self.flag()?;
        self.end(Line::On { note, velocity, built })
    }

    fn plan(&mut self) -> Option<Line> {
        let n = self.number(u32::MAX)?;
        let lend = self.spaced(2)?;
        let [vibrato, filter, sine] = self.floats()?;
        self.end(Line::Plan { n, lend, vibrato, filter, sine })
    }

    fn mix(&mut self) -> Option<Line> {
        let kind = self.number(2)?;
        let seed = self.spaced(u32::MAX)?;
        let lend_in = self.spaced(2)?;
        let lend_out = self.spaced(2)?;
        self.end(Line::Mix { kind, seed, lend_in, lend_out })
    }

    fn env(&mut self) -> Option<Line> {
        let rate = self.number(u32::MAX)?;
        let amp = self.floats()?;
        self.end(Line::Env { rate, amp })
    }

    fn gate(&mut self) -> Option<Line> {
        match self.0 {
            b"on)" => Some(Line::Gate(Gate::On)),
            b"off)" => Some(Line::Gate(Gate::Off)),
            b"kill)" => Some(Line::Gate(Gate::Kill)),
            _ => None,
        }
    }

    fn midi(&mut self) -> Option<Line> {
        let place = self.number(u32::MAX)?;
        self.text(" ")?;
        let status = self.hex(2)? as u8;
        self.text(" ")?;
        let mut stream = Vec::new();
        if self.text("-").is_none() {
            while stream.is_empty() || self.0.len() > 1 {
                stream.push(self.hex(2)? as u8);
            }
        }
        if stream.len() > 100 {
            return None;
        }
        self.end(Line::Midi { place, status, stream })
    }
}

pub fn line(bytes: &[u8]) -> Option<Line> {
    if bytes.len() > 256 {
        return None;
    }
    match bytes {
        b"(alloff)" => return Some(Line::AllOff),
        b"(voices)" => return Some(Line::Voices),
        b"(copies)" => return Some(Line::Copies),
        b"(state)" => return Some(Line::State),
        b"(count)" => return Some(Line::Count),
        _ => {}
    }
    let space = bytes.iter().position(|b| *b == b' ')?;
    let mut r = Rest(&bytes[space + 1..]);
    match &bytes[..space] {
        b"(design" => r.design(),
        b"(on" => r.on(),
        b"(off" => {
            let note = r.number(255)? as u8;
            r.end(Line::Off(note))
        }
        b"(pedal" => {
            let down = r.flag()?;
            r.end(Line::Pedal(down))
        }
        b"(bend" => {
            let factor = r.float()?;
            r.end(Line::Bend(factor))
        }
        b"(bright" => {
            let factor = r.float()?;
            r.end(Line::Bright(factor))
        }
        b"(release" => {
            let handle = r.long()?;
            r.end(Line::Release(handle))
        }
        b"(plan" => r.plan(),
        b"(mix" => r.mix(),
        b"(active" => {
            let handle = r.long()?;
            r.end(Line::Active(handle))
        }
        b"(find" => {
            let note = r.number(255)? as u8;
            r.end(Line::Find(note))
        }
        b"(env" => r.env(),
        b"(gate" => r.gate(),
        b"(tick" => {
            let n = r.number(u32::MAX)?;
            r.end(Line::Tick(n))
        }
        b"(midi" => r.midi(),
        _ => None,
    }
}

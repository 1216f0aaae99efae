//! Renders MIDI bytes to a 16-bit stereo WAV file, each copy of a voice as a sine, and prints the handle account of the run.
//!
//!     midi_to_wav OUT.wav [PHRASE] [--raw MS] [--mode poly|mono|legato] [--max N] [--unison N] [--vibrato HZ CENTS] [--tremolo HZ DEPTH]
//!
//! PHRASE is a text: a line has the milliseconds since the line before and then MIDI bytes in hexadecimal; `#` begins a comment. The bytes of all lines
//! are one stream, so running status goes on from line to line, and an event happens at the time of the line that its last byte stands on.
//! With `--raw` PHRASE is a file of MIDI bytes as they are, and its events are MS milliseconds apart. Without PHRASE `phrase.txt` beside this file is played.

use cirstumbe::{
    Account, Adsr, Design, Instrument, MidiEvent, MidiReader, Modulation, PlayMode, Refusal,
};
use std::collections::HashMap;
use std::error::Error;
use std::f32::consts::TAU;
use std::process::ExitCode;

const RATE: u32 = 48_000;
/// Keys for which there is a sound: those of a piano.
const BUILT: std::ops::RangeInclusive<u8> = 21..=108;
/// Loudness of a copy.
const LOUDNESS: f32 = 0.25;
/// How long voices may sound on after the last event.
const TAIL: usize = 4 * RATE as usize;

fn main() -> ExitCode {
    match run() {
        Ok(code) => code,
        Err(error) => {
            eprintln!("midi_to_wav: {error}");
            ExitCode::FAILURE
        }
    }
}

fn run() -> Result<ExitCode, Box<dyn Error>> {
    let Some(wanted) = Wanted::read(std::env::args().skip(1))? else {
        eprintln!("usage: midi_to_wav OUT.wav [PHRASE] [--raw MS] [--mode poly|mono|legato] [--max N] [--unison N] [--vibrato HZ CENTS] [--tremolo HZ DEPTH]");
        return Ok(ExitCode::from(2));
    };
    let events = wanted.events()?;
    let mut player = Player::new(wanted.design)?;
    for (frame, event) in &events {
        let before = player.sound.len() / 2;
        player.render(frame.saturating_sub(before))?;
        player.play(*event)?;
    }
    player.finish()?;
    std::fs::write(&wanted.out, wav(&player.sound))?;
    println!("{}: {} events, {} frames", wanted.out, events.len(), player.sound.len() / 2);
    let statement = player.account.statement(&player.instrument);
    println!("{statement}");
    Ok(if statement.balances() { ExitCode::SUCCESS } else { ExitCode::FAILURE })
}

/// What the command line asks for.
struct Wanted {
    out: String,
    phrase: Option<String>,
    raw: Option<u64>,
    design: Design,
}

impl Wanted {
    /// None where it asks for nothing.
    fn read(mut words: impl Iterator<Item = String>) -> Result<Option<Wanted>, Box<dyn Error>> {
        let Some(out) = words.next() else {
            return Ok(None);
        };
        let mut wanted = Wanted { out, phrase: None, raw: None, design: design() };
        while let Some(word) = words.next() {
            let mut next = || words.next().ok_or(format!("{word}: a value is missing"));
            let design = &mut wanted.design;
            let m = &mut design.modulation;
            match word.as_str() {
                "--raw" => wanted.raw = Some(next()?.parse()?),
                "--max" => design.max_voices = next()?.parse()?,
                "--unison" => design.unison = next()?.parse()?,
                "--mode" => design.mode = mode(&next()?)?,
                "--vibrato" => {
                    (m.vibrato_rate, m.vibrato_cents) = (next()?.parse()?, next()?.parse()?)
                }
                "--tremolo" => {
                    (m.tremolo_rate, m.tremolo_depth) = (next()?.parse()?, next()?.parse()?)
                }
                _ if word.starts_with('-') || wanted.phrase.is_some() => return Ok(None),
                _ => wanted.phrase = Some(word),
            }
        }
        Ok(Some(wanted))
    }

    /// The events, each with the frame in which it happens.
    fn events(&self) -> Result<Vec<(usize, MidiEvent)>, Box<dyn Error>> {
        let (stream, times) = match (&self.phrase, self.raw) {
            (Some(file), Some(_)) => (std::fs::read(file)?, Vec::new()),
            (Some(file), None) => timed(&std::fs::read_to_string(file)?)?,
            (None, _) => timed(include_str!("phrase.txt"))?,
        };
        let mut reader = MidiReader::new(&stream);
        let mut events = Vec::new();
        while let Some(event) = reader.next() {
            match event {
                Ok(event) => {
                    let nth = events.len() as u64;
                    let time = times.get(reader.place() - 1).copied();
                    let time = time.unwrap_or(nth * self.raw.unwrap_or(0));
                    events.push(((time * u64::from(RATE) / 1_000) as usize, event));
                }
                Err(refusal) => eprintln!("byte {}: {refusal}", reader.place()),
            }
        }
        Ok(events)
    }
}

fn design() -> Design {
    Design {
        sample_rate: RATE,
        max_voices: 6,
        mode: PlayMode::Poly,
        unison: 2,
        unison_width: 0.6,
        amp: Adsr { a: 0.008, d: 0.5, s: 0.6, r: 0.4 },
        glide: Design::glide_of(0.04, RATE),
        modulation: Modulation { vibrato_rate: 5.0, vibrato_cents: 6.0, ..Modulation::default() },
    }
}

fn mode(word: &str) -> Result<PlayMode, String> {
    match word {
        "poly" => Ok(PlayMode::Poly),
        "mono" => Ok(PlayMode::Mono { legato: false }),
        "legato" => Ok(PlayMode::Mono { legato: true }),
        _ => Err(format!("{word} is no mode")),
    }
}

/// The bytes of a text of times and bytes, and the time of each in milliseconds.
fn timed(text: &str) -> Result<(Vec<u8>, Vec<u64>), Box<dyn Error>> {
    let (mut stream, mut times, mut time) = (Vec::new(), Vec::new(), 0);
    for (number, line) in text.lines().enumerate() {
        let bad = |e: &dyn Error| format!("line {}: {e}", number + 1);
        let mut words = line.split('#').next().unwrap_or("").split_whitespace();
        let Some(delay) = words.next() else {
            continue;
        };
        time += delay.parse::<u64>().map_err(|e| bad(&e))?;
        for word in words {
            stream.push(u8::from_str_radix(word, 16).map_err(|e| bad(&e))?);
            times.push(time);
        }
    }
    Ok((stream, times))
}

/// An instrument with a sine for each copy, its account and the sound so far.
struct Player {
    instrument: Instrument,
    account: Account,
    /// Phase in turns of each handle's copies.
    phases: HashMap<(u64, usize), f32>,
    sound: Vec<f32>,
}

impl Player {
    fn new(design: Design) -> Result<Player, Refusal> {
        Ok(Player {
            instrument: Instrument::new(design)?,
            account: Account::new(),
            phases: HashMap::new(),
            sound: Vec::new(),
        })
    }

    fn play(&mut self, event: MidiEvent) -> Result<(), Refusal> {
        let instrument = &mut self.instrument;
        match event {
            MidiEvent::On { note, velocity } => {
                let built = BUILT.contains(&note);
                self.account.note_on(instrument, note, velocity, built).map(drop)
            }
            MidiEvent::Off { note } => instrument.note_off(note).map(drop),
            MidiEvent::Pedal { down } => instrument.set_sustain(down),
            MidiEvent::AllOff => instrument.all_notes_off(),
            // The wheel reaches a whole tone up and down.
            MidiEvent::Bend { wheel } => {
                let semitones = 2.0 * (f32::from(wheel) - 8_192.0) / 8_192.0;
                instrument.set_bend(2f32.powf(semitones / 12.0))
            }
            MidiEvent::Other => Ok(()),
        }
    }

    fn render(&mut self, frames: usize) -> Result<(), Refusal> {
        let mut left = frames;
        while left > 0 {
            let block = left.min(self.instrument.most_frames());
            self.block(block)?;
            left -= block;
        }
        Ok(())
    }

    fn block(&mut self, frames: usize) -> Result<(), Refusal> {
        let mut curve = vec![0.0; self.instrument.curve_len(frames)];
        let factors = self.instrument.factors();
        self.instrument.plan(frames, factors, &mut curve)?;
        let samples = self.sines(&curve, frames);
        let mut out = vec![0.0; 2 * frames];
        self.account.mix(&mut self.instrument, &samples, &mut out)?;
        self.sound.extend_from_slice(&out);
        let voices = self.instrument.voices();
        self.phases.retain(|(handle, _), _| voices.iter().any(|v| v.handle == *handle));
        Ok(())
    }

    /// The samples of every copy in the order of the curve.
    fn sines(&mut self, curve: &[f32], frames: usize) -> Vec<f32> {
        let copies = self.instrument.copies();
        let mut samples = Vec::with_capacity(curve.len());
        for (nth, pitches) in curve.chunks(frames).enumerate() {
            let voice = &self.instrument.voices()[nth / copies];
            let phase = self.phases.entry((voice.handle, nth % copies)).or_insert(0.0);
            for pitch in pitches {
                samples.push(LOUDNESS * (TAU * *phase).sin());
                *phase = (*phase + voice.built_hz * pitch / RATE as f32).fract();
            }
        }
        samples
    }

    /// Renders until every voice has ended, or the tail is over.
    fn finish(&mut self) -> Result<(), Refusal> {
        let most = self.sound.len() / 2 + TAIL;
        while self.instrument.active_voices()? > 0 && self.sound.len() / 2 < most {
            self.block(64)?;
        }
        Ok(())
    }
}

/// A WAV file of pairs of numbers, left before right.
fn wav(sound: &[f32]) -> Vec<u8> {
    let bytes = 2 * sound.len() as u32;
    let mut file = Vec::with_capacity(44 + bytes as usize);
    file.extend(b"RIFF");
    file.extend((36 + bytes).to_le_bytes());
    file.extend(b"WAVEfmt ");
    file.extend(16u32.to_le_bytes());
    for word in [1u16, 2] {
        file.extend(word.to_le_bytes());
    }
    for word in [RATE, 4 * RATE] {
        file.extend(word.to_le_bytes());
    }
    for word in [4u16, 16] {
        file.extend(word.to_le_bytes());
    }
    file.extend(b"data");
    file.extend(bytes.to_le_bytes());
    for x in sound {
        let whole = (x.clamp(-1.0, 1.0) * 32_767.0).round() as i16;
        file.extend(whole.to_le_bytes());
    }
    file
}

//! What the tests share.
#![allow(dead_code)]

use cirstumbe::sys::{HostCopy, HostDesign, HostEnv, HostState, HostVoice};
use cirstumbe::{Adsr, Design, Ended, Factors, Instrument, Refusal};

/// A design whose envelope opens at once and holds half of the level.
pub fn plain() -> Design {
    Design { amp: Adsr { a: 0.0, d: 0.0, s: 0.5, r: 0.0 }, ..Design::default() }
}

/// A word for a float: its bits, and one word for every NaN.
fn word(x: f32) -> u64 {
    if x.is_nan() {
        u64::MAX
    } else {
        x.to_bits().into()
    }
}

fn design_words(d: &HostDesign) -> Vec<u64> {
    let mut words = [d.sample_rate, d.max_voices, d.mode, d.unison].map(u64::from).to_vec();
    words.extend([d.unison_width, d.a, d.d, d.s, d.r, d.glide].map(word));
    words.extend([d.vibrato_rate, d.vibrato_cents, d.tremolo_rate, d.tremolo_depth].map(word));
    words.extend([d.filter_rate, d.filter_octaves].map(word));
    words
}

fn copy_words(c: &HostCopy) -> Vec<u64> {
    let mut words =
        [c.l, c.r, c.pitch, c.pitch_target, c.glide, c.bend, c.cutoff].map(word).to_vec();
    words.push(c.cutoff_set.into());
    words
}

fn env_words(e: &HostEnv) -> Vec<u64> {
    let mut words = [e.a, e.d, e.s, e.r, e.sr, e.level, e.rel_from].map(word).to_vec();
    words.push(e.stage.into());
    words
}

fn voice_words(v: &HostVoice) -> Vec<u64> {
    let mut words = vec![v.handle, v.copy_count as u64, v.note.into()];
    words.extend(v.copies.iter().flat_map(copy_words));
    words.extend(env_words(&v.env));
    words.extend([v.built_hz, v.gain].map(word));
    words.extend([v.releasing, v.sustained].map(u64::from));
    words
}

/// Every number of a state, also behind its counts, with all NaNs alike.
pub fn words(s: &HostState) -> Vec<u64> {
    let mut words = design_words(&s.design);
    words.extend(s.voices.iter().flat_map(voice_words));
    words.extend([s.voice_count as u64, s.next_handle, s.sustain.into()]);
    words.extend([s.bend, s.brightness, s.vib_phase, s.flt_phase, s.trem_phase, s.trem].map(word));
    words.extend(s.held.map(u64::from));
    words.extend([s.held_count as u64, s.frames as u64]);
    words
}

/// A block with the host's factors; gives the curve, the samples, the output and what ended.
pub fn block(
    instrument: &mut Instrument,
    frames: usize,
    sound: impl Fn(usize) -> f32,
) -> Result<Block, Refusal> {
    let mut curve = vec![0.0; instrument.curve_len(frames)];
    let factors: Factors = instrument.factors();
    instrument.plan(frames, factors, &mut curve)?;
    let samples: Vec<f32> = (0..curve.len()).map(sound).collect();
    let mut out = vec![0.0; 2 * frames];
    let ended = instrument.mix(&samples, &mut out)?;
    Ok(Block { curve, samples, out, ended })
}

/// What a block gave.
pub struct Block {
    pub curve: Vec<f32>,
    pub samples: Vec<f32>,
    pub out: Vec<f32>,
    pub ended: Ended,
}

/// Handles of the table.
pub fn handles(instrument: &Instrument) -> Vec<u64> {
    instrument.voices().iter().map(|voice| voice.handle).collect()
}

/// Numbers for random runs: the same list for the same seed.
pub struct Random(pub u64);

impl Random {
    /// A number below `limit`.
    pub fn below(&mut self, limit: u64) -> u64 {
        self.0 = self.0.wrapping_mul(6364136223846793005).wrapping_add(1442695040888963407);
        (self.0 >> 33) % limit
    }
}

//! What an instrument is made from.

use crate::sys::{self, HostDesign};

/// How notes share voices.
#[derive(Clone, Copy, Debug, PartialEq, Eq)]
pub enum PlayMode {
    /// A voice for each note.
    Poly,
    /// One voice for all notes.
    Mono {
        /// Whether a note that is tied to the one before leaves the envelope running.
        legato: bool,
    },
}

/// Settings of the amplitude envelope.
#[derive(Clone, Copy, Debug, PartialEq)]
pub struct Adsr {
    /// Attack, seconds.
    pub a: f32,
    /// Decay, seconds.
    pub d: f32,
    /// Sustain, a level from 0 to 1.
    pub s: f32,
    /// Release, seconds.
    pub r: f32,
}

/// Rate in hertz and depth of each slow movement; at 0 it is off.
#[derive(Clone, Copy, Debug, Default, PartialEq)]
pub struct Modulation {
    /// How fast the pitch moves.
    pub vibrato_rate: f32,
    /// How far the pitch moves, cents.
    pub vibrato_cents: f32,
    /// How fast the loudness moves.
    pub tremolo_rate: f32,
    /// How far the loudness falls, from 0 to 1.
    pub tremolo_depth: f32,
    /// How fast the cutoff moves.
    pub filter_rate: f32,
    /// How far the cutoff moves, octaves.
    pub filter_octaves: f32,
}

impl Modulation {
    /// Whether some movement has both a rate and a depth above 0. Blocks then have at most 64 frames.
    pub fn is_active(&self) -> bool {
        [
            (self.vibrato_rate, self.vibrato_cents),
            (self.tremolo_rate, self.tremolo_depth),
            (self.filter_rate, self.filter_octaves),
        ]
        .iter()
        .any(|&(rate, depth)| rate > 0.0 && depth > 0.0)
    }
}

impl From<&HostDesign> for Modulation {
    fn from(design: &HostDesign) -> Modulation {
        Modulation {
            vibrato_rate: design.vibrato_rate,
            vibrato_cents: design.vibrato_cents,
            tremolo_rate: design.tremolo_rate,
            tremolo_depth: design.tremolo_depth,
            filter_rate: design.filter_rate,
            filter_octaves: design.filter_octaves,
        }
    }
}

/// What an instrument is made from. Limits are looked at by [`crate::Instrument::new`].
#[derive(Clone, Copy, Debug, PartialEq)]
pub struct Design {
    /// Frames a second, 8,000 to 192,000.
    pub sample_rate: u32,
    /// How many voices may sound at once, 1 to 32. Those that fade out come on top, as many again.
    pub max_voices: u32,
    /// How notes share voices.
    pub mode: PlayMode,
    /// Copies of a voice, 0 to 8; 0 is taken as 1.
    pub unison: u32,
    /// Stereo width over which the copies lie.
    pub unison_width: f32,
    /// The amplitude envelope.
    pub amp: Adsr,
    /// Part of the way to a new pitch that a Mono voice goes in each frame: see [`Design::glide_of`].
    pub glide: f32,
    /// Vibrato, tremolo and movement of the filter.
    pub modulation: Modulation,
}

impl Design {
    /// The value of `glide` for a time constant in seconds; 1, which is at once, for none.
    pub fn glide_of(seconds: f32, sample_rate: u32) -> f32 {
        if seconds > 0.0 {
            1.0 - (-1.0 / (seconds * sample_rate as f32)).exp()
        } else {
            1.0
        }
    }
}

impl Default for Design {
    /// Eight voices of one copy each at 48,000 frames a second, with nothing that moves.
    fn default() -> Design {
        Design {
            sample_rate: 48_000,
            max_voices: 8,
            mode: PlayMode::Poly,
            unison: 1,
            unison_width: 0.0,
            amp: Adsr { a: 0.005, d: 0.1, s: 0.7, r: 0.2 },
            glide: 1.0,
            modulation: Modulation::default(),
        }
    }
}

impl From<Design> for HostDesign {
    fn from(design: Design) -> HostDesign {
        let mode = match design.mode {
            PlayMode::Poly => sys::POLY,
            PlayMode::Mono { legato: false } => sys::MONO,
            PlayMode::Mono { legato: true } => sys::MONO_LEGATO,
        };
        HostDesign {
            sample_rate: design.sample_rate,
            max_voices: design.max_voices,
            mode,
            unison: design.unison,
            unison_width: design.unison_width,
            a: design.amp.a,
            d: design.amp.d,
            s: design.amp.s,
            r: design.amp.r,
            glide: design.glide,
            vibrato_rate: design.modulation.vibrato_rate,
            vibrato_cents: design.modulation.vibrato_cents,
            tremolo_rate: design.modulation.tremolo_rate,
            tremolo_depth: design.modulation.tremolo_depth,
            filter_rate: design.modulation.filter_rate,
            filter_octaves: design.modulation.filter_octaves,
        }
    }
}

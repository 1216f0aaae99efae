//! The instrument.

use crate::design::{Design, Modulation};
use crate::refusal::{accepted, Refusal};
use crate::sys::{self, HostDesign, HostOutcome, HostReply, HostState, HostVoice};
use std::f32::consts::TAU;

/// What became of a struck key.
#[derive(Clone, Copy, Debug, PartialEq, Eq)]
pub enum Struck {
    /// A voice was made.
    Started {
        /// The new handle.
        handle: u64,
        /// The voice that fades out to make room, 0 for none.
        killed: u64,
        /// The voice that left the table at once, 0 for none.
        taken: u64,
    },
    /// A new handle and no voice: the host had not built its copies.
    Silent(u64),
    /// The Mono voice that goes on with the new note.
    Kept(u64),
    /// At velocity 0 the key was let go: whether a voice or a held note was found.
    Off(bool),
}

/// The voices that ended with a block.
#[derive(Clone, Copy, Debug, PartialEq, Eq)]
pub struct Ended {
    handles: [u64; sys::VOICES],
    count: usize,
}

impl Ended {
    /// Their handles, in table order.
    pub fn handles(&self) -> &[u64] {
        &self.handles[..self.count]
    }
}

/// The host's values for a block, at the present phases of the modulation.
#[derive(Clone, Copy, Debug, PartialEq)]
pub struct Factors {
    /// Frequency factor of the vibrato.
    pub vibrato: f32,
    /// Cutoff factor of the filter's movement.
    pub filter: f32,
    /// Sine of the tremolo.
    pub tremolo_sine: f32,
}

impl Default for Factors {
    /// Values that change nothing but the tremolo, which stands at its middle.
    fn default() -> Factors {
        Factors { vibrato: 1.0, filter: 1.0, tremolo_sine: 0.0 }
    }
}

/// An instrument: the voice table and the calls on it. A clone is an instrument of its own.
#[derive(Clone, Debug)]
pub struct Instrument {
    // Some 21 KB.
    state: Box<HostState>,
}

impl Instrument {
    /// A fresh instrument. Refused 2, 3.
    pub fn new(design: Design) -> Result<Instrument, Refusal> {
        // SAFETY: the function takes every design by value.
        let outcome = unsafe { sys::cirstumbe_new(HostDesign::from(design)) };
        accepted(outcome.reply)?;
        Ok(Instrument { state: Box::new(outcome.state) })
    }

    /// An instrument from numbers that were kept. Refused 1 where no list of calls could have given them.
    pub fn from_state(state: HostState) -> Result<Instrument, Refusal> {
        let instrument = Instrument { state: Box::new(state) };
        instrument.active_voices()?;
        Ok(instrument)
    }

    /// The numbers of the state.
    pub fn state(&self) -> &HostState {
        &self.state
    }

    /// The voices of the table, oldest first.
    pub fn voices(&self) -> &[HostVoice] {
        &self.state.voices[..self.state.voice_count]
    }

    /// How many copies each voice has.
    pub fn copies(&self) -> usize {
        self.state.design.unison.max(1) as usize
    }

    /// How many frames a block may have: fewer where the modulation is active, since its factors hold for a whole block.
    pub fn most_frames(&self) -> usize {
        if Modulation::from(&self.state.design).is_active() {
            64
        } else {
            1_024
        }
    }

    /// How many numbers the curve, and so the samples, of a block of `frames` have now.
    pub fn curve_len(&self, frames: usize) -> usize {
        frames * self.state.voice_count * self.copies()
    }

    /// The vibrato and filter factor and the tremolo's sine at the present phases.
    pub fn factors(&self) -> Factors {
        let (s, d) = (&self.state, &self.state.design);
        Factors {
            vibrato: 2f32.powf(d.vibrato_cents / 1200.0 * (TAU * s.vib_phase).sin()),
            filter: 2f32.powf(d.filter_octaves * (TAU * s.flt_phase).sin()),
            tremolo_sine: (TAU * s.trem_phase).sin(),
        }
    }

    fn take(&mut self, outcome: HostOutcome) -> Result<HostReply, Refusal> {
        *self.state = outcome.state;
        accepted(outcome.reply)
    }

    /// Strikes a key. `velocity` is brought into 0 to 1, and a NaN counts as 0; `built` says whether the host has built the copies. Refused 5, 8.
    pub fn note_on(&mut self, note: u8, velocity: f32, built: bool) -> Result<Struck, Refusal> {
        // SAFETY: the function takes every state by value.
        let outcome = unsafe { sys::cirstumbe_note_on(*self.state, note, velocity, built.into()) };
        let reply = self.take(outcome)?;
        Ok(match reply.kind {
            sys::STARTED => {
                Struck::Started { handle: reply.handle, killed: reply.killed, taken: reply.taken }
            }
            sys::SILENT => Struck::Silent(reply.handle),
            sys::KEPT => Struck::Kept(reply.handle),
            _ => Struck::Off(reply.found != 0),
        })
    }

    /// Lets a key go; says whether a voice or a held note was found. Refused 5.
    pub fn note_off(&mut self, note: u8) -> Result<bool, Refusal> {
        // SAFETY: the function takes every state by value.
        let outcome = unsafe { sys::cirstumbe_note_off(*self.state, note) };
        Ok(self.take(outcome)?.found != 0)
    }

    /// Moves the sustain pedal. Refused 5.
    pub fn set_sustain(&mut self, down: bool) -> Result<(), Refusal> {
        // SAFETY: the function takes every state by value.
        let outcome = unsafe { sys::cirstumbe_set_sustain(*self.state, down.into()) };
        self.take(outcome).map(drop)
    }

    /// Moves the pitch wheel: a frequency factor, 1 in the middle. Refused 5.
    pub fn set_bend(&mut self, factor: f32) -> Result<(), Refusal> {
        // SAFETY: the function takes every state by value.
        let outcome = unsafe { sys::cirstumbe_set_bend(*self.state, factor) };
        self.take(outcome).map(drop)
    }

    /// Sets the cutoff of every copy, at least 0.01. Refused 5.
    pub fn set_brightness(&mut self, scale: f32) -> Result<(), Refusal> {
        // SAFETY: the function takes every state by value.
        let outcome = unsafe { sys::cirstumbe_set_brightness(*self.state, scale) };
        self.take(outcome).map(drop)
    }

    /// Releases one voice; says whether it was in the table. Refused 5.
    pub fn release(&mut self, handle: u64) -> Result<bool, Refusal> {
        // SAFETY: the function takes every state by value.
        let outcome = unsafe { sys::cirstumbe_release(*self.state, handle) };
        Ok(self.take(outcome)?.found != 0)
    }

    /// Releases every voice and forgets the held keys. Refused 5.
    pub fn all_notes_off(&mut self) -> Result<(), Refusal> {
        // SAFETY: the function takes every state by value.
        let outcome = unsafe { sys::cirstumbe_all_notes_off(*self.state) };
        self.take(outcome).map(drop)
    }

    /// Opens a block and writes its curve: `frames` pitch factors for each copy, voice after voice; a copy's frequency in a frame is
    /// its voice's `built_hz` times its number. The curve's length is [`Instrument::curve_len`]. Refused 5, 4, 7.
    pub fn plan(
        &mut self,
        frames: usize,
        factors: Factors,
        curve: &mut [f32],
    ) -> Result<(), Refusal> {
        // SAFETY: the function takes every state by value; pointer and length are those of a slice.
        let outcome = unsafe {
            sys::cirstumbe_plan(
                *self.state,
                frames,
                factors.vibrato,
                factors.filter,
                factors.tremolo_sine,
                curve.as_mut_ptr(),
                curve.len(),
            )
        };
        self.take(outcome).map(drop)
    }

    /// Closes the block: sums the copies' samples, in the order of the curve, into `out`, two numbers a frame, left before right. Refused 6, 7.
    pub fn mix(&mut self, samples: &[f32], out: &mut [f32]) -> Result<Ended, Refusal> {
        let (lent, len) = (samples.as_ptr(), samples.len());
        // SAFETY: the function takes every state by value; pointers and lengths are those of slices, of which one is held alone.
        let outcome =
            unsafe { sys::cirstumbe_mix(*self.state, lent, len, out.as_mut_ptr(), out.len()) };
        *self.state = outcome.state;
        let reply = accepted(outcome.reply)?;
        Ok(Ended { handles: outcome.ended, count: reply.count })
    }

    /// Whether a handle is in the table.
    pub fn is_active(&self, handle: u64) -> Result<bool, Refusal> {
        // SAFETY: the function takes every state by value.
        let reply = unsafe { sys::cirstumbe_is_active(*self.state, handle) };
        Ok(accepted(reply)?.found != 0)
    }

    /// How many voices are in the table.
    pub fn active_voices(&self) -> Result<usize, Refusal> {
        // SAFETY: the function takes every state by value.
        let reply = unsafe { sys::cirstumbe_active_voices(*self.state) };
        Ok(accepted(reply)?.count)
    }

    /// Some voice of a note that is not releasing.
    pub fn voice_of(&self, note: u8) -> Result<Option<u64>, Refusal> {
        // SAFETY: the function takes every state by value.
        let reply = accepted(unsafe { sys::cirstumbe_voice_of(*self.state, note) })?;
        Ok((reply.kind == sys::HANDLE).then_some(reply.handle))
    }
}

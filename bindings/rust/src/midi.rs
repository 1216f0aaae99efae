//! Events of a MIDI byte stream.

use crate::refusal::{refused, Refusal};
use crate::sys;

/// An event of a channel. All channels play the one instrument.
#[derive(Clone, Copy, Debug, PartialEq)]
pub enum MidiEvent {
    /// A key was struck.
    On {
        /// 0 to 127.
        note: u8,
        /// Above 0 and at most 1.
        velocity: f32,
    },
    /// A key was let go.
    Off {
        /// 0 to 127.
        note: u8,
    },
    /// The sustain pedal moved.
    Pedal {
        /// Whether it is down.
        down: bool,
    },
    /// Every key is let go.
    AllOff,
    /// The pitch wheel moved.
    Bend {
        /// 0 to 16,383, with 8,192 in the middle.
        wheel: u16,
    },
    /// A message that means nothing to the instrument.
    Other,
}

/// Reads the events of a byte stream, up to its end or to the first refusal, which is its last item.
#[derive(Clone, Debug)]
pub struct MidiReader<'a> {
    stream: &'a [u8],
    place: usize,
    status: u8,
    finished: bool,
}

impl<'a> MidiReader<'a> {
    /// A reader at the stream's beginning.
    pub fn new(stream: &'a [u8]) -> MidiReader<'a> {
        MidiReader::at(stream, 0, 0)
    }

    /// A reader at a place with a running status, 0 for none.
    pub fn at(stream: &'a [u8], place: usize, status: u8) -> MidiReader<'a> {
        MidiReader { stream, place, status, finished: false }
    }

    /// The place behind the last event.
    pub fn place(&self) -> usize {
        self.place
    }

    /// The running status behind the last event, 0 for none.
    pub fn status(&self) -> u8 {
        self.status
    }
}

impl Iterator for MidiReader<'_> {
    type Item = Result<MidiEvent, Refusal>;

    fn next(&mut self) -> Option<Self::Item> {
        if self.finished {
            return None;
        }
        let (bytes, len) = (self.stream.as_ptr(), self.stream.len());
        // SAFETY: pointer and length are those of a slice.
        let event = unsafe { sys::cirstumbe_midi_step(bytes, len, self.place, self.status) };
        self.place = event.place;
        self.status = event.status;
        let note = event.note;
        self.finished = matches!(event.kind, sys::EVENT_REFUSED | sys::EVENT_END);
        match event.kind {
            sys::EVENT_REFUSED => Some(Err(refused(event.number))),
            sys::EVENT_ON => Some(Ok(MidiEvent::On { note, velocity: event.velocity })),
            sys::EVENT_OFF => Some(Ok(MidiEvent::Off { note })),
            sys::EVENT_PEDAL => Some(Ok(MidiEvent::Pedal { down: event.down != 0 })),
            sys::EVENT_ALL_OFF => Some(Ok(MidiEvent::AllOff)),
            sys::EVENT_BEND => Some(Ok(MidiEvent::Bend { wheel: event.bend as u16 })),
            sys::EVENT_OTHER => Some(Ok(MidiEvent::Other)),
            _ => None,
        }
    }
}

impl std::iter::FusedIterator for MidiReader<'_> {}

//! Why a call was refused.

use crate::sys::{self, HostReply};
use std::fmt;

/// Why a call was refused. A refused call changes nothing: neither the instrument nor the memory lent to it.
#[derive(Clone, Copy, Debug, PartialEq, Eq, Hash)]
#[repr(u32)]
pub enum Refusal {
    /// 1: the numbers are no state that the calls could have given.
    NotWellFormed = sys::NOT_WELL_FORMED,
    /// 2: the design's rate, voices, mode or unison is outside its limits.
    DesignNumber = sys::DESIGN_NUMBER,
    /// 3: a float of the design is infinite or a NaN.
    DesignFloat = sys::DESIGN_FLOAT,
    /// 4: no block may have that many frames.
    Frames = sys::FRAMES,
    /// 5: the planned block has not been mixed yet.
    BlockOpen = sys::BLOCK_OPEN,
    /// 6: there is no planned block to mix.
    NoBlock = sys::NO_BLOCK,
    /// 7: lent memory has another length than the state asks for.
    LentLength = sys::LENT_LENGTH,
    /// 8: no handle is left for a new note.
    NoHandleLeft = sys::NO_HANDLE_LEFT,
    /// 9: the place is behind the stream's end, or the running status is none.
    MidiPlace = sys::MIDI_PLACE,
    /// 10: the stream ends inside a message.
    MidiCut = sys::MIDI_CUT,
}

const ALL: [Refusal; 10] = [
    Refusal::NotWellFormed,
    Refusal::DesignNumber,
    Refusal::DesignFloat,
    Refusal::Frames,
    Refusal::BlockOpen,
    Refusal::NoBlock,
    Refusal::LentLength,
    Refusal::NoHandleLeft,
    Refusal::MidiPlace,
    Refusal::MidiCut,
];

impl Refusal {
    /// The refusal of a number from 1 to 10.
    pub fn from_number(number: u32) -> Option<Refusal> {
        ALL.into_iter().find(|refusal| refusal.number() == number)
    }

    /// Its number, 1 to 10.
    pub fn number(self) -> u32 {
        self as u32
    }
}

impl fmt::Display for Refusal {
    fn fmt(&self, f: &mut fmt::Formatter) -> fmt::Result {
        let words = match self {
            Refusal::NotWellFormed => "the state is not well formed",
            Refusal::DesignNumber => "a number of the design is outside its limits",
            Refusal::DesignFloat => "a float of the design is not finite",
            Refusal::Frames => "a block may not have that many frames",
            Refusal::BlockOpen => "a block is open",
            Refusal::NoBlock => "no block is open",
            Refusal::LentLength => "lent memory has the wrong length",
            Refusal::NoHandleLeft => "no handle is left",
            Refusal::MidiPlace => "the place or the running status is not one of the stream",
            Refusal::MidiCut => "the stream ends inside a message",
        };
        write!(f, "refused {}: {words}", self.number())
    }
}

impl std::error::Error for Refusal {}

/// The refusal behind a number that the archive gave as one.
pub(crate) fn refused(number: u32) -> Refusal {
    Refusal::from_number(number).expect("the archive's refusals are 1 to 10")
}

/// The reply, unless it is a refusal.
pub(crate) fn accepted(reply: HostReply) -> Result<HostReply, Refusal> {
    if reply.kind == sys::REFUSED {
        return Err(refused(reply.number));
    }
    Ok(reply)
}

//! The voice manager for a host in Rust: safe wrappers over the proved archive `libhost.a`.
//!
//! The archive turns key and pedal events into voices, pitch curves and a stereo sum. The sound itself is the host's: it makes the samples of
//! every copy of a voice at the pitch that the curve names, and hands them in to be mixed. A call needs up to 300 KB of stack.
//!
//! ```
//! use cirstumbe::{Design, Instrument, Struck};
//!
//! let mut instrument = Instrument::new(Design::default())?;
//! let struck = instrument.note_on(69, 1.0, true)?;
//! assert_eq!(struck, Struck::Started { handle: 1, killed: 0, taken: 0 });
//!
//! let frames = 256;
//! let mut curve = vec![0.0; instrument.curve_len(frames)];
//! instrument.plan(frames, instrument.factors(), &mut curve)?;
//! let samples = vec![0.5; curve.len()]; // the host's sound
//! let mut out = vec![0.0; 2 * frames];
//! let ended = instrument.mix(&samples, &mut out)?;
//! assert!(ended.handles().is_empty());
//! # Ok::<(), cirstumbe::Refusal>(())
//! ```
#![warn(missing_docs)]

mod account;
mod design;
mod envelope;
mod instrument;
mod midi;
mod refusal;
pub mod sys;

pub use account::{Account, Statement};
pub use design::{Adsr, Design, Modulation, PlayMode};
pub use envelope::{Envelope, Stage};
pub use instrument::{Ended, Factors, Instrument, Struck};
pub use midi::{MidiEvent, MidiReader};
pub use refusal::Refusal;

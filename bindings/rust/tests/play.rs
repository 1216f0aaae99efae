//! Keys, stealing, the pedal, Mono and the queries.

mod common;

use cirstumbe::{Adsr, Design, Instrument, PlayMode, Refusal, Struck};
use common::{block, handles, plain};

fn started(handle: u64, killed: u64, taken: u64) -> Struck {
    Struck::Started { handle, killed, taken }
}

#[test]
fn a_chord_starts_a_voice_for_each_key() -> Result<(), Refusal> {
    let mut instrument = Instrument::new(plain())?;
    for (note, handle) in [(60, 1), (64, 2), (67, 3)] {
        assert_eq!(instrument.note_on(note, 0.5, true)?, started(handle, 0, 0));
    }
    assert_eq!(instrument.active_voices()?, 3);
    let voices = instrument.voices();
    assert_eq!(voices.iter().map(|v| v.note).collect::<Vec<_>>(), [60, 64, 67]);
    assert!(voices.iter().all(|v| v.gain == 0.5 && v.copy_count == 1 && v.releasing == 0));
    assert_eq!(instrument.voice_of(64)?, Some(2));
    assert_eq!(instrument.voice_of(65)?, None);
    assert!(instrument.is_active(3)?);
    assert!(!instrument.is_active(4)?);
    assert!(!instrument.is_active(0)?);
    Ok(())
}

#[test]
fn the_first_of_the_quietest_is_stolen() -> Result<(), Refusal> {
    let mut instrument = Instrument::new(Design { max_voices: 1, ..plain() })?;
    assert_eq!(instrument.note_on(60, 1.0, true)?, started(1, 0, 0));
    assert_eq!(instrument.note_on(64, 0.5, true)?, started(2, 1, 0));
    assert_eq!(instrument.note_on(67, 1.0, true)?, started(3, 2, 1));
    assert_eq!(handles(&instrument), [2, 3]);
    assert_eq!(instrument.voices()[0].releasing, 1);
    assert_eq!(instrument.voice_of(64)?, None);
    Ok(())
}

#[test]
fn the_pedal_holds_what_is_let_go() -> Result<(), Refusal> {
    let mut instrument = Instrument::new(plain())?;
    instrument.note_on(60, 1.0, true)?;
    block(&mut instrument, 4, |_| 0.0)?;
    instrument.set_sustain(true)?;
    assert!(instrument.note_off(60)?);
    assert!(!instrument.note_off(60)?);
    assert_eq!((instrument.voices()[0].sustained, instrument.voices()[0].releasing), (1, 0));
    instrument.set_sustain(false)?;
    assert_eq!((instrument.voices()[0].sustained, instrument.voices()[0].releasing), (0, 1));
    assert_eq!(block(&mut instrument, 1, |_| 0.0)?.ended.handles(), [1]);
    assert_eq!(instrument.active_voices()?, 0);
    Ok(())
}

#[test]
fn a_handle_without_a_voice_is_silent() -> Result<(), Refusal> {
    let mut instrument = Instrument::new(plain())?;
    assert_eq!(instrument.note_on(60, 1.0, false)?, Struck::Silent(1));
    assert_eq!(instrument.active_voices()?, 0);
    assert_eq!(instrument.note_on(60, 1.0, true)?, started(2, 0, 0));
    Ok(())
}

#[test]
fn velocity_zero_lets_go() -> Result<(), Refusal> {
    let mut instrument = Instrument::new(plain())?;
    assert_eq!(instrument.note_on(60, f32::NAN, true)?, Struck::Off(false));
    instrument.note_on(60, 7.0, true)?;
    assert_eq!(instrument.voices()[0].gain, 1.0);
    assert_eq!(instrument.note_on(60, -1.0, true)?, Struck::Off(true));
    Ok(())
}

#[test]
fn mono_falls_back_to_the_key_still_held() -> Result<(), Refusal> {
    let mode = PlayMode::Mono { legato: false };
    let mut instrument = Instrument::new(Design { mode, ..plain() })?;
    assert_eq!(instrument.note_on(60, 1.0, true)?, started(1, 0, 0));
    assert_eq!(instrument.note_on(64, 0.25, true)?, Struck::Kept(1));
    assert_eq!(&instrument.state().held[..instrument.state().held_count], [60, 64]);
    assert!(instrument.note_off(64)?);
    assert_eq!((instrument.voices()[0].note, instrument.voices()[0].gain), (60, 0.25));
    Ok(())
}

#[test]
fn legato_keeps_velocity_and_envelope() -> Result<(), Refusal> {
    let mode = PlayMode::Mono { legato: true };
    let amp = Adsr { a: 1.0, d: 0.0, s: 0.5, r: 0.0 };
    let mut instrument = Instrument::new(Design { mode, amp, ..Design::default() })?;
    instrument.note_on(60, 1.0, true)?;
    block(&mut instrument, 10, |_| 0.0)?;
    let level = instrument.voices()[0].env.level;
    assert_eq!(instrument.note_on(64, 0.25, true)?, Struck::Kept(1));
    assert_eq!((instrument.voices()[0].env.level, instrument.voices()[0].gain), (level, 1.0));
    Ok(())
}

#[test]
fn release_and_all_off() -> Result<(), Refusal> {
    let mut instrument = Instrument::new(plain())?;
    for note in [60, 64, 67] {
        instrument.note_on(note, 1.0, true)?;
    }
    assert!(instrument.release(2)?);
    assert!(!instrument.release(9)?);
    assert!(!instrument.release(0)?);
    assert_eq!(block(&mut instrument, 1, |_| 0.0)?.ended.handles(), [2]);
    instrument.all_notes_off()?;
    assert_eq!(block(&mut instrument, 1, |_| 0.0)?.ended.handles(), [1, 3]);
    assert_eq!(block(&mut instrument, 1, |_| 0.0)?.out, [0.0, 0.0]);
    Ok(())
}

#[test]
fn a_clone_and_a_kept_state_play_on_alone() -> Result<(), Refusal> {
    let mut instrument = Instrument::new(plain())?;
    instrument.note_on(60, 1.0, true)?;
    let mut other = instrument.clone();
    other.note_on(64, 1.0, true)?;
    let kept = Instrument::from_state(*instrument.state())?;
    assert_eq!((instrument.active_voices()?, other.active_voices()?), (1, 2));
    assert_eq!(kept.voices(), instrument.voices());
    Ok(())
}

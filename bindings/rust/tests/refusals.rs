//! Every refusal, with the state and the lent memory left as they were.

mod common;

use cirstumbe::sys::{self, HostDesign, HostOutcome, HostReply, HostState};
use cirstumbe::{Design, Factors, Instrument, Modulation, PlayMode, Refusal};
use common::{plain, words};

fn refused(number: u32) -> HostReply {
    HostReply { number, ..HostReply::default() }
}

/// Three voices of two copies, as a state that a test may damage.
fn sounding() -> HostState {
    let mut instrument = Instrument::new(Design { unison: 2, ..plain() }).unwrap();
    for note in [60, 64, 67] {
        instrument.note_on(note, 0.5, true).unwrap();
    }
    *instrument.state()
}

/// A name and how to damage a record so.
type Damage<Name, Record> = (Name, fn(&mut Record));

type Call = (&'static str, fn(HostState) -> HostOutcome);

/// The calls but for Mix, each lent what it asks for.
// SAFETY: they take every state by value.
const CALLS: [Call; 8] = unsafe {
    [
        ("note_on", |h| sys::cirstumbe_note_on(h, 60, 1.0, 1)),
        ("note_off", |h| sys::cirstumbe_note_off(h, 60)),
        ("set_sustain", |h| sys::cirstumbe_set_sustain(h, 1)),
        ("set_bend", |h| sys::cirstumbe_set_bend(h, 2.0)),
        ("set_brightness", |h| sys::cirstumbe_set_brightness(h, 2.0)),
        ("release", |h| sys::cirstumbe_release(h, 1)),
        ("all_notes_off", |h| sys::cirstumbe_all_notes_off(h)),
        ("plan", |h| {
            let mut curve = [7.0; 6];
            let outcome = sys::cirstumbe_plan(h, 1, 1.0, 1.0, 0.0, curve.as_mut_ptr(), 6);
            assert!(outcome.reply.kind == sys::PLANNED || curve == [7.0; 6]);
            outcome
        }),
    ]
};

/// Everything refuses the state as not well formed and gives it back.
fn not_well_formed(what: &str, state: HostState) {
    let before = words(&state);
    for (name, call) in CALLS {
        let outcome = call(state);
        assert_eq!(outcome.reply, refused(1), "{what}: {name}");
        assert!(words(&outcome.state) == before, "{what}: {name} changed the state");
    }
    let mut out = [7.0; 2];
    unsafe {
        let mixed = sys::cirstumbe_mix(state, [0.0; 6].as_ptr(), 6, out.as_mut_ptr(), 2);
        assert_eq!((mixed.reply, mixed.ended), (refused(1), [0; 64]), "{what}: mix");
        assert!(words(&mixed.state) == before, "{what}: mix changed the state");
        assert_eq!(sys::cirstumbe_is_active(state, 1), refused(1), "{what}");
        assert_eq!(sys::cirstumbe_active_voices(state), refused(1), "{what}");
        assert_eq!(sys::cirstumbe_voice_of(state, 60), refused(1), "{what}");
    }
    assert_eq!(out, [7.0; 2], "{what}: mix wrote");
    assert!(matches!(Instrument::from_state(state), Err(Refusal::NotWellFormed)), "{what}");
}

#[test]
fn numbers_that_are_no_state_are_refused_1() {
    let damages: [Damage<&str, HostState>; 19] = [
        ("mode 3", |h| h.design.mode = 3),
        ("mode of all ones", |h| h.design.mode = u32::MAX),
        ("stage 5", |h| h.voices[1].env.stage = 5),
        ("stage 5 as a release", |h| (h.voices[1].env.stage, h.voices[1].releasing) = (5, 1)),
        ("mode 3 with one voice", |h| (h.design.mode, h.voice_count) = (3, 1)),
        ("stage Idle", |h| h.voices[1].env.stage = 0),
        ("releasing 2", |h| h.voices[0].releasing = 2),
        ("releasing without a release", |h| h.voices[0].releasing = 1),
        ("sustained 2", |h| h.voices[0].sustained = 2),
        ("pedal 2", |h| h.sustain = 2),
        ("cutoff_set 2", |h| h.voices[2].copies[1].cutoff_set = 2),
        ("9 copies", |h| h.voices[2].copy_count = 9),
        ("1 copy of 2", |h| h.voices[2].copy_count = 1),
        ("65 voices", |h| h.voice_count = 65),
        ("voices beyond every count", |h| h.voice_count = usize::MAX),
        ("257 held notes", |h| h.held_count = 257),
        ("a held note in Poly", |h| h.held_count = 1),
        ("a handle twice", |h| h.voices[1].handle = 1),
        ("a handle not given out", |h| h.next_handle = 3),
    ];
    for (what, damage) in damages {
        let mut state = sounding();
        damage(&mut state);
        // NaNs of other bits, in a place that counts and in one that does not.
        state.voices[0].gain = f32::from_bits(0x7FC1_2345);
        state.voices[9].gain = f32::from_bits(0xFFC0_0001);
        not_well_formed(what, state);
    }
}

#[test]
fn what_stands_behind_a_count_is_not_looked_at() {
    let mut state = sounding();
    state.voices[3].env.stage = 77;
    state.voices[3].releasing = 9;
    state.voices[0].copies[2].cutoff_set = 5;
    let reply = unsafe { sys::cirstumbe_active_voices(state) };
    assert_eq!((reply.kind, reply.count), (sys::VOICE_COUNT, 3));
}

#[test]
fn designs_outside_the_limits_are_refused_2_or_3() {
    let designs: [Damage<u32, HostDesign>; 10] = [
        (2, |d| d.sample_rate = 7_999),
        (2, |d| d.sample_rate = 192_001),
        (2, |d| d.max_voices = 0),
        (2, |d| d.max_voices = 33),
        (2, |d| d.unison = 9),
        (2, |d| d.mode = 3),
        (3, |d| d.s = f32::NAN),
        (3, |d| d.glide = f32::INFINITY),
        (3, |d| d.filter_octaves = f32::NEG_INFINITY),
        (2, |d| (d.mode, d.s) = (9, f32::NAN)),
    ];
    for (number, damage) in designs {
        let mut design = HostDesign::from(Design::default());
        damage(&mut design);
        let outcome = unsafe { sys::cirstumbe_new(design) };
        assert_eq!(outcome.reply, refused(number), "{design:?}");
        assert_eq!(outcome.state.design, HostDesign::default());
        let state = &outcome.state;
        assert_eq!((state.voice_count, state.next_handle, state.held_count), (0, 0, 0));
        assert_eq!(unsafe { sys::cirstumbe_active_voices(*state) }, refused(1));
    }
    let design = Design { max_voices: 0, ..Design::default() };
    assert_eq!(Instrument::new(design).unwrap_err(), Refusal::DesignNumber);
}

#[test]
fn frames_outside_the_limits_are_refused_4() {
    let modulation = Modulation { vibrato_rate: 5.0, vibrato_cents: 10.0, ..Modulation::default() };
    for (modulation, most) in [(Modulation::default(), 1_024), (modulation, 64)] {
        let mut instrument = Instrument::new(Design { modulation, ..plain() }).unwrap();
        for frames in [0, most + 1, usize::MAX] {
            assert_eq!(instrument.most_frames(), most);
            let plan = instrument.plan(frames, Factors::default(), &mut []);
            assert_eq!(plan, Err(Refusal::Frames), "{frames}");
        }
        assert_eq!(instrument.plan(most, Factors::default(), &mut []), Ok(()));
    }
}

#[test]
fn an_open_block_is_refused_5_and_a_closed_one_6() -> Result<(), Refusal> {
    let mut instrument = Instrument::new(Design { unison: 2, ..plain() })?;
    for note in [60, 64, 67] {
        instrument.note_on(note, 0.5, true)?;
    }
    let mut out = [7.0; 2];
    assert_eq!(instrument.mix(&[0.0; 6], &mut out), Err(Refusal::NoBlock));
    assert_eq!(out, [7.0; 2]);
    instrument.plan(1, Factors::default(), &mut [0.0; 6])?;
    let open = *instrument.state();
    for (name, call) in CALLS {
        let outcome = call(open);
        assert_eq!(outcome.reply, refused(5), "{name}");
        assert!(words(&outcome.state) == words(&open), "{name}");
    }
    assert_eq!(instrument.active_voices()?, 3);
    assert_eq!(instrument.voice_of(60)?, Some(1));
    instrument.mix(&[0.0; 6], &mut out)?;
    assert_eq!(out, [0.0; 2]);
    Ok(())
}

#[test]
fn lent_memory_of_another_length_is_refused_7() -> Result<(), Refusal> {
    let mut instrument = Instrument::new(plain())?;
    instrument.note_on(60, 1.0, true)?;
    let mut curve = [7.0; 3];
    assert_eq!(instrument.plan(2, Factors::default(), &mut curve), Err(Refusal::LentLength));
    assert_eq!(curve, [7.0; 3]);
    instrument.plan(2, Factors::default(), &mut curve[..2])?;
    assert_eq!(curve, [1.0, 1.0, 7.0]);
    let open = words(instrument.state());
    let mut out = [7.0; 5];
    for (samples, places) in [(1, 4), (3, 4), (2, 3), (2, 5)] {
        let mixed = instrument.mix(&[0.5; 3][..samples], &mut out[..places]);
        assert_eq!(mixed, Err(Refusal::LentLength));
        assert!(out == [7.0; 5] && words(instrument.state()) == open);
    }
    instrument.mix(&[0.5; 2], &mut out[..4])?;
    assert_eq!(out, [0.5, 0.5, 0.25, 0.25, 7.0]);
    Ok(())
}

#[test]
fn the_last_handle_is_refused_8() {
    let last = u64::MAX;
    let mono = PlayMode::Mono { legato: false };
    for mode in [PlayMode::Poly, mono] {
        let instrument = Instrument::new(Design { mode, ..plain() }).unwrap();
        let state = HostState { next_handle: last, ..*instrument.state() };
        let mut instrument = Instrument::from_state(state).unwrap();
        assert_eq!(instrument.note_on(60, 1.0, true), Err(Refusal::NoHandleLeft));
        assert_eq!(instrument.note_on(60, 1.0, false), Err(Refusal::NoHandleLeft));
        assert!(words(instrument.state()) == words(&state));
        let state = HostState { next_handle: last - 1, ..state };
        let mut instrument = Instrument::from_state(state).unwrap();
        assert!(instrument.note_on(60, 1.0, true).is_ok());
        assert_eq!(instrument.voices()[0].handle, last - 1);
    }
}

#[test]
fn refusals_have_numbers_and_words() {
    for number in 1..=10 {
        let refusal = Refusal::from_number(number).unwrap();
        assert_eq!(refusal.number(), number);
        assert!(refusal.to_string().starts_with(&format!("refused {number}: ")));
    }
    assert_eq!((Refusal::from_number(0), Refusal::from_number(11)), (None, None));
}

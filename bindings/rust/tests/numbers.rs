//! Every number of a state goes into a call and comes back in its own place.

mod common;

use cirstumbe::sys::{self, HostCopy, HostDesign, HostEnv, HostState, HostVoice};
use cirstumbe::{Design, Instrument};
use common::words;

/// Numbers of which no two are the same.
struct Distinct(f32);

impl Distinct {
    fn next(&mut self) -> f32 {
        self.0 += 0.25;
        self.0
    }
}

fn design(mode: u32, x: &mut Distinct) -> HostDesign {
    HostDesign {
        sample_rate: 44_100,
        max_voices: 7,
        mode,
        unison: 2,
        unison_width: x.next(),
        a: x.next(),
        d: x.next(),
        s: x.next(),
        r: x.next(),
        glide: x.next(),
        vibrato_rate: x.next(),
        vibrato_cents: x.next(),
        tremolo_rate: x.next(),
        tremolo_depth: x.next(),
        filter_rate: x.next(),
        filter_octaves: x.next(),
    }
}

fn copy(cutoff_set: u32, x: &mut Distinct) -> HostCopy {
    HostCopy {
        l: x.next(),
        r: x.next(),
        pitch: x.next(),
        pitch_target: x.next(),
        glide: x.next(),
        bend: x.next(),
        cutoff_set,
        cutoff: if cutoff_set == 1 { x.next() } else { 0.0 },
    }
}

fn voice(handle: u64, stage: u32, x: &mut Distinct) -> HostVoice {
    let mut voice =
        HostVoice { handle, copy_count: 2, note: 40 + handle as u8, ..HostVoice::default() };
    voice.copies[0] = copy(1, x);
    voice.copies[1] = copy(0, x);
    voice.env = HostEnv {
        a: x.next(),
        d: x.next(),
        s: x.next(),
        r: x.next(),
        sr: x.next(),
        stage,
        level: x.next(),
        rel_from: x.next(),
    };
    voice.built_hz = x.next();
    voice.gain = x.next();
    voice.releasing = (stage == sys::RELEASE).into();
    voice.sustained = u32::from(stage == sys::RELEASE || handle == 9);
    voice
}

/// A well-formed state whose voices are in the given stages.
fn state(mode: u32, stages: &[u32]) -> HostState {
    let mut x = Distinct(0.0);
    let mut state = *Instrument::new(Design::default()).unwrap().state();
    state.design = design(mode, &mut x);
    state.voice_count = stages.len();
    for (i, stage) in stages.iter().enumerate() {
        state.voices[i] = voice(7 + i as u64, *stage, &mut x);
    }
    state.next_handle = 1 << 40;
    state.bend = x.next();
    state.brightness = x.next();
    state.vib_phase = x.next();
    state.flt_phase = x.next();
    state.trem_phase = x.next();
    state.trem = x.next();
    if mode != sys::POLY {
        state.held_count = 3;
        state.held[..3].copy_from_slice(&[200, 3, 60]);
    }
    state
}

/// The words of a state up to its counts.
fn counted(mut state: HostState) -> Vec<u64> {
    for voice in &mut state.voices {
        voice.copies[2..].fill(HostCopy::default());
    }
    state.voices[state.voice_count..].fill(HostVoice::default());
    state.held[state.held_count..].fill(0);
    words(&state)
}

#[test]
fn a_pedal_pressed_changes_the_pedal_alone() {
    use sys::{ATTACK, DECAY, RELEASE, SUSTAIN};
    let states = [
        state(sys::POLY, &[ATTACK, DECAY, SUSTAIN, RELEASE]),
        state(sys::MONO, &[RELEASE, RELEASE, SUSTAIN]),
        state(sys::MONO_LEGATO, &[ATTACK, RELEASE]),
        state(sys::POLY, &[]),
    ];
    for before in states {
        let after = unsafe { sys::cirstumbe_set_sustain(before, 1) };
        assert_eq!(after.reply.kind, sys::DONE);
        assert!(counted(after.state) == counted(HostState { sustain: 1, ..before }));
        let again = unsafe { sys::cirstumbe_set_sustain(after.state, 2) };
        assert!(counted(again.state) == counted(after.state));
    }
}

#[test]
fn a_fresh_state_keeps_its_design() {
    for mode in [sys::POLY, sys::MONO, sys::MONO_LEGATO] {
        let design = design(mode, &mut Distinct(1.0));
        let made = unsafe { sys::cirstumbe_new(design) };
        assert_eq!((made.reply.kind, made.state.design), (sys::READY, design));
        let s = made.state;
        assert_eq!(
            (s.next_handle, s.voice_count, s.held_count, s.frames, s.sustain),
            (1, 0, 0, 0, 0)
        );
        assert_eq!((s.bend, s.brightness, s.trem), (1.0, 1.0, 1.0));
        assert_eq!((s.vib_phase, s.flt_phase, s.trem_phase), (0.0, 0.0, 0.0));
    }
}

#[test]
fn a_mix_keeps_a_voice_that_sounds_but_for_its_age() {
    let mut before = state(sys::POLY, &[sys::SUSTAIN, sys::SUSTAIN]);
    before.frames = 1;
    for voice in &mut before.voices {
        voice.env.level = voice.env.s;
    }
    let (samples, mut out) = ([0.0; 4], [0.0; 2]);
    let after = unsafe { sys::cirstumbe_mix(before, samples.as_ptr(), 4, out.as_mut_ptr(), 2) };
    assert_eq!((after.reply.kind, after.reply.count), (sys::MIXED, 0));
    assert!(counted(after.state) == counted(HostState { frames: 0, ..before }));
}

//! Plan and Mix against sums worked out here, bit by bit.

mod common;

use cirstumbe::{Adsr, Design, Factors, Instrument, Modulation, PlayMode, Refusal};
use common::{block, plain};
use std::f32::consts::{FRAC_1_SQRT_2, TAU};

fn bits(xs: &[f32]) -> Vec<u32> {
    xs.iter().map(|x| x.to_bits()).collect()
}

/// A sine whose frequency follows the curve.
fn sine(curve: &[f32], hz: f32, rate: f32) -> Vec<f32> {
    let mut phase = 0.0f32;
    let step = |factor: &f32| {
        phase = (phase + hz * factor / rate).fract();
        (TAU * phase).sin()
    };
    curve.iter().map(step).collect()
}

#[test]
fn one_voice_is_its_sine_under_its_envelope() -> Result<(), Refusal> {
    let frames = 300;
    let amp = Adsr { a: 0.002, d: 0.001, s: 0.25, r: 0.1 };
    let mut instrument = Instrument::new(Design { amp, ..Design::default() })?;
    instrument.note_on(69, 0.8, true)?;
    let mut curve = vec![0.0; frames];
    instrument.plan(frames, Factors::default(), &mut curve)?;
    assert_eq!(curve, vec![1.0; frames]);
    assert_eq!(instrument.voices()[0].built_hz, 440.0);
    let samples = sine(&curve, 440.0, 48_000.0);
    let mut out = vec![9.0; 2 * frames];
    assert!(instrument.mix(&samples, &mut out)?.handles().is_empty());

    // 96 frames up to 1, 48 down to 0.25, then level.
    let mut level = 0.0f32;
    let mut attack = true;
    let mut expected = Vec::new();
    for sample in samples {
        if attack {
            level += 1.0 / (0.002 * 48_000.0);
            if level >= 1.0 {
                level = 1.0;
                attack = false;
            }
        } else {
            level -= (1.0 - 0.25) / (0.001 * 48_000.0);
            level = level.max(0.25);
        }
        let side = 0.0 + sample * (level * 0.8);
        expected.extend([side, side]);
    }
    assert_eq!(bits(&out), bits(&expected));
    assert_eq!(instrument.voices()[0].env.level, 0.25);
    Ok(())
}

#[test]
fn copies_lie_between_left_and_right() -> Result<(), Refusal> {
    let design = Design { unison: 2, unison_width: 1.0, ..plain() };
    let mut instrument = Instrument::new(design)?;
    instrument.note_on(60, 1.0, true)?;
    let b = block(&mut instrument, 3, |i| (i + 1) as f32)?;
    assert_eq!(b.samples, [1.0, 2.0, 3.0, 4.0, 5.0, 6.0]);
    let g = FRAC_1_SQRT_2;
    let (x, y, z) = (0.5 * g * 2.0, 0.5 * g * 3.0, 0.5 * g * 5.0);
    assert_eq!(b.out, [g, g * 4.0, x, z, y, g * 3.0]);
    Ok(())
}

#[test]
fn voices_are_summed_in_table_order() -> Result<(), Refusal> {
    let mut instrument = Instrument::new(plain())?;
    instrument.note_on(60, 1.0, true)?;
    instrument.note_on(64, 0.25, true)?;
    let b = block(&mut instrument, 2, |i| [1e8, 3.0, -1e8, 5.0][i])?;
    let first = 1e8f32 + -1e8 * 0.25;
    let second = 3.0 * 0.5 + 5.0 * (0.5 * 0.25);
    assert_eq!(b.out, [first, first, second, second]);
    Ok(())
}

#[test]
fn the_wheel_scales_the_curve_at_once() -> Result<(), Refusal> {
    let mut instrument = Instrument::new(plain())?;
    instrument.note_on(60, 1.0, true)?;
    instrument.set_bend(1.5)?;
    instrument.note_on(64, 1.0, true)?;
    assert_eq!(block(&mut instrument, 2, |_| 0.0)?.curve, [1.5; 4]);
    Ok(())
}

#[test]
fn brightness_is_there_for_the_host_to_read() -> Result<(), Refusal> {
    let mut instrument = Instrument::new(plain())?;
    instrument.note_on(60, 1.0, true)?;
    assert_eq!(instrument.voices()[0].copies[0].cutoff_set, 0);
    instrument.set_brightness(-3.0)?;
    let copy = instrument.voices()[0].copies[0];
    assert_eq!((copy.cutoff_set, copy.cutoff), (1, 0.01));
    Ok(())
}

#[test]
fn a_mono_voice_glides_to_its_next_note() -> Result<(), Refusal> {
    let mode = PlayMode::Mono { legato: true };
    let mut instrument = Instrument::new(Design { mode, glide: 0.5, ..plain() })?;
    instrument.note_on(69, 1.0, true)?;
    instrument.note_on(81, 1.0, true)?;
    assert_eq!(instrument.voices()[0].copies[0].pitch_target, 2.0);
    assert_eq!(block(&mut instrument, 3, |_| 0.0)?.curve, [1.5, 1.75, 1.875]);
    assert_eq!(instrument.voices()[0].built_hz, 440.0);
    Ok(())
}

#[test]
fn modulation_moves_pitch_loudness_cutoff_and_phases() -> Result<(), Refusal> {
    let modulation = Modulation {
        vibrato_rate: 400.0,
        vibrato_cents: 100.0,
        tremolo_rate: 1500.0,
        tremolo_depth: 0.5,
        filter_rate: 3.0,
        filter_octaves: 1.0,
    };
    assert!(modulation.is_active());
    let mut instrument = Instrument::new(Design { modulation, ..plain() })?;
    instrument.note_on(69, 1.0, true)?;
    let factors = Factors { vibrato: 1.25, filter: 0.5, tremolo_sine: -1.0 };
    let mut curve = [0.0; 48];
    instrument.plan(48, factors, &mut curve)?;
    assert_eq!(curve, [1.25; 48]);
    let copy = instrument.voices()[0].copies[0];
    assert_eq!((copy.cutoff_set, copy.cutoff), (1, 0.5));
    let mut out = [0.0; 96];
    instrument.mix(&[1.0; 48], &mut out)?;
    assert_eq!(out[..4], [0.5, 0.5, 0.25, 0.25]);
    let (state, step) = (instrument.state(), 48.0f32 / 48_000.0);
    assert_eq!(state.vib_phase, (400.0 * step).fract());
    assert_eq!(state.trem_phase, (1500.0 * step).fract());
    assert_eq!(state.flt_phase, (3.0 * step).fract());
    let next = instrument.factors();
    assert!(next.vibrato > 1.0 && next.filter > 1.0 && next.tremolo_sine.abs() < 1e-5);
    Ok(())
}

#[test]
fn a_faded_voice_ends() -> Result<(), Refusal> {
    let amp = Adsr { a: 0.0, d: 0.0, s: 1e-4, r: 0.0 };
    let mut instrument = Instrument::new(Design { amp, ..Design::default() })?;
    instrument.note_on(60, 1.0, true)?;
    assert!(block(&mut instrument, 1, |_| 1.0)?.ended.handles().is_empty());
    assert_eq!(block(&mut instrument, 1, |_| 1.0)?.ended.handles(), [1]);
    Ok(())
}

#[test]
fn a_full_table_of_full_stacks() -> Result<(), Refusal> {
    let amp = Adsr { a: 0.0, d: 0.0, s: 1.0, r: 1.0 };
    let design = Design { amp, max_voices: 32, unison: 8, unison_width: 0.5, ..Design::default() };
    let mut instrument = Instrument::new(design)?;
    for handle in 1..=64 {
        instrument.note_on(handle as u8, 0.75, true)?;
        block(&mut instrument, 1, |_| 0.0)?;
        instrument.release(handle)?;
    }
    let before = instrument.voices().to_vec();
    assert_eq!(before.len(), 64);
    let frames = 1_000;
    let b = block(&mut instrument, frames, |i| (i % 97) as f32 / 97.0 - 0.5)?;
    assert_eq!(b.curve, vec![1.0; 64 * 8 * frames]);
    assert!(b.ended.handles().is_empty());

    let mut levels: Vec<f32> = before.iter().map(|voice| voice.env.level).collect();
    let mut expected = Vec::new();
    for f in 0..frames {
        let (mut left, mut right) = (0.0f32, 0.0f32);
        for (v, voice) in before.iter().enumerate() {
            levels[v] -= voice.env.rel_from / 48_000.0;
            for (k, copy) in voice.copies.iter().enumerate() {
                let x = b.samples[(v * 8 + k) * frames + f] * (levels[v] * 0.75);
                left += x * copy.l;
                right += x * copy.r;
            }
        }
        expected.extend([left, right]);
    }
    assert_eq!(bits(&b.out), bits(&expected));
    Ok(())
}

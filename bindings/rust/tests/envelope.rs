//! The envelope's tick on a record that the host keeps.

use cirstumbe::sys::{self, HostEnv, HostEnvOutcome};
use cirstumbe::{Envelope, Refusal, Stage};

fn envelope(a: f32, d: f32, s: f32, r: f32, sr: f32, stage: Stage) -> Envelope {
    Envelope { a, d, s, r, sr, stage, level: 0.0, rel_from: 0.0 }
}

#[test]
fn at_once_to_the_sustain_level() {
    let mut env = envelope(0.0, 0.0, 0.5, 0.0, 48_000.0, Stage::Attack);
    assert_eq!([env.tick(), env.tick(), env.tick()], [1.0, 0.5, 0.5]);
    assert_eq!(env.stage, Stage::Sustain);
}

#[test]
fn an_attack_of_four_frames() {
    let a = 1.0 / 2_048.0;
    let mut env = envelope(a, 1.0, 0.5, 0.0, 8_192.0, Stage::Attack);
    assert_eq!([env.tick(), env.tick(), env.tick(), env.tick()], [0.25, 0.5, 0.75, 1.0]);
    assert_eq!(env.stage, Stage::Decay);
}

#[test]
fn a_release_runs_down_to_idle() {
    let mut env = envelope(0.0, 0.0, 0.5, 1.0 / 2_048.0, 8_192.0, Stage::Release);
    (env.level, env.rel_from) = (0.5, 0.5);
    assert_eq!([env.tick(), env.tick(), env.tick(), env.tick()], [0.375, 0.25, 0.125, 0.0]);
    assert_eq!(env.stage, Stage::Idle);
    assert_eq!(env.tick(), 0.0);
}

#[test]
fn settings_and_release_start_stay() {
    let mut env = envelope(0.1, 0.2, 0.3, 0.4, 44_100.0, Stage::Decay);
    (env.level, env.rel_from) = (0.9, 0.8);
    let before = env;
    env.tick();
    let level = 0.9 - (1.0f32 - 0.3) / (0.2 * 44_100.0);
    assert_eq!(env, Envelope { level, ..before });
}

#[test]
fn a_stage_that_is_none_is_refused_1() {
    for stage in [5, 6, u32::MAX] {
        let env =
            HostEnv { a: 1.0, d: 2.0, s: 3.0, r: 4.0, sr: 5.0, stage, level: 6.0, rel_from: 7.0 };
        let outcome = unsafe { sys::cirstumbe_env_tick(env) };
        assert_eq!(outcome, HostEnvOutcome { number: 1, env });
        assert_eq!(Envelope::try_from(env), Err(Refusal::NotWellFormed));
    }
}

//! Reads the private part of an envelope.

use super::{EnvGen, Stage};

/// 0 to 4: Idle, Attack, Decay, Sustain, Release.
pub(crate) fn stage(e: &EnvGen) -> u32 {
    match e.stage {
        Stage::Idle => 0,
        Stage::Attack => 1,
        Stage::Decay => 2,
        Stage::Sustain => 3,
        Stage::Release => 4,
    }
}

pub(crate) fn rel_from(e: &EnvGen) -> f32 {
    e.rel_from
}

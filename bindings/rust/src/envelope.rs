//! An envelope that the host keeps.

use crate::refusal::Refusal;
use crate::sys::{self, HostEnv};

/// Stage of an envelope.
#[derive(Clone, Copy, Debug, PartialEq, Eq)]
#[repr(u32)]
pub enum Stage {
    /// Silent.
    Idle = sys::IDLE,
    /// On the way up to 1.
    Attack = sys::ATTACK,
    /// On the way down to the sustain level.
    Decay = sys::DECAY,
    /// At the sustain level.
    Sustain = sys::SUSTAIN,
    /// On the way down to silence.
    Release = sys::RELEASE,
}

const STAGES: [Stage; 5] =
    [Stage::Idle, Stage::Attack, Stage::Decay, Stage::Sustain, Stage::Release];

/// A gated envelope of linear segments. Its stage is always one of the five, so that a tick is never refused.
#[derive(Clone, Copy, Debug, PartialEq)]
pub struct Envelope {
    /// Attack, seconds.
    pub a: f32,
    /// Decay, seconds.
    pub d: f32,
    /// Sustain, a level.
    pub s: f32,
    /// Release, seconds.
    pub r: f32,
    /// Sample rate.
    pub sr: f32,
    /// Present stage.
    pub stage: Stage,
    /// Present value.
    pub level: f32,
    /// The level from which the release runs down.
    pub rel_from: f32,
}

impl Envelope {
    /// One frame further; gives the frame's level.
    pub fn tick(&mut self) -> f32 {
        // SAFETY: the function takes every record by value.
        let outcome = unsafe { sys::cirstumbe_env_tick(HostEnv::from(*self)) };
        *self = Envelope::try_from(outcome.env).expect("a tick gives one of the five stages");
        self.level
    }
}

impl From<Envelope> for HostEnv {
    fn from(env: Envelope) -> HostEnv {
        HostEnv {
            a: env.a,
            d: env.d,
            s: env.s,
            r: env.r,
            sr: env.sr,
            stage: env.stage as u32,
            level: env.level,
            rel_from: env.rel_from,
        }
    }
}

impl TryFrom<HostEnv> for Envelope {
    type Error = Refusal;

    /// Refused 1 where the stage's number is none.
    fn try_from(env: HostEnv) -> Result<Envelope, Refusal> {
        let stage = STAGES
            .into_iter()
            .find(|stage| *stage as u32 == env.stage)
            .ok_or(Refusal::NotWellFormed)?;
        Ok(Envelope {
            a: env.a,
            d: env.d,
            s: env.s,
            r: env.r,
            sr: env.sr,
            stage,
            level: env.level,
            rel_from: env.rel_from,
        })
    }
}

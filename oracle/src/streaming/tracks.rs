//! Stand-in for the mixer of tracks: there is none.

use super::Ctx;
use crate::dsl::SoundDoc;

pub(crate) struct StreamTracks;

impl StreamTracks {
    pub(crate) fn build(_: &SoundDoc, _: &Ctx, _: bool, _: bool) -> Option<Self> {
        None
    }

    pub(crate) fn process(&mut self, _: &mut [f32], _: &mut [f32], _: usize, _: &[f32]) {}

    pub(crate) fn set_cutoff(&mut self, _: f32) {}
}

pub(crate) fn mix_offline() {}

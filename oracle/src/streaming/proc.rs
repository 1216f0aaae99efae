//! Stand-in for the effect processors: there are none.

use super::Ctx;
use crate::dsl::Node;

pub(crate) struct Proc;

impl Proc {
    pub(crate) fn process(&mut self, _: &mut [f32], _: usize) {}

    pub(crate) fn set_cutoff(&mut self, _: f32) {}
}

pub(crate) fn try_proc(_: &Node, _: &Ctx, _: u64) -> Option<Proc> {
    None
}

pub(crate) fn reverb_proc(_: f32, _: f32, _: u32, _: usize) -> Proc {
    Proc
}

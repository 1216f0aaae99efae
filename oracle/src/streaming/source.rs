//! Stand-in for the graph's source: its samples are the driver's, and it keeps the cutoff last set.

use super::Ctx;
use crate::dsl::Node;
use crate::host;

#[derive(Default)]
pub(crate) struct Src {
    pub(super) cutoff: Option<f32>,
    /// The pitch numbers of the Plan that is open, which the Mix must meet again.
    pub(super) planned: Vec<f32>,
    pub(super) met: usize,
}

impl Src {
    pub(crate) fn process(&mut self, out: &mut [f32], _: usize, pitch: &[f32]) {
        if cfg!(bench) {
            return host::take_lent(out);
        }
        for p in pitch {
            let q = self.planned[self.met];
            assert!(p.to_bits() == q.to_bits() || p.is_nan() && q.is_nan(), "the curve of Plan and of Mix differ");
            self.met += 1;
        }
        host::take_samples(out);
    }

    pub(crate) fn set_cutoff(&mut self, scale: f32) {
        self.cutoff = Some(scale);
    }
}

pub(crate) fn try_src(_: &Node, _: &Ctx, _: u64) -> Option<Src> {
    host::built().then(Src::default)
}

//! Reads and drives the pitch part of a graph.

use super::{CHUNK, Root, Src, StreamGraph};

/// What a graph knows of its pitch, and the cutoff last set.
pub(crate) struct Pitch {
    pub(crate) pitch: f32,
    pub(crate) target: f32,
    pub(crate) glide: f32,
    pub(crate) bend: f32,
    pub(crate) cutoff: Option<f32>,
}

fn source(g: &mut StreamGraph) -> &mut Src {
    match &mut g.root {
        Root::Mono(src) => src,
        Root::Tracks(_) => unreachable!("every graph is plain"),
    }
}

pub(crate) fn read(g: &StreamGraph) -> Pitch {
    let Root::Mono(src) = &g.root else { unreachable!("every graph is plain") };
    Pitch { pitch: g.pitch, target: g.pitch_target, glide: g.glide, bend: g.bend, cutoff: src.cutoff }
}

/// The max of two zeros is +0 in document 01, and open in Rust. Only these two fields can hold such a zero.
pub(crate) fn settle(g: &mut StreamGraph) {
    if g.bend == 0.0 {
        g.bend = 0.0;
    }
    if g.pitch_target == 0.0 {
        g.pitch_target = 0.0;
    }
}

/// The next n pitch numbers, by the graph's own glide in the chunks of its fill.
pub(crate) fn plan(g: &mut StreamGraph, n: usize) -> Vec<f32> {
    let mut curve = Vec::with_capacity(n);
    while curve.len() < n {
        let len = CHUNK.min(n - curve.len());
        g.glide_block(len);
        curve.extend_from_slice(&g.pitch_buf[..len]);
    }
    curve
}

/// Glides over the next n samples in the chunks of the graph's fill.
pub(crate) fn glide(g: &mut StreamGraph, n: usize) {
    let mut done = 0;
    while done < n {
        let len = CHUNK.min(n - done);
        g.glide_block(len);
        done += len;
    }
}

/// Plans n pitch numbers and keeps them for the Mix to meet. The graph stands as after them.
pub(crate) fn open(g: &mut StreamGraph, n: usize) -> &[f32] {
    let curve = plan(g, n);
    let src = source(g);
    src.planned = curve;
    src.met = 0;
    &src.planned
}

/// Puts the pitch back to what it was before `open`, so that the graph's own fill glides over the block itself.
pub(crate) fn rewind(g: &mut StreamGraph, before: f32) {
    g.pitch = before;
}

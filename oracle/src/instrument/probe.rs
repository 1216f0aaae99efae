//! Reaches the private part of the instrument.

use super::{Instrument, InstrumentDesign, Modulation, Note, UnisonCopy, VoiceHandle};
use crate::patch::Patch;
use crate::streaming::StreamGraph;
use crate::streaming::probe as pitch;

pub(crate) use super::envelope::probe as envelope;

pub(crate) fn is_active(m: &Modulation) -> bool {
    m.is_active()
}

/// A copy of a voice that no instrument holds.
pub(crate) struct Lone(UnisonCopy);

impl Lone {
    /// Copy k of n, built by the instrument's own `build_copies` under this bend and brightness.
    pub(crate) fn build(k: usize, n: usize, width: f32, bend: f32, brightness: f32) -> Self {
        let mut design = InstrumentDesign::new(Patch::plain());
        design.unison = n;
        design.unison_width = width;
        let mut inst = Instrument::new(design, 48_000).expect("the plain patch builds");
        inst.bend = bend;
        inst.brightness = brightness;
        let mut copies = inst.build_copies(Note::A4, 1.0).expect("the plain patch builds");
        assert_eq!(copies.len(), n.max(1));
        Lone(copies.swap_remove(k))
    }

    pub(crate) fn gains(&self) -> (f32, f32) {
        (self.0.l, self.0.r)
    }

    pub(crate) fn graph(&mut self) -> &mut StreamGraph {
        &mut self.0.graph
    }
}

/// How many copies the instrument builds for a design's unison.
pub(crate) fn copies(unison: usize) -> usize {
    let mut design = InstrumentDesign::new(Patch::plain());
    design.unison = unison;
    let inst = Instrument::new(design, 48_000).expect("the plain patch builds");
    inst.build_copies(Note::A4, 1.0).expect("the plain patch builds").len()
}

/// A row of the voice table.
pub(crate) struct Row {
    pub(crate) handle: u64,
    pub(crate) note: u8,
    pub(crate) releasing: bool,
    pub(crate) sustained: bool,
    pub(crate) level: f32,
}

pub(crate) fn rows(inst: &Instrument) -> Vec<Row> {
    let row = |v: &super::Voice| Row {
        handle: v.handle,
        note: v.note.0,
        releasing: v.releasing,
        sustained: v.sustained,
        level: v.env.level(),
    };
    inst.voices.iter().map(row).collect()
}

/// A voice's handle, and its copies: gains and pitch.
pub(crate) fn stacks(inst: &Instrument) -> Vec<(u64, Vec<(f32, f32, pitch::Pitch)>)> {
    let copy = |c: &UnisonCopy| (c.l, c.r, pitch::read(&c.graph));
    inst.voices.iter().map(|v| (v.handle, v.copies.iter().map(copy).collect())).collect()
}

/// Every graph, voice by voice, copy by copy.
pub(crate) fn graphs(inst: &mut Instrument) -> impl Iterator<Item = &mut StreamGraph> {
    inst.voices.iter_mut().flat_map(|v| v.copies.iter_mut()).map(|c| &mut c.graph)
}

/// The instrument beside its table.
pub(crate) struct Whole {
    pub(crate) next: u64,
    pub(crate) pedal: bool,
    pub(crate) bend: f32,
    pub(crate) brightness: f32,
    pub(crate) phases: [f32; 3],
    pub(crate) gain: f32,
    pub(crate) held: Vec<u8>,
}

pub(crate) fn whole(inst: &Instrument) -> Whole {
    Whole {
        next: inst.next_handle,
        pedal: inst.sustain,
        bend: inst.bend,
        brightness: inst.brightness,
        phases: [inst.vib_phase, inst.flt_phase, inst.trem_phase],
        gain: inst.trem,
        held: inst.held.iter().map(|n| n.0).collect(),
    }
}

pub(crate) fn note_on(inst: &mut Instrument, note: u8, velocity: f32) -> u64 {
    inst.note_on(Note(note), velocity).0
}

pub(crate) fn release(inst: &mut Instrument, handle: u64) -> bool {
    inst.release(VoiceHandle(handle))
}

pub(crate) fn in_table(inst: &Instrument, handle: u64) -> bool {
    inst.is_active(VoiceHandle(handle))
}

pub(crate) fn modulated(inst: &Instrument) -> bool {
    inst.design.modulation.is_active()
}

pub(crate) fn apply_modulation(inst: &mut Instrument, frames: usize) {
    inst.apply_modulation(frames);
}

pub(crate) fn render_block(inst: &mut Instrument, out: &mut [f32]) {
    inst.render_block(out);
}

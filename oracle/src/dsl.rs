//! Stand-in for the document types: what the instrument and the stream graph name, and no more.

pub mod bounds {
    pub const SAMPLE_RATE_HZ: std::ops::RangeInclusive<u32> = 8_000..=192_000;
}

#[derive(Clone, Copy, Debug)]
pub struct Adsr {
    pub a: f32,
    pub d: f32,
    pub s: f32,
    pub r: f32,
    pub punch: f32,
}

#[derive(Clone, Debug)]
pub enum Value {
    Const(f32),
    Note(String),
    Modulated(()),
}

pub fn note_to_hz(_: &str) -> Option<f32> {
    None
}

#[derive(Clone, Debug)]
pub enum SeqWave {
    Plain,
    Sampler,
}

#[derive(Clone, Debug)]
pub struct SeqNote {
    pub pitch: Value,
}

#[derive(Clone, Debug)]
pub struct Partial {
    pub freq: f32,
}

#[derive(Clone, Debug)]
pub struct Track {
    pub node: Node,
}

impl Track {
    pub fn layer_id(&self, at: usize) -> String {
        at.to_string()
    }
}

#[derive(Clone, Debug)]
pub struct Bus {
    pub id: String,
    pub effects: Vec<Node>,
}

#[derive(Clone, Debug)]
pub enum Node {
    Sine { freq: Value },
    Triangle { freq: Value },
    Sawtooth { freq: Value },
    Square { freq: Value },
    Fm { freq: Value },
    Super { freq: Value },
    Modal { modes: Vec<Partial> },
    Seq { notes: Vec<SeqNote>, wave: SeqWave },
    Tracks { tracks: Vec<Track>, master: Vec<Node>, buses: Vec<Bus> },
    Reverb { room: f32, mix: f32 },
}

impl Node {
    pub fn children_mut(&mut self) -> impl Iterator<Item = &mut Node> {
        std::iter::empty()
    }

    pub fn walk(&self, visit: &mut dyn FnMut(&Node)) {
        visit(self);
    }
}

#[derive(Clone, Debug)]
pub enum Playback {
    OneShot,
    Loop {},
}

#[derive(Clone, Debug)]
pub enum Stereo {
    Mono,
    Wide,
}

#[derive(Clone, Debug)]
pub struct SoundDoc {
    pub sample_rate: u32,
    pub seed: u64,
    pub normalize: Option<()>,
    pub playback: Playback,
    pub stereo: Stereo,
    pub root: Node,
}

impl SoundDoc {
    /// The one document that the driver plays: a sine, whose samples are the driver's.
    pub fn plain() -> Self {
        SoundDoc {
            sample_rate: 48_000,
            seed: 0,
            normalize: None,
            playback: Playback::OneShot,
            stereo: Stereo::Mono,
            root: Node::Sine { freq: Value::Const(440.0) },
        }
    }

    pub fn frame_count(&self) -> usize {
        self.sample_rate as usize
    }
}

//! The archive's functions and records as they are. `bindings/include/cirstumbe.h` says what each means.
//!
//! Every function takes every record: numbers that are no state are refused. Only the lent memory must be what its pointer and length say.

/// Places of the voice table.
pub const VOICES: usize = 64;
/// Places for the copies of a voice.
pub const COPIES: usize = 8;
/// Places for held notes.
pub const NOTES: usize = 256;

/// Refusal 1: the numbers are no state.
pub const NOT_WELL_FORMED: u32 = 1;
/// Refusal 2: a whole number of the design.
pub const DESIGN_NUMBER: u32 = 2;
/// Refusal 3: a float of the design.
pub const DESIGN_FLOAT: u32 = 3;
/// Refusal 4: the frames of a plan.
pub const FRAMES: u32 = 4;
/// Refusal 5: a block is open.
pub const BLOCK_OPEN: u32 = 5;
/// Refusal 6: no block is open.
pub const NO_BLOCK: u32 = 6;
/// Refusal 7: a lent length.
pub const LENT_LENGTH: u32 = 7;
/// Refusal 8: no handle is left.
pub const NO_HANDLE_LEFT: u32 = 8;
/// Refusal 9: the place or the running status.
pub const MIDI_PLACE: u32 = 9;
/// Refusal 10: the stream ends inside a message.
pub const MIDI_CUT: u32 = 10;

/// `HostReply::kind`: refused, `number` says why.
pub const REFUSED: u32 = 0;
/// `HostReply::kind`: a new handle with a voice.
pub const STARTED: u32 = 1;
/// `HostReply::kind`: a new handle and no voice.
pub const SILENT: u32 = 2;
/// `HostReply::kind`: the Mono voice that goes on.
pub const KEPT: u32 = 3;
/// `HostReply::kind`: a key was let go.
pub const OFF: u32 = 4;
/// `HostReply::kind`: a call that always succeeds.
pub const DONE: u32 = 5;
/// `HostReply::kind`: a release by handle.
pub const RELEASED: u32 = 6;
/// `HostReply::kind`: a block is open.
pub const PLANNED: u32 = 7;
/// `HostReply::kind`: the block is closed.
pub const MIXED: u32 = 8;
/// `HostReply::kind`: a design was accepted.
pub const READY: u32 = 9;
/// `HostReply::kind`: whether a handle is in the table.
pub const ACTIVE: u32 = 10;
/// `HostReply::kind`: how many voices there are.
pub const VOICE_COUNT: u32 = 11;
/// `HostReply::kind`: a voice of the note.
pub const HANDLE: u32 = 12;
/// `HostReply::kind`: no voice of the note.
pub const NO_HANDLE: u32 = 13;

/// `HostDesign::mode`: a voice for each note.
pub const POLY: u32 = 0;
/// `HostDesign::mode`: one voice for all notes.
pub const MONO: u32 = 1;
/// `HostDesign::mode`: Mono, with the envelope left running.
pub const MONO_LEGATO: u32 = 2;

/// `HostEnv::stage`: silent.
pub const IDLE: u32 = 0;
/// `HostEnv::stage`: up to 1.
pub const ATTACK: u32 = 1;
/// `HostEnv::stage`: down to the sustain level.
pub const DECAY: u32 = 2;
/// `HostEnv::stage`: at the sustain level.
pub const SUSTAIN: u32 = 3;
/// `HostEnv::stage`: down to silence.
pub const RELEASE: u32 = 4;

/// `HostEvent::kind`: refused, `number` says why.
pub const EVENT_REFUSED: u32 = 0;
/// `HostEvent::kind`: a key was struck.
pub const EVENT_ON: u32 = 1;
/// `HostEvent::kind`: a key was let go.
pub const EVENT_OFF: u32 = 2;
/// `HostEvent::kind`: the pedal moved.
pub const EVENT_PEDAL: u32 = 3;
/// `HostEvent::kind`: every note off.
pub const EVENT_ALL_OFF: u32 = 4;
/// `HostEvent::kind`: the wheel moved.
pub const EVENT_BEND: u32 = 5;
/// `HostEvent::kind`: another channel message.
pub const EVENT_OTHER: u32 = 6;
/// `HostEvent::kind`: the stream's end.
pub const EVENT_END: u32 = 7;

/// What an instrument is made from.
#[repr(C)]
#[derive(Clone, Copy, Debug, Default, PartialEq)]
pub struct HostDesign {
    /// Frames a second, 8,000 to 192,000.
    pub sample_rate: u32,
    /// How many voices may sound at once, 1 to 32.
    pub max_voices: u32,
    /// 0 Poly, 1 Mono, 2 Mono with legato.
    pub mode: u32,
    /// Copies of a voice, 0 to 8; 0 is taken as 1.
    pub unison: u32,
    /// Stereo width of the copies.
    pub unison_width: f32,
    /// Attack, seconds.
    pub a: f32,
    /// Decay, seconds.
    pub d: f32,
    /// Sustain, a level.
    pub s: f32,
    /// Release, seconds.
    pub r: f32,
    /// Part of the way to a new pitch that a Mono voice goes in each frame.
    pub glide: f32,
    /// Hertz.
    pub vibrato_rate: f32,
    /// Depth of the vibrato.
    pub vibrato_cents: f32,
    /// Hertz.
    pub tremolo_rate: f32,
    /// Depth of the tremolo, 1 for down to silence.
    pub tremolo_depth: f32,
    /// Hertz.
    pub filter_rate: f32,
    /// Depth of the filter's movement.
    pub filter_octaves: f32,
}

/// One of a voice's copies.
#[repr(C)]
#[derive(Clone, Copy, Debug, Default, PartialEq)]
pub struct HostCopy {
    /// Gain on the left.
    pub l: f32,
    /// Gain on the right.
    pub r: f32,
    /// Present pitch as a factor of the built frequency, without the wheel.
    pub pitch: f32,
    /// The pitch that it glides to.
    pub pitch_target: f32,
    /// Part of the way that it goes in each frame.
    pub glide: f32,
    /// The wheel's factor.
    pub bend: f32,
    /// 0 or 1: whether a cutoff was set.
    pub cutoff_set: u32,
    /// Scale for the host's filter, where `cutoff_set` is 1.
    pub cutoff: f32,
}

/// A gated envelope.
#[repr(C)]
#[derive(Clone, Copy, Debug, Default, PartialEq)]
pub struct HostEnv {
    /// Attack, seconds.
    pub a: f32,
    /// Decay, seconds.
    pub d: f32,
    /// Sustain, a level.
    pub s: f32,
    /// Release, seconds.
    pub r: f32,
    /// Sample rate.
    pub sr: f32,
    /// 0 Idle, 1 Attack, 2 Decay, 3 Sustain, 4 Release.
    pub stage: u32,
    /// Present value.
    pub level: f32,
    /// The level from which the release runs down.
    pub rel_from: f32,
}

/// A voice of the table.
#[repr(C)]
#[derive(Clone, Copy, Debug, Default, PartialEq)]
pub struct HostVoice {
    /// The number by which the voice is known.
    pub handle: u64,
    /// How many copies count.
    pub copy_count: usize,
    /// The copies, up to `copy_count`.
    pub copies: [HostCopy; COPIES],
    /// The amplitude envelope.
    pub env: HostEnv,
    /// The frequency for which the copies were built.
    pub built_hz: f32,
    /// The velocity.
    pub gain: f32,
    /// 0 or 1.
    pub releasing: u32,
    /// 0 or 1: only the pedal holds it.
    pub sustained: u32,
    /// The note that it plays.
    pub note: u8,
}

/// An instrument.
#[repr(C)]
#[derive(Clone, Copy, Debug, PartialEq)]
pub struct HostState {
    /// What it was made from.
    pub design: HostDesign,
    /// The table, oldest voice first, up to `voice_count`.
    pub voices: [HostVoice; VOICES],
    /// How many voices count.
    pub voice_count: usize,
    /// The handle that the next new note gets.
    pub next_handle: u64,
    /// 0 or 1: the pedal.
    pub sustain: u32,
    /// The wheel's factor.
    pub bend: f32,
    /// The cutoff of every copy.
    pub brightness: f32,
    /// Phase of the vibrato, in turns.
    pub vib_phase: f32,
    /// Phase of the filter's movement, in turns.
    pub flt_phase: f32,
    /// Phase of the tremolo, in turns.
    pub trem_phase: f32,
    /// Present gain of the tremolo.
    pub trem: f32,
    /// Mono: the keys that are down, oldest first, up to `held_count`.
    pub held: [u8; NOTES],
    /// How many held notes count.
    pub held_count: usize,
    /// Frames of the open block, 0 where none is open.
    pub frames: usize,
}

/// What a call or a query replies. Fields that its kind does not name are 0.
#[repr(C)]
#[derive(Clone, Copy, Debug, Default, PartialEq)]
pub struct HostReply {
    /// Which reply it is: [`REFUSED`] to [`NO_HANDLE`].
    pub kind: u32,
    /// The number of the refusal.
    pub number: u32,
    /// The handle of started, silent, kept and handle.
    pub handle: u64,
    /// Of started: the voice that fades out to make room, 0 for none.
    pub killed: u64,
    /// Of started: the voice that left the table at once, 0 for none.
    pub taken: u64,
    /// 0 or 1, of off, released and active.
    pub found: u32,
    /// Of mixed how many ended, of voices how many there are.
    pub count: usize,
}

/// A reply and the next state.
#[repr(C)]
#[derive(Clone, Copy, Debug, PartialEq)]
pub struct HostOutcome {
    /// The reply.
    pub reply: HostReply,
    /// The next state, or the one given where the call was refused.
    pub state: HostState,
}

/// A reply to a mix, the voices that ended and the next state.
#[repr(C)]
#[derive(Clone, Copy, Debug, PartialEq)]
pub struct HostMixOutcome {
    /// The reply.
    pub reply: HostReply,
    /// `reply.count` handles in table order, then zeros.
    pub ended: [u64; VOICES],
    /// The next state, or the one given where the call was refused.
    pub state: HostState,
}

/// An envelope one frame later.
#[repr(C)]
#[derive(Clone, Copy, Debug, Default, PartialEq)]
pub struct HostEnvOutcome {
    /// 0, or 1 where the stage has no meaning.
    pub number: u32,
    /// The next record, or the one given.
    pub env: HostEnv,
}

/// An event of a MIDI stream with the place and the running status behind it.
#[repr(C)]
#[derive(Clone, Copy, Debug, Default, PartialEq)]
pub struct HostEvent {
    /// Which event it is: [`EVENT_REFUSED`] to [`EVENT_END`].
    pub kind: u32,
    /// The number of the refusal.
    pub number: u32,
    /// The place behind the event.
    pub place: usize,
    /// Of on, above 0 and at most 1.
    pub velocity: f32,
    /// Of bend, 0 to 16,383.
    pub bend: u32,
    /// 0 or 1, of pedal.
    pub down: u32,
    /// The running status behind the event.
    pub status: u8,
    /// Of on and off.
    pub note: u8,
}

extern "C" {
    /// A fresh instrument.
    pub fn cirstumbe_new(design: HostDesign) -> HostOutcome;
    /// Strikes a key.
    pub fn cirstumbe_note_on(h: HostState, note: u8, velocity: f32, built: u32) -> HostOutcome;
    /// Lets a key go.
    pub fn cirstumbe_note_off(h: HostState, note: u8) -> HostOutcome;
    /// The pedal.
    pub fn cirstumbe_set_sustain(h: HostState, down: u32) -> HostOutcome;
    /// The wheel as a frequency factor.
    pub fn cirstumbe_set_bend(h: HostState, factor: f32) -> HostOutcome;
    /// The cutoff of every copy.
    pub fn cirstumbe_set_brightness(h: HostState, scale: f32) -> HostOutcome;
    /// Releases one voice.
    pub fn cirstumbe_release(h: HostState, handle: u64) -> HostOutcome;
    /// Releases every voice.
    pub fn cirstumbe_all_notes_off(h: HostState) -> HostOutcome;
    /// Opens a block and writes its curve.
    pub fn cirstumbe_plan(
        h: HostState,
        frames: usize,
        vibrato: f32,
        filter: f32,
        tremolo_sine: f32,
        curve: *mut f32,
        curve_len: usize,
    ) -> HostOutcome;
    /// Closes the block and writes its sound.
    pub fn cirstumbe_mix(
        h: HostState,
        samples: *const f32,
        samples_len: usize,
        out: *mut f32,
        out_len: usize,
    ) -> HostMixOutcome;
    /// Whether a handle is in the table.
    pub fn cirstumbe_is_active(h: HostState, handle: u64) -> HostReply;
    /// How many voices are in the table.
    pub fn cirstumbe_active_voices(h: HostState) -> HostReply;
    /// A voice of a note that is not releasing.
    pub fn cirstumbe_voice_of(h: HostState, note: u8) -> HostReply;
    /// One frame of an envelope.
    pub fn cirstumbe_env_tick(env: HostEnv) -> HostEnvOutcome;
    /// The next event of a MIDI stream.
    pub fn cirstumbe_midi_step(
        stream: *const u8,
        stream_len: usize,
        place: usize,
        status: u8,
    ) -> HostEvent;
}

/* The voice manager for a host in C or C++. Link libhost.a (crates/host_c/out/libhost_c.a, made by `rt lib` there) and the C library's math part (-lm).
 *
 * A state is a plain record of numbers, about 21 KB. A call takes it by value and gives the next one back beside its reply;
 * nothing is kept anywhere else, so a copy of a state is a copy of the instrument. No call allocates; a call needs up to 300 KB of stack.
 * A refused call gives the same numbers back and writes to no lent memory.
 *
 * Lent memory is a pointer with a number of elements. The pointer must not be NULL, also where the number is 0, and the
 * memory of `samples` and `out` must not overlap.
 *
 * The archive is for x86-64 with the System V calling convention. */
#ifndef CIRSTUMBE_H
#define CIRSTUMBE_H

#include <stddef.h>
#include <stdint.h>

#ifdef __cplusplus
extern "C" {
#endif

/* Sizes of the arrays. */
enum {
    CIRSTUMBE_VOICES = 64,
    CIRSTUMBE_COPIES = 8,
    CIRSTUMBE_NOTES = 256
};

/* Why a call was refused: HostReply.number, HostEvent.number, HostEnvOutcome.number. 0 where nothing was refused.
 * The tests run in this order: 1, then 5 or 6, 4, 7, 8 for the instrument; 2, 3 for a start; 9, 10 for MIDI. */
enum {
    CIRSTUMBE_NOT_REFUSED = 0,
    /* The state could not have come from these calls: a count beyond its limit, a handle twice, a number that names no
     * mode or stage. Also an envelope whose stage has no meaning. */
    CIRSTUMBE_NOT_WELL_FORMED = 1,
    /* A whole number of the design: rate not 8,000 to 192,000, max_voices not 1 to 32, unison above 8, mode above 2. */
    CIRSTUMBE_DESIGN_NUMBER = 2,
    /* A float of the design is infinite or a NaN. */
    CIRSTUMBE_DESIGN_FLOAT = 3,
    /* A plan of 0 frames, of more than 1,024, or of more than 64 where the design's modulation is active. */
    CIRSTUMBE_FRAMES = 4,
    /* A plan has not been mixed yet; only a mix or a query may follow. */
    CIRSTUMBE_BLOCK_OPEN = 5,
    /* A mix without a plan before it. */
    CIRSTUMBE_NO_BLOCK = 6,
    /* Lent memory has another length than this state asks for: see cirstumbe_plan and cirstumbe_mix. */
    CIRSTUMBE_LENT_LENGTH = 7,
    /* The note needs a new handle and all of them have been given out. */
    CIRSTUMBE_NO_HANDLE_LEFT = 8,
    /* The place lies behind the stream's end, or the running status is neither 0 nor 80 to EF hex. */
    CIRSTUMBE_MIDI_PLACE = 9,
    /* The stream ends before the message that it has begun is whole. */
    CIRSTUMBE_MIDI_CUT = 10
};

/* HostReply.kind. Fields that a kind does not name are 0. */
enum {
    /* `number` says why. */
    CIRSTUMBE_REFUSED = 0,
    /* A voice was made: `handle` is new, `killed` fades out to make room, `taken` has left the table at once. 0 is no voice. */
    CIRSTUMBE_STARTED = 1,
    /* `handle` is new and has no voice, since the host had not built its copies. */
    CIRSTUMBE_SILENT = 2,
    /* Mono: the voice `handle` goes on with the new note. */
    CIRSTUMBE_KEPT = 3,
    /* A note-off, or a note-on at velocity 0: `found` says whether a voice or a held note was there. */
    CIRSTUMBE_OFF = 4,
    /* Pedal, bend, brightness and all-off, which always succeed. */
    CIRSTUMBE_DONE = 5,
    /* `found` says whether the handle was in the table. */
    CIRSTUMBE_RELEASED = 6,
    /* The curve is written and a block is open. */
    CIRSTUMBE_PLANNED = 7,
    /* The output is written and the block closed; `count` voices ended. */
    CIRSTUMBE_MIXED = 8,
    /* The design was accepted and the state is fresh. */
    CIRSTUMBE_READY = 9,
    /* `found` says whether the handle is in the table. */
    CIRSTUMBE_ACTIVE = 10,
    /* `count` voices are in the table. */
    CIRSTUMBE_VOICE_COUNT = 11,
    /* `handle` is a voice of the note that is not releasing. */
    CIRSTUMBE_HANDLE = 12,
    /* The note has no such voice. */
    CIRSTUMBE_NO_HANDLE = 13
};

/* HostDesign.mode. */
enum {
    CIRSTUMBE_POLY = 0,
    CIRSTUMBE_MONO = 1,
    /* Mono, and a kept voice does not start its envelope anew. */
    CIRSTUMBE_MONO_LEGATO = 2
};

/* HostEnv.stage. */
enum {
    CIRSTUMBE_IDLE = 0,
    CIRSTUMBE_ATTACK = 1,
    CIRSTUMBE_DECAY = 2,
    CIRSTUMBE_SUSTAIN = 3,
    CIRSTUMBE_RELEASE = 4
};

/* HostEvent.kind. Fields that a kind does not name are 0, but for `place` and `status`, which are always the next ones. */
enum {
    /* `number` is 9 or 10; `place` and `status` are those that were given. */
    CIRSTUMBE_EVENT_REFUSED = 0,
    /* `note` and `velocity`, above 0 and at most 1. */
    CIRSTUMBE_EVENT_ON = 1,
    /* `note`. */
    CIRSTUMBE_EVENT_OFF = 2,
    /* Controller 64: `down`. */
    CIRSTUMBE_EVENT_PEDAL = 3,
    /* Controllers 123 to 127. */
    CIRSTUMBE_EVENT_ALL_OFF = 4,
    /* The wheel, `bend` from 0 to 16,383 with 8,192 in the middle. */
    CIRSTUMBE_EVENT_BEND = 5,
    /* Any other message of a channel. */
    CIRSTUMBE_EVENT_OTHER = 6,
    /* The stream is read to its end. */
    CIRSTUMBE_EVENT_END = 7
};

/* What an instrument is made from. */
typedef struct HostDesign {
    uint32_t sample_rate;
    uint32_t max_voices; /* How many may sound at once; the table holds twice as many. */
    uint32_t mode;
    uint32_t unison; /* Copies of a voice; 0 is taken as 1. */
    float unison_width; /* Stereo width of the copies. */
    float a; /* Attack, seconds. */
    float d; /* Decay, seconds. */
    float s; /* Sustain, a level. */
    float r; /* Release, seconds. */
    float glide; /* Part of the way to the new pitch that a Mono voice goes in each frame; 1 is at once. */
    float vibrato_rate; /* Of each modulation the rate in hertz and the depth; it is active where both are above 0. */
    float vibrato_cents;
    float tremolo_rate;
    float tremolo_depth;
    float filter_rate;
    float filter_octaves;
} HostDesign;

/* One of a voice's copies. */
typedef struct HostCopy {
    float l; /* Gain on the left. */
    float r; /* Gain on the right. */
    float pitch;
    float pitch_target;
    float glide;
    float bend;
    uint32_t cutoff_set; /* 0 or 1. */
    float cutoff; /* Scale for the host's filter, where cutoff_set is 1. */
} HostCopy;

/* A gated envelope. */
typedef struct HostEnv {
    float a;
    float d;
    float s;
    float r;
    float sr; /* Sample rate. */
    uint32_t stage;
    float level; /* The envelope's present value. */
    float rel_from; /* The level from which the release runs down. */
} HostEnv;

typedef struct HostVoice {
    uint64_t handle;
    size_t copy_count;
    HostCopy copies[CIRSTUMBE_COPIES]; /* Up to copy_count. */
    HostEnv env;
    float built_hz; /* The frequency for which the host built the copies. */
    float gain; /* The velocity. */
    uint32_t releasing; /* 0 or 1. */
    uint32_t sustained; /* 0 or 1: only the pedal holds it. */
    uint8_t note;
} HostVoice;

/* An instrument. A host reads it freely and changes it through the calls. */
typedef struct HostState {
    HostDesign design;
    HostVoice voices[CIRSTUMBE_VOICES]; /* The table, oldest first, up to voice_count. */
    size_t voice_count;
    uint64_t next_handle;
    uint32_t sustain; /* 0 or 1: the pedal. */
    float bend;
    float brightness;
    float vib_phase; /* Phases of the modulation, in turns: what the host's factors for a plan are computed from. */
    float flt_phase;
    float trem_phase;
    float trem; /* Present gain of the tremolo. */
    uint8_t held[CIRSTUMBE_NOTES]; /* Mono: the keys that are down, oldest first, up to held_count. */
    size_t held_count;
    size_t frames; /* Of the open block, 0 where none is open. */
} HostState;

typedef struct HostReply {
    uint32_t kind;
    uint32_t number;
    uint64_t handle;
    uint64_t killed;
    uint64_t taken;
    uint32_t found;
    size_t count;
} HostReply;

typedef struct HostOutcome {
    HostReply reply;
    HostState state;
} HostOutcome;

typedef struct HostMixOutcome {
    HostReply reply;
    uint64_t ended[CIRSTUMBE_VOICES]; /* reply.count handles in table order, then zeros. */
    HostState state;
} HostMixOutcome;

typedef struct HostEnvOutcome {
    uint32_t number; /* 0, or 1 where the stage has no meaning. */
    HostEnv env;
} HostEnvOutcome;

typedef struct HostEvent {
    uint32_t kind;
    uint32_t number;
    size_t place;
    float velocity;
    uint32_t bend;
    uint32_t down;
    uint8_t status;
    uint8_t note;
} HostEvent;

/* A fresh instrument: READY, or refused 2 or 3 with a state of zeros, which every other call refuses. */
HostOutcome cirstumbe_new(HostDesign design);

/* Strikes a key: STARTED, SILENT, KEPT, or OFF at velocity 0. `velocity` is brought into 0 to 1 and a NaN counts as 0. `built` other than 0
 * says that the host has built the copies. Refused 1, 5, 8. */
HostOutcome cirstumbe_note_on(HostState h, uint8_t note, float velocity, uint32_t built);

/* Lets a key go: OFF. Refused 1, 5. */
HostOutcome cirstumbe_note_off(HostState h, uint8_t note);

/* The pedal, `down` other than 0 for down: DONE. Refused 1, 5. */
HostOutcome cirstumbe_set_sustain(HostState h, uint32_t down);

/* The wheel as a frequency factor, 1 in the middle: DONE. Refused 1, 5. */
HostOutcome cirstumbe_set_bend(HostState h, float factor);

/* The cutoff of every copy, at least 0.01: DONE. Refused 1, 5. */
HostOutcome cirstumbe_set_brightness(HostState h, float scale);

/* Releases one voice, whatever the pedal does: RELEASED. Refused 1, 5. */
HostOutcome cirstumbe_release(HostState h, uint64_t handle);

/* Releases every voice and forgets the held keys: DONE. Refused 1, 5. */
HostOutcome cirstumbe_all_notes_off(HostState h);

/* Opens a block: PLANNED. Writes `frames` pitch factors for each copy, voice after voice, copy after copy; the frequency of a copy in a
 * frame is built_hz times its number. The curve's length is frames x voices x copies of a voice. The three factors count only where the modulation is active:
 * the vibrato's frequency factor, the filter's cutoff factor and the tremolo's sine, all at the state's present phases. Refused 1, 5, 4, 7. */
HostOutcome cirstumbe_plan(HostState h, size_t frames, float vibrato, float filter, float tremolo_sine,
                           float *curve, size_t curve_len);

/* Closes the block: MIXED. Reads the copies' samples in the order of the curve, whose length is theirs, and writes the sum, left before right,
 * 2 x frames numbers. Voices that have run down leave the table and are reported. Refused 1, 6, 7. */
HostMixOutcome cirstumbe_mix(HostState h, const float *samples, size_t samples_len, float *out, size_t out_len);

/* Queries, also while a block is open. Refused 1. */

/* ACTIVE: whether the handle is in the table. */
HostReply cirstumbe_is_active(HostState h, uint64_t handle);

/* VOICE_COUNT. */
HostReply cirstumbe_active_voices(HostState h);

/* HANDLE or NO_HANDLE: a voice of the note that is not releasing; where there are several, which of them is open. */
HostReply cirstumbe_voice_of(HostState h, uint8_t note);

/* One frame of an envelope that the host keeps; the level of the record that comes back is the frame's value. Refused 1, with the record unchanged. */
HostEnvOutcome cirstumbe_env_tick(HostEnv env);

/* The next event of a byte stream from a place with a running status, 0 for none. To go on, give the event's place and status. Refused 9, 10. */
HostEvent cirstumbe_midi_step(const uint8_t *stream, size_t stream_len, size_t place, uint8_t status);

#ifdef __cplusplus
}
#endif

#endif

/* Plays the instrument through the C header and checks what comes back. Prints "c: N checks" and exits 0, or names the first check that fails. */
#include "cirstumbe.h"
#include <math.h>
#include <stdio.h>
#include <stdlib.h>
#include <string.h>

static int checks = 0;

static void check(int holds, const char *what, int line) {
    checks++;
    if (!holds) {
        fprintf(stderr, "c: line %d: %s\n", line, what);
        exit(1);
    }
}

#define CHECK(holds) check((holds), #holds, __LINE__)

/* An envelope that opens at once and holds half of the level. */
static HostDesign plain(uint32_t max_voices) {
    HostDesign design;
    memset(&design, 0, sizeof design);
    design.sample_rate = 48000;
    design.max_voices = max_voices;
    design.mode = CIRSTUMBE_POLY;
    design.unison = 1;
    design.s = 0.5f;
    design.glide = 1.0f;
    return design;
}

static HostState fresh(HostDesign design) {
    HostOutcome made = cirstumbe_new(design);
    CHECK(made.reply.kind == CIRSTUMBE_READY);
    CHECK(made.state.next_handle == 1 && made.state.voice_count == 0);
    return made.state;
}

/* Strikes a key and checks the reply. */
static HostState strike(HostState state, uint8_t note, float velocity, uint64_t handle, uint64_t killed, uint64_t taken) {
    HostOutcome struck = cirstumbe_note_on(state, note, velocity, 1);
    CHECK(struck.reply.kind == CIRSTUMBE_STARTED && struck.reply.number == 0);
    CHECK(struck.reply.handle == handle);
    CHECK(struck.reply.killed == killed && struck.reply.taken == taken);
    return struck.state;
}

static void chord(void) {
    HostState state = fresh(plain(8));
    state = strike(state, 60, 0.5f, 1, 0, 0);
    state = strike(state, 64, 0.5f, 2, 0, 0);
    state = strike(state, 67, 0.5f, 3, 0, 0);
    CHECK(cirstumbe_active_voices(state).kind == CIRSTUMBE_VOICE_COUNT);
    CHECK(cirstumbe_active_voices(state).count == 3);
    CHECK(state.voices[1].note == 64 && state.voices[1].gain == 0.5f);
    CHECK(cirstumbe_voice_of(state, 67).kind == CIRSTUMBE_HANDLE && cirstumbe_voice_of(state, 67).handle == 3);
    CHECK(cirstumbe_voice_of(state, 68).kind == CIRSTUMBE_NO_HANDLE);
    CHECK(cirstumbe_is_active(state, 2).found == 1 && cirstumbe_is_active(state, 4).found == 0);

    HostOutcome silent = cirstumbe_note_on(state, 70, 1.0f, 0);
    CHECK(silent.reply.kind == CIRSTUMBE_SILENT && silent.reply.handle == 4);
    CHECK(silent.state.voice_count == 3 && silent.state.next_handle == 5);
    HostOutcome off = cirstumbe_note_on(state, 60, 0.0f, 1);
    CHECK(off.reply.kind == CIRSTUMBE_OFF && off.reply.found == 1);
    CHECK(off.state.voices[0].releasing == 1);
}

static void steal(void) {
    HostState state = fresh(plain(1));
    state = strike(state, 60, 1.0f, 1, 0, 0);
    state = strike(state, 64, 0.5f, 2, 1, 0);
    state = strike(state, 67, 1.0f, 3, 2, 1);
    CHECK(state.voice_count == 2);
    CHECK(state.voices[0].handle == 2 && state.voices[1].handle == 3);
    CHECK(state.voices[0].env.stage == CIRSTUMBE_RELEASE);
}

static void pedal(void) {
    HostState state = strike(fresh(plain(8)), 60, 1.0f, 1, 0, 0);
    HostOutcome down = cirstumbe_set_sustain(state, 1);
    CHECK(down.reply.kind == CIRSTUMBE_DONE && down.state.sustain == 1);
    HostOutcome off = cirstumbe_note_off(down.state, 60);
    CHECK(off.reply.kind == CIRSTUMBE_OFF && off.reply.found == 1);
    CHECK(off.state.voices[0].sustained == 1 && off.state.voices[0].releasing == 0);
    HostOutcome up = cirstumbe_set_sustain(off.state, 0);
    CHECK(up.state.voices[0].sustained == 0 && up.state.voices[0].releasing == 1);
}

/* A note of four frames, then its end. */
static void render(void) {
    enum { FRAMES = 4 };
    float curve[FRAMES], samples[FRAMES], out[2 * FRAMES];
    HostState state = strike(fresh(plain(8)), 69, 0.8f, 1, 0, 0);
    state = cirstumbe_set_bend(state, 1.5f).state;
    HostOutcome planned = cirstumbe_plan(state, FRAMES, 1.0f, 1.0f, 0.0f, curve, FRAMES);
    CHECK(planned.reply.kind == CIRSTUMBE_PLANNED && planned.state.frames == FRAMES);
    for (int f = 0; f < FRAMES; f++) {
        CHECK(curve[f] == 1.5f);
        samples[f] = sinf(6.2831853f * planned.state.voices[0].built_hz * curve[f] * (float)f / 48000.0f);
    }
    HostMixOutcome mixed = cirstumbe_mix(planned.state, samples, FRAMES, out, 2 * FRAMES);
    CHECK(mixed.reply.kind == CIRSTUMBE_MIXED && mixed.reply.count == 0 && mixed.state.frames == 0);
    for (int f = 0; f < FRAMES; f++) {
        float level = f == 0 ? 1.0f : 0.5f;
        float side = samples[f] * (level * 0.8f);
        CHECK(out[2 * f] == side && out[2 * f + 1] == side);
    }
    HostOutcome released = cirstumbe_release(mixed.state, 1);
    CHECK(released.reply.kind == CIRSTUMBE_RELEASED && released.reply.found == 1);
    planned = cirstumbe_plan(released.state, 1, 1.0f, 1.0f, 0.0f, curve, 1);
    mixed = cirstumbe_mix(planned.state, samples, 1, out, 2);
    CHECK(mixed.reply.count == 1 && mixed.ended[0] == 1 && mixed.ended[1] == 0);
    CHECK(mixed.state.voice_count == 0);
}

static void refusals(void) {
    HostState state = strike(fresh(plain(8)), 60, 1.0f, 1, 0, 0);
    float curve[3] = {7.0f, 7.0f, 7.0f};
    HostOutcome planned = cirstumbe_plan(state, 2, 1.0f, 1.0f, 0.0f, curve, 3);
    CHECK(planned.reply.kind == CIRSTUMBE_REFUSED && planned.reply.number == CIRSTUMBE_LENT_LENGTH);
    CHECK(curve[0] == 7.0f && curve[1] == 7.0f && curve[2] == 7.0f);
    CHECK(cirstumbe_mix(state, curve, 1, curve + 1, 2).reply.number == CIRSTUMBE_NO_BLOCK);
    planned = cirstumbe_plan(state, 2, 1.0f, 1.0f, 0.0f, curve, 2);
    CHECK(cirstumbe_note_off(planned.state, 60).reply.number == CIRSTUMBE_BLOCK_OPEN);
    CHECK(cirstumbe_plan(state, 0, 1.0f, 1.0f, 0.0f, curve, 0).reply.number == CIRSTUMBE_FRAMES);

    HostState damaged = state;
    damaged.design.mode = 3;
    HostOutcome struck = cirstumbe_note_on(damaged, 62, 1.0f, 1);
    CHECK(struck.reply.kind == CIRSTUMBE_REFUSED && struck.reply.number == CIRSTUMBE_NOT_WELL_FORMED);
    CHECK(struck.state.design.mode == 3 && struck.state.voice_count == 1 && struck.state.next_handle == 2);
    HostDesign design = plain(8);
    design.mode = 3;
    CHECK(cirstumbe_new(design).reply.number == CIRSTUMBE_DESIGN_NUMBER);
    design = plain(8);
    design.s = NAN;
    CHECK(cirstumbe_new(design).reply.number == CIRSTUMBE_DESIGN_FLOAT);
}

/* Every field of the small record goes in and comes back. */
static void envelope(void) {
    HostEnv env = {1.0f / 2048.0f, 0.25f, 0.5f, 0.125f, 8192.0f, CIRSTUMBE_ATTACK, 0.0f, 0.75f};
    for (int f = 1; f <= 4; f++) {
        HostEnvOutcome ticked = cirstumbe_env_tick(env);
        CHECK(ticked.number == 0 && ticked.env.level == (float)f / 4.0f);
        CHECK(ticked.env.stage == (f < 4 ? CIRSTUMBE_ATTACK : CIRSTUMBE_DECAY));
        CHECK(ticked.env.a == env.a && ticked.env.d == env.d && ticked.env.s == env.s && ticked.env.r == env.r);
        CHECK(ticked.env.sr == env.sr && ticked.env.rel_from == env.rel_from);
        env = ticked.env;
    }
    env.stage = 5;
    HostEnvOutcome refused = cirstumbe_env_tick(env);
    CHECK(refused.number == CIRSTUMBE_NOT_WELL_FORMED);
    CHECK(memcmp(&refused.env, &env, sizeof env) == 0);
}

/* The stream is read step by step; each event brings the next place and status. */
static void midi(void) {
    static const uint8_t stream[] = {0x90, 0x3C, 0x7F, 0xF8, 0x3E, 0x00, 0xB0, 0x40, 0x7F, 0x7B, 0x00,
                                     0xE0, 0x01, 0x40, 0xC0, 0x05, 0x80, 0x3C};
    static const HostEvent expected[] = {
        {CIRSTUMBE_EVENT_ON, 0, 3, 1.0f, 0, 0, 0x90, 60},
        {CIRSTUMBE_EVENT_OFF, 0, 6, 0.0f, 0, 0, 0x90, 62},
        {CIRSTUMBE_EVENT_PEDAL, 0, 9, 0.0f, 0, 1, 0xB0, 0},
        {CIRSTUMBE_EVENT_ALL_OFF, 0, 11, 0.0f, 0, 0, 0xB0, 0},
        {CIRSTUMBE_EVENT_BEND, 0, 14, 0.0f, 8193, 0, 0xE0, 0},
        {CIRSTUMBE_EVENT_OTHER, 0, 16, 0.0f, 0, 0, 0xC0, 0},
        {CIRSTUMBE_EVENT_REFUSED, CIRSTUMBE_MIDI_CUT, 16, 0.0f, 0, 0, 0xC0, 0},
    };
    size_t place = 0;
    uint8_t status = 0;
    for (size_t i = 0; i < sizeof expected / sizeof *expected; i++) {
        HostEvent e = cirstumbe_midi_step(stream, sizeof stream, place, status);
        const HostEvent *x = &expected[i];
        CHECK(e.kind == x->kind && e.number == x->number && e.place == x->place && e.velocity == x->velocity);
        CHECK(e.bend == x->bend && e.down == x->down && e.status == x->status && e.note == x->note);
        place = e.place;
        status = e.status;
    }
    CHECK(cirstumbe_midi_step(stream, 16, place, status).kind == CIRSTUMBE_EVENT_END);
    CHECK(cirstumbe_midi_step(stream, 16, 17, 0).number == CIRSTUMBE_MIDI_PLACE);
}

int main(void) {
    chord();
    steal();
    pedal();
    render();
    refusals();
    envelope();
    midi();
    printf("c: %d checks\n", checks);
    return 0;
}

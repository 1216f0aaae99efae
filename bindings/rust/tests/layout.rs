//! Sizes, offsets and numbers of `sys` are those that `bindings/c/layout.c` asserts of the C header.

use cirstumbe::sys::*;
use std::mem::{offset_of, size_of};

macro_rules! records {
    ($($record:ident { $($field:ident),* })*) => {{
        let mut lines = Vec::new();
        $(
            // A record with a field that is not listed does not compile.
            let _ = |record: $record| {
                let $record { $($field: _),* } = record;
            };
            lines.push(format!("SIZE({}, {});", stringify!($record), size_of::<$record>()));
            $(
                let at = offset_of!($record, $field);
                lines.push(format!("PLACE({}, {}, {at});", stringify!($record), stringify!($field)));
            )*
        )*
        lines
    }};
}

macro_rules! numbers {
    ($($name:ident)*) => {
        vec![$(format!("NUMBER({}, {});", stringify!($name), $name)),*]
    };
}

#[rustfmt::skip]
fn expected() -> Vec<String> {
    let mut lines = records! {
        HostDesign {
            sample_rate, max_voices, mode, unison, unison_width, a, d, s, r, glide, vibrato_rate, vibrato_cents,
            tremolo_rate, tremolo_depth, filter_rate, filter_octaves
        }
        HostCopy { l, r, pitch, pitch_target, glide, bend, cutoff_set, cutoff }
        HostEnv { a, d, s, r, sr, stage, level, rel_from }
        HostVoice { handle, copy_count, copies, env, built_hz, gain, releasing, sustained, note }
        HostState {
            design, voices, voice_count, next_handle, sustain, bend, brightness, vib_phase, flt_phase, trem_phase, trem,
            held, held_count, frames
        }
        HostReply { kind, number, handle, killed, taken, found, count }
        HostOutcome { reply, state }
        HostMixOutcome { reply, ended, state }
        HostEnvOutcome { number, env }
        HostEvent { kind, number, place, velocity, bend, down, status, note }
    };
    lines.extend(numbers! {
        VOICES COPIES NOTES
        NOT_WELL_FORMED DESIGN_NUMBER DESIGN_FLOAT FRAMES BLOCK_OPEN NO_BLOCK LENT_LENGTH NO_HANDLE_LEFT MIDI_PLACE MIDI_CUT
        REFUSED STARTED SILENT KEPT OFF DONE RELEASED PLANNED MIXED READY ACTIVE VOICE_COUNT HANDLE NO_HANDLE
        POLY MONO MONO_LEGATO
        IDLE ATTACK DECAY SUSTAIN RELEASE
        EVENT_REFUSED EVENT_ON EVENT_OFF EVENT_PEDAL EVENT_ALL_OFF EVENT_BEND EVENT_OTHER EVENT_END
    });
    lines
}

#[test]
fn the_c_header_has_this_layout() {
    let asserted: Vec<&str> = include_str!("../../c/layout.c")
        .lines()
        .filter(|line| ["SIZE(", "PLACE(", "NUMBER("].iter().any(|start| line.starts_with(start)))
        .collect();
    assert_eq!(asserted, expected());
}

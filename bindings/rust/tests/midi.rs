//! Events of byte streams.

use cirstumbe::{MidiEvent, MidiReader, Refusal};

type Item = Result<MidiEvent, Refusal>;

fn events(stream: &[u8]) -> Vec<Item> {
    MidiReader::new(stream).collect()
}

fn on(note: u8, velocity: u8) -> Item {
    Ok(MidiEvent::On { note, velocity: f32::from(velocity) / 127.0 })
}

#[test]
fn running_status_and_real_time_bytes() {
    let stream = [0x90, 0x3C, 0x40, 0xF8, 0x3E, 0x40];
    assert_eq!(events(&stream), [on(60, 64), on(62, 64)]);
}

#[test]
fn every_kind() {
    let stream = [
        0x95, 0x3C, 0x7F, 0x85, 0x3C, 0x40, 0x90, 0x3C, 0x00, 0xB0, 0x40, 0x40, 0x40, 0x3F, 0xB3,
        0x7B, 0x00, 0xE0, 0x00, 0x40, 0x7F, 0x7F, 0xC0, 0x05, 0xB0, 0x07, 0x64,
    ];
    let wheel = |wheel| Ok(MidiEvent::Bend { wheel });
    let pedal = |down| Ok(MidiEvent::Pedal { down });
    let off = Ok(MidiEvent::Off { note: 60 });
    let other = Ok(MidiEvent::Other);
    let expected = [
        Ok(MidiEvent::On { note: 60, velocity: 1.0 }),
        off,
        off,
        pedal(true),
        pedal(false),
        Ok(MidiEvent::AllOff),
        wheel(8_192),
        wheel(16_383),
        other,
        other,
    ];
    assert_eq!(events(&stream), expected);
}

#[test]
fn exclusive_data_vanish_and_clear_the_status() {
    let stream = [0x90, 0x3C, 0x40, 0xF0, 0x01, 0x02, 0xF7, 0x3E, 0x40, 0x80, 0x3C, 0x00];
    assert_eq!(events(&stream), [on(60, 64), Ok(MidiEvent::Off { note: 60 })]);
}

#[test]
fn a_cut_message_is_refused_10_where_it_began() {
    let stream = [0x90, 0x3C, 0x40, 0x3E];
    let mut reader = MidiReader::new(&stream);
    assert_eq!(reader.next(), Some(on(60, 64)));
    assert_eq!(reader.next(), Some(Err(Refusal::MidiCut)));
    assert_eq!((reader.place(), reader.status()), (3, 0x90));
    assert_eq!(reader.next(), None);
    let whole = [0x90, 0x3C, 0x40, 0x3E, 0x40];
    let mut reader = MidiReader::at(&whole, reader.place(), reader.status());
    assert_eq!(reader.next(), Some(on(62, 64)));
    assert_eq!((reader.next(), reader.next(), reader.place()), (None, None, 5));
}

#[test]
fn a_place_or_status_that_is_none_is_refused_9() {
    let stream = [0x90, 0x3C, 0x40];
    for (place, status) in [(4, 0), (usize::MAX, 0), (0, 0x7F), (0, 0xF0), (0, 1)] {
        let mut reader = MidiReader::at(&stream, place, status);
        assert_eq!(reader.next(), Some(Err(Refusal::MidiPlace)));
        assert_eq!((reader.place(), reader.status()), (place, status));
        assert_eq!(reader.next(), None);
    }
    assert_eq!(MidiReader::at(&stream, 3, 0xEF).next(), None);
    assert_eq!(MidiReader::new(&[]).next(), None);
}

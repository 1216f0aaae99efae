//! Document 01's reader of MIDI bytes, written plainly; the Rust has none.

pub enum Event {
    On(u8, f32),
    Off(u8),
    Pedal(bool),
    AllOff,
    Bend(u32),
    Other,
}

pub enum Step {
    Event(Event),
    End,
    Refused(u32),
}

#[derive(Clone, Copy)]
pub struct Cursor {
    pub place: usize,
    pub status: u8,
}

fn event(status: u8, a: u8, b: u8) -> Event {
    match (status >> 4, a) {
        (0x9, _) if b > 0 => Event::On(a, b as f32 / 127.0),
        (0x8 | 0x9, _) => Event::Off(a),
        (0xB, 64) => Event::Pedal(b >= 64),
        (0xB, 123..) => Event::AllOff,
        (0xE, _) => Event::Bend(a as u32 + 128 * b as u32),
        _ => Event::Other,
    }
}

/// One step, and the cursor after it. A refusal gives the cursor back as it was.
pub fn step(stream: &[u8], from: Cursor) -> (Step, Cursor) {
    if from.place > stream.len() || !(from.status == 0 || (0x80..=0xEF).contains(&from.status)) {
        return (Step::Refused(9), from);
    }
    let mut status = from.status;
    // The first of two data bytes, once it was read.
    let mut first = None;
    let mut inside = false;
    for (i, &byte) in stream.iter().enumerate().skip(from.place) {
        match byte {
            0xF8.. => {}
            0xF0..=0xF7 => {
                status = 0;
                inside = false;
                first = None;
            }
            0x80..=0xEF => {
                status = byte;
                inside = true;
                first = None;
            }
            _ if status == 0 => {}
            _ => {
                inside = true;
                let one = matches!(status >> 4, 0xC | 0xD);
                match first {
                    None if !one => first = Some(byte),
                    _ => {
                        let e = event(status, first.unwrap_or(byte), byte);
                        return (Step::Event(e), Cursor { place: i + 1, status });
                    }
                }
            }
        }
    }
    if inside {
        return (Step::Refused(10), from);
    }
    (Step::End, Cursor { place: stream.len(), status })
}

//! The handle account over long random runs.

mod common;

use cirstumbe::{Account, Adsr, Design, Instrument, Modulation, PlayMode, Refusal, Struck};
use common::Random;

fn design(mode: PlayMode, random: &mut Random) -> Design {
    let rate = random.below(2) as f32 * 5.0;
    Design {
        sample_rate: 8_000,
        max_voices: 1 + random.below(4) as u32,
        mode,
        unison: random.below(4) as u32,
        unison_width: 0.5,
        amp: Adsr { a: 0.001, d: 0.002, s: random.below(2) as f32 * 0.5, r: 0.003 },
        glide: 0.5,
        modulation: Modulation { vibrato_rate: rate, vibrato_cents: 50.0, ..Modulation::default() },
    }
}

fn step(
    instrument: &mut Instrument,
    account: &mut Account,
    random: &mut Random,
) -> Result<(), Refusal> {
    let note = 60 + random.below(6) as u8;
    match random.below(12) {
        0..=4 => {
            let velocity = random.below(5) as f32 / 4.0;
            account.note_on(instrument, note, velocity, random.below(5) != 0).map(drop)
        }
        5 | 6 => instrument.note_off(note).map(drop),
        7 => instrument.set_sustain(random.below(3) == 0),
        8 => instrument.release(1 + random.below(instrument.state().next_handle)).map(drop),
        9 if random.below(8) == 0 => instrument.all_notes_off(),
        9 => instrument.set_bend(1.0 + random.below(3) as f32 / 8.0),
        _ => {
            let frames = 1 + random.below(64) as usize;
            let mut curve = vec![0.0; instrument.curve_len(frames)];
            instrument.plan(frames, instrument.factors(), &mut curve)?;
            let mut out = vec![0.0; 2 * frames];
            account.mix(instrument, &curve, &mut out).map(drop)
        }
    }
}

#[test]
fn each_issued_handle_stands_in_exactly_one_place() -> Result<(), Refusal> {
    let modes = [PlayMode::Poly, PlayMode::Mono { legato: false }, PlayMode::Mono { legato: true }];
    for seed in 0..30 {
        let mut random = Random(seed);
        let design = design(modes[seed as usize % 3], &mut random);
        let mut instrument = Instrument::new(design)?;
        let mut account = Account::new();
        for _ in 0..1_000 {
            step(&mut instrument, &mut account, &mut random)?;
        }
        let statement = account.statement(&instrument);
        assert!(statement.balances(), "seed {seed}\n{statement}");
        assert!(!statement.ended.is_empty() && !statement.silent.is_empty(), "{statement}");
        let next = instrument.state().next_handle;
        assert!(statement.issued.iter().copied().eq(1..next), "{statement}");
    }
    Ok(())
}

#[test]
fn an_account_that_missed_a_reply_does_not_balance() -> Result<(), Refusal> {
    let mut instrument = Instrument::new(Design { max_voices: 1, ..Design::default() })?;
    let mut account = Account::new();
    for _ in 0..3 {
        account.note_on(&mut instrument, 60, 1.0, true)?;
    }
    let statement = account.statement(&instrument);
    assert!(statement.balances());
    assert_eq!((&statement.taken[..], &statement.in_table[..]), (&[1][..], &[2, 3][..]));

    let unseen = instrument.note_on(60, 1.0, true)?;
    assert!(!account.statement(&instrument).balances());
    account.struck(unseen);
    assert!(account.statement(&instrument).balances());
    account.struck(Struck::Silent(4));
    assert!(!account.statement(&instrument).balances());
    Ok(())
}

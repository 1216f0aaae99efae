//! The handle account of a run.

use crate::instrument::{Ended, Instrument, Struck};
use crate::refusal::Refusal;
use std::fmt;

/// Keeps where the handles of a run went. It is to see every note-on and every mix of an instrument from its start on: strike and
/// mix through it, or show it the replies.
#[derive(Clone, Debug, Default)]
pub struct Account {
    issued: Vec<u64>,
    silent: Vec<u64>,
    taken: Vec<u64>,
    ended: Vec<u64>,
}

impl Account {
    /// The account of a fresh instrument.
    pub fn new() -> Account {
        Account::default()
    }

    /// Enters the reply to a note-on.
    pub fn struck(&mut self, struck: Struck) {
        match struck {
            Struck::Started { handle, taken, .. } => {
                self.issued.push(handle);
                if taken != 0 {
                    self.taken.push(taken);
                }
            }
            Struck::Silent(handle) => {
                self.issued.push(handle);
                self.silent.push(handle);
            }
            Struck::Kept(_) | Struck::Off(_) => {}
        }
    }

    /// Enters the report of a mix.
    pub fn mixed(&mut self, ended: &Ended) {
        self.ended.extend_from_slice(ended.handles());
    }

    /// [`Instrument::note_on`], entered.
    pub fn note_on(
        &mut self,
        instrument: &mut Instrument,
        note: u8,
        velocity: f32,
        built: bool,
    ) -> Result<Struck, Refusal> {
        let struck = instrument.note_on(note, velocity, built)?;
        self.struck(struck);
        Ok(struck)
    }

    /// [`Instrument::mix`], entered.
    pub fn mix(
        &mut self,
        instrument: &mut Instrument,
        samples: &[f32],
        out: &mut [f32],
    ) -> Result<Ended, Refusal> {
        let ended = instrument.mix(samples, out)?;
        self.mixed(&ended);
        Ok(ended)
    }

    /// The account as it stands, with the voices that are in the table now.
    pub fn statement(&self, instrument: &Instrument) -> Statement {
        Statement {
            issued: self.issued.clone(),
            silent: self.silent.clone(),
            taken: self.taken.clone(),
            ended: self.ended.clone(),
            in_table: instrument.voices().iter().map(|voice| voice.handle).collect(),
        }
    }
}

/// Where the handles of a run are.
#[derive(Clone, Debug, PartialEq, Eq)]
pub struct Statement {
    /// Given out by started and silent replies, in order.
    pub issued: Vec<u64>,
    /// Answered silent.
    pub silent: Vec<u64>,
    /// Taken out of the table by a note-on.
    pub taken: Vec<u64>,
    /// Reported by a mix.
    pub ended: Vec<u64>,
    /// Still in the table.
    pub in_table: Vec<u64>,
}

impl Statement {
    /// Whether no handle was issued twice, and the four places joined, repeats kept, are the issued handles in some order.
    pub fn balances(&self) -> bool {
        let mut issued = self.issued.clone();
        issued.sort_unstable();
        if issued.windows(2).any(|pair| pair[0] == pair[1]) {
            return false;
        }
        let places = [&self.silent, &self.taken, &self.ended, &self.in_table];
        let mut joined: Vec<u64> = places.into_iter().flatten().copied().collect();
        joined.sort_unstable();
        joined == issued
    }
}

impl fmt::Display for Statement {
    fn fmt(&self, f: &mut fmt::Formatter) -> fmt::Result {
        let rows = [
            ("issued", &self.issued),
            ("silent", &self.silent),
            ("taken out", &self.taken),
            ("ended", &self.ended),
            ("in the table", &self.in_table),
        ];
        for (name, handles) in rows {
            write!(f, "{name:<12} {:>5}", handles.len())?;
            for handle in handles {
                write!(f, " {handle}")?;
            }
            writeln!(f)?;
        }
        let word = if self.balances() { "yes" } else { "NO" };
        write!(f, "each issued handle stands in exactly one place: {word}")
    }
}

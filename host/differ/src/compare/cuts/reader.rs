//! What a flash answers when it is opened, and how that is judged after a power cut.

use image::{hex, BANK};

use crate::store::book::PART;
use crate::store::lent::call::{Answer, Call, What};
use crate::store::lent::state::{State, STATE};
use crate::store::lent::{Lent, Port, Standing};

/// What a store answers to each key and type: a value, or that there is none.
#[derive(Clone, Debug, PartialEq)]
pub struct Answers {
    /// The active bank, which they are of.
    bank: Vec<u8>,
    values: Vec<Option<Vec<u8>>>,
}

/// What became of a flash.
#[must_use]
#[derive(Clone, Copy, Debug, PartialEq)]
pub enum Verdict {
    /// Each key and type answers as before the commit or as after it.
    Kept,
    /// This answer is neither.
    ValueLost(usize),
    /// The opening is refused, or lookups are.
    StoreLost,
}

/// Opens flashes, and looks the same keys up in each.
pub struct Reader {
    keys: Vec<Vec<u8>>,
    /// Opened from the last flash.
    pub store: Lent,
}

impl Reader {
    pub fn new(port: Port, keys: &[Vec<u8>], flash: &[u8]) -> Self {
        let work = vec![0; flash.len() / BANK * PART];
        Reader {
            keys: keys.to_vec(),
            store: Lent::new(port, Standing::Guarded(0), &[0; STATE], &work),
        }
    }

    /// Opens a flash; `None` where that is refused, or lookups are. The keys of a bank whose
    /// answers are known are not looked up again.
    pub fn flash(&mut self, flash: &[u8], known: &[&Answers]) -> Result<Option<Answers>, String> {
        if self.store.open(flash)? != 0 {
            return Ok(None);
        }
        let bank = active(&self.store);
        match known.iter().find(|answers| answers.bank == bank) {
            Some(&answers) => Ok(Some(answers.clone())),
            None => answers(&self.keys, &mut self.store),
        }
    }

    /// What an open store answers; `None` where lookups are refused.
    pub fn answers(&self, store: &mut Lent) -> Result<Option<Answers>, String> {
        answers(&self.keys, store)
    }

    /// A verdict in words.
    pub fn told(&self, verdict: Verdict) -> String {
        match verdict {
            Verdict::Kept => "all is kept".to_string(),
            Verdict::ValueLost(at) => {
                let key = hex(&self.keys[at / 2]);
                format!("another value, or none, under key {key}, type {}", at % 2)
            }
            Verdict::StoreLost => "the flash or its lookups are refused".to_string(),
        }
    }
}

/// What a flash answers, held against the two that it may answer.
pub fn judge(now: Option<&Answers>, [was, is]: [&Answers; 2]) -> Verdict {
    let Some(now) = now else {
        return Verdict::StoreLost;
    };
    let either = was.values.iter().zip(&is.values);
    let mut all = now.values.iter().zip(either);
    let lost = all.position(|(now, (was, is))| now != was && now != is);
    lost.map_or(Verdict::Kept, Verdict::ValueLost)
}

fn answers(keys: &[Vec<u8>], store: &mut Lent) -> Result<Option<Answers>, String> {
    let mut values = Vec::with_capacity(2 * keys.len());
    for key in keys {
        for typ in [0, 1] {
            let lookup = Call::new(What::Lookup, key, typ);
            let Answer::Lookup(0, [found, place, length]) = store.ask(&lookup)? else {
                return Ok(None);
            };
            let value = &store.work.slice()[place as usize..(place + length) as usize];
            values.push((found == 1).then(|| value.to_vec()));
        }
    }
    let bank = active(store);
    Ok(Some(Answers { bank, values }))
}

/// The active bank's bytes in the work area, header and all records.
fn active(store: &Lent) -> Vec<u8> {
    let state = State::read(store.state.slice()).expect("a state's bytes");
    let active = state.active as usize;
    let total = state.entries[active].total as usize;
    store.work.slice()[active * PART..active * PART + total].to_vec()
}

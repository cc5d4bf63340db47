//! The bench case of the scope paper (01) that is run: n 2, S 65,536, L 8,192, at least 114,690
//! bytes between erases.

use image::{Header, Record, BANK, HEADER, RECORD};

use super::pieces::{held, put};
use crate::store::lent::call::Call;
use crate::store::run::wear::Pair;
use crate::store::run::Run;

/// What header and live records come to at every commit; 01 calls it L.
const LIVE: usize = 8_192;
/// Bytes between two erase requests for one bank, at least.
const LEAST: u64 = 114_690;

/// A variable's key, and the size of its record.
type Variable = (&'static [u8], usize);

/// The two that are live at every commit. A bank that has moved is one byte over its size after
/// seven inserts of the first and eight of the second: the soonest that it can move again.
const SETTINGS: Variable = (b"settings", LIVE - HEADER - STRIKES.1);
const STRIKES: Variable = (b"strikes", 169);
const TYP: u32 = 1;
/// To the second bank, to the first, and to the second again.
const MOVES: usize = 3;

/// A commit after each insert; every move asks for an erase.
pub fn run() -> Run {
    let live = [SETTINGS, STRIKES].map(|(key, size)| Record::live(key, &value(key, size, 0)));
    let image = [image::bank(&Header::default(), &live), held(0)].concat();
    let until_moved = [[SETTINGS, STRIKES].repeat(7), vec![STRIKES]].concat();
    let inserts = (1..).zip(until_moved.repeat(MOVES));
    let calls = inserts.flat_map(|(byte, (key, size))| {
        let insert = put(key, &value(key, size, byte), TYP);
        [insert, Call::commit(BANK)]
    });
    Run::new(image, calls.collect())
}

/// The value that makes a record of this size, all of one byte.
fn value(key: &[u8], size: usize, byte: u8) -> Vec<u8> {
    vec![byte; size - RECORD - key.len() - 1]
}

/// The run's pair of requests, where it is 01's case.
pub fn measured(pair: Option<Pair>) -> Result<Pair, String> {
    let pair = pair.ok_or("two banks: none was asked to be erased twice")?;
    let case = (pair.banks, pair.size, pair.most) == (2, BANK as u64, LIVE as u64);
    if case && pair.inserted >= LEAST {
        return Ok(pair);
    }
    Err(format!("two banks: not the case of {LEAST} bytes\n  {pair}"))
}

#[cfg(test)]
mod tests {
    use super::*;
    use crate::store::lent::Port;
    use crate::store::run::compare;
    use crate::store::run::counts::{ERASES, MOVES, PAIRS, RUST_CALLED};

    #[test]
    fn the_run_meets_the_bound_exactly() {
        let run = run();
        let counts = compare(&run, Port::default()).unwrap();
        let of = |name| counts.others.of(name);
        assert_eq!((of(MOVES), of(ERASES), of(PAIRS)), (3, 3, 1));
        assert_eq!(of(RUST_CALLED), run.calls.len() as u64);
        let pair = measured(counts.fewest).unwrap();
        assert_eq!(pair.inserted, LEAST);
    }

    #[test]
    fn another_case_or_fewer_bytes_are_a_fault() {
        let case = Pair { inserted: LEAST, banks: 2, size: 65_536, most: 8_192 };
        assert_eq!(measured(Some(case)), Ok(case));
        assert!(measured(None).is_err());
        let inserted = LEAST - 1;
        let (banks, size, most) = (3, 65_535, 8_191);
        let others = [
            Pair { inserted, ..case },
            Pair { banks, ..case },
            Pair { size, ..case },
            Pair { most, ..case },
        ];
        assert!(others.iter().all(|&other| measured(Some(other)).is_err()));
    }
}

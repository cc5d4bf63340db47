//! `Store`: the same answers in its own types.

use feqyondil::{Kind, NotCommitted, Refusal, Store, Tally, VarType};

use super::input::Run;
use crate::store::book::Book;
use crate::store::lent::call::{Answer, Call, Caller, Manner, Way, What, ROOM};
use crate::store::lent::same::{same_state, same_work};
use crate::store::lent::state::{Entry, State, Tallies, EMPTY, ENTRIES, INVALID, VALID};

/// Runs it by `Store` and holds it against 01, which the calls behind it are held against too. Behind
/// each call the tallies are told.
pub fn compare(run: &Run) -> Result<(), String> {
    let before = vec![ROOM; run.work()];
    let mut work = before.clone();
    let said = Book::open(&run.image, work.len());
    let (mut book, mut store) = match (said, Store::open(&run.image, &mut work)) {
        (Ok(book), Ok(store)) => (book, store),
        (Err(number), Err(refusal)) if refusal.number() == number => {
            return same_work(&before, &work, "`Store`");
        }
        (said, store) => {
            let (store, said) = (store.err(), said.err());
            return Err(format!("`Store` opens with {store:?}, 01 with {said:?}"));
        }
    };
    same_told(&book.state(), &store)?;
    let tally = Call::tally();
    for call in run.calls.iter().flat_map(|call| [call, &tally]) {
        let (said, answer) = (book.answer(call), ask(&mut store, call));
        if said != answer {
            return Err(format!("{call}\n  01:      {said}\n  `Store`: {answer}"));
        }
        same_told(&book.state(), &store).map_err(|fault| format!("{call}{fault}"))?;
    }
    same_state(&book.state().bytes(), store.state(), "`Store`")?;
    let mut said = book.work();
    said.extend(&before[said.len()..]);
    same_work(&said, store.work(), "`Store`")
}

/// What `Store` tells of its state, number by number; of a bank behind the last, nothing.
fn same_told(said: &State, store: &Store) -> Result<(), String> {
    let Tally { clock, barrel, .. } = store.tally();
    let mut told = State {
        n: store.banks() as u32,
        active: store.active() as u32,
        tallies: Tallies { clock, barrel },
        ..State::default()
    };
    for i in 0..=ENTRIES {
        let bank = store.bank(i);
        if bank.is_some() != (i < said.n as usize) {
            return Err(format!("\n  `Store` tells {bank:?} of bank {i}"));
        }
        if let Some(bank) = bank {
            told.entries[i] = entry(bank);
        }
    }
    same_state(&said.bytes(), &told.bytes(), "`Store`")
}

fn entry(bank: feqyondil::Entry) -> Entry {
    let kind = match bank.kind {
        Kind::Empty => EMPTY,
        Kind::Invalid => INVALID,
        Kind::Valid => VALID,
    };
    Entry { kind, total: bank.total as u32, usable: bank.usable as u32 }
}

fn ask(store: &mut Store, call: &Call) -> Answer {
    let typ = match call.typ {
        0 => VarType::Common,
        _ => VarType::System,
    };
    let number =
        |done: Result<(), Refusal>| Answer::Number(done.map_or_else(|r| r.number(), |_| 0));
    match &call.what {
        What::Insert(manner, value) => {
            let insert = match manner {
                Manner::Plain => Store::insert,
                Manner::Barrel => Store::barrel_insert,
            };
            number(insert(store, &call.key, value, typ))
        }
        What::Remove => number(store.remove(&call.key, typ)),
        What::Lookup => found(store, call, typ),
        What::Value(room) => {
            let mut out = vec![ROOM; *room];
            let length = store.value(&call.key, typ, &mut out);
            Answer::Value(length, out)
        }
        What::Figures => match store.figures() {
            Ok(told) => {
                let figures = [told.system, told.common, told.count];
                Answer::Figures(0, figures.map(|figure| figure as u64))
            }
            Err(refusal) => call.refused(refusal.number()),
        },
        What::Commit(way, caller, room) => committed(store, *way, *caller, vec![ROOM; *room]),
        What::Whole(room) => whole(store, vec![ROOM; *room]),
        What::Tally => tally(store),
    }
}

fn committed(store: &mut Store, way: Way, caller: Caller, mut out: Vec<u8>) -> Answer {
    let caller = match caller {
        Caller::CLOCK => feqyondil::Caller::Clock,
        _ => feqyondil::Caller::Barrel,
    };
    let done = match way {
        Way::Old => store.commit(caller, &mut out),
        Way::Careful => store.careful_commit(caller, &mut out).map_err(NotCommitted::Refused),
    };
    let (number, erase, offset, bytes) = match done {
        Ok(done) => (0, done.erase, done.offset, done.bytes.to_vec()),
        Err(refused) => {
            let erase = match refused {
                NotCommitted::Moved { erase } => erase,
                NotCommitted::Refused(_) => None,
            };
            (refused.refusal().number(), erase, 0, Vec::new())
        }
    };
    let asked = [usize::from(erase.is_some()), erase.unwrap_or(0)];
    let requests = [asked[0], asked[1], offset, bytes.len()].map(|n| n as u64);
    Answer::Commit(number, requests, over(out, &bytes))
}

fn whole(store: &Store, mut out: Vec<u8>) -> Answer {
    match store.whole_image(&mut out).map(<[u8]>::to_vec) {
        Ok(bytes) => Answer::Whole(0, bytes.len() as u64, over(out, &bytes)),
        Err(refusal) => Answer::Whole(refusal.number(), 0, out),
    }
}

fn tally(store: &Store) -> Answer {
    let Tally { clock, barrel, total } = store.tally();
    Answer::Tally(0, [clock, barrel, total].map(u64::from))
}

/// The output with the bytes that were handed back at its front, where they are to be already.
fn over(mut out: Vec<u8>, bytes: &[u8]) -> Vec<u8> {
    out[..bytes.len()].copy_from_slice(bytes);
    out
}

fn found(store: &Store, call: &Call, typ: VarType) -> Answer {
    let place = store.find(&call.key, typ);
    let value = store.get(&call.key, typ);
    match (place, value) {
        (Ok(Some(place)), Ok(Some(value))) if place.len() == value.len() => {
            call.found(place.start, value)
        }
        (Ok(None), Ok(None)) => call.refused(0),
        (Err(refusal), Err(_)) => call.refused(refusal.number()),
        (place, value) => panic!("`Store` finds {place:?} and {value:?}"),
    }
}

//! The Rust's store: its answers, and the book that its records amount to.

mod requests;
mod told;

use std::borrow::Cow;
use std::panic::{catch_unwind, AssertUnwindSafe};

use image::{BANK, HEADER, RECORD};
use oracle::{v3, Nvram, Partition, VarType};

use super::book::{Bank, Book, Slot, PART};
use super::lent::call::{lent, Answer, Call, Way, What};
use super::lent::state::{Tallies, EMPTY, INVALID, VALID};
use crate::partition::rust::{figure, header, record};
use requests::Requests;
use told::Told;

/// An opened image.
pub struct Rust<'a> {
    image: &'a [u8],
    /// The edits and commits since, but for careful ones that were refused with 12: the store can
    /// be made again of these.
    done: Vec<Call>,
    store: v3::Nvram<'a>,
    told: Told,
}

impl<'a> Rust<'a> {
    /// The opened image, or nothing where the Rust refuses it.
    pub fn open(image: &'a [u8]) -> Result<Option<Self>, String> {
        let parsed = guarded(|| v3::Nvram::parse(image).ok())?;
        let Some(store) = parsed else {
            return Ok(None);
        };
        let told = Told::read(&format!("{store:?}"))?;
        Ok(Some(Rust { image, done: Vec::new(), store, told }))
    }

    /// The opened flash, of which 01 says what the slots are and the Rust which is active. It is
    /// told without its Debug, which takes long.
    pub fn reopen(flash: &'a [u8], said: &Book) -> Result<Self, String> {
        let parsed = guarded(|| v3::Nvram::parse(flash).ok())?;
        let mut store = parsed.ok_or("it does not reopen the flash")?;
        let active: *const _ = peek::active_bank(&mut store);
        let banks = peek::valid_banks(&store);
        let which = banks.iter().position(|bank| std::ptr::eq(*bank, active));
        let count = banks.len();
        let entries = &said.state().entries[..said.slots.len()];
        let valid = entries.iter().enumerate().filter(|(_, e)| e.kind == VALID);
        let valid: Vec<_> = valid.map(|(i, e)| (i, e.usable)).collect();
        let active = which.and_then(|which| valid.get(which));
        let (active, _) = active.ok_or("its active bank is not among the Valid ones")?;
        let told = Told {
            kinds: entries.iter().map(|e| e.kind).collect(),
            usable: valid.iter().map(|(_, usable)| *usable).collect(),
            active: *active,
        };
        match count == valid.len() {
            true => Ok(Rust { image: flash, done: Vec::new(), store, told }),
            false => Err(format!("{count} banks are Valid in it")),
        }
    }

    /// What a call answers that 01's domain has. The active slot is to be Valid, but for a whole
    /// image; no bank that is to be written is over its size. A barrel insert is to be accepted. Who
    /// commits it is not told.
    pub fn answer(&mut self, call: &Call) -> Result<Answer, String> {
        guarded(|| match call.what {
            What::Commit(way, _, room) => self.commit(call, way, room),
            What::Whole(room) => self.whole(room),
            What::Figures => self.figures(),
            What::Insert(..) | What::Remove => {
                edit(&mut self.store, call);
                self.done.push(call.clone());
                Ok(Answer::Number(0))
            }
            What::Lookup | What::Value(_) => Ok(self.found(call)),
            What::Tally => Err("it has no tally".to_string()),
        })?
    }

    fn commit(&mut self, call: &Call, way: Way, room: usize) -> Result<Answer, String> {
        let refusal = refusal(peek::active_bank(&mut self.store))?;
        let mut requests = Requests::default();
        let number = match self.store.apply(&mut requests) {
            Ok(()) => 0,
            Err(oracle::Error::SectionTooBig) => refusal,
            Err(other) => return Err(format!("{other:?}")),
        };
        let (asked, written) = requests.told()?;
        if (way, number) == (Way::Careful, 12) {
            // It has moved, and is put away as the copy that was asked.
            self.store = self.made_again()?;
            return Ok(call.refused(12));
        }
        self.done.push(call.clone());
        let offset = asked[2] as usize;
        if number == 12 || asked[0] == 1 || number == 0 && offset != self.told.active * BANK {
            self.told = Told::read(&format!("{:?}", self.store))?;
        }
        Ok(Answer::Commit(number, asked, lent(room, &written)))
    }

    fn figures(&mut self) -> Result<Answer, String> {
        let figures = figures(peek::active_bank(&mut self.store))?;
        Ok(Answer::Figures(0, figures.map(|figure| figure as u64)))
    }

    fn whole(&self, room: usize) -> Result<Answer, String> {
        let bytes = self.store.serialize().map_err(|e| format!("{e:?}"))?;
        Ok(Answer::Whole(0, bytes.len() as u64, lent(room, &bytes)))
    }

    /// The store before a commit that is not among `done`, since it cannot be cloned.
    fn made_again(&self) -> Result<v3::Nvram<'a>, String> {
        let mut store = v3::Nvram::parse(self.image).map_err(|e| format!("{e:?}"))?;
        for call in &self.done {
            match call.what {
                // What it answers was looked at the first time.
                What::Commit(..) => drop(store.apply(&mut Requests::default())),
                _ => edit(&mut store, call),
            }
        }
        Ok(store)
    }

    fn found(&mut self, call: &Call) -> Answer {
        let active = self.told.active;
        let bank = peek::active_bank(&mut self.store);
        let Some(found) = bank.get_variable(&call.key, typ(call)) else {
            return call.refused(0);
        };
        let at = peek::place(bank, found).expect("a record of the bank");
        let before: usize = bank.values[..at].iter().map(size).sum();
        let name = bank.values[at].header.name_size as usize;
        let place = active * PART + HEADER + before + RECORD + name;
        call.found(place, &found.value())
    }

    /// The book that the store amounts to; the tallies are not the Rust's.
    pub fn book(&self, tallies: Tallies) -> Result<Book, String> {
        let mut valid = peek::valid_banks(&self.store).into_iter().zip(&self.told.usable);
        let slots = self.told.kinds.iter().map(|&kind| match kind {
            EMPTY => Ok(Slot::Empty),
            INVALID => Ok(Slot::Invalid),
            _ => {
                let (bank, usable) = valid.next().ok_or("fewer banks than it tells")?;
                let records = bank.values.iter().map(|v| record(v, |bytes| bytes.to_vec()));
                Ok(Slot::Valid(Bank {
                    header: header(&bank.header),
                    records: records.collect::<Result<_, _>>()?,
                    usable: *usable as usize,
                }))
            }
        });
        let slots = slots.collect::<Result<_, String>>()?;
        Ok(Book { active: self.told.active, tallies, slots })
    }

    /// Whatever was called since a bank last moved changed records only.
    pub fn kept(&self) -> bool {
        Told::read(&format!("{:?}", self.store)).as_ref() == Ok(&self.told)
    }
}

/// A panic is an answer too.
fn guarded<T>(call: impl FnOnce() -> T) -> Result<T, String> {
    catch_unwind(AssertUnwindSafe(call)).map_err(|_| "it panics".to_string())
}

/// Its own `system_used` and `common_used`, and how many variables it has; they are told by its
/// Display alone.
fn figures(bank: &v3::Partition) -> Result<[usize; 3], String> {
    let told = bank.to_string();
    let of = |name| figure(&told, name);
    Ok([of("system_used: ")?, of("common_used: ")?, of("count: ")?])
}

/// Which refusal it is if a commit is refused, for which the Rust has one word.
fn refusal(bank: &v3::Partition) -> Result<u32, String> {
    let [system, common, _] = figures(bank)?;
    Ok(match &bank.header {
        header if system > header.system_size as usize => 9,
        header if common > header.common_size as usize => 10,
        _ => 12,
    })
}

/// An insert or a remove. It has one insert for both manners.
fn edit(store: &mut v3::Nvram, call: &Call) {
    let bank = store.active_part_mut();
    match &call.what {
        What::Insert(_, value) => {
            bank.insert_variable(&call.key, Cow::Owned(value.clone()), typ(call))
        }
        _ => bank.remove_variable(&call.key, typ(call)),
    }
}

fn typ(call: &Call) -> VarType {
    match call.typ {
        0 => VarType::Common,
        _ => VarType::System,
    }
}

/// Bytes of a record.
fn size(variable: &v3::Variable) -> usize {
    RECORD + variable.key.len() + 1 + variable.value.len()
}

#[cfg(test)]
mod tests {
    use super::super::lent::call::ROOM;
    use super::*;
    use image::{Header, Record, BANK};

    fn held() -> Vec<u8> {
        image::bank(&Header::default(), &[Record::live(b"rate", b"123456789")])
    }

    fn image() -> Vec<u8> {
        [vec![0; BANK], held(), vec![0xFF; BANK]].concat()
    }

    #[test]
    fn state_and_work_area_are_those_of_the_records() {
        let image = image();
        let mut rust = Rust::open(&image).unwrap().unwrap();
        let remove = Call::new(What::Remove, b"rate", 1);
        assert_eq!(rust.answer(&remove), Ok(Answer::Number(0)));
        let tallies = Tallies { clock: 7, barrel: 8 };
        let book = rust.book(tallies).unwrap();
        let (state, work) = (book.state(), book.work());
        assert_eq!((state.n, state.active, state.tallies), (3, 1, tallies));
        assert_eq!((state.entries[1].total, work.len()), (74, 3 * PART));
        assert_eq!((work[PART + 24 + 2], work[PART + 73]), (0x7C, b'9'));
    }

    #[test]
    fn figures_are_its_own() {
        let image = image();
        let mut rust = Rust::open(&image).unwrap().unwrap();
        assert_eq!(rust.answer(&Call::figures()), Ok(Answer::Figures(0, [50, 0, 1])));
        for typ in [1, 0] {
            rust.answer(&Call::insert(b"rate", b"x", typ)).unwrap();
        }
        assert_eq!(rust.answer(&Call::figures()), Ok(Answer::Figures(0, [42, 42, 3])));
    }

    #[test]
    fn a_careful_12_leaves_its_store_as_it_was() {
        let header = Header { common_limit: u32::MAX, ..Header::default() };
        let image = [image::bank(&header, &[]), held()].concat();
        let mut rust = Rust::open(&image).unwrap().unwrap();
        let insert = |len| Call::insert(b"k", &vec![7; len], 0);
        let [old, careful] = [Call::commit(BANK), Call::careful(BANK)];
        // It has moved once, and goes on with one record live and one dead.
        for call in [insert(60_000), insert(60_000), careful.clone(), insert(BANK)] {
            rust.answer(&call).unwrap();
        }
        let (before, told) = (format!("{:?}", rust.store), rust.book(Tallies::default()).unwrap());
        assert_eq!((told.active, told.active_bank().unwrap().records.len()), (1, 2));
        for _ in 0..2 {
            assert_eq!(rust.answer(&careful), Ok(careful.refused(12)));
            assert!(format!("{:?}", rust.store) == before);
        }
        let moved = Answer::Commit(12, [1, 0, 0, 0], vec![ROOM; BANK]);
        assert_eq!(rust.answer(&old), Ok(moved));
        assert!(format!("{:?}", rust.store) != before);
    }

    #[test]
    fn places_are_counted_from_the_start_of_the_work_area() {
        let image = image();
        let mut rust = Rust::open(&image).unwrap().unwrap();
        let lookup = Call::new(What::Lookup, b"rate", 1);
        let place = (PART + 24 + 36 + 5) as u64;
        assert_eq!(rust.answer(&lookup), Ok(Answer::Lookup(0, [1, place, 9])));
        let common = Call::new(What::Lookup, b"rate", 0);
        assert_eq!(rust.answer(&common), Ok(Answer::Lookup(0, [0; 3])));
        rust.answer(&Call::insert(b"rate", b"x", 1)).unwrap();
        let place = (PART + 74 + 36 + 5) as u64;
        assert_eq!(rust.answer(&lookup), Ok(Answer::Lookup(0, [1, place, 1])));
    }
}

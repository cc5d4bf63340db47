//! The crate holds to include/feqyondil.h: each number that is defined there is the crate's, under
//! the same name, and neither side has one that the other lacks.

use core::cmp::Ordering;
use std::format;
use std::string::String;
use std::vec::Vec;

use crate::cause;
use crate::commit::{self, Commit};
use crate::figures;
use crate::partition::slot;
use crate::rate::{order_of, rate_of};
use crate::state::*;
use crate::store::place;
use crate::tally;
use crate::*;

const HEADER: &str = include_str!("../../../include/feqyondil.h");

/// The numbers that are defined, as far as they are not yet taken.
struct Defined(Vec<(&'static str, u32)>);

impl Defined {
    /// Of every line `#define FEQYONDIL_<NAME> <number>u`. One of another form fails, but for the
    /// guard, which defines nothing.
    fn read() -> Self {
        let number = |line: &'static str| {
            let mut words = line.strip_prefix("#define FEQYONDIL_")?.split_whitespace();
            let (name, number) = (words.next()?, words.next()?);
            let number = number.strip_suffix('u').and_then(|n| n.parse().ok());
            Some((name, number.expect(name)))
        };
        Defined(HEADER.lines().filter_map(number).collect())
    }

    fn place(&self, name: &str) -> usize {
        let place = self.0.iter().position(|&(defined, _)| defined == name);
        place.unwrap_or_else(|| panic!("the header lacks {name}"))
    }

    fn take(&mut self, name: &str) -> u32 {
        self.0.remove(self.place(name)).1
    }

    fn take_place(&mut self, name: &str) -> usize {
        self.take(name) as usize
    }
}

/// `IMAGE_SHORT` as `ImageShort`.
fn camel(name: &str) -> String {
    let word = |word: &str| format!("{}{}", &word[..1], word[1..].to_lowercase());
    name.split('_').map(word).collect()
}

#[test]
fn each_number_is_the_headers() {
    let mut defined = Defined::read();
    refusals(&mut defined);
    sizes(&mut defined);
    states(&mut defined);
    banks(&mut defined);
    causes(&mut defined);
    rates(&mut defined);
    answers(&mut defined);
    assert_eq!(defined.0, [], "defined, and not in the crate");
}

fn refusals(defined: &mut Defined) {
    let (from, to) = (defined.place("OK"), defined.place("RATE_RANGE"));
    let (ok, named) = (defined.0[from], &defined.0[from + 1..=to]);
    assert_eq!(Refusal::check(ok.1), Ok(()));
    let named: Vec<_> = named.iter().map(|&(name, n)| (camel(name), n)).collect();
    let own = Refusal::ALL.iter().map(|r| (format!("{r:?}"), r.number()));
    assert_eq!(own.collect::<Vec<_>>(), named);
    defined.0.drain(from..=to);
}

fn sizes(defined: &mut Defined) {
    assert_eq!(VERSION, defined.take("VERSION"));
    assert_eq!(VarType::Common.number(), defined.take("COMMON"));
    assert_eq!(VarType::System.number(), defined.take("SYSTEM"));
    assert_eq!(Caller::Clock.number(), defined.take("CLOCK"));
    assert_eq!(Caller::Barrel.number(), defined.take("BARREL"));
    for (name, own) in [
        ("BANK_SIZE", BANK_SIZE),
        ("BANKS_MAX", BANKS_MAX),
        ("PART_SIZE", PART_SIZE),
        ("STATE_SIZE", STATE_SIZE),
        ("BARREL_VALUE_MAX", BARREL_VALUE_MAX),
        ("RUN_LOG_MAX", RUN_LOG_MAX),
        ("RUN_LOG_ENTRIES_MAX", RUN_LOG_ENTRIES_MAX),
        ("RUN_NUMBERS", RUN_NUMBERS),
        ("RUN_START", RUN_START),
        ("RUN_SECONDS", RUN_SECONDS),
        ("RUN_TURNS", RUN_TURNS),
        ("CRC32_TABLE_ENTRIES", CRC32_TABLE_ENTRIES),
        ("STATE_BANKS", STATE_BANKS),
        ("STATE_ACTIVE", STATE_ACTIVE),
        ("STATE_CLOCK_TALLY", STATE_CLOCK_TALLY),
        ("STATE_BARREL_TALLY", STATE_BARREL_TALLY),
        ("STATE_ENTRIES", STATE_ENTRIES),
        ("ENTRY_SIZE", ENTRY_SIZE),
        ("ENTRY_KIND", ENTRY_KIND),
        ("ENTRY_TOTAL", ENTRY_TOTAL),
        ("ENTRY_USABLE", ENTRY_USABLE),
    ] {
        assert_eq!(own, defined.take_place(name), "{name}");
    }
    assert_eq!(STATE_SIZE, STATE_ENTRIES + BANKS_MAX * ENTRY_SIZE);
}

fn states(defined: &mut Defined) {
    for (name, kind) in
        [("KIND_EMPTY", Kind::Empty), ("KIND_INVALID", Kind::Invalid), ("KIND_VALID", Kind::Valid)]
    {
        let mut state = [0; STATE_SIZE];
        state[STATE_ENTRIES] = defined.take(name) as u8;
        assert_eq!(entry(&state, 0).kind, kind);
        assert_eq!(kind as u8, state[STATE_ENTRIES]);
    }
}

/// Each field's number is its place and 1 more.
fn banks(defined: &mut Defined) {
    let none = [0; 8];
    assert_eq!(slot(defined.take("SLOT_SHORT"), none), Slot::Short);
    assert_eq!(slot(defined.take("SLOT_EMPTY"), none), Slot::Empty);
    assert_eq!(slot(defined.take("SLOT_INVALID"), none), Slot::Invalid);
    let valid = defined.take("SLOT_VALID");
    let mut field = |name| defined.take(name) + 1;
    let bank = Partition {
        size: field("FIELD_SIZE"),
        generation: field("FIELD_GENERATION"),
        state: field("FIELD_STATE") as u8,
        flags: field("FIELD_FLAGS") as u8,
        system_limit: field("FIELD_SYSTEM_LIMIT"),
        common_limit: field("FIELD_COMMON_LIMIT"),
        total: field("FIELD_TOTAL") as usize,
        usable: field("FIELD_USABLE") as usize,
    };
    assert_eq!(slot(valid, [1, 2, 3, 4, 5, 6, 7, 8]), Slot::Valid(bank));
}

/// Each with the spot that the library answers, whose numbers have the places that are defined.
fn causes(defined: &mut Defined) {
    let (place, index) = (defined.take_place("SPOT_PLACE"), defined.take_place("SPOT_INDEX"));
    let at = |byte, record| {
        let mut spot = [0; 2];
        (spot[place], spot[index]) = (byte, record);
        spot
    };
    let spot = Spot { place: 82, index: 1 };
    for (name, answered, own) in [
        ("CAUSE_SHORT", at(0, 0), Cause::Short),
        ("CAUSE_EMPTY", at(0, 0), Cause::Empty),
        ("CAUSE_SIGNATURE", at(0, 0), Cause::Signature),
        ("CAUSE_VERSION", at(14, 0), Cause::Version),
        ("CAUSE_SIZE", at(4, 0), Cause::Size),
        ("CAUSE_NAME", at(82, 1), Cause::Name(spot)),
        ("CAUSE_CRC", at(82, 1), Cause::Crc(spot)),
        ("CAUSE_BLANK", at(0, 0), Cause::Blank),
        ("CAUSE_START", at(0, 0), Cause::Start),
        ("CAUSE_LENGTH", at(0, 0), Cause::Length),
        ("CAUSE_END", at(0, 0), Cause::End),
    ] {
        assert_eq!(cause::told(defined.take(name), answered), own, "{name}");
    }
}

/// Each place's number is one of its own, with either sign.
fn rates(defined: &mut Defined) {
    assert_eq!(RATE_NUMBERS, defined.take_place("RATE_NUMBERS"));
    assert_eq!(RATE_THIRDS_END, defined.take("RATE_THIRDS_END").into());
    assert_eq!(RATE_SIGN, defined.take_place("RATE_SIGN"));
    let mut numbers = [0; RATE_NUMBERS];
    for (name, own, number) in [
        ("RATE_HOURS", RATE_HOURS, 4),
        ("RATE_MINUTES", RATE_MINUTES, 5),
        ("RATE_SECONDS", RATE_SECONDS, 6),
        ("RATE_THIRDS", RATE_THIRDS, 7),
    ] {
        assert_eq!(own, defined.take_place(name), "{name}");
        numbers[own] = number;
    }
    for (name, minus) in [("PLUS", false), ("MINUS", true)] {
        numbers[RATE_SIGN] = defined.take(name);
        let rate = Rate { minus, places: [4, 5, 6, 7] };
        assert_eq!((rate_of(numbers), rate.numbers()), (Some(rate), numbers), "{name}");
    }
    for (name, own) in [
        ("RATE_LESS", Ordering::Less),
        ("RATE_EQUAL", Ordering::Equal),
        ("RATE_GREATER", Ordering::Greater),
    ] {
        assert_eq!(order_of([defined.take(name).into()]), Some(own), "{name}");
    }
}

fn answers(defined: &mut Defined) {
    let mut found = [0; 3];
    found[defined.take_place("FOUND")] = 1;
    found[defined.take_place("FOUND_PLACE")] = 65;
    found[defined.take_place("FOUND_LENGTH")] = 9;
    assert_eq!(place(found), Some(65..74));
    let mut tallied = [0; 3];
    tallied[defined.take_place("TALLY_CLOCK")] = 2;
    tallied[defined.take_place("TALLY_BARREL")] = 3;
    tallied[defined.take_place("TALLY_TOTAL")] = 5;
    assert_eq!(tally::told(0, tallied), Tally { clock: 2, barrel: 3, total: 5 });
    let mut summed = [0; 3];
    summed[defined.take_place("FIGURES_SYSTEM")] = 42;
    summed[defined.take_place("FIGURES_COMMON")] = 38;
    summed[defined.take_place("FIGURES_COUNT")] = 3;
    assert_eq!(figures::told(summed), Figures { system: 42, common: 38, count: 3 });
    let mut requests = [0; 4];
    requests[defined.take_place("ERASE")] = 1;
    requests[defined.take_place("ERASE_OFFSET")] = 65_536;
    requests[defined.take_place("WRITE_OFFSET")] = 131_072;
    requests[defined.take_place("WRITE_LENGTH")] = 3;
    let commit = Commit { erase: Some(65_536), offset: 131_072, bytes: &[7; 3] };
    assert_eq!(commit::told(0, requests, &[7; 4]), Ok(commit));
}

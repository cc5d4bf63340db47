//! What banks and calls are like, for one comparison or another.

use ::image::{BANK, HEADER, RECORD};
use proptest::prelude::*;
use proptest::sample::select;

use super::bytes::{content, key, odd, with_record, Bytes};
use super::call::Reach;
use super::damage::NUMBERS;
use super::value::{Room, Value};
use crate::store::lent::call::{Manner, Way};

/// Few keys, so that a bank has several records of one.
const KEYS: [&[u8]; 6] = [b"a", b"", b"b", b"rate", b"\0", b"\xFF\xFF\xFF"];
/// Those that begin with 0xFF leave the byte behind a record's header erased.
pub const CUT_KEYS: [&[u8]; 5] = [b"a", b"", b"\0", b"\xFF\xFF\xFF", b"\xFFa"];
/// Sizes at which reading changes its mind, and those outside the domain.
const SIZES: [u32; 13] = [24, 25, 60, 61, 62, 96, 97, 98, 99, 1000, 65_534, 65_535, 65_536];
const OUTSIDE: [u32; 8] = [0, 1, 23, 65_537, 65_573, 131_072, 1 << 31, u32::MAX];

pub struct Style {
    pub size: BoxedStrategy<u32>,
    pub limit: BoxedStrategy<u32>,
    /// Of the records in a bank: at most so many, the list so many times over.
    pub key: BoxedStrategy<Bytes>,
    pub value: BoxedStrategy<Bytes>,
    pub most: usize,
    pub times: BoxedStrategy<usize>,
    /// Behind them.
    pub behind: BoxedStrategy<Bytes>,
    /// Whether records that would pass the size are left out.
    pub within: BoxedStrategy<bool>,
    /// Slots of an image, at least. Of so many one is no bank, and of so many one is damaged,
    /// unless none is.
    pub fewest: usize,
    pub bank_of: u32,
    pub damaged_of: Option<u32>,
    /// Which insert it is, and its value.
    pub insert: BoxedStrategy<(Manner, Value)>,
    /// How many inserts and commits there are to five lookups.
    pub inserts: u32,
    pub commits: u32,
    /// Which commits they are.
    pub way: BoxedStrategy<Way>,
    pub reach: BoxedStrategy<Reach>,
}

impl Style {
    /// Banks of any size, with records of any length, few or as many as there is room for.
    pub fn any() -> Self {
        Style {
            key: content(long(200)).boxed(),
            value: content(long(66_000)).boxed(),
            most: 40,
            times: times(8),
            behind: prop_oneof![16 => behind(), 1 => blanks(RECORD, begun())].boxed(),
            damaged_of: Some(2),
            ..Style::store()
        }
    }

    /// Banks with few records of few keys, and calls of every kind.
    pub fn store() -> Self {
        let size = prop_oneof![
            16 => Just(BANK as u32),
            8 => HEADER as u32..=BANK as u32,
            6 => select(&SIZES[..]),
            1 => select(&OUTSIDE[..]),
        ];
        let any = any::<u32>().prop_map(|less| u32::MAX - less);
        let near = || -2..=2isize;
        // What is left in the work area is about a record with a value of 512 bytes.
        let about = -560..=-540isize;
        let value = prop_oneof![
            22 => content(0..80usize).prop_map(Value::Of),
            1 => content(0..20_000usize).prop_map(Value::Of),
            1 => content(select(&[65_400, 65_536, 131_072, 200_000][..])).prop_map(Value::Of),
            2 => near().prop_map(|more| Value::Room(Room::Usable, more, None)),
            2 => near().prop_map(|more| Value::Room(Room::Part, more, None)),
            2 => about.prop_map(|more| Value::Room(Room::Part, more, None)),
        ];
        Style {
            size: size.boxed(),
            limit: prop_oneof![select(&[u32::MAX, 8192, 0][..]), any].boxed(),
            key: key(&KEYS).boxed(),
            value: content(long(300)).boxed(),
            most: 10,
            times: times(1),
            behind: behind().boxed(),
            within: prop::bool::ANY.boxed(),
            fewest: 1,
            bank_of: 4,
            damaged_of: Some(10),
            insert: either(value),
            inserts: 9,
            commits: 3,
            way: select(&[Way::Old, Way::Careful][..]).boxed(),
            reach: Just(Reach::Free).boxed(),
        }
    }

    /// Banks with few records of few keys, or full of them, and mostly Valid.
    pub fn pair() -> Self {
        Style { times: times(3), bank_of: 8, damaged_of: Some(8), ..Style::store() }
    }

    /// Banks that a few inserts fill, mostly without limits, and many commits.
    pub fn small() -> Self {
        let size = prop_oneof![
            9 => 61..401u32,
            5 => 400..4_000u32,
            3 => Just(BANK as u32),
            1 => HEADER as u32..=BANK as u32,
            2 => select(&SIZES[..]),
        ];
        let limit = prop_oneof![12 => Just(u32::MAX), 1 => select(&[0, 100, 200, 1000][..])];
        let over = || 0..=2isize;
        let value = prop_oneof![
            2 => content(0..9usize).prop_map(Value::Of),
            3 => content(0..200usize).prop_map(Value::Of),
            1 => content(0..2_000usize).prop_map(Value::Of),
            4 => over().prop_map(|more| Value::Room(Room::Usable, more, None)),
            1 => over().prop_map(|more| Value::Room(Room::Size, more, None)),
        ];
        Style {
            size: size.boxed(),
            limit: limit.boxed(),
            most: 6,
            bank_of: 6,
            damaged_of: Some(20),
            insert: either(value),
            inserts: 20,
            commits: 14,
            reach: reach(2),
            ..Style::store()
        }
    }

    /// The same with careful commits alone, of which many are refused with 12.
    pub fn careful() -> Self {
        Style { way: Just(Way::Careful).boxed(), reach: reach(6), ..Style::small() }
    }

    /// Two small banks or more with nothing behind their records, and keys and values that a write
    /// which was cut might be misread by.
    pub fn cut() -> Self {
        let size = prop_oneof![
            8 => 150..300u32,
            4 => 300..1_000u32,
            3 => 1_000..4_000u32,
            1 => Just(BANK as u32),
        ];
        let key = prop_oneof![8 => key(&CUT_KEYS), 1 => with_record(&CUT_KEYS)];
        let value = || prop_oneof![5 => odd(long(80)), 2 => with_record(&CUT_KEYS)];
        let free = select(&[0, 0, 0, -1, -5, -36, -37][..]);
        let byte = select(&[Some(0), Some(0xFF), Some(7)][..]);
        let room = (free, byte).prop_map(|(more, byte)| Value::Room(Room::Gap, more, byte));
        let insert = prop_oneof![4 => value().prop_map(Value::Of), 3 => room];
        Style {
            size: size.boxed(),
            limit: Just(u32::MAX).boxed(),
            key: key.boxed(),
            value: value().boxed(),
            most: 4,
            times: Just(1).boxed(),
            behind: Just(Bytes::default()).boxed(),
            within: Just(true).boxed(),
            fewest: 2,
            bank_of: 3,
            damaged_of: None,
            insert: insert.prop_map(|value| (Manner::Plain, value)).boxed(),
            reach: Just(Reach::Size).boxed(),
            ..Style::store()
        }
    }
}

/// Of three inserts one is the barrels', and of three of these one has a value about the longest.
fn either(value: impl Strategy<Value = Value> + 'static) -> BoxedStrategy<(Manner, Value)> {
    let value = value.boxed();
    let about = content(select(&[511, 512, 513][..])).prop_map(Value::Of);
    let barrels = prop_oneof![2 => value.clone(), 1 => about];
    prop_oneof![
        2 => value.prop_map(|value| (Manner::Plain, value)),
        1 => barrels.prop_map(|value| (Manner::Barrel, value)),
    ]
    .boxed()
}

/// So many of eight go over a bank's size, one as far as it goes, and the others stay within.
fn reach(over: u32) -> BoxedStrategy<Reach> {
    let (free, over_size, size) = (Just(Reach::Free), Just(Reach::Over), Just(Reach::Size));
    prop_oneof![1 => free, over => over_size, 7 - over => size].boxed()
}

/// Mostly once; in so many of 25 as often as there is room for.
fn times(full: u32) -> BoxedStrategy<usize> {
    prop_oneof![21 - full => Just(1), 4 => 2..=4usize, full => Just(BANK)].boxed()
}

/// Short far more often than long.
fn long(most: usize) -> impl Strategy<Value = usize> {
    prop_oneof![4 => 0..=8.min(most), 3 => 0..=64.min(most), 1 => 0..=most]
}

/// Mostly nothing; else blanks and other bytes, or what only begins as a record.
fn behind() -> impl Strategy<Value = Bytes> {
    let blanks = blanks(0, content(0..40usize));
    let junk = content(0..=BANK);
    prop_oneof![24 => Just(Bytes::default()), 4 => blanks, 4 => begun(), 1 => junk]
}

/// At least so many of them, and what is behind.
fn blanks(least: usize, then: impl Strategy<Value = Bytes>) -> impl Strategy<Value = Bytes> {
    let blanks = (least..3 * RECORD, select(&[0xFF, 0][..]), then);
    blanks.prop_map(|(len, byte, then)| Bytes::Joined(vec![Bytes::Fill(len, byte), then]))
}

fn begun() -> impl Strategy<Value = Bytes> {
    let lengths = (select(&NUMBERS[..]), select(&NUMBERS[..]), content(0..40usize));
    lengths.prop_map(|(name, value, then)| {
        let record = Bytes::Record(Box::default(), [Some(name), Some(value)]);
        Bytes::Joined(vec![record, then])
    })
}

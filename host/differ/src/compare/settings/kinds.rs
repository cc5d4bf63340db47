//! What a pair of banks is counted as, told from the two and not from how they were made.

use image::{Header, Record, RECORD};

use crate::judge::Numbers;
use crate::partition::cause::Causes;
use crate::partition::model::Reading;
use crate::partition::slot::{Bank, Slot};
use crate::store::book::LIVE;

type Valid<'a> = Bank<&'a [u8]>;

#[derive(Clone, Copy, Debug, PartialEq)]
pub enum Kind {
    Refused,
    /// The same settings, with bytes that may differ in the next five.
    Same,
    Reserved,
    Closing,
    Free,
    Later,
    Usable,
    /// Not the same by one of these alone.
    Header,
    State,
    Attributes,
    Guid,
    Key,
    Value,
    Order,
    Dead,
    Live,
    /// By more.
    Several,
    /// Not the same since not both are Valid.
    OneValid,
    BothEmpty,
    SameInvalid,
    NoneValid,
    /// Both are Valid, and the total of one is over its size.
    Over,
}

pub const NAMES: [(Kind, &str); 22] = [
    (Kind::Refused, "refused with 14"),
    (Kind::Same, "the same"),
    (Kind::Reserved, "with other reserved bytes"),
    (Kind::Closing, "with other closing bytes"),
    (Kind::Free, "with other free bytes"),
    (Kind::Later, "with other bytes behind the size"),
    (Kind::Usable, "with another usable"),
    (Kind::Header, "not the same by one header field"),
    (Kind::State, "by one record's state"),
    (Kind::Attributes, "by its attributes"),
    (Kind::Guid, "by its GUID"),
    (Kind::Key, "by its key"),
    (Kind::Value, "by its value"),
    (Kind::Order, "by the order of two records"),
    (Kind::Dead, "by one dead record"),
    (Kind::Live, "by one live record"),
    (Kind::Several, "by several of these"),
    (Kind::OneValid, "by one bank that is not Valid"),
    (Kind::BothEmpty, "both Empty"),
    (Kind::SameInvalid, "both Invalid with the same bytes"),
    (Kind::NoneValid, "others without a Valid bank"),
    (Kind::Over, "with a total over its size"),
];

/// `asked` is whether the Rust was, and `causes` are those of the banks.
pub fn counted(
    pair: [&[u8]; 2],
    read: Option<&[Reading; 2]>,
    asked: bool,
    causes: Causes,
) -> Numbers {
    let kinds = of(pair, read);
    let named = NAMES.map(|(kind, name)| (name, u64::from(kinds.contains(&kind))));
    let all = [("pairs as N1 says", 1), ("of them equal to the Rust", u64::from(asked))];
    Numbers::of(&[&all[..], &named, &causes.numbers()].concat())
}

pub fn of(pair: [&[u8]; 2], read: Option<&[Reading; 2]>) -> Vec<Kind> {
    let Some([one, other]) = read else {
        return vec![Kind::Refused];
    };
    match (&one.slot, &other.slot) {
        (Slot::Valid(one), Slot::Valid(other)) => {
            let mut kinds = match one.same_settings(other) {
                true => bytes_apart(pair, one, other),
                false => vec![difference(one, other)],
            };
            kinds.extend((one.is_over() || other.is_over()).then_some(Kind::Over));
            kinds
        }
        (Slot::Valid(_), _) | (_, Slot::Valid(_)) => vec![Kind::OneValid],
        (Slot::Empty, Slot::Empty) => vec![Kind::BothEmpty],
        _ if pair[0] == pair[1] => vec![Kind::SameInvalid],
        _ => vec![Kind::NoneValid],
    }
}

/// In which bytes two banks differ that are the same.
fn bytes_apart(pair: [&[u8]; 2], one: &Valid, other: &Valid) -> Vec<Kind> {
    let starts = one.starts();
    let mut reserved = [15].into_iter().chain(starts.iter().map(|at| at + 3));
    let mut closing = starts.iter().zip(&one.records).map(|(at, r)| at + RECORD + r.key.len());
    let apart = |at| pair[0][at] != pair[1][at];
    let (total, size) = (one.total(), one.header.size as usize);
    let behind = total.max(size);
    let found = [
        (Kind::Same, true),
        (Kind::Reserved, reserved.any(apart)),
        (Kind::Closing, closing.any(apart)),
        (Kind::Free, pair[0][total..behind] != pair[1][total..behind]),
        (Kind::Later, pair[0][behind..] != pair[1][behind..]),
        (Kind::Usable, one.usable != other.usable),
    ];
    found.into_iter().filter_map(|(kind, so)| so.then_some(kind)).collect()
}

/// By what two Valid banks differ.
fn difference(one: &Valid, other: &Valid) -> Kind {
    let (short, long) = match one.records.len() < other.records.len() {
        true => (&one.records, &other.records),
        false => (&other.records, &one.records),
    };
    let fields = named(&one.header).into_iter().zip(named(&other.header));
    match fields.filter(|(a, b)| a != b).count() {
        1 if short == long => Kind::Header,
        0 if short.len() == long.len() => of_records(short, long),
        0 if short.len() + 1 == long.len() => one_more(short, long),
        _ => Kind::Several,
    }
}

fn named(header: &Header) -> [u32; 6] {
    let Header { size, generation, state, flags, system_limit, common_limit, .. } = *header;
    [size, generation, state.into(), flags.into(), system_limit, common_limit]
}

/// By what as many records differ.
fn of_records(one: &[Record<&[u8]>], other: &[Record<&[u8]>]) -> Kind {
    let apart: Vec<_> = one.iter().zip(other).filter(|(a, b)| a != b).collect();
    match apart[..] {
        [(a, b)] => of_fields(a, b),
        [(a, b), (c, d)] if a == d && b == c => Kind::Order,
        _ => Kind::Several,
    }
}

fn of_fields(a: &Record<&[u8]>, b: &Record<&[u8]>) -> Kind {
    let apart = [
        (Kind::State, a.state != b.state),
        (Kind::Attributes, a.attributes != b.attributes),
        (Kind::Guid, a.guid != b.guid),
        (Kind::Key, a.key != b.key),
        (Kind::Value, a.value != b.value),
    ];
    let mut kinds = apart.into_iter().filter_map(|(kind, so)| so.then_some(kind));
    match (kinds.next(), kinds.next()) {
        (Some(kind), None) => kind,
        _ => Kind::Several,
    }
}

/// One record that only the longer list has.
fn one_more(short: &[Record<&[u8]>], long: &[Record<&[u8]>]) -> Kind {
    let at = short.iter().zip(long).position(|(a, b)| a != b).unwrap_or(short.len());
    match short[at..] == long[at + 1..] {
        true if long[at].state == LIVE => Kind::Live,
        true => Kind::Dead,
        false => Kind::Several,
    }
}

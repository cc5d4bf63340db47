//! Calls that the store at hand can do something with: lengths and keys are said in its terms, and
//! made when its book is there.

use ::image::{Record, BANK, SYSTEM_GUID};
use proptest::prelude::*;
use proptest::sample::select;

use super::bytes::Bytes;
use super::list::list;
use super::style::Style;
use super::value::{Room, Value};
use crate::store::book::{Bank, Book, LIVE};
use crate::store::lent::call::{self, Caller, Manner, Way, What};

#[derive(Clone, Debug, PartialEq)]
pub enum Call {
    Insert(Manner, Var, Value),
    Remove(Var),
    Lookup(Var),
    /// With room for so many bytes.
    Value(Var, usize),
    Figures,
    /// With room for so many bytes more than it needs.
    Commit(Way, Caller, isize),
    Whole(isize),
    /// As it is.
    Made(call::Call),
}

/// A key and a type.
#[derive(Clone, Debug, PartialEq)]
pub enum Var {
    Of(Bytes, u32),
    /// The key of a record of the active bank.
    Known(usize, u32),
    /// Key and type of a live one.
    Live(usize),
}

/// How far inserts bring the live records of a bank.
#[derive(Clone, Copy, Debug, PartialEq)]
pub enum Reach {
    /// As far as they go.
    Free,
    /// Over the bank's size; where they are, a record is removed in place of an insert, and a
    /// commit is a careful one.
    Over,
    /// To the bank's size: a value is cut, and where the record itself has no room one is removed.
    Size,
}

impl Call {
    /// On the store of this book, where it was opened.
    pub fn made(&self, book: Option<&Book>, reach: Reach) -> call::Call {
        let bank = book.and_then(Book::active_bank);
        let banks = book.map_or(1, |book| book.slots.len()) as isize;
        let room = |more: isize, need: isize| (need + more).max(0) as usize;
        let (what, var) = match self {
            Call::Made(call) => return call.clone(),
            Call::Figures => return call::Call::figures(),
            Call::Commit(way, caller, more) => {
                let way = if reach == Reach::Over && is_over(bank) { Way::Careful } else { *way };
                let what = What::Commit(way, *caller, room(*more, BANK as isize));
                return call::Call::new(what, b"", 0);
            }
            Call::Whole(more) => return call::Call::whole(room(*more, banks * BANK as isize)),
            Call::Insert(manner, var, value) => return insert(*manner, var, value, bank, reach),
            Call::Remove(var) => (What::Remove, var),
            Call::Lookup(var) => (What::Lookup, var),
            Call::Value(var, room) => (What::Value(*room), var),
        };
        let (key, typ) = var.made(bank);
        call::Call { what, key, typ }
    }
}

fn insert(
    manner: Manner,
    var: &Var,
    value: &Value,
    bank: Option<&Bank>,
    reach: Reach,
) -> call::Call {
    let (key, typ) = var.made(bank);
    let mut value = value.made(bank, key.len());
    let room = match (reach, bank) {
        (Reach::Size, Some(bank)) => Room::Size.left(bank, key.len()),
        (Reach::Over, bank) if is_over(bank) => -1,
        _ => isize::MAX,
    };
    let Ok(room) = usize::try_from(room) else {
        let (key, typ) = Var::Live(0).made(bank);
        return call::Call { what: What::Remove, key, typ };
    };
    value.truncate(room);
    let what = What::Insert(manner, value);
    call::Call { what, key, typ }
}

/// The live records are over the bank's size.
fn is_over(bank: Option<&Bank>) -> bool {
    bank.is_some_and(|bank| bank.live() > bank.header.size as usize)
}

impl Var {
    fn made(&self, bank: Option<&Bank>) -> (Vec<u8>, u32) {
        let records = bank.map_or(&[][..], |bank| &bank.records);
        let nth = |i: &usize, of: fn(&&Record) -> bool| {
            let count = records.iter().filter(of).count().max(1);
            records.iter().filter(of).nth(i % count)
        };
        let none = || b"a".to_vec();
        match self {
            Var::Of(key, typ) => (key.made(), *typ),
            Var::Known(i, typ) => (nth(i, |_| true).map_or_else(none, |r| r.key.clone()), *typ),
            Var::Live(i) => match nth(i, |r| r.state == LIVE) {
                Some(r) => (r.key.clone(), u32::from(r.guid == SYSTEM_GUID)),
                None => (none(), 0),
            },
        }
    }
}

/// A type or a caller: 0, 1, or another number, which is taken as 1.
fn choice() -> impl Strategy<Value = u32> {
    prop_oneof![12 => select(&[0, 1][..]), 1 => select(&[2, 256, u32::MAX][..]), 1 => any::<u32>()]
}

fn var(style: &Style) -> impl Strategy<Value = Var> {
    prop_oneof![
        4 => (style.key.clone(), choice()).prop_map(|(key, typ)| Var::Of(key, typ)),
        3 => (0..64usize, choice()).prop_map(|(i, typ)| Var::Known(i, typ)),
        1 => (0..64usize).prop_map(Var::Live),
    ]
}

/// Now and then too little or more than is needed.
fn room() -> impl Strategy<Value = isize> {
    let other = select(&[1, 100, BANK as isize, -1, -(BANK as isize) / 2, isize::MIN / 2][..]);
    prop_oneof![12 => Just(0), 1 => other]
}

/// An insert or a remove.
pub fn edit(style: &Style) -> impl Strategy<Value = Call> {
    prop_oneof![
        3 => var(style).prop_map(Call::Remove),
        style.inserts => (var(style), style.insert.clone())
            .prop_map(|(var, (manner, value))| Call::Insert(manner, var, value)),
    ]
}

pub fn commit(style: &Style) -> impl Strategy<Value = Call> {
    (style.way.clone(), choice(), room())
        .prop_map(|(way, caller, room)| Call::Commit(way, Caller(caller), room))
}

pub fn call(style: &Style) -> impl Strategy<Value = Call> {
    let value = (var(style), select(&[0, 1, 8, 100, 1000][..]));
    prop_oneof![
        5 => var(style).prop_map(Call::Lookup),
        3 => value.prop_map(|(var, room)| Call::Value(var, room)),
        2 => Just(Call::Figures),
        style.commits => commit(style),
        1 => room().prop_map(Call::Whole),
        3 + style.inserts => edit(style),
    ]
}

/// Up to so many of them.
pub fn calls(style: &Style, most: usize) -> impl Strategy<Value = Vec<Call>> {
    list(call(style), most)
}

#[cfg(test)]
mod tests {
    use super::*;
    use ::image::Header;

    /// A bank of size 200 with a live record of 39 bytes, and a value for its key.
    fn made(value: Value, reach: Reach) -> What {
        let image = ::image::bank(&Header::new(200, 1), &[Record::live(b"k", b"v")]);
        let book = Book::open(&image, usize::MAX).unwrap();
        Call::Insert(Manner::Barrel, Var::Live(3), value).made(Some(&book), reach).what
    }

    #[test]
    fn values_are_as_long_as_the_store_has_room() {
        let room = |room, more| Value::Room(room, more, Some(7));
        let insert = |len| What::Insert(Manner::Barrel, vec![7; len]);
        // 24 and 39 bytes are used, and the record has 38 before its value.
        assert_eq!(made(room(Room::Usable, 1), Reach::Free), insert(100));
        assert_eq!(made(room(Room::Size, 0), Reach::Free), insert(99));
        assert_eq!(made(room(Room::Part, -1), Reach::Free), insert(131_072 - 102));
        assert_eq!(made(room(Room::Gap, 2), Reach::Free), insert(2));
        assert_eq!(made(room(Room::Part, 0), Reach::Size), insert(99));
        assert_eq!(made(Value::Of(Bytes::Fill(3, 7)), Reach::Size), insert(3));
    }

    #[test]
    fn over_the_size_a_record_is_removed() {
        let image = ::image::bank(&Header::new(100, 1), &[Record::live(b"k", b"v")]);
        let insert = |len| {
            let (var, value) = (Var::Of(Bytes::of(b"a"), 1), Value::Of(Bytes::Fill(len, 7)));
            Call::Insert(Manner::Plain, var, value)
        };
        let mut book = Book::open(&image, usize::MAX).unwrap();
        let commit = Call::Commit(Way::Old, Caller::CLOCK, 0);
        let over = insert(1).made(Some(&book), Reach::Over);
        assert_eq!(over.what, What::Insert(Manner::Plain, vec![7]));
        assert_eq!(commit.made(Some(&book), Reach::Over), call::Call::commit(BANK));
        book.answer(&over);
        let remove = call::Call::new(What::Remove, b"k", 1);
        assert_eq!(insert(0).made(Some(&book), Reach::Over), remove);
        let free = insert(0).made(Some(&book), Reach::Free);
        assert_eq!(free, call::Call::insert(b"a", b"", 1));
        assert_eq!(commit.made(Some(&book), Reach::Over), call::Call::careful(BANK));
        assert_eq!(commit.made(Some(&book), Reach::Free), call::Call::commit(BANK));
    }
}

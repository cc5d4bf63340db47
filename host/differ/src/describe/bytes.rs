//! Bytes in few words.

use std::fmt::{self, Debug, Formatter};

use ::image::{put_number, Record, COMMON_GUID, SYSTEM_GUID};
use proptest::prelude::*;
use proptest::sample::select;
use rand::rngs::SmallRng;
use rand::{RngCore, SeedableRng};

#[derive(Clone, PartialEq)]
pub enum Bytes {
    Of(Vec<u8>),
    /// So many of this value.
    Fill(usize, u8),
    /// So many that a seed gives.
    Random(usize, u64),
    /// A record's; its lengths of name and value may be said to be others than they are.
    Record(Box<Record<Bytes>>, [Option<u32>; 2]),
    Joined(Vec<Bytes>),
}

impl Bytes {
    pub fn of(bytes: &[u8]) -> Self {
        Bytes::Of(bytes.to_vec())
    }

    pub fn made(&self) -> Vec<u8> {
        match self {
            Bytes::Of(bytes) => bytes.clone(),
            Bytes::Fill(len, byte) => vec![*byte; *len],
            Bytes::Random(len, seed) => {
                let mut out = vec![0; *len];
                SmallRng::seed_from_u64(*seed).fill_bytes(&mut out);
                out
            }
            Bytes::Record(record, lengths) => {
                let mut out = record.map(Bytes::made).bytes();
                for (at, length) in [8, 12].into_iter().zip(lengths) {
                    length.iter().for_each(|&n| put_number(&mut out, at, n));
                }
                out
            }
            Bytes::Joined(parts) => parts.iter().flat_map(Bytes::made).collect(),
        }
    }
}

impl Default for Bytes {
    fn default() -> Self {
        Bytes::of(b"")
    }
}

impl Debug for Bytes {
    fn fmt(&self, f: &mut Formatter) -> fmt::Result {
        match self {
            Bytes::Of(bytes) => write!(f, "\"{}\"", bytes.escape_ascii()),
            Bytes::Fill(len, byte) => write!(f, "{len} of {byte:#04x}"),
            Bytes::Random(len, seed) => write!(f, "{len} of seed {seed}"),
            Bytes::Record(record, [None, None]) => record.fmt(f),
            Bytes::Record(record, lengths) => write!(f, "{record:?} said to have {lengths:?}"),
            Bytes::Joined(parts) => parts.fmt(f),
        }
    }
}

/// So many bytes more or less are lent.
pub fn lend(bytes: &mut Vec<u8>, more: isize) {
    let len = bytes.len() as isize + more;
    bytes.resize(len.max(0) as usize, 7);
}

/// Bytes of one value or random ones, of a length.
pub fn content(len: impl Strategy<Value = usize>) -> impl Strategy<Value = Bytes> {
    let byte = select(&[Some(0), Some(0xFF), None, None][..]);
    (len, byte, any::<u16>()).prop_map(|(len, byte, seed)| match byte {
        Some(byte) => Bytes::Fill(len, byte),
        None => Bytes::Random(len, seed.into()),
    })
}

/// The same, or each byte 0 or 0xFF.
pub fn odd(len: impl Strategy<Value = usize>) -> impl Strategy<Value = Bytes> {
    (content(len), any::<bool>()).prop_map(|(bytes, odd)| match bytes {
        Bytes::Random(..) if odd => {
            let bits = bytes.made().into_iter().map(|b| 0u8.wrapping_sub(b & 1));
            Bytes::Of(bits.collect())
        }
        _ => bytes,
    })
}

/// One of few keys, seldom another.
pub fn key(keys: &'static [&'static [u8]]) -> impl Strategy<Value = Bytes> {
    prop_oneof![
        7 => select(keys).prop_map(Bytes::of),
        1 => content(0..400usize),
    ]
}

/// The key of records that are in no bank but within values and keys.
pub const INNER: &[u8] = b"inner";

/// A whole record, or what only begins as one, and a few bytes before and behind it.
pub fn with_record(keys: &'static [&'static [u8]]) -> impl Strategy<Value = Bytes> {
    let few = || (0..=4usize, select(&[0, 0xFF, 7][..])).prop_map(|(n, b)| Bytes::Fill(n, b));
    let key = prop_oneof![Just(INNER), select(keys)];
    let length = || prop_oneof![5 => Just(None), 1 => (0..=2u32).prop_map(Some)];
    let record =
        (key, few(), select(&[0x7F, 0x7F, 0x7C][..]), select(&[SYSTEM_GUID, COMMON_GUID][..]));
    let record = record.prop_map(|(key, value, state, guid)| Record {
        key: Bytes::of(key),
        value,
        state,
        guid,
        ..Record::default()
    });
    let parts = (few(), record, length(), length(), few());
    parts.prop_map(|(before, record, name, value, after)| {
        let record = Bytes::Record(Box::new(record), [name, value]);
        Bytes::Joined(vec![before, record, after])
    })
}

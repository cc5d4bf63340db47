//! What a log or a list of entries is counted as. A walk of its own tells every check that it fails,
//! also behind the first: so the order of the checks is seen to be met.

use std::slice::Iter;

use super::Answer;
use crate::judge::Numbers;

/// A way to fail a check.
#[derive(Clone, Copy, Debug, PartialEq)]
enum Way {
    CutOff,
    NotShortest,
    TooLarge,
    Falls,
    LeftOver,
    Threes,
    Size,
    Output,
}

impl Way {
    fn number(self) -> u32 {
        match self {
            Way::CutOff | Way::NotShortest | Way::TooLarge => 16,
            Way::Falls => 17,
            Way::LeftOver | Way::Threes | Way::Size | Way::Output => 18,
        }
    }
}

/// What is refused, by the way that is met first; and by two numbers, of which the second would be
/// answered without the first.
struct Names {
    all: &'static str,
    ways: &'static [(&'static str, Way)],
    orders: &'static [(&'static str, u32, u32)],
}

const OF_LOGS: Names = Names {
    all: "logs as N6 says",
    ways: &[
        ("refused with 16 for a number cut off", Way::CutOff),
        ("with 16 for one not shortest", Way::NotShortest),
        ("with 16 for one too large", Way::TooLarge),
        ("with 17", Way::Falls),
        ("with 18 for the size", Way::Size),
        ("with 18 for bytes left over", Way::LeftOver),
        ("with 18 for the output", Way::Output),
    ],
    orders: &[
        ("with 16 before 17", 16, 17),
        ("with 16 before 18", 16, 18),
        ("with 17 before 16", 17, 16),
        ("with 17 before 18", 17, 18),
        ("with 18 before 16", 18, 16),
        ("with 18 before 17", 18, 17),
    ],
};

const OF_ENTRIES: Names = Names {
    all: "lists as N6 says",
    ways: &[
        ("refused with 18 for threes", Way::Threes),
        ("with 17", Way::Falls),
        ("with 18 for the size", Way::Size),
        ("with 18 for the output", Way::Output),
    ],
    orders: &[("with 18 before 17", 18, 17), ("with 17 before 18", 17, 18)],
};

/// What is told of those that are accepted: the log's size, the start minutes, and whether there is
/// more output than the result takes.
struct Accepted {
    size: usize,
    starts: Vec<u64>,
    more: bool,
}

pub fn of_log(log: &[u8], room: usize, answer: Answer) -> Numbers {
    let (mut met, mut starts, room) = (Vec::new(), Vec::new(), room as u64);
    met.extend((log.len() > 4096).then_some(Way::Size));
    let takes = walk(log, &mut met, &mut starts).map_or(0, |count| count.saturating_mul(3));
    met.extend((takes > room).then_some(Way::Output));
    let accepted = Accepted { size: log.len(), starts, more: room > takes };
    OF_LOGS.counted(answer, &met, &accepted)
}

pub fn of_entries(entries: &[u32], room: usize, answer: Answer) -> Numbers {
    let starts: Vec<u64> = entries.iter().step_by(3).map(|&start| start.into()).collect();
    let numbers = [starts.len() as u32].into_iter().chain(entries.iter().copied());
    let groups =
        |number: u32| 1 + [7, 14, 21, 28].into_iter().filter(|bits| number >> bits > 0).count();
    let size = numbers.map(groups).sum();
    let failed = [
        (Way::Threes, entries.len() % 3 != 0),
        (Way::Falls, starts.windows(2).any(|pair| pair[1] < pair[0])),
        (Way::Size, size > 4096),
        (Way::Output, size > room),
    ];
    let met: Vec<Way> = failed.into_iter().filter_map(|(way, so)| so.then_some(way)).collect();
    OF_ENTRIES.counted(answer, &met, &Accepted { size, starts, more: room > size })
}

impl Names {
    fn counted(&self, answer: Answer, met: &[Way], accepted: &Accepted) -> Numbers {
        let first = met.first().copied();
        assert_eq!(first.map(Way::number), answer.err(), "the walk meets {met:?}");
        let then = met.iter().map(|way| way.number()).find(|&number| Err(number) != answer);
        let Accepted { size, ref starts, more } = *accepted;
        let of_accepted = [
            ("accepted", true),
            ("with equal starts", starts.windows(2).any(|pair| pair[0] == pair[1])),
            ("with a start of 2^28 or more", starts.last().is_some_and(|start| start >> 28 > 0)),
            ("of 4,096 bytes", size == 4096),
            ("of 1,364 entries", starts.len() == 1364),
            ("with more output", more),
        ];
        let is = |(name, so): (_, bool)| (name, u64::from(so));
        let of_accepted = of_accepted.map(|(name, so)| is((name, so && first.is_none())));
        let ways = self.ways.iter().map(|&(name, way)| is((name, first == Some(way))));
        let both = |a, b| answer == Err(a) && then == Some(b);
        let orders = self.orders.iter().map(|&(name, a, b)| is((name, both(a, b))));
        let rest = of_accepted.into_iter().chain(ways).chain(orders);
        Numbers::of(&[(self.all, 1)].into_iter().chain(rest).collect::<Vec<_>>())
    }
}

/// Through all entries, whatever form their numbers have: the count, unless a number is cut off.
fn walk(log: &[u8], met: &mut Vec<Way>, starts: &mut Vec<u64>) -> Option<u64> {
    let mut bytes = log.iter();
    let count = number(&mut bytes, met)?;
    for _ in 0..count {
        let start = number(&mut bytes, met)?;
        met.extend(starts.last().filter(|&&last| start < last).map(|_| Way::Falls));
        starts.push(start);
        number(&mut bytes, met)?;
        number(&mut bytes, met)?;
    }
    met.extend(bytes.next().map(|_| Way::LeftOver));
    Some(count)
}

/// The next number, of as many groups as it has; 2^64 - 1 where it is more.
fn number(bytes: &mut Iter<u8>, met: &mut Vec<Way>) -> Option<u64> {
    let (mut number, mut groups) = (0, 0);
    for &byte in bytes {
        let group = u64::from(byte & 0x7F);
        match groups {
            0..=8 => number |= group << (7 * groups),
            _ if group > 0 => number = u64::MAX,
            _ => {}
        }
        groups += 1;
        if byte < 0x80 {
            let way = match number >> 32 {
                0 => (byte == 0 && groups > 1).then_some(Way::NotShortest),
                _ => Some(Way::TooLarge),
            };
            met.extend(way);
            return Some(number);
        }
    }
    met.push(Way::CutOff);
    None
}

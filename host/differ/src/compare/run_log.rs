//! The log of winding runs: the port's reader and its writer against our own Rust of N6's words
//! (the crate `run_log`), with what they are to leave alone; what one of them accepts goes back by
//! the other.

mod fixed;
mod kinds;

use std::fmt::Debug;

use image::hex;
use run_log::{Refusal, NUMBERS};

use crate::describe::{
    bytes_to_read, entries_to_write, log_to_read, Bytes, Entries, Log, WithOutput,
};
use crate::judge::{Comparison, Mode, Numbers, Part};
use crate::store::lent::call::ROOM;
use crate::store::lent::port::Buffer;
use crate::store::lent::Standing;

/// More numbers than these are counted, not printed.
const PRINTED: usize = 12;

/// A count of entries or a log's length, or a refusal's number.
pub type Answer = Result<usize, u32>;
pub type PortCall<I, O> = fn(&[I], &mut [O]) -> Answer;

/// The port's two calls; the tests plant faults here.
#[derive(Clone, Copy)]
pub struct Port {
    pub read: PortCall<u8, u32>,
    pub write: PortCall<u32, u8>,
}

impl Default for Port {
    fn default() -> Self {
        Port { read, write }
    }
}

pub fn read(log: &[u8], entries: &mut [u32]) -> Answer {
    feqyondil::run_log_read(log, entries).map_err(feqyondil::Refusal::number)
}

pub fn write(entries: &[u32], log: &mut [u8]) -> Answer {
    feqyondil::run_log_write(entries, log).map_err(feqyondil::Refusal::number)
}

pub struct Reader {
    pub port: Port,
}

impl Comparison for Reader {
    type Input = WithOutput<Log>;
    type Counts = Numbers;
    const NAME: &'static str = "run log reader";

    fn parts(&self, mode: Mode) -> Vec<Part<Self::Input>> {
        let short = mode.pick(2, 3, 0);
        let numbers = (0..=short).flat_map(|len| (0..1u32 << (8 * len)).map(move |n| (len, n)));
        let every = numbers.map(|(len, n)| Log::Bytes(Bytes::of(&n.to_le_bytes()[..len])));
        let kinds = fixed::logs().into_iter().map(|(_, _, log)| log);
        let [logs, bytes] = mode.pick([30_000, 10_000], [2_200_000, 300_000], [500, 100]);
        vec![
            Part::each(format!("every log of 0 to {short} bytes"), every.map(WithOutput::of)),
            Part::each("every number of telling bytes", fixed::numbers().map(WithOutput::of)),
            Part::each("of each kind", kinds),
            Part::drawn("random", logs, log_to_read(mode.alone())),
            Part::drawn("random bytes", bytes, bytes_to_read(mode.alone())),
        ]
    }

    fn compare(&self, input: &Self::Input) -> Result<Numbers, String> {
        let log = input.of.made();
        // What is refused has no more numbers than bytes.
        let takes = run_log::count(&log).map_or(log.len(), |count| NUMBERS * count);
        let room = input.output(takes);
        let port = (self.port.read, self.port.write);
        let answer = compare(port, run_log::read, &log, room, input.standing)?;
        Ok(kinds::of_log(&log, room, answer))
    }

    fn told(&self, input: &Self::Input) -> String {
        format!("{input:?}\n  log: {}", hex(&input.of.made()))
    }
}

pub struct Writer {
    pub port: Port,
}

impl Comparison for Writer {
    type Input = WithOutput<Entries>;
    type Counts = Numbers;
    const NAME: &'static str = "run log writer";

    fn parts(&self, mode: Mode) -> Vec<Part<Self::Input>> {
        let kinds = fixed::entries().into_iter().map(|(_, _, entries)| entries);
        let count = mode.pick(20_000, 800_000, 300);
        vec![
            Part::each("of each kind", kinds),
            Part::drawn("random", count, entries_to_write(mode.alone())),
        ]
    }

    fn compare(&self, input: &Self::Input) -> Result<Numbers, String> {
        let entries = input.of.made();
        // What is refused has five bytes a number at most.
        let takes = run_log::size(&entries).unwrap_or(5 * (1 + entries.len()));
        let room = input.output(takes);
        let port = (self.port.write, self.port.read);
        let answer = compare(port, run_log::write, &entries, room, input.standing)?;
        Ok(kinds::of_entries(&entries, room, answer))
    }

    fn told(&self, input: &Self::Input) -> String {
        let entries = input.of.made();
        let front = &entries[..entries.len().min(PRINTED)];
        format!("{input:?}\n  entries: {front:?}, {} numbers", entries.len())
    }
}

/// What is lent: bytes of a log, or numbers of entries.
trait Item: Copy + Debug + PartialEq + From<u8> {
    /// How many there are for each that is answered.
    const EACH: usize;
}

impl Item for u8 {
    const EACH: usize = 1;
}

impl Item for u32 {
    const EACH: usize = NUMBERS;
}

/// The port's first call answers and writes as N6 says, and leaves the rest of the output; its
/// second makes of that what was lent, where there is room for more.
fn compare<I: Item, O: Item>(
    (port, back): (PortCall<I, O>, PortCall<O, I>),
    said: fn(&[I], &mut [O]) -> Result<usize, Refusal>,
    lent: &[I],
    room: usize,
    [first, second]: [Standing; 2],
) -> Result<Answer, String> {
    let mut output = vec![O::from(ROOM); room];
    let answer = said(lent, &mut output).map_err(|refusal| refusal as u32);
    same(answer, &output, asked(port, lent, room, [first, second])?)?;
    if let Ok(count) = answer {
        let again = [lent, &[I::from(ROOM); NUMBERS]].concat();
        let back = asked(back, &output[..O::EACH * count], again.len(), [second, first])?;
        let told = |why| format!("  back again:\n{why}");
        same(Ok(lent.len() / I::EACH), &again, back).map_err(told)?;
    }
    Ok(answer)
}

/// The port's answer, and what is in an output of so much room after it.
fn asked<I: Item, O: Item>(
    port: PortCall<I, O>,
    lent: &[I],
    room: usize,
    [first, second]: [Standing; 2],
) -> Result<(Answer, Vec<O>), String> {
    let (input, before) = (Buffer::new(lent, first), vec![O::from(ROOM); room]);
    let mut output = Buffer::new(&before, second);
    let answer = port(input.slice(), output.slice_mut());
    match input.still_holds(lent) && output.intact() {
        true => Ok((answer, output.slice().to_vec())),
        false => Err("  port: it wrote where it was not to".to_string()),
    }
}

fn same<T: Item>(said: Answer, output: &[T], (port, has): (Answer, Vec<T>)) -> Result<(), String> {
    if port != said {
        return Err(format!("  N6:   {}\n  port: {}", text(said), text(port)));
    }
    let Some(at) = output.iter().zip(&has).position(|(a, b)| a != b) else {
        return Ok(());
    };
    let end = output.len().min(at + 8);
    let (said, has) = (&output[at..end], &has[at..end]);
    Err(format!("  the output from {at} on\n  N6:   {said:?}\n  port: {has:?}"))
}

fn text(answer: Answer) -> String {
    match answer {
        Ok(count) => format!("accepted, {count}"),
        Err(number) => format!("refused by {number}"),
    }
}

#[cfg(test)]
mod tests;

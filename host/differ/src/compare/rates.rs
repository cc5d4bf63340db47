//! Daily rates in sixtieths: the port's calls, by numbers and by types, against our own Rust of
//! N8's words (the crate `rate`), with what they are to leave alone; what they accept goes back.

mod calls;
mod fixed;
mod kinds;

use std::fmt::Debug;

use crate::describe::{self, thirds, two_rates, Rate, Thirds};
use crate::judge::{Comparison, Mode, Numbers, Part};
use crate::store::lent::call::ROOM;
use crate::store::lent::port::Buffer;
use crate::store::lent::Standing;
use calls::SAID;
pub use calls::{Calls, LENT, TYPED};

/// Both forms of the port's calls; the tests plant faults here.
pub type Port = [Calls; 2];
pub const PORT: Port = [LENT, TYPED];

/// A call's number, and what is in its array after it.
type Answer<T, const N: usize> = (u32, [T; N]);

pub struct Rates {
    pub port: Port,
}

impl Comparison for Rates {
    type Input = describe::Rates;
    type Counts = Numbers;
    const NAME: &'static str = "rates";

    fn parts(&self, mode: Mode) -> Vec<Part<Self::Input>> {
        let kinds = fixed::rates().into_iter().map(|(_, pair, _)| describe::Rates::of(pair));
        let count = mode.pick(30_000, 2_000_000, 1_000);
        vec![
            Part::each("of each kind", kinds),
            Part::each("every pair of corner rates", fixed::corners(mode)),
            Part::drawn("random", count, two_rates(mode.alone())),
        ]
    }

    fn compare(&self, input: &Self::Input) -> Result<Numbers, String> {
        let rates = input.made();
        let mut lent = Lent::new(rates, input.standing);
        let said = lent.asked(&SAID);
        for calls in &self.port {
            let told = |why| format!("  {}: {why}", calls.name);
            said.same(&lent.asked(calls)).map_err(told)?;
            back(calls, rates, &said).map_err(told)?;
        }
        lent.untouched()?;
        Ok(kinds::of_rates(rates, &said))
    }

    fn told(&self, input: &Self::Input) -> String {
        let [first, second] = input.made();
        format!("{input:?}\n  rates: {first:?} and {second:?}")
    }
}

pub struct FromThirds {
    pub port: Port,
}

impl Comparison for FromThirds {
    type Input = Thirds;
    type Counts = Numbers;
    const NAME: &'static str = "rates from thirds";

    fn parts(&self, mode: Mode) -> Vec<Part<Self::Input>> {
        let kinds = fixed::thirds().into_iter().map(|(_, number, _)| Thirds::of(number));
        let name = mode.pick("every number about boundaries", "every number that a rate has", "");
        let count = mode.pick(10_000, 500_000, 300);
        vec![
            Part::each("of each kind", kinds),
            Part::each(name, fixed::numbers(mode).map(Thirds::of)),
            Part::drawn("random", count, thirds(mode.alone())),
        ]
    }

    fn compare(&self, input: &Self::Input) -> Result<Numbers, String> {
        let number = input.number;
        let mut room = room::<u32, 5>(input.standing);
        let said = filled(&mut room, |rate| (SAID.from_thirds)(number, rate));
        for calls in &self.port {
            let port = filled(&mut room, |rate| (calls.from_thirds)(number, rate));
            let told = |why| format!("  {}: {why}", calls.name);
            same("the rate", said, port).map_err(told)?;
            if let (0, rate) = said {
                again("its thirds", [number], |out| (calls.to_thirds)(&rate, out)).map_err(told)?;
            }
        }
        match room.intact() {
            true => Ok(kinds::of_thirds(number, said)),
            false => Err(ELSEWHERE.to_string()),
        }
    }

    fn told(&self, input: &Self::Input) -> String {
        format!("{input:?}")
    }
}

const ELSEWHERE: &str = "  port: it wrote where it was not to";

/// What an array holds.
trait Item: Copy + Debug + PartialEq + From<u8> {}

impl<T: Copy + Debug + PartialEq + From<u8>> Item for T {}

/// Two rates and room for what is answered on them.
struct Lent {
    rates: [Rate; 2],
    lent: [Buffer<u32>; 2],
    rate: Buffer<u32>,
    order: Buffer<u64>,
    thirds: Buffer<i64>,
}

impl Lent {
    fn new(rates: [Rate; 2], [first, second, answer]: [Standing; 3]) -> Self {
        Lent {
            rates,
            lent: [Buffer::new(&rates[0], first), Buffer::new(&rates[1], second)],
            rate: room::<u32, 5>(answer),
            order: room::<u64, 1>(answer),
            thirds: room::<i64, 1>(answer),
        }
    }

    fn asked(&mut self, calls: &Calls) -> Answers {
        let [a, b] = [0, 1].map(|at| self.lent[at].slice().try_into().expect("a rate"));
        let mut to_thirds = |rate| filled(&mut self.thirds, |out| (calls.to_thirds)(rate, out));
        Answers {
            sum: filled(&mut self.rate, |out| (calls.add)(a, b, out)),
            difference: filled(&mut self.rate, |out| (calls.subtract)(a, b, out)),
            order: filled(&mut self.order, |out| (calls.compare)(a, b, out)),
            thirds: [to_thirds(a), to_thirds(b)],
        }
    }

    fn untouched(&self) -> Result<(), String> {
        let mut lent = self.lent.iter().zip(&self.rates);
        let same = lent.all(|(buffer, rate)| buffer.still_holds(rate));
        match same && self.rate.intact() && self.order.intact() && self.thirds.intact() {
            true => Ok(()),
            false => Err(ELSEWHERE.to_string()),
        }
    }
}

/// What is answered on two rates.
struct Answers {
    sum: Answer<u32, 5>,
    difference: Answer<u32, 5>,
    order: Answer<u64, 1>,
    thirds: [Answer<i64, 1>; 2],
}

impl Answers {
    fn same(&self, port: &Answers) -> Result<(), String> {
        same("the sum", self.sum, port.sum)?;
        same("the difference", self.difference, port.difference)?;
        same("the order", self.order, port.order)?;
        same("the first's thirds", self.thirds[0], port.thirds[0])?;
        same("the second's thirds", self.thirds[1], port.thirds[1])
    }
}

/// Thirds go back to their rate, a sum and a difference to the thirds that they come to, and the
/// difference with the second to the first.
fn back(calls: &Calls, [a, b]: [Rate; 2], said: &Answers) -> Result<(), String> {
    for (rate, answer) in [a, b].into_iter().zip(said.thirds) {
        if let (0, [thirds]) = answer {
            let from_thirds = |out: &mut _| (calls.from_thirds)(thirds, out);
            again("the rate of its thirds", signed(rate), from_thirds)?;
        }
    }
    let [(_, [first]), (_, [second])] = said.thirds;
    if let (0, sum) = said.sum {
        again("the sum's thirds", [first + second], |out| (calls.to_thirds)(&sum, out))?;
    }
    if let (0, difference) = said.difference {
        let thirds = [first - second];
        again("the difference's thirds", thirds, |out| (calls.to_thirds)(&difference, out))?;
        let add = |out: &mut _| (calls.add)(&difference, &b, out);
        again("the difference and the second", signed(a), add)?;
    }
    Ok(())
}

/// With sign 0 or 1.
fn signed([sign, hours, minutes, seconds, thirds]: Rate) -> Rate {
    [sign.min(1), hours, minutes, seconds, thirds]
}

/// For an answer, with other numbers in it.
fn room<T: Item, const N: usize>(standing: Standing) -> Buffer<T> {
    Buffer::new(&[T::from(ROOM); N], standing)
}

fn filled<T: Item, const N: usize>(
    room: &mut Buffer<T>,
    call: impl FnOnce(&mut [T; N]) -> u32,
) -> Answer<T, N> {
    let out: &mut [T; N] = room.slice_mut().try_into().expect("as many");
    *out = [T::from(ROOM); N];
    (call(out), *out)
}

/// A call accepts, and answers what it was before.
fn again<T: Item, const N: usize>(
    what: &str,
    before: [T; N],
    call: impl FnOnce(&mut [T; N]) -> u32,
) -> Result<(), String> {
    let mut out = [T::from(ROOM); N];
    let number = call(&mut out);
    same(what, (0, before), (number, out)).map_err(|why| format!("back again, {why}"))
}

fn same<T: Item, const N: usize>(
    what: &str,
    said: Answer<T, N>,
    port: Answer<T, N>,
) -> Result<(), String> {
    match said == port {
        true => Ok(()),
        false => Err(format!("{what}\n  N8:   {}\n  port: {}", text(said), text(port))),
    }
}

fn text<T: Item, const N: usize>((number, out): Answer<T, N>) -> String {
    match number {
        0 => format!("accepted, {out:?}"),
        _ => format!("refused by {number}, {out:?}"),
    }
}

#[cfg(test)]
mod tests;

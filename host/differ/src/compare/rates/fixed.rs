//! Rates and thirds of each kind with what they are counted as and what is to be answered, corner
//! rates, and thirds in a row.

use rate::END;

use crate::describe::{Rate, Rates, ENDS, UNITS};
use crate::judge::Mode;

/// What two rates are counted as, their sum and their difference; none where it is refused.
pub type OfRates = (&'static str, [Rate; 2], [Option<Rate>; 2]);
/// What thirds are counted as, and their rate.
pub type OfThirds = (&'static str, i64, Option<Rate>);

const ZERO: Rate = [0; 5];
const THIRD: Rate = [0, 0, 0, 0, 1];
const HOUR: Rate = [0, 1, 0, 0, 0];
/// A third less than an hour and than 24.
const BELOW_HOUR: Rate = [0, 0, 59, 59, 59];
const LONGEST: Rate = [0, 23, 59, 59, 59];

fn minus([_, hours, minutes, seconds, thirds]: Rate) -> Rate {
    [1, hours, minutes, seconds, thirds]
}

fn row(name: &'static str, pair: [Rate; 2], [sum, difference]: [Rate; 2]) -> OfRates {
    (name, pair, [Some(sum), Some(difference)])
}

pub fn rates() -> Vec<OfRates> {
    [of_places(), of_results(), of_orders(), refused()].concat()
}

fn of_places() -> Vec<OfRates> {
    const CARRY: &str = "with a carry through all places";
    const BORROW: &str = "with a borrow through all places";
    const SIGN: &str = "accepted with a sign over 1";
    let (minute, second) = ([0, 0, 1, 0, 0], [0, 0, 0, 1, 0]);
    let (minutes, seconds, thirds) = ([0, 0, 59, 0, 0], [0, 0, 0, 59, 0], [0, 0, 0, 0, 59]);
    vec![
        row("accepted", [ZERO, ZERO], [ZERO, ZERO]),
        row("accepted", [[0, 1, 2, 3, 4], [0, 5, 6, 7, 8]], [[0, 6, 8, 10, 12], [1, 4, 4, 4, 4]]),
        row("with a carry to seconds", [thirds, THIRD], [second, [0, 0, 0, 0, 58]]),
        row("with a carry to minutes", [seconds, second], [minute, [0, 0, 0, 58, 0]]),
        row("with a carry to hours", [minus(minutes), minute], [[1, 0, 58, 0, 0], minus(HOUR)]),
        row(CARRY, [BELOW_HOUR, THIRD], [HOUR, [0, 0, 59, 59, 58]]),
        row(CARRY, [THIRD, minus(BELOW_HOUR)], [[1, 0, 59, 59, 58], HOUR]),
        row(CARRY, [BELOW_HOUR, BELOW_HOUR], [[0, 1, 59, 59, 58], ZERO]),
        row("with a borrow from seconds", [second, THIRD], [[0, 0, 0, 1, 1], thirds]),
        row("with a borrow from minutes", [minute, minus(second)], [seconds, [0, 0, 1, 1, 0]]),
        row("with a borrow from hours", [minute, HOUR], [[0, 1, 1, 0, 0], minus(minutes)]),
        row(BORROW, [HOUR, THIRD], [[0, 1, 0, 0, 1], BELOW_HOUR]),
        row(BORROW, [THIRD, HOUR], [[0, 1, 0, 0, 1], minus(BELOW_HOUR)]),
        row(BORROW, [minus(HOUR), THIRD], [minus(BELOW_HOUR), [1, 1, 0, 0, 1]]),
        row(SIGN, [[2, 0, 0, 0, 1], ZERO], [minus(THIRD); 2]),
        row(SIGN, [ZERO, [u32::MAX, 1, 0, 0, 0]], [minus(HOUR), HOUR]),
    ]
}

fn of_results() -> Vec<OfRates> {
    const OPPOSITE: &str = "with a sum of 0 from opposite rates";
    const OF_MINUS: &str = "with a difference of 0 from minus rates";
    const SUM: &str = "with a sum of 5,183,999 thirds";
    const DIFFERENCE: &str = "with a difference of as many";
    const SUM_OVER: &str = "for one of 5,184,000 thirds";
    const DIFFERENCE_OVER: &str = "for one of as many";
    let (hours, below) = ([0, 23, 0, 0, 0], [0, 23, 59, 59, 58]);
    vec![
        row(OPPOSITE, [THIRD, minus(THIRD)], [ZERO, [0, 0, 0, 0, 2]]),
        row(OPPOSITE, [minus(HOUR), HOUR], [ZERO, [1, 2, 0, 0, 0]]),
        row(OF_MINUS, [minus(THIRD); 2], [[1, 0, 0, 0, 2], ZERO]),
        row(SUM, [LONGEST, ZERO], [LONGEST; 2]),
        row(SUM, [hours, BELOW_HOUR], [LONGEST, [0, 22, 0, 0, 1]]),
        row(SUM, [minus(below), minus(THIRD)], [minus(LONGEST), [1, 23, 59, 59, 57]]),
        row(DIFFERENCE, [minus(hours), BELOW_HOUR], [[1, 22, 0, 0, 1], minus(LONGEST)]),
        row(DIFFERENCE, [below, minus(THIRD)], [[0, 23, 59, 59, 57], LONGEST]),
        ("refused for the sum", [LONGEST; 2], [None, Some(ZERO)]),
        (SUM_OVER, [LONGEST, THIRD], [None, Some(below)]),
        (SUM_OVER, [minus(HOUR), minus(hours)], [None, Some([0, 22, 0, 0, 0])]),
        ("for the difference", [LONGEST, minus(LONGEST)], [Some(ZERO), None]),
        (DIFFERENCE_OVER, [minus(LONGEST), THIRD], [Some(minus(below)), None]),
        (DIFFERENCE_OVER, [HOUR, minus(hours)], [Some([1, 22, 0, 0, 0]), None]),
    ]
}

fn of_orders() -> Vec<OfRates> {
    const BELOW: &str = "less of two with minus";
    let two = [0, 0, 0, 0, 2];
    vec![
        row("less", [ZERO, THIRD], [THIRD, minus(THIRD)]),
        row("less", [minus(THIRD), ZERO], [minus(THIRD); 2]),
        row("less", [minus(HOUR), THIRD], [minus(BELOW_HOUR), [1, 1, 0, 0, 1]]),
        row("less", [BELOW_HOUR, HOUR], [[0, 1, 59, 59, 59], minus(THIRD)]),
        row(BELOW, [minus(two), minus(THIRD)], [[1, 0, 0, 0, 3], minus(THIRD)]),
        row(BELOW, [minus(HOUR), minus(BELOW_HOUR)], [[1, 1, 59, 59, 59], minus(THIRD)]),
        row("equal", [HOUR, HOUR], [[0, 2, 0, 0, 0], ZERO]),
        row("equal", [[2, 1, 0, 0, 0], minus(HOUR)], [[1, 2, 0, 0, 0], ZERO]),
        row("greater", [THIRD, minus(HOUR)], [minus(BELOW_HOUR), [0, 1, 0, 0, 1]]),
        row("greater", [minus(THIRD), minus(two)], [[1, 0, 0, 0, 3], THIRD]),
    ]
}

/// By each place of each, and by minus zero.
fn refused() -> Vec<OfRates> {
    let mut rows = Vec::new();
    for (place, end) in (1..).zip(ENDS) {
        let beyond = [(0, end), (1, end), (0, end + 1), (1, 255), (0, 256), (1, u32::MAX)];
        for (sign, number) in beyond {
            let rate = put([sign, 0, 0, 0, 0], place, number);
            rows.push(("for a place of the first", [rate, HOUR], [None; 2]));
            rows.push(("for a place of the second", [minus(HOUR), rate], [None; 2]));
        }
    }
    for sign in [1, 2, u32::MAX] {
        let rate = [sign, 0, 0, 0, 0];
        rows.push(("for minus zero as the first", [rate, ZERO], [None; 2]));
        rows.push(("for minus zero as the second", [HOUR, rate], [None; 2]));
    }
    rows
}

pub fn thirds() -> Vec<OfThirds> {
    const NARROW: &str = "refused with a rate in 32 bits";
    vec![
        ("of 0", 0, Some(ZERO)),
        ("of thirds alone", 1, Some(THIRD)),
        ("below 0", -1, Some(minus(THIRD))),
        ("of thirds alone", 59, Some([0, 0, 0, 0, 59])),
        ("of seconds", 60, Some([0, 0, 0, 1, 0])),
        ("of seconds", -3_599, Some([1, 0, 0, 59, 59])),
        ("of minutes", 3_600, Some([0, 0, 1, 0, 0])),
        ("of minutes", -215_999, Some(minus(BELOW_HOUR))),
        ("of hours", 216_000, Some(HOUR)),
        ("of hours", 216_000 + 2 * 3_600 + 3 * 60 + 4, Some([0, 1, 2, 3, 4])),
        ("of 59 in each other place", END - 1, Some(LONGEST)),
        ("below 0", 1 - END, Some(minus(LONGEST))),
        ("refused above", END, None),
        ("refused below", -END, None),
        ("refused above", i64::MAX, None),
        ("refused below", i64::MIN, None),
        (NARROW, 1 << 32, None),
        (NARROW, -(1 << 32) - 1, None),
    ]
}

/// Every pair of rates of such signs, hours and other places.
pub fn corners(mode: Mode) -> impl Iterator<Item = Rates> {
    let signs = mode.pick(&[0, 1][..], &[0, 1, 2], &[]);
    let hours = mode.pick(&[0, 1, 23, 24][..], &[0, 1, 12, 22, 23, 24], &[]);
    let places = mode.pick(&[0, 1, 59, 60][..], &[0, 1, 30, 58, 59, 60], &[]);
    let mut rates: Vec<Rate> = signs.iter().map(|&sign| [sign, 0, 0, 0, 0]).collect();
    for (place, numbers) in [(1, hours), (2, places), (3, places), (4, places)] {
        let with = |rate: Rate| numbers.iter().map(move |&number| put(rate, place, number));
        rates = rates.into_iter().flat_map(with).collect();
    }
    let count = rates.len();
    (0..count * count).map(move |at| Rates::of([rates[at / count], rates[at % count]]))
}

fn put(mut rate: Rate, place: usize, number: u32) -> Rate {
    rate[place] = number;
    rate
}

/// Thirds about those of each place and of 24 hours; in the long mode each that a rate has, and a
/// few more.
pub fn numbers(mode: Mode) -> impl Iterator<Item = i64> {
    let about = UNITS.map(|unit| unit - 4_000..=unit + 4_000);
    let ranges = mode.pick(about.to_vec(), vec![0..=END + 10], Vec::new());
    ranges.into_iter().flatten().flat_map(|number| [number, -number])
}

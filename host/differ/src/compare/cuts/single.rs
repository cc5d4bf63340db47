//! Commits that are each cut at their cut points in both orders, and then carried out whole.

use super::device::{Commit, Device};
use super::reader::Verdict;
use super::steps::{Order, DOWNWARD, UPWARD};
use crate::describe::{plan, Plan};
use crate::judge::{Comparison, Mode, Numbers, Part};
use crate::partition::cause::Causes;
use crate::store::lent::Port;

/// About so many cut points of a commit are judged that has more, and those near its ends.
const MOST: usize = 200;
const ENDS: usize = 40;

/// Cut points of an order, and what became of the flash there.
#[derive(Clone, Copy, Debug, Default, PartialEq)]
pub struct Count {
    pub points: u64,
    pub value_lost: u64,
    pub store_lost: u64,
}

/// Commits in place and commits that move, each upward and downward.
#[derive(Debug, Default)]
pub struct Cuts {
    commits: [u64; 2],
    counts: [[Count; 2]; 2],
    causes: Causes,
}

impl Cuts {
    /// Cuts a commit in both orders, and finishes it.
    pub fn cut(&mut self, device: &mut Device, commit: &Commit) -> Result<(), String> {
        let place = usize::from(commit.moved);
        self.commits[place] += 1;
        for (order, count) in [UPWARD, DOWNWARD].iter().zip(&mut self.counts[place]) {
            cut(device, commit, order, count)?;
        }
        finish(device, commit)?;
        self.causes = device.causes();
        Ok(())
    }

    /// What is lost downward is an error, and need not be counted.
    pub fn numbers(&self) -> Numbers {
        let [[in_place, _], [moved, _]] = self.counts;
        let points = self.counts.iter().flatten().map(|count| count.points);
        let numbers = [
            ("cut points, half of them downward, which lose nothing", points.sum()),
            ("commits in place", self.commits[0]),
            (LOST[0], in_place.value_lost),
            ("the store", in_place.store_lost),
            ("commits that move", self.commits[1]),
            (LOST[1], moved.value_lost),
            ("the store there", moved.store_lost),
        ];
        Numbers::of(&[&numbers[..], &self.causes.numbers()].concat())
    }
}

/// In place, and in a move.
const LOST: [&str; 2] = ["of whose upward cuts lose a value", "of whose upward ones lose a value"];

/// Judges the cut points of a commit, whose bytes are programmed in an order.
pub fn cut(
    device: &mut Device,
    commit: &Commit,
    order: &Order,
    count: &mut Count,
) -> Result<(), String> {
    let steps = device.steps(commit, order)?;
    let k = steps.len();
    let (near, stride) = (|j| j <= ENDS || j + ENDS >= k, k / MOST + 1);
    let mut flash = device.flash.bytes.clone();
    for (j, step) in (1..k).zip(&steps) {
        step.apply(&mut flash);
        if !near(j) && j % stride != 0 {
            continue;
        }
        let verdict = device.judge(&flash, commit)?;
        count.points += 1;
        count.value_lost += u64::from(matches!(verdict, Verdict::ValueLost(_)));
        count.store_lost += u64::from(verdict == Verdict::StoreLost);
        if order.keeps && verdict != Verdict::Kept {
            let what = format!("{}, cut after {j} of {k} steps", order.name);
            return Err(device.told(&what, verdict));
        }
    }
    Ok(())
}

/// Carries a commit out, after which nothing is to be lost.
pub fn finish(device: &mut Device, commit: &Commit) -> Result<(), String> {
    match device.finish(commit)? {
        Verdict::Kept => Ok(()),
        verdict => Err(device.told("finished", verdict)),
    }
}

/// Every commit of a plan.
pub struct Single {
    pub port: Port,
}

impl Comparison for Single {
    type Input = Plan;
    type Counts = Numbers;
    const NAME: &'static str = "cuts";

    fn parts(&self, mode: Mode) -> Vec<Part<Plan>> {
        vec![Part::drawn("every commit", mode.pick(20, 600, 0), plan())]
    }

    fn compare(&self, plan: &Plan) -> Result<Numbers, String> {
        let mut cuts = Cuts::default();
        let Some(mut device) = Device::open(self.port, &plan.image.made(), &plan.keys())? else {
            return Ok(cuts.numbers());
        };
        device.go(plan, |device, _| match device.commit()? {
            Some(commit) => cuts.cut(device, &commit),
            None => Ok(()),
        })?;
        Ok(cuts.numbers())
    }

    fn told(&self, plan: &Plan) -> String {
        plan.to_string()
    }

    /// What the header says of an upward write is to be seen in place and in a move.
    fn seen(&self, _: &str, counts: &Numbers) -> Result<(), String> {
        match LOST.iter().find(|name| counts.get(name) == 0) {
            Some(name) => Err(format!("cuts: 0 {name}")),
            None => Ok(()),
        }
    }
}

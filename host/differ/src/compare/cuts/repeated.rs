//! Commits that are cut again and again, downward; the store goes on from what the flash is then.

use super::device::Device;
use super::reader::Verdict;
use super::steps::{Step, DOWNWARD};
use crate::describe::{plan, Action, Plan};
use crate::judge::{Comparison, Mode, Numbers, Part};
use crate::partition::cause::Causes;
use crate::store::lent::Port;

/// How a store goes on after a cut.
#[derive(Clone, Copy, Debug, PartialEq)]
pub enum GoesOn {
    /// With the next commit as it comes, which is known to lose something at times.
    StraightOn,
    /// With a move, where something is written behind the records; it is to lose nothing.
    MoveFirst,
}

/// A plan with its cuts. It ends with the first loss.
pub struct Repeated {
    pub port: Port,
    pub goes_on: GoesOn,
}

#[derive(Clone, Copy, Debug, Default, PartialEq)]
pub struct Count {
    pub cuts: u64,
    pub finished: u64,
    /// Cuts that are not kept, and finished commits after which the flash answers otherwise than
    /// the store.
    pub cuts_lost: u64,
    pub finished_lost: u64,
    pub causes: Causes,
}

impl Comparison for Repeated {
    type Input = Plan;
    type Counts = Numbers;
    const NAME: &'static str = "cuts";

    fn parts(&self, mode: Mode) -> Vec<Part<Plan>> {
        let (name, count) = match self.goes_on {
            GoesOn::StraightOn => ("going straight on", mode.pick(200, 11_000, 0)),
            GoesOn::MoveFirst => ("moving first", mode.pick(350, 35_000, 0)),
        };
        vec![Part::drawn(name, count, plan())]
    }

    fn compare(&self, plan: &Plan) -> Result<Numbers, String> {
        let mut count = Count::default();
        let done = self.go(plan, &mut count);
        let known = self.goes_on == GoesOn::StraightOn && count.cuts_lost + count.finished_lost > 0;
        if !known {
            done?;
        }
        let numbers = [
            ("cuts", count.cuts),
            ("of them not kept", count.cuts_lost),
            ("finished commits", count.finished),
            ("of those not kept", count.finished_lost),
        ];
        Ok(Numbers::of(&[&numbers[..], &count.causes.numbers()].concat()))
    }

    fn told(&self, plan: &Plan) -> String {
        plan.to_string()
    }
}

impl Repeated {
    /// Goes through a plan; the error tells what was lost.
    pub fn go(&self, plan: &Plan, count: &mut Count) -> Result<(), String> {
        let opened = Device::open(self.port, &plan.image.made(), &plan.keys())?;
        let Some(mut device) = opened else {
            return Ok(());
        };
        let done = device.go(plan, |device, action| {
            if self.goes_on == GoesOn::MoveFirst {
                device.move_first()?;
            }
            commit(device, action, count)
        });
        count.causes = device.causes();
        done
    }
}

fn commit(device: &mut Device, action: &Action, count: &mut Count) -> Result<(), String> {
    let Some(commit) = device.commit()? else {
        return Ok(());
    };
    let steps = device.steps(&commit, &DOWNWARD)?;
    let (what, verdict, lost) = match action {
        Action::Cut(pick) if steps.len() > 1 => {
            count.cuts += 1;
            let verdict = device.cut(&commit, &steps, point(&steps, *pick))?;
            ("cut", verdict, &mut count.cuts_lost)
        }
        _ => {
            count.finished += 1;
            ("finished", device.finish(&commit)?, &mut count.finished_lost)
        }
    };
    if verdict == Verdict::Kept {
        return Ok(());
    }
    *lost += 1;
    Err(device.told(what, verdict))
}

/// A cut point of two steps or more: one of the first, one right behind the first byte of a record,
/// be it in a value, or any.
fn point(steps: &[Step], pick: usize) -> usize {
    let starts = |j: &usize| matches!(steps[j - 1], Step::Program(_, 0xAA));
    let starts: Vec<usize> = (1..steps.len()).filter(starts).collect();
    let (kind, pick) = (pick % 4, pick / 4);
    match kind {
        0 => 1 + pick % (steps.len() - 1).min(4),
        1 | 2 if !starts.is_empty() => starts[pick % starts.len()],
        _ => 1 + pick % (steps.len() - 1),
    }
}

//! What is compared.

mod any_state;
mod banks;
mod checksum;
mod cuts;
mod rates;
mod run_log;
mod runs;
mod settings;

use cuts::{GoesOn, Repeated, Single, Strikes};
use feqyondil::bank_cause;

use crate::judge::Judge;
#[cfg(test)]
use crate::judge::{Comparison, Counts, Mode, Numbers, Part};
use crate::partition::lent;
use crate::store::lent::Port;

/// All of it, a line each; the error tells the first difference.
pub fn all(judge: &mut Judge) -> Result<(), String> {
    let port = Port::default();
    judge.hold(&checksum::Checksum::new())?;
    judge.hold(&banks::Banks::new(lent::read, bank_cause))?;
    judge.hold(&settings::Settings { port: settings::port, cause: bank_cause })?;
    judge.hold(&run_log::Reader { port: run_log::Port::default() })?;
    judge.hold(&run_log::Writer { port: run_log::Port::default() })?;
    judge.hold(&rates::Rates { port: rates::PORT })?;
    judge.hold(&rates::FromThirds { port: rates::PORT })?;
    judge.hold(&runs::Runs { port })?;
    judge.hold(&any_state::AnyState { port })?;
    judge.hold(&Strikes { port })?;
    judge.hold(&Single { port })?;
    judge.hold(&Repeated { port, goes_on: GoesOn::StraightOn })?;
    judge.hold(&Repeated { port, goes_on: GoesOn::MoveFirst })
}

#[cfg(test)]
mod planted;

/// Of what is drawn for a part there is every kind, and from a quarter to three is accepted.
#[cfg(test)]
fn drawn<C: Comparison<Counts = Numbers>>(comparison: &C, inputs: Part<C::Input>) {
    let counts = Judge::new(Mode::Short, 3).part(comparison, "", inputs.inputs).unwrap();
    counts.are_met(20);
    let (accepted, all) = (counts.get("accepted"), counts.inputs());
    assert!(4 * accepted > all && 4 * accepted < 3 * all, "{counts}");
}

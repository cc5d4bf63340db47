//! What is tried is of every kind.

use super::fixed::Row;
use super::*;
use crate::compare::drawn;

/// The counts of rows of which each is counted as it says.
fn of_rows<T, C>(comparison: &C, rows: Vec<Row<T>>) -> Numbers
where
    T: Debug + 'static,
    C: Comparison<Input = WithOutput<T>, Counts = Numbers>,
{
    let mut all = Numbers::default();
    for (name, answer, input) in rows {
        let counts = comparison.compare(&input).unwrap();
        assert_eq!(counts.get(name), 1, "{name}: {input:?}: {counts}");
        assert_eq!(counts.get("accepted"), u64::from(answer.is_ok()), "{input:?}: {counts}");
        all += counts;
    }
    all
}

#[test]
fn each_kind_has_its_answer() {
    let port = Port::default();
    for (name, answer, input) in fixed::logs() {
        let log = input.of.made();
        let mut entries = vec![0; input.output(run_log::count(&log).map_or(0, |n| NUMBERS * n))];
        let said = run_log::read(&log, &mut entries).map_err(|refusal| refusal as u32);
        assert_eq!(said, answer, "{name}: {input:?}");
    }
    for (name, answer, input) in fixed::entries() {
        let entries = input.of.made();
        let mut log = vec![0; input.output(run_log::size(&entries).unwrap_or(0))];
        let said = run_log::write(&entries, &mut log).map_err(|refusal| refusal as u32);
        assert_eq!(said, answer, "{name}: {input:?}");
    }
    of_rows(&Reader { port }, fixed::logs()).are_met(1);
    of_rows(&Writer { port }, fixed::entries()).are_met(1);
}

#[test]
fn random_ones_are_of_every_kind() {
    let port = Port::default();
    drawn(&Reader { port }, Part::drawn("", 10_000, log_to_read(false)));
    drawn(&Writer { port }, Part::drawn("", 10_000, entries_to_write(false)));
}

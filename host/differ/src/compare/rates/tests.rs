//! What is tried is of every kind.

use super::*;
use crate::compare::drawn;

#[test]
fn each_kind_has_its_answer() {
    let (rates, mut all) = (Rates { port: PORT }, Numbers::default());
    for (name, [a, b], answers) in fixed::rates() {
        assert_eq!([rate::add(&a, &b), rate::subtract(&a, &b)], answers, "{name}: {a:?} {b:?}");
        let counts = rates.compare(&describe::Rates::of([a, b])).unwrap();
        assert_eq!(counts.get(name), 1, "{name}: {a:?} {b:?}: {counts}");
        let accepted = answers.iter().all(Option::is_some);
        assert_eq!(counts.get("accepted"), u64::from(accepted), "{a:?} {b:?}: {counts}");
        all += counts;
    }
    all.are_met(1);
}

#[test]
fn each_kind_of_thirds_has_its_rate() {
    let (rates, mut all) = (FromThirds { port: PORT }, Numbers::default());
    for (name, number, answer) in fixed::thirds() {
        assert_eq!(rate::from_thirds(number), answer, "{name}: {number}");
        let counts = rates.compare(&Thirds::of(number)).unwrap();
        assert_eq!(counts.get(name), 1, "{name}: {number}: {counts}");
        all += counts;
    }
    all.are_met(1);
}

#[test]
fn corners_are_all_pairs() {
    let pairs: Vec<_> = fixed::corners(Mode::Short).map(|rates| rates.made()).collect();
    assert_eq!(pairs.len(), 512 * 512);
    for rate in [[0; 5], [1, 0, 0, 0, 0], [0, 23, 59, 59, 59], [1, 24, 60, 60, 60]] {
        assert_eq!(pairs.iter().filter(|[first, _]| *first == rate).count(), 512, "{rate:?}");
        assert_eq!(pairs.iter().filter(|[_, second]| *second == rate).count(), 512, "{rate:?}");
    }
}

#[test]
fn random_ones_are_of_every_kind() {
    drawn(&Rates { port: PORT }, Part::drawn("", 10_000, two_rates(false)));
    drawn(&FromThirds { port: PORT }, Part::drawn("", 10_000, thirds(false)));
}

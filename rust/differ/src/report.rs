//! What a comparison met, and what it should have met and did not.

use crate::Outcome;
use cases::table::split;
use cases::{answers, systematic, Case};
use std::collections::{BTreeMap, BTreeSet};
use std::fmt::Display;

#[derive(Default)]
pub struct Report {
    pub cases: u64,
    pub events: u64,
    pub pairs_of_orders: u64,
    /// How often two runs were done in one call.
    pub in_one_call: u64,
    /// How often each number was returned.
    pub returned: BTreeMap<u32, u64>,
    /// By label of an answer, how often it was given.
    pub answered: BTreeMap<&'static str, u64>,
    /// By label, how often each number was returned.
    pub labels: BTreeMap<&'static str, BTreeMap<u32, u64>>,
    /// The first difference, with all that is needed to see it again.
    pub difference: Option<String>,
}

/// The numbers with which a label's cases are refused: its first word, a number or a first and a last.
fn refused_with(label: &str) -> Option<(u32, u32)> {
    let word = label.split(' ').next()?;
    let (first, last) = word.split_once('-').unwrap_or((word, word));
    Some((first.parse().ok()?, last.parse().ok()?))
}

/// What was due and not met, and what was met and not due.
fn unlike<'a, T: Ord + Display + 'a>(what: &str, met: impl Iterator<Item = &'a T>, due: &BTreeSet<T>) -> Vec<String> {
    let met: BTreeSet<&T> = met.collect();
    let missing = due.iter().filter(|one| !met.contains(one)).map(|one| format!("{what} '{one}' was not met"));
    let unknown = met.iter().filter(|one| !due.contains(one)).map(|one| format!("{what} '{one}' is not known"));
    missing.chain(unknown).collect()
}

impl Report {
    /// Counts a case that was found right.
    pub(crate) fn count(&mut self, case: &Case, outcomes: &[Outcome]) {
        self.pairs_of_orders += u64::from(outcomes.len() == 2);
        for (outcome, list) in outcomes.iter().zip([&case.list, &case.reordered]) {
            let number = outcome.returned.0;
            *self.returned.entry(number).or_default() += 1;
            *self.labels.entry(case.label).or_default().entry(number).or_default() += 1;
            if number != 0 {
                continue;
            }
            for (event, pair) in split(list).into_iter().zip(outcome.answers.chunks_exact(2)) {
                self.events += 1;
                *self.answered.entry(answers::label(&case.program, event, [pair[0], pair[1]])).or_default() += 1;
            }
        }
    }

    /// Labels that brought another refusal than their own.
    fn strays(&self) -> Vec<String> {
        let mut strays = vec![];
        for (label, numbers) in &self.labels {
            let Some((first, last)) = refused_with(label) else {
                continue;
            };
            let others = numbers.keys().filter(|number| !(first..=last).contains(number));
            strays.extend(others.map(|number| format!("label '{label}' returned {number}")));
        }
        strays
    }

    /// What the random cases should have met: each label with its own refusal, each number, each label of an answer.
    pub fn gaps(&self) -> Vec<String> {
        let labels = unlike("label", self.labels.keys(), &cases::labels());
        let returned = unlike("number", self.returned.keys(), &(0..=13).collect());
        let answered = unlike("answer", self.answered.keys(), &answers::LABELS.into_iter().collect());
        [labels, returned, answered, self.strays()].concat()
    }

    /// What the systematic cases should have met: each label.
    pub fn systematic_gaps(&self) -> Vec<String> {
        unlike("label", self.labels.keys(), &systematic::LABELS.into_iter().collect())
    }
}

#[cfg(test)]
mod tests {
    use super::*;

    /// A report that has met all, each once.
    fn full() -> Report {
        let mut report = Report::default();
        for label in cases::labels() {
            let number = refused_with(label).map_or(0, |(first, _)| first);
            report.labels.insert(label, BTreeMap::from([(number, 1)]));
        }
        report.returned = (0..=13).map(|number| (number, 1)).collect();
        report.answered = answers::LABELS.into_iter().map(|label| (label, 1)).collect();
        report
    }

    #[test]
    fn gaps_are_found() {
        assert_eq!(full().gaps(), [""; 0]);
        let mut report = full();
        report.labels.remove("7 with 10");
        report.answered.remove("17 fold");
        report.returned.remove(&13);
        assert_eq!(
            report.gaps(),
            ["label '7 with 10' was not met", "number '13' was not met", "answer '17 fold' was not met"]
        );
        let mut report = full();
        report.labels.insert("19 new", BTreeMap::from([(19, 1)]));
        report.answered.insert(answers::UNFOUNDED, 1);
        assert_eq!(report.gaps(), ["label '19 new' is not known", "answer 'unfounded' is not known"]);
        let mut report = full();
        for label in ["12 cut short", "7-9 several faults of the trees", "run"] {
            report.labels.insert(label, BTreeMap::from([(9, 1), (10, 1)]));
        }
        assert_eq!(
            report.gaps(),
            [
                "label '12 cut short' returned 9",
                "label '12 cut short' returned 10",
                "label '7-9 several faults of the trees' returned 10"
            ]
        );
        assert_eq!(Report::default().systematic_gaps().len(), systematic::LABELS.len());
    }

    /// No label stands twice in its list.
    #[test]
    fn answers_have_their_own_labels() {
        assert_eq!(answers::LABELS.into_iter().collect::<BTreeSet<_>>().len(), answers::LABELS.len());
        assert_eq!(cases::labels().len(), 175);
    }
}

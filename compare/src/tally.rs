//! What occurred: how many cases of each kind, and each answer, op, verdict, limit and corner.

use crate::edges::EDGES;
use crate::{
    corners, delivery_edges, editions, find_edges, many_edges, mend_edges, more_edges,
    quorum_edges, regex, shift_edges, size, spellings, store_edges, ubf_edges, undecided_edges,
    wildcard,
};
use reference::op::OPS;
use std::collections::BTreeMap;

#[derive(Default)]
pub struct Tally {
    counts: BTreeMap<(&'static str, String), u64>,
}

/// A line with more answers than these names only the rarest.
const MOST_NAMED: usize = 64;
const RAREST: usize = 8;

/// What must occur in a run of many cases.
const NUMBERS: [(&str, &[u8]); 24] = [
    ("translate", &[0, 1, 2, 3, 4, 5, 6, 7, 8, 9, 10, 18, 25]),
    ("check", &[0, 12]),
    ("run", &[0, 11, 12]),
    ("entry", &[0, 12, 17]),
    ("check_notice", &[0, 11]),
    ("read", &[0, 11, 17]),
    ("find", &[0, 11]),
    ("write", &[0, 11, 13, 14, 15, 16]),
    ("quorum open", &[0, 9, 12, 21]),
    ("quorum show", &[0, 11, 12, 19, 20]),
    ("ubf read", &[0, 13, 14, 15, 16, 22, 23]),
    ("ubf write", &[0, 11, 15, 23]),
    ("run_many", &[0, 9, 11, 24]),
    ("store make", &[0, 26]),
    ("store add", &[0, 12, 26, 27, 28]),
    ("store remove", &[0, 26, 29]),
    ("store fetch", &[0, 26, 29]),
    ("store match", &[0, 9, 11, 26]),
    ("mend number", &[0, 9, 10, 15, 30]),
    ("delivery translate", &[0, 1, 2, 3, 4, 5, 9]),
    ("delivery add", &[0, 27, 28]),
    ("delivery remove", &[0, 29]),
    ("delivery match", &[0, 9, 11]),
    ("delivery show", &[0, 11, 19, 20]),
];
const WORDS: [(&str, &[&str]); 13] = [
    (
        "case",
        &[
            "text",
            "table",
            "operator",
            "notice",
            "write",
            "program",
            "quorum",
            "wildcard",
            "regex",
            "size",
            "ubf",
            "meter",
            "find",
            "undecided",
            "many",
            "shift",
            "more",
            "store",
            "mend",
            "delivery",
        ],
    ),
    ("verdict", &["True", "False", "Bottom"]),
    ("demand 3", &["True", "False", "Bottom"]),
    ("text runs", &["skipped", "whole"]),
    ("table runs", &["skipped", "whole"]),
    (
        "line",
        &[
            "S 0",
            "S refused",
            "N true",
            "N true, an entry",
            "N false",
            "N false, an entry",
            "N bottom, an entry",
            "N 11",
            "N 12",
            "X",
            "X 4",
            "E",
        ],
    ),
    ("edge", &EDGES),
    ("entry told", &undecided_edges::TOLD),
    ("quorum", &quorum_edges::EDGES),
    ("ubf", &ubf_edges::EDGES),
    ("ubf done", &ubf_edges::DONE),
    ("mend fate", &["Kept", "Moved", "Repeated", "Bad", "Cut"]),
    ("mend law", &["mended twice", "well-formed"]),
];

impl Tally {
    pub fn count(&mut self, of: &'static str, what: impl ToString) {
        *self.counts.entry((of, what.to_string())).or_insert(0) += 1;
    }

    /// What must occur and did not.
    pub fn missing(&self) -> Vec<String> {
        let numbers = NUMBERS
            .iter()
            .flat_map(|(of, all)| all.iter().map(|one| (*of, one.to_string())));
        let words = WORDS
            .iter()
            .flat_map(|(of, all)| all.iter().map(|one| (*of, one.to_string())));
        let ops = OPS.iter().map(|op| ("op", op.code().to_string()));
        let corners = corners::names().into_iter().map(|one| ("corner", one));
        let spellings = spellings::names().into_iter().map(|one| ("spelling", one));
        let wildcards = wildcard::names().into_iter().map(|one| ("wildcard", one));
        let regexes = regex::names().into_iter().map(|one| ("regex", one));
        let sizes = size::names().into_iter().map(|one| ("size", one));
        let searches = find_edges::names().into_iter().map(|one| ("search", one));
        let undecided = undecided_edges::names();
        let undecided = undecided.into_iter().map(|one| ("undecided", one));
        let told = OPS.iter().map(|op| ("entry of op", op.code().to_string()));
        let many = many_edges::names().into_iter().map(|one| ("many", one));
        let shifts = shift_edges::names().into_iter().map(|one| ("shift", one));
        let more = more_edges::names().into_iter().map(|one| ("more", one));
        let editions = editions::names().into_iter().map(|one| ("edition", one));
        let stores = store_edges::names().into_iter().map(|one| ("store", one));
        let mends = mend_edges::names().into_iter().map(|one| ("mend", one));
        let deliveries = delivery_edges::names();
        let deliveries = deliveries.into_iter().map(|one| ("delivery", one));
        let all = numbers
            .chain(words)
            .chain(ops)
            .chain(corners)
            .chain(wildcards)
            .chain(regexes)
            .chain(sizes)
            .chain(searches)
            .chain(undecided)
            .chain(told)
            .chain(many)
            .chain(shifts)
            .chain(editions)
            .chain(more)
            .chain(stores)
            .chain(mends)
            .chain(deliveries)
            .chain(spellings);
        all.filter(|key| !self.counts.contains_key(key))
            .map(|(of, one)| format!("{of} {one}"))
            .collect()
    }

    /// One line for each subject, its answers by size.
    pub fn lines(&self) -> Vec<String> {
        let mut lines: BTreeMap<&str, Vec<(&String, &u64)>> = BTreeMap::new();
        for ((of, what), count) in &self.counts {
            lines.entry(of).or_default().push((what, count));
        }
        lines
            .into_iter()
            .map(|(of, all)| format!("{of:<13} {}", row(all)))
            .collect()
    }
}

/// The answers with their counts, or how many there are and the rarest.
fn row(mut all: Vec<(&String, &u64)>) -> String {
    let many = all.len();
    let before = if many > MOST_NAMED {
        all.sort_by_key(|(_, count)| **count);
        all.truncate(RAREST);
        format!("{many} of them, the rarest ")
    } else {
        all.sort_by_key(|(what, _)| (what.len(), what.as_str()));
        String::new()
    };
    let words: Vec<String> = all
        .iter()
        .map(|(what, count)| format!("{what}: {count}"))
        .collect();
    before + &words.join(", ")
}

#[cfg(test)]
mod tests {
    use super::*;

    #[test]
    fn what_never_occurred_is_missing() {
        let mut tally = Tally::default();
        assert!(tally.missing().contains(&"translate 7".to_string()));
        tally.count("translate", 7);
        assert!(!tally.missing().contains(&"translate 7".to_string()));
        assert_eq!(tally.lines(), ["translate     7: 1"]);
        assert!(tally.missing().contains(&"corner Plus: NaN".to_string()));
    }

    #[test]
    fn a_long_line_names_the_rarest() {
        let mut tally = Tally::default();
        for _ in 0..2 {
            (0..70).for_each(|one| tally.count("corner", one));
        }
        tally.count("corner", 70);
        let line = &tally.lines()[0];
        assert!(line.starts_with("corner        71 of them, the rarest 70: 1, 0: 2"));
    }
}

//! The kind of case `regex` (document 02, request 13): cases of patterns with its own.

use crate::cases::{Case, Outcome};
use crate::operations::push_string;
use crate::pattern_cases::{self, Patterns};
use crate::tables::{laid_out, Draft};
use crate::{edges, editions, regex_corners, regexes};
use reference::op::Op;
use reference::regex::{Fault, Regex};
use reference::wildcard;

const REGEX: Patterns = Patterns {
    function: "regex",
    op: Op::Regex,
    any: b".*",
    fault: |pattern| Some(format!("{:?}", Regex::of(pattern).err()?)),
    value: regexes::value,
    pattern: regexes::pattern,
    well_formed: regexes::well_formed,
    ill_formed: regexes::ill_formed,
};

/// So many patterns of which every part tells are tried in one case.
const TRIED: usize = 12;

pub const FAULTS: [Fault; 15] = [
    Fault::Set(wildcard::Fault::Unclosed),
    Fault::Set(wildcard::Fault::Empty),
    Fault::Set(wildcard::Fault::Falls),
    Fault::Set(wildcard::Fault::LastBackslash),
    Fault::EmptyBranch,
    Fault::EmptyGroup,
    Fault::MarkFirst,
    Fault::MarkAfterAnchor,
    Fault::MarkAfterOpen,
    Fault::MarkAfterBar,
    Fault::Unopened,
    Fault::Unclosed,
    Fault::StartElsewhere,
    Fault::EndElsewhere,
    Fault::Deep,
];

/// What must occur in a run of many cases.
pub fn names() -> Vec<String> {
    pattern_cases::names(&FAULTS.map(|fault| format!("{fault:?}")))
}

impl Case<'_> {
    pub fn regex(&mut self) -> Outcome {
        self.patterns(&REGEX)?;
        (0..TRIED).try_for_each(|_| self.tight())?;
        match self.random.below(2) {
            0 => self.whole_pool(),
            _ => Ok(()),
        }
    }

    /// A table of one pattern of which every part tells, now and then behind others that fit nothing.
    fn tight(&mut self) -> Outcome {
        let (value, pattern) = regexes::tight(&mut self.random);
        let before = if self.random.once_in(12) { 7 } else { 0 };
        let mut draft = Draft::default();
        push_string(&mut draft, &value);
        (0..before).for_each(|_| push_string(&mut draft, b"^no value$"));
        push_string(&mut draft, &pattern);
        draft.entries.push((Op::Regex.code(), before + 1, 0));
        let edition = editions::any(&mut self.random);
        let table = laid_out(edition, &draft);
        self.checking(&table)?;
        self.running(&table, &virentolex::raw::EMPTY_NOTICE)
            .map(|_| ())
    }

    /// A table whose pool is one pattern of a length at which a matcher may turn, on a part of it.
    fn whole_pool(&mut self) -> Outcome {
        let length = self.random.pick(&regex_corners::LENGTHS);
        let (pool, letters) = regexes::of_length(&mut self.random, length);
        let at = pool.windows(letters.len()).position(|part| part == letters);
        let entries = vec![
            (
                Op::Text.code(),
                letters.len() as u16,
                at.unwrap_or(0) as u64,
            ),
            (Op::Text.code(), pool.len() as u16, 0),
            (Op::Regex.code(), 1, 0),
        ];
        let edition = editions::any(&mut self.random);
        let table = laid_out(edition, &Draft { entries, pool });
        self.count("edge", edges::of_entries(&table));
        self.checking(&table)?;
        self.running(&table, &virentolex::raw::EMPTY_NOTICE)
            .map(|_| ())
    }
}

//! The kind of case `wildcard`: cases of patterns with those of request 1.

use crate::cases::{Case, Outcome};
use crate::pattern_cases::{self, Patterns};
use crate::patterns;
use reference::op::Op;
use reference::wildcard::{Fault, Pattern};

const WILDCARD: Patterns = Patterns {
    function: "wildcard",
    op: Op::Wildcard,
    any: b"*",
    fault: |pattern| Some(format!("{:?}", Pattern::of(pattern).err()?)),
    value: patterns::value,
    pattern: patterns::pattern,
    well_formed: patterns::well_formed,
    ill_formed: patterns::ill_formed,
};

const FAULTS: [Fault; 4] = [
    Fault::Unclosed,
    Fault::Empty,
    Fault::Falls,
    Fault::LastBackslash,
];

/// What must occur in a run of many cases.
pub fn names() -> Vec<String> {
    pattern_cases::names(&FAULTS.map(|fault| format!("{fault:?}")))
}

impl Case<'_> {
    pub fn wildcard(&mut self) -> Outcome {
        self.patterns(&WILDCARD)
    }
}

//! Refusals 4, 18 and 5 over the tree: functions with their arguments, patterns, and kinds.

use crate::grammar::Tree;
use crate::op::Op;
use crate::regex::Regex;
use crate::wildcard::Pattern;

/// The functions by name, with the op that each becomes.
const FUNCTIONS: [(&[u8], Op); 15] = [
    (b"int32", Op::IsInt32),
    (b"int64", Op::IsInt64),
    (b"real64", Op::IsReal64),
    (b"string", Op::IsText),
    (b"opaque", Op::IsOpaque),
    (b"nan", Op::IsNan),
    (b"require", Op::Require),
    (b"size", Op::Size),
    (b"begins-with", Op::Begins),
    (b"contains", Op::Contains),
    (b"ends-with", Op::Ends),
    (b"equals", Op::Equals),
    (b"fold-case", Op::FoldCase),
    // document 02, request 1
    (b"wildcard", Op::Wildcard),
    // request 13
    (b"regex", Op::Regex),
];

/// The function of a called name; "Function names take no escapes".
pub fn function(name: &[u8], escaped: bool) -> Option<Op> {
    let found = FUNCTIONS
        .iter()
        .find(|(known, _)| *known == name && !escaped);
    found.map(|(_, op)| *op)
}

fn is_name(tree: &Tree) -> bool {
    matches!(tree, Tree::Name(_))
}

fn is_text(tree: &Tree) -> bool {
    matches!(tree, Tree::Text(_))
}

fn is_fold_case(tree: &Tree) -> bool {
    matches!(tree, Tree::Call(name, escaped, _) if function(name, *escaped) == Some(Op::FoldCase))
}

/// "4: unknown function, wrong argument count or form", of one call.
fn call_right(function: Option<Op>, arguments: &[Tree]) -> bool {
    let (Some(op), Some((first, later))) = (function, arguments.split_first()) else {
        return false;
    };
    match op {
        // "take a name or a `fold-case` call, then 1..8 string literals"; document 02, request 1: "Same
        // argument forms as `begins-with`"; request 13: "Argument and bottom rules as for `begins-with`"
        Op::Begins | Op::Contains | Op::Ends | Op::Wildcard | Op::Regex => {
            let first_right = is_name(first) || is_fold_case(first);
            first_right && (1..=8).contains(&later.len()) && later.iter().all(is_text)
        }
        // "takes a name, then 1..8 values"
        Op::Equals => is_name(first) && (1..=8).contains(&later.len()),
        // "takes one name, string literal or `fold-case` call"
        Op::FoldCase => {
            later.is_empty() && (is_name(first) || is_text(first) || is_fold_case(first))
        }
        // "take one name"
        _ => later.is_empty() && is_name(first),
    }
}

/// Whether no call in the tree has refusal 4.
pub fn calls_right(tree: &Tree) -> bool {
    match tree {
        Tree::Parens(inner) | Tree::Prefix(_, inner) => calls_right(inner),
        Tree::Binary(_, left, right) => calls_right(left) && calls_right(right),
        Tree::Call(name, escaped, arguments) => {
            call_right(function(name, *escaped), arguments) && arguments.iter().all(calls_right)
        }
        _ => true,
    }
}

/// Whether the bytes are a well-formed pattern of the op, if it takes patterns.
pub fn pattern_right(op: Op, bytes: &[u8]) -> bool {
    match op {
        Op::Wildcard => Pattern::of(bytes).is_ok(),
        Op::Regex => Regex::of(bytes).is_ok(),
        _ => true,
    }
}

/// Whether no call in the tree has refusal 18, "for an ill-formed pattern", document 02, requests 1 and 13.
pub fn patterns_right(tree: &Tree) -> bool {
    match tree {
        Tree::Parens(inner) | Tree::Prefix(_, inner) => patterns_right(inner),
        Tree::Binary(_, left, right) => patterns_right(left) && patterns_right(right),
        Tree::Call(name, escaped, arguments) => {
            let right = |op: Op, tree: &Tree| match tree {
                Tree::Text(bytes) => pattern_right(op, bytes),
                _ => true,
            };
            function(name, *escaped).is_none_or(|op| arguments.iter().all(|one| right(op, one)))
                && arguments.iter().all(patterns_right)
        }
        _ => true,
    }
}

#[derive(Clone, Copy, PartialEq, Eq, Debug)]
pub enum Kind {
    Logic,
    Value,
}

/// The kind an operator gives: "Logic: comparisons, `! && ^^ ||`"
fn gives(op: Op) -> Kind {
    match op {
        Op::Equal | Op::Unequal | Op::Less | Op::LessEqual | Op::Greater | Op::GreaterEqual => {
            Kind::Logic
        }
        _ => takes(op),
    }
}

/// The kind an operator takes: "`! && ^^ ||` take logic; all other operators take values."
fn takes(op: Op) -> Kind {
    match op {
        Op::Not | Op::And | Op::Xor | Op::Or => Kind::Logic,
        _ => Kind::Value,
    }
}

/// The tree's kind, or none where a part has the wrong one ("5: kind wrong").
pub fn kind(tree: &Tree) -> Option<Kind> {
    match tree {
        Tree::Parens(inner) => kind(inner),
        Tree::Prefix(op, inner) => (kind(inner)? == takes(*op)).then_some(gives(*op)),
        Tree::Binary(op, left, right) => {
            let right_kinds = kind(left)? == takes(*op) && kind(right)? == takes(*op);
            right_kinds.then_some(gives(*op))
        }
        Tree::Call(name, escaped, arguments) => {
            // "`equals` takes a name, then 1..8 values (logic there is 5)"
            let values = arguments
                .iter()
                .all(|argument| kind(argument) == Some(Kind::Value));
            values.then_some(call_kind(function(name, *escaped)))
        }
        _ => Some(Kind::Value),
    }
}

/// "Logic: .. all functions but `size` and `fold-case`"
fn call_kind(function: Option<Op>) -> Kind {
    match function {
        Some(Op::Size | Op::FoldCase) => Kind::Value,
        _ => Kind::Logic,
    }
}

//! Document 02, request 13: regular expressions. Words in quotes are that request's, where no other is
//! named. Whether a value fits is found by partial derivatives (Antimirov): what is left to fit after a
//! byte is a set of lists of nodes, of which an expression has no more than it has single bytes, and one.

use crate::wildcard::{self, members, taken_to_close, Member, Part};
use std::collections::BTreeSet;

/// "groups to depth 8"
const DEEPEST: usize = 8;

/// A node of the expression's tree, by its place in `Regex::nodes`.
type Id = usize;

/// What a part of the expression is.
#[derive(Clone, PartialEq, Eq, Debug)]
pub enum Node {
    /// "plain bytes, `.` for any byte, bracket sets as in request 1"
    One(Part),
    /// Parts after one another.
    All(Vec<Id>),
    /// "`|`": branches.
    Any(Vec<Id>),
    /// "`* + ?`": none (if it may be none) or one round of the inner part, and then, if there is such, the
    /// node of any number of rounds.
    Rounds {
        inner: Id,
        none: bool,
        more: Option<Id>,
    },
}

/// A branch of the whole pattern, with the anchors that are its own.
#[derive(Clone, PartialEq, Eq, Debug)]
pub struct Branch {
    pub root: Id,
    /// "`^` only first .. in the whole pattern, where [it] anchor[s its] own branch"
    pub at_start: bool,
    /// "`$` only last in the whole pattern"
    pub at_end: bool,
}

/// An expression that is well-formed.
#[derive(Clone, PartialEq, Eq, Debug)]
pub struct Regex {
    pub nodes: Vec<Node>,
    pub branches: Vec<Branch>,
    /// How deep its groups are.
    pub depth: usize,
}

/// What makes an expression ill-formed.
#[derive(Clone, Copy, PartialEq, Eq, Debug)]
pub enum Fault {
    /// "request 1's cases"
    Set(wildcard::Fault),
    /// "an empty branch or group"
    EmptyBranch,
    EmptyGroup,
    /// "a repeat mark first or after `^`, `(` or `|`"
    MarkFirst,
    MarkAfterAnchor,
    MarkAfterOpen,
    MarkAfterBar,
    /// "unmatched parentheses"
    Unopened,
    Unclosed,
    /// "`^` or `$` elsewhere"
    StartElsewhere,
    EndElsewhere,
    /// "depth over 8"
    Deep,
}

/// An open group, or the whole: its branches before the last, and the parts of the last one so far.
#[derive(Default)]
struct Open {
    branches: Vec<Id>,
    parts: Vec<Id>,
}

/// A pattern as far as it is read.
struct Reader {
    nodes: Vec<Node>,
    opened: Vec<Open>,
    depth: usize,
    /// The anchors met.
    at_start: bool,
    at_end: bool,
}

impl Regex {
    /// "Ill-formed are request 1's cases, an empty branch or group, a repeat mark first or after `^`, `(` or
    /// `|`, unmatched parentheses, `^` or `$` elsewhere, and depth over 8."
    pub fn of(pattern: &[u8]) -> Result<Regex, Fault> {
        let (all, last_backslash) = members(pattern);
        let mut rest: Vec<Member> = all.iter().rev().copied().collect();
        let mut reader = Reader {
            nodes: Vec::new(),
            opened: vec![Open::default()],
            depth: 0,
            at_start: false,
            at_end: false,
        };
        while let Some(member) = rest.pop() {
            let first = rest.len() + 1 == all.len();
            let before = (all.len() - rest.len()).checked_sub(2).map(|at| all[at]);
            match member {
                (b'^', false) if first => reader.at_start = true,
                (b'^', false) => return Err(Fault::StartElsewhere),
                (b'$', false) if rest.is_empty() && !last_backslash => reader.at_end = true,
                (b'$', false) => return Err(Fault::EndElsewhere),
                (b'(', false) => reader.open()?,
                (b')', false) => reader.close()?,
                (b'|', false) => reader.bar()?,
                (b'*' | b'+' | b'?', false) => reader.mark(member.0, before)?,
                (b'[', false) => {
                    let inside = taken_to_close(&mut rest).map_err(Fault::Set)?;
                    let set = wildcard::set(&inside, b'^').map_err(Fault::Set)?;
                    reader.part(Node::One(set));
                }
                (b'.', false) => reader.part(Node::One(Part::Any)),
                (byte, _) => reader.part(Node::One(Part::Byte(byte))),
            }
        }
        match last_backslash {
            true => Err(Fault::Set(wildcard::Fault::LastBackslash)),
            false => reader.whole(),
        }
    }
}

impl Reader {
    fn node(&mut self, node: Node) -> Id {
        self.nodes.push(node);
        self.nodes.len() - 1
    }

    fn last(&mut self) -> &mut Open {
        self.opened.last_mut().expect("the whole is open")
    }

    fn part(&mut self, node: Node) {
        let id = self.node(node);
        self.last().parts.push(id);
    }

    fn open(&mut self) -> Result<(), Fault> {
        self.depth = self.depth.max(self.opened.len());
        if self.depth > DEEPEST {
            return Err(Fault::Deep);
        }
        self.opened.push(Open::default());
        Ok(())
    }

    /// The end of a branch, which must not be empty; "a branch of anchors alone is not empty".
    fn branch_ends(&mut self) -> Result<(), Fault> {
        let whole = self.opened.len() == 1;
        let open = self.last();
        let (parts, first) = (std::mem::take(&mut open.parts), open.branches.is_empty());
        let anchored = whole && (self.at_end || self.at_start && first);
        if parts.is_empty() && !anchored {
            return Err(Fault::EmptyBranch);
        }
        let branch = self.node(Node::All(parts));
        self.last().branches.push(branch);
        Ok(())
    }

    fn bar(&mut self) -> Result<(), Fault> {
        self.branch_ends()
    }

    fn close(&mut self) -> Result<(), Fault> {
        if self.opened.len() == 1 {
            return Err(Fault::Unopened);
        }
        let open = self.last();
        if open.parts.is_empty() && open.branches.is_empty() {
            return Err(Fault::EmptyGroup);
        }
        self.branch_ends()?;
        let group = self.opened.pop().expect("a group is open");
        self.part(Node::Any(group.branches));
        Ok(())
    }

    /// A repeat mark on the part before it. "A repeat mark may follow another": `a+?` is (a+)?.
    fn mark(&mut self, mark: u8, before: Option<Member>) -> Result<(), Fault> {
        let Some(inner) = self.last().parts.pop() else {
            return Err(match before {
                None => Fault::MarkFirst,
                Some((b'^', _)) => Fault::MarkAfterAnchor,
                Some((b'(', _)) => Fault::MarkAfterOpen,
                Some(_) => Fault::MarkAfterBar,
            });
        };
        // marks in a row are one: none if any of them takes none, more rounds if any takes more
        let (inner, none, many) = match self.nodes[inner] {
            Node::Rounds { inner, none, more } => {
                (inner, none || mark != b'+', more.is_some() || mark != b'?')
            }
            _ => (inner, mark != b'+', mark != b'?'),
        };
        let more = many.then(|| self.any_number(inner));
        self.part(Node::Rounds { inner, none, more });
        Ok(())
    }

    /// The node of any number of rounds, after each of which it comes again.
    fn any_number(&mut self, inner: Id) -> Id {
        let id = self.nodes.len();
        self.node(Node::Rounds {
            inner,
            none: true,
            more: Some(id),
        })
    }

    fn whole(mut self) -> Result<Regex, Fault> {
        if self.opened.len() > 1 {
            return Err(Fault::Unclosed);
        }
        self.branch_ends()?;
        let whole = self.opened.pop().expect("the whole is open");
        let last = whole.branches.len() - 1;
        let branch = |(at, root): (usize, &Id)| Branch {
            root: *root,
            at_start: self.at_start && at == 0,
            at_end: self.at_end && at == last,
        };
        Ok(Regex {
            branches: whole.branches.iter().enumerate().map(branch).collect(),
            nodes: self.nodes,
            depth: self.depth,
        })
    }
}

/// What is left to fit: nodes after one another.
type Rest = Vec<Id>;

impl Regex {
    /// "True if some stretch of the value fits."
    pub fn fits(&self, value: &[u8]) -> bool {
        self.branches
            .iter()
            .any(|branch| self.branch_fits(branch, value))
    }

    /// Whether a stretch fits the branch: one may begin at every byte, or at the start alone, and end where
    /// nothing is left to fit, or at the end alone.
    pub fn branch_fits(&self, branch: &Branch, value: &[u8]) -> bool {
        let mut rests: BTreeSet<Rest> = BTreeSet::new();
        for at in 0..=value.len() {
            if at == 0 || !branch.at_start {
                rests.insert(vec![branch.root]);
            }
            let may_end = at == value.len() || !branch.at_end;
            if may_end && rests.iter().any(|rest| self.all_empty(rest)) {
                return true;
            }
            let Some(byte) = value.get(at) else {
                return false;
            };
            let mut after = BTreeSet::new();
            for rest in &rests {
                self.after(rest, *byte, &mut Vec::new(), &mut after);
            }
            rests = after;
        }
        false
    }

    /// Whether the node fits the empty string.
    pub fn empty(&self, id: Id) -> bool {
        match &self.nodes[id] {
            Node::One(_) => false,
            Node::All(parts) => self.all_empty(parts),
            Node::Any(branches) => branches.iter().any(|branch| self.empty(*branch)),
            Node::Rounds { inner, none, .. } => *none || self.empty(*inner),
        }
    }

    fn all_empty(&self, parts: &[Id]) -> bool {
        parts.iter().all(|part| self.empty(*part))
    }

    /// What may be left after the byte of these parts, with what follows them, last first.
    fn after(&self, parts: &[Id], byte: u8, follow: &mut Rest, found: &mut BTreeSet<Rest>) {
        for (at, part) in parts.iter().enumerate() {
            let length = follow.len();
            follow.extend(parts[at + 1..].iter().rev());
            self.node_after(*part, byte, follow, found);
            follow.truncate(length);
            if !self.empty(*part) {
                return;
            }
        }
    }

    fn node_after(&self, id: Id, byte: u8, follow: &mut Rest, found: &mut BTreeSet<Rest>) {
        match &self.nodes[id] {
            Node::One(one) => {
                if one.takes(byte) {
                    found.insert(follow.iter().rev().copied().collect());
                }
            }
            Node::All(parts) => self.after(parts, byte, follow, found),
            Node::Any(branches) => branches
                .iter()
                .for_each(|branch| self.node_after(*branch, byte, follow, found)),
            Node::Rounds { inner, more, .. } => {
                let length = follow.len();
                follow.extend(more);
                self.node_after(*inner, byte, follow, found);
                follow.truncate(length);
            }
        }
    }
}

#[cfg(test)]
mod tests {
    use super::*;

    fn fits(pattern: &str, value: &str) -> Option<bool> {
        let regex = Regex::of(pattern.as_bytes()).ok()?;
        Some(regex.fits(value.as_bytes()))
    }

    fn all(pattern: &str, fit: &[&str], miss: &[&str]) {
        for value in fit {
            assert_eq!(fits(pattern, value), Some(true), "{pattern} on {value}");
        }
        for value in miss {
            assert_eq!(fits(pattern, value), Some(false), "{pattern} on {value}");
        }
    }

    #[test]
    fn the_example() {
        let name = "[Ss]egall?";
        all(name, &["Segall", "segal", "Bill Segall"], &["Sega", ""]);
    }

    #[test]
    fn a_stretch_may_be_empty() {
        all("a*", &["", "b", "aa"], &[]);
        all("a?", &["", "b", "aa"], &[]);
        all("a+", &["a", "ba"], &["", "b"]);
        all(".", &["a", "\0"], &[""]);
    }

    #[test]
    fn anchors_are_those_of_their_own_branch() {
        all("^a|b$", &["ac", "cb", "ab"], &["ca", "bc", "ba c", "cac"]);
        all("^a$", &["a"], &["", "aa", "ba", "ab"]);
        all("^$", &[""], &["a"]);
        all("^|b", &["", "a"], &[]);
        all("a|b|$", &["", "c"], &[]);
        all("^a|b|c$", &["xb", "bx", "xc", "ax"], &["xa", "cx"]);
        all("^(a|b)$", &["a", "b"], &["ab", "ba"]);
        all("a\\$|\\^b", &["a$b", "a^b"], &["ab"]);
    }

    #[test]
    fn a_star_over_what_fits_the_empty_string() {
        let long = "a".repeat(300);
        for pattern in ["(a*)*b", "(a|aa)*b", "^((a?)+)*$b", "(a*|b?)+b"] {
            if pattern.contains("$b") {
                assert_eq!(fits(pattern, &long), None);
                continue;
            }
            assert_eq!(fits(pattern, &long), Some(false), "{pattern}");
            assert_eq!(fits(pattern, &(long.clone() + "b")), Some(true));
        }
        all("^(a*)*$", &["", "a", "aaa"], &["b", "aab"]);
        all("^(a?b?)+$", &["", "ab", "ba", "bbaa"], &["c"]);
        all("^(a*)+b$", &["b", "ab"], &["a", ""]);
    }

    #[test]
    fn marks_in_a_row() {
        let once = ["", "a"];
        let more = ["aa", "aaa"];
        for (marks, takes) in [
            ("*", (true, true)),
            ("+", (false, true)),
            ("?", (true, false)),
        ] {
            for (last, then) in [
                ("*", (true, true)),
                ("+", (false, true)),
                ("?", (true, false)),
            ] {
                let flat = format!("^a{marks}{last}$");
                let grouped = format!("^(a{marks}){last}$");
                for value in once.iter().chain(&more) {
                    let right = match value.len() {
                        0 => takes.0 || then.0,
                        1 => true,
                        _ => takes.1 || then.1,
                    };
                    assert_eq!(fits(&flat, value), Some(right), "{flat} on {value}");
                    assert_eq!(fits(&grouped, value), Some(right), "{grouped} on {value}");
                }
            }
        }
        let marks = "a".to_string() + &"*+?".repeat(1300);
        assert_eq!(fits(&marks, "b"), Some(true));
    }

    #[test]
    fn braces_and_others_are_plain() {
        all("^a{2}$", &["a{2}"], &["aa"]);
        all("]-!{}", &["]-!{}"], &[""]);
        all("^[[:alpha:]]$", &["a]", "[]", ":]"], &["a", "b]"]);
        all("^[!a]$", &["!", "a"], &["b"]);
        all("^[^a]$", &["!", "^", "b"], &["a", ""]);
        all("^[a^]$", &["^", "a"], &["b"]);
        all("^[\\^a]$", &["^", "a"], &["b"]);
        all("^[.*|()$]$", &[".", "*", "|", "(", ")", "$"], &["a"]);
        all("^\\.\\*\\(\\)\\|\\[\\\\$", &[".*()|[\\"], &["a"]);
    }

    #[test]
    fn depth_eight_and_nine() {
        let deep = |depth: usize| "(".repeat(depth) + "a" + &")".repeat(depth);
        assert_eq!(fits(&deep(8), "a"), Some(true));
        assert_eq!(
            Regex::of(deep(8).as_bytes()).map(|regex| regex.depth),
            Ok(8)
        );
        assert_eq!(Regex::of(deep(9).as_bytes()), Err(Fault::Deep));
        let beside = deep(8) + &deep(8);
        assert_eq!(fits(&beside, "aa"), Some(true));
    }

    #[test]
    fn each_cause_of_an_ill_formed_expression() {
        use Fault::*;
        let faults = [
            ("", EmptyBranch),
            ("|", EmptyBranch),
            ("a|", EmptyBranch),
            ("|a", EmptyBranch),
            ("a||b", EmptyBranch),
            ("|$", EmptyBranch),
            ("^|", EmptyBranch),
            ("(a|)", EmptyBranch),
            ("(|a)", EmptyBranch),
            ("()", EmptyGroup),
            ("a()b", EmptyGroup),
            ("*", MarkFirst),
            ("+a", MarkFirst),
            ("^*", MarkAfterAnchor),
            ("(?a)", MarkAfterOpen),
            ("a|+", MarkAfterBar),
            (")", Unopened),
            ("a)b", Unopened),
            ("(", Unclosed),
            ("(a", Unclosed),
            ("(a|b", Unclosed),
            ("a^", StartElsewhere),
            ("^^", StartElsewhere),
            ("$^", EndElsewhere),
            ("(^a)", StartElsewhere),
            ("a|^b", StartElsewhere),
            ("$a", EndElsewhere),
            ("a$|b", EndElsewhere),
            ("(a$)", EndElsewhere),
            ("$*", EndElsewhere),
            ("a$\\", EndElsewhere),
            ("[", Set(wildcard::Fault::Unclosed)),
            ("[^", Set(wildcard::Fault::Unclosed)),
            ("[]", Set(wildcard::Fault::Empty)),
            ("[^]", Set(wildcard::Fault::Empty)),
            ("[]a]", Set(wildcard::Fault::Empty)),
            ("[b-a]", Set(wildcard::Fault::Falls)),
            ("a\\", Set(wildcard::Fault::LastBackslash)),
        ];
        for (pattern, fault) in faults {
            assert_eq!(Regex::of(pattern.as_bytes()), Err(fault), "{pattern}");
        }
        for pattern in ["^|b", "b|$", "^|$", "^", "$", "^$", "[!]", "a|b$", "\\$^"] {
            let right = pattern != "\\$^";
            assert_eq!(Regex::of(pattern.as_bytes()).is_ok(), right, "{pattern}");
        }
    }

    /// Whether the stretch from one byte to another fits the node, straight from the words: rounds of at
    /// least one byte, since one that takes none changes nothing.
    fn stretch(regex: &Regex, id: Id, value: &[u8]) -> bool {
        let splits = || 0..=value.len();
        match &regex.nodes[id] {
            Node::One(one) => value.len() == 1 && one.takes(value[0]),
            Node::All(parts) => sequence(regex, parts, value),
            Node::Any(branches) => branches.iter().any(|one| stretch(regex, *one, value)),
            Node::Rounds { inner, none, more } => {
                let rounds = |at: usize| match more {
                    Some(more) => at > 0 && stretch(regex, *more, &value[at..]),
                    None => false,
                };
                (*none && value.is_empty())
                    || stretch(regex, *inner, value)
                    || splits().any(|at| stretch(regex, *inner, &value[..at]) && rounds(at))
            }
        }
    }

    fn sequence(regex: &Regex, parts: &[Id], value: &[u8]) -> bool {
        let Some((first, later)) = parts.split_first() else {
            return value.is_empty();
        };
        (0..=value.len())
            .any(|at| stretch(regex, *first, &value[..at]) && sequence(regex, later, &value[at..]))
    }

    /// Every pattern of up to five of these bytes on every value of up to three of `a` and `b`.
    #[test]
    fn short_ones_as_the_words_have_it() {
        let mut patterns = vec![Vec::new()];
        let mut tried = 0;
        for _ in 0..5 {
            let longer = |one: &Vec<u8>| {
                let one = one.clone();
                b"ab(|)*?^$"
                    .iter()
                    .map(move |byte| [&one[..], &[*byte]].concat())
            };
            patterns = patterns.iter().flat_map(longer).collect();
            for regex in patterns.iter().filter_map(|one| Regex::of(one).ok()) {
                for value in [&b""[..], b"a", b"b", b"ab", b"ba", b"aab", b"bab"] {
                    let right = regex.branches.iter().any(|branch| {
                        let starts = if branch.at_start { 0 } else { value.len() };
                        (0..=starts).any(|from| {
                            let ends = if branch.at_end { value.len() } else { from };
                            (ends..=value.len())
                                .any(|to| stretch(&regex, branch.root, &value[from..to]))
                        })
                    });
                    assert_eq!(regex.fits(value), right, "{regex:?} on {value:?}");
                    tried += 1;
                }
            }
        }
        assert!(tried > 10_000, "{tried}");
    }
}

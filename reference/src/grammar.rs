//! "Grammar": refusals 6 and 2 over the tokens, and the tree of a text that keeps the grammar.

use crate::op::Op;
use crate::tokens::{Placed, Token};

#[derive(Clone, Debug, PartialEq)]
pub enum Tree {
    Int32(i32),
    Int64(i64),
    Real64(f64),
    Text(Vec<u8>),
    Name(Vec<u8>),
    Parens(Box<Tree>),
    Prefix(Op, Box<Tree>),
    Binary(Op, Box<Tree>, Box<Tree>),
    /// The called name, whether it had escapes, and the arguments.
    Call(Vec<u8>, bool, Vec<Tree>),
}

/// "over 24 parentheses open at once", "over 24 of `!` `~` in a row"
const MOST_NESTED: usize = 24;

fn is_prefix(token: &Token) -> bool {
    matches!(token, Token::Operator(Op::Not | Op::Complement))
}

/// The most parentheses open at once ("a `)` with none open is passed over"), and the most of `!` `~`
/// in a row.
pub fn deepest(tokens: &[Placed]) -> (usize, usize) {
    let (mut open, mut most_open): (usize, usize) = (0, 0);
    let (mut row, mut most_row) = (0, 0);
    for placed in tokens {
        match placed.token {
            Token::Open => open += 1,
            Token::Close => open = open.saturating_sub(1),
            _ => (),
        }
        row = if is_prefix(&placed.token) { row + 1 } else { 0 };
        most_open = most_open.max(open);
        most_row = most_row.max(row);
    }
    (most_open, most_row)
}

/// "6: over 24 parentheses open at once .., or over 24 of `!` `~` in a row"
pub fn too_deep(tokens: &[Placed]) -> bool {
    let (open, row) = deepest(tokens);
    open > MOST_NESTED || row > MOST_NESTED
}

/// What an open parenthesis is for.
#[derive(Clone, Copy, PartialEq)]
enum Opened {
    Group,
    Call,
}

/// Where the tokens read so far leave the grammar.
#[derive(Clone, Copy, PartialEq)]
enum State {
    /// An operand must follow.
    Wants,
    /// An argument or `)` must follow: just after a call's `(`.
    WantsFirst,
    /// A whole operand has ended.
    Has,
    /// As `Has`, and the operand is a name, so `(` would make it a call.
    HasName,
}

/// The state after one more token, or none if the grammar allows no completion then. Each state that
/// is left can be completed: by a literal where an operand is wanted, then by `)` for each that is open.
fn after(state: State, open: &mut Vec<Opened>, token: &Token) -> Option<State> {
    let has = matches!(state, State::Has | State::HasName);
    match token {
        Token::Name(..) if !has => Some(State::HasName),
        Token::Int32(_) | Token::Int64(_) | Token::Real64(_) | Token::Text(_) if !has => {
            Some(State::Has)
        }
        Token::Operator(_) if !has => is_prefix(token).then_some(State::Wants),
        Token::Operator(_) => (!is_prefix(token)).then_some(State::Wants),
        Token::Open if state == State::HasName => {
            open.push(Opened::Call);
            Some(State::WantsFirst)
        }
        Token::Open if !has => {
            open.push(Opened::Group);
            Some(State::Wants)
        }
        Token::Close if has || state == State::WantsFirst => open.pop().map(|_| State::Has),
        Token::Comma if has => (open.last() == Some(&Opened::Call)).then_some(State::Wants),
        _ => None,
    }
}

/// "for 2 the start of the first token after which the grammar allows no completion, limits aside, or
/// the text's length"; none if the grammar is kept.
pub fn fault(tokens: &[Placed], text_length: usize) -> Option<usize> {
    let mut open = Vec::new();
    let mut state = State::Wants;
    for placed in tokens {
        match after(state, &mut open, &placed.token) {
            Some(next) => state = next,
            None => return Some(placed.start),
        }
    }
    let whole = open.is_empty() && matches!(state, State::Has | State::HasName);
    (!whole).then_some(text_length)
}

/// "Tightest first: ..": a binary operator's level, looser ones lower.
fn level(op: Op) -> u8 {
    match op {
        Op::Or => 1,
        Op::Xor => 2,
        Op::And => 3,
        Op::Equal | Op::Unequal => 4,
        Op::Less | Op::LessEqual | Op::Greater | Op::GreaterEqual => 5,
        Op::Plus | Op::Minus => 6,
        Op::Times | Op::Divide | Op::Rest => 7,
        Op::BitOr => 8,
        Op::BitXor => 9,
        Op::BitAnd => 10,
        _ => 11,
    }
}

/// The tree of tokens that keep the grammar (`fault` finds none).
pub fn tree(tokens: &[Placed]) -> Tree {
    Parser { rest: tokens }.binary(1)
}

struct Parser<'a> {
    rest: &'a [Placed],
}

impl Parser<'_> {
    fn take(&mut self) -> &Token {
        let (first, rest) = self.rest.split_first().expect("a token");
        self.rest = rest;
        &first.token
    }

    fn peek(&self) -> Option<&Token> {
        self.rest.first().map(|placed| &placed.token)
    }

    /// The operator that comes next, if it binds at `least` or tighter.
    fn next_operator(&self, least: u8) -> Option<Op> {
        match self.peek() {
            Some(Token::Operator(op)) if level(*op) >= least => Some(*op),
            _ => None,
        }
    }

    /// "Binary operators group to the left."
    fn binary(&mut self, least: u8) -> Tree {
        let mut left = self.operand();
        while let Some(op) = self.next_operator(least) {
            self.take();
            let right = self.binary(level(op) + 1);
            left = Tree::Binary(op, Box::new(left), Box::new(right));
        }
        left
    }

    /// "`!` and `~` (prefix, on what follows directly)"; "Operands are literals, names, a
    /// parenthesised expression, or a call"
    fn operand(&mut self) -> Tree {
        match self.take().clone() {
            Token::Operator(op) => Tree::Prefix(op, Box::new(self.operand())),
            Token::Int32(value) => Tree::Int32(value),
            Token::Int64(value) => Tree::Int64(value),
            Token::Real64(value) => Tree::Real64(value),
            Token::Text(bytes) => Tree::Text(bytes),
            Token::Name(name, escaped) => self.name(name, escaped),
            _ => {
                let inner = self.binary(1);
                self.take();
                Tree::Parens(Box::new(inner))
            }
        }
    }

    /// "A name before `(` is always a call."
    fn name(&mut self, name: Vec<u8>, escaped: bool) -> Tree {
        if self.peek() != Some(&Token::Open) {
            return Tree::Name(name);
        }
        self.take();
        Tree::Call(name, escaped, self.arguments())
    }

    /// "expressions parted by commas (perhaps none), `)`"
    fn arguments(&mut self) -> Vec<Tree> {
        let mut all = Vec::new();
        while self.peek() != Some(&Token::Close) {
            all.push(self.binary(1));
            if self.peek() == Some(&Token::Comma) {
                self.take();
            }
        }
        self.take();
        all
    }
}

#[cfg(test)]
mod tests {
    use super::*;
    use crate::tokens::tokens;

    fn fault_of(text: &str) -> Option<usize> {
        fault(&tokens(text.as_bytes()).unwrap(), text.len())
    }

    #[test]
    fn the_first_token_without_completion_is_named() {
        let faults = [
            ("", 0),
            ("a -5", 2),
            ("Op == 42 &&", 11),
            ("Op == 42 && ", 12),
            ("f(a,)", 4),
            ("()", 1),
            ("(a,b)", 2),
            ("f(,", 2),
            ("(a)-5", 3),
            ("\"a\"b", 3),
            ("a )", 2),
            ("(a", 2),
            ("1 (", 2),
            ("a ! b", 2),
        ];
        for (text, place) in faults {
            assert_eq!(fault_of(text), Some(place), "{text}");
        }
        assert_eq!(fault_of("f()"), None);
    }

    /// The tree without its parentheses.
    fn bare(tree: Tree) -> Tree {
        match tree {
            Tree::Parens(inner) => bare(*inner),
            Tree::Prefix(op, inner) => Tree::Prefix(op, Box::new(bare(*inner))),
            Tree::Binary(op, left, right) => {
                Tree::Binary(op, Box::new(bare(*left)), Box::new(bare(*right)))
            }
            other => other,
        }
    }

    #[test]
    fn operators_group_to_the_left_by_level() {
        let tree_of = |text: &str| bare(tree(&tokens(text.as_bytes()).unwrap()));
        let pairs = [
            ("a - b - c", "(a - b) - c"),
            ("! a == b", "(! a) == b"),
            ("2 + 3 * 4 & 6 == 14", "(2 + (3 * (4 & 6))) == 14"),
            (
                "a || b ^^ c && d == e < f",
                "a || (b ^^ (c && (d == (e < f))))",
            ),
            (
                "a < b + c * d | e ^ f & g << ~ h",
                "a < (b + (c * (d | (e ^ (f & (g << (~ h)))))))",
            ),
            (
                "a << b & c ^ d | e * f + g < h == i && j ^^ k || l",
                "((((((((((a << b) & c) ^ d) | e) * f) + g) < h) == i) && j) ^^ k) || l",
            ),
        ];
        for (text, meant) in pairs {
            assert_eq!(tree_of(text), tree_of(meant), "{text}");
        }
    }

    #[test]
    fn nesting_has_a_limit() {
        let deep =
            |count: usize, text: &str| too_deep(&tokens(text.repeat(count).as_bytes()).unwrap());
        assert!(!deep(24, "("));
        assert!(deep(25, "("));
        assert!(!deep(12, "! ~ "));
        assert!(deep(13, "! ~ "));
        assert!(!deep(40, ") ("));
    }
}

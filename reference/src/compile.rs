//! Translation: a text's table, or the first refusal "in this order: 10, then 1 or 3 at the first bad
//! token, 6, 2, 4, 5, 7, 8, 9"; 18 "after 4 and before 5" (document 02, requests 1 and 13); 25 "before 10"
//! (request 9).

use crate::edition::Edition;
use crate::grammar::{fault, too_deep, tree, Tree};
use crate::judge::{calls_right, function, kind, patterns_right, Kind};
use crate::op::Op;
use crate::table::operands;
use crate::tokens::tokens;
use crate::{MOST_ENTRIES, MOST_SLOTS, MOST_TEXT};

/// "Translation answers number, place and table length, 0 if refused."
#[derive(Clone, Copy, PartialEq, Eq, Debug)]
pub struct Translation {
    pub number: u8,
    pub place: usize,
    pub length: usize,
}

/// "Entry: u16 op, u16 a, u64 b."
#[derive(Clone, Copy, PartialEq, Eq, Debug)]
pub struct Entry {
    pub op: Op,
    pub a: u16,
    pub b: u64,
}

/// A table's entries and pool before they are laid out.
#[derive(Clone, Default, PartialEq, Eq, Debug)]
pub struct Code {
    pub entries: Vec<Entry>,
    pub pool: Vec<u8>,
}

/// Writes the text's table to the start of the buffer; a refusal changes no byte of it. Document 02, request
/// 9: "The caller names the edition when translating".
pub fn translate(edition: usize, text: &[u8], buffer: &mut [u8]) -> Translation {
    match table_of(edition, text) {
        Err((number, place)) => Translation {
            number,
            place,
            length: 0,
        },
        // "9: lent buffer shorter than the table"
        Ok(table) if buffer.len() < table.len() => Translation {
            number: 9,
            place: 0,
            length: 0,
        },
        Ok(table) => {
            buffer[..table.len()].copy_from_slice(&table);
            Translation {
                number: 0,
                place: 0,
                length: table.len(),
            }
        }
    }
}

/// The table of a text, or the number and place of the first refusal but 9.
pub fn table_of(edition: usize, text: &[u8]) -> Result<Vec<u8>, (u8, usize)> {
    // "25 for an edition other than 1 or 2, before 10"
    let edition = Edition::of_number(edition).ok_or((25, 0))?;
    let code = code_of(&accepted(text)?);
    if code.entries.len() > MOST_ENTRIES {
        return Err((7, 0));
    }
    if most_slots(&code.entries) > MOST_SLOTS {
        return Err((8, 0));
    }
    Ok(layout(edition, &code))
}

/// The tree of a text to which none of 10, 1, 3, 6, 2, 4, 18, 5 applies.
pub fn accepted(text: &[u8]) -> Result<Tree, (u8, usize)> {
    if text.len() > MOST_TEXT {
        return Err((10, 0));
    }
    let tokens = tokens(text)?;
    if too_deep(&tokens) {
        return Err((6, 0));
    }
    if let Some(place) = fault(&tokens, text.len()) {
        return Err((2, place));
    }
    let tree = tree(&tokens);
    if !calls_right(&tree) {
        return Err((4, 0));
    }
    if !patterns_right(&tree) {
        return Err((18, 0));
    }
    // "The whole text must be logic."
    if kind(&tree) != Some(Kind::Logic) {
        return Err((5, 0));
    }
    Ok(tree)
}

/// The entries and the slots that the text's table would have, limits aside.
pub fn sizes(text: &[u8]) -> Option<(usize, usize)> {
    let code = code_of(&accepted(text).ok()?);
    Some((code.entries.len(), most_slots(&code.entries)))
}

fn code_of(tree: &Tree) -> Code {
    let mut code = Code::default();
    code.add(tree);
    code
}

impl Code {
    fn push(&mut self, op: Op, a: usize, b: u64) {
        self.entries.push(Entry { op, a: short(a), b });
    }

    /// "Operand names (not functions') and strings enter the pool unescaped, in text order, each time
    /// anew."
    fn push_bytes(&mut self, op: Op, bytes: &[u8]) {
        self.push(op, bytes.len(), self.pool.len() as u64);
        self.pool.extend_from_slice(bytes);
    }

    /// "Translation is postfix."
    fn add(&mut self, tree: &Tree) {
        match tree {
            Tree::Int32(value) => self.push(Op::Int32, 0, i64::from(*value) as u64),
            Tree::Int64(value) => self.push(Op::Int64, 0, *value as u64),
            Tree::Real64(value) => self.push(Op::Real64, 0, value.to_bits()),
            Tree::Text(bytes) => self.push_bytes(Op::Text, bytes),
            Tree::Name(bytes) => self.push_bytes(Op::Name, bytes),
            Tree::Parens(inner) => self.add(inner),
            Tree::Prefix(op, inner) => {
                self.add(inner);
                self.push(*op, 0, 0);
            }
            Tree::Binary(op, left, right) => self.add_binary(*op, left, right),
            Tree::Call(name, escaped, arguments) => {
                self.add_call(function(name, *escaped).expect("a function"), arguments)
            }
        }
    }

    /// "`L && R` becomes L, skip if false, R, op 41; `L || R` uses skip if true; a is R's entries plus
    /// 1."
    fn add_binary(&mut self, op: Op, left: &Tree, right: &Tree) {
        self.add(left);
        let skip = match op {
            Op::And => Some(Op::SkipFalse),
            Op::Or => Some(Op::SkipTrue),
            _ => None,
        };
        let at = self.entries.len();
        self.add(right);
        let a = short(self.entries.len() - at + 1);
        if let Some(op) = skip {
            self.entries.insert(at, Entry { op, a, b: 0 });
        }
        self.push(op, 0, 0);
    }

    /// "56..59: .. (a: literals or values, 1..8; taken from the stack with the first)"
    fn add_call(&mut self, op: Op, arguments: &[Tree]) {
        arguments.iter().for_each(|argument| self.add(argument));
        let later = match op {
            Op::Begins | Op::Contains | Op::Ends | Op::Equals | Op::Wildcard | Op::Regex => {
                arguments.len() - 1
            }
            _ => 0,
        };
        self.push(op, later, 0);
    }
}

/// A length or a count of entries, which a text of 4,096 bytes keeps far below 65,536.
fn short(size: usize) -> u16 {
    u16::try_from(size).expect("the text is short")
}

/// "8: stack over 32": the most slots held at once in the order of the entries.
fn most_slots(entries: &[Entry]) -> usize {
    let mut now = 0;
    let mut most = 0;
    for entry in entries {
        now = now - operands(entry) + 1;
        most = most.max(now);
    }
    most
}

/// "u32 length of all after it; u16 kind 2; u16 entry count N 1..512; u16 pool length 0..4,096; N
/// entries of 12 bytes; pool"; document 02, request 9: kind 4 for the second edition
pub fn layout(edition: Edition, code: &Code) -> Vec<u8> {
    let length = 6 + 12 * code.entries.len() + code.pool.len();
    let mut table = (length as u32).to_le_bytes().to_vec();
    table.extend(edition.kind().to_le_bytes());
    table.extend((code.entries.len() as u16).to_le_bytes());
    table.extend((code.pool.len() as u16).to_le_bytes());
    for entry in &code.entries {
        table.extend(entry.op.code().to_le_bytes());
        table.extend(entry.a.to_le_bytes());
        table.extend(entry.b.to_le_bytes());
    }
    table.extend(&code.pool);
    table
}

#[cfg(test)]
mod tests {
    use super::*;

    #[test]
    fn the_example_table() {
        let table = table_of(1, b"Op == 42").unwrap();
        let mut meant = vec![0x2c, 0, 0, 0, 2, 0, 3, 0, 2, 0];
        meant.extend([5, 0, 2, 0, 0, 0, 0, 0, 0, 0, 0, 0]);
        meant.extend([1, 0, 0, 0, 42, 0, 0, 0, 0, 0, 0, 0]);
        meant.extend([32, 0, 0, 0, 0, 0, 0, 0, 0, 0, 0, 0]);
        meant.extend(b"Op");
        assert_eq!(table, meant);
    }

    #[test]
    fn the_example_refusals() {
        let refused = [
            ("pipe=>20", 5, 0),
            ("Op", 5, 0),
            ("! Op == 42", 5, 0),
            ("a -5", 2, 2),
            ("", 2, 0),
            ("Op == 42 &&", 2, 11),
            ("09 == 9", 1, 0),
            ("int32 ((a))", 4, 0),
            ("0x80000000 == 0", 3, 0),
            ("begins-with ((fold-case (a)), \"x\")", 4, 0),
            ("decompose (a, \"*\")", 4, 0),
            ("regex (a)", 4, 0),
            ("regex (a, b)", 4, 0),
            ("regex (\"a\", \"b\")", 4, 0),
            ("r\\egex (a, \"*\")", 4, 0),
            ("regex (a, \"*\") == f (a)", 4, 0),
            ("regex (a, \"a\", \"*\")", 18, 0),
            ("regex (a, \"(\") == 1", 18, 0),
            ("regex (a, \"b*\") == 1", 5, 0),
            ("wildcard (a, \"(\") || regex (a, \"a||b\")", 18, 0),
            ("regex (a, \"[!]\") && wildcard (a, \"[!]\")", 18, 0),
            ("wildcard (a)", 4, 0),
            ("wildcard (a, b)", 4, 0),
            ("wildcard (\"a\", \"b\")", 4, 0),
            ("w\\ildcard (a, \"*\")", 4, 0),
            ("wildcard (a, \"[\") == f (a)", 4, 0),
            ("wildcard (a, \"*\", \"[]\")", 18, 0),
            ("wildcard (a, \"[\") == 1", 18, 0),
            ("a && ! (wildcard (a, \"x\\\\\"))", 18, 0),
            ("wildcard (a, \"*\") == 1", 5, 0),
            ("equals (a, b == c)", 5, 0),
        ];
        for (text, number, place) in refused {
            for edition in [1, 2] {
                let answer = table_of(edition, text.as_bytes());
                assert_eq!(answer, Err((number, place)), "{text}");
            }
        }
    }

    #[test]
    fn a_wildcard_call_becomes_op_60() {
        let table = table_of(1, b"wildcard (Cab, \"T-4?\", \"V*\")").unwrap();
        let mut meant = vec![0x3f, 0, 0, 0, 2, 0, 4, 0, 9, 0];
        meant.extend([5, 0, 3, 0, 0, 0, 0, 0, 0, 0, 0, 0]);
        meant.extend([4, 0, 4, 0, 3, 0, 0, 0, 0, 0, 0, 0]);
        meant.extend([4, 0, 2, 0, 7, 0, 0, 0, 0, 0, 0, 0]);
        meant.extend([60, 0, 2, 0, 0, 0, 0, 0, 0, 0, 0, 0]);
        meant.extend(b"CabT-4?V*");
        assert_eq!(table, meant);
    }

    #[test]
    fn a_regex_call_becomes_op_61() {
        let table = table_of(1, b"regex (User, \"[Ss]egall?\")").unwrap();
        let mut meant = vec![0x38, 0, 0, 0, 2, 0, 3, 0, 14, 0];
        meant.extend([5, 0, 4, 0, 0, 0, 0, 0, 0, 0, 0, 0]);
        meant.extend([4, 0, 10, 0, 4, 0, 0, 0, 0, 0, 0, 0]);
        meant.extend([61, 0, 1, 0, 0, 0, 0, 0, 0, 0, 0, 0]);
        meant.extend(b"User[Ss]egall?");
        assert_eq!(table, meant);
    }

    #[test]
    fn eighteen_does_not_ask_for_the_buffer() {
        let answer = translate(1, b"wildcard (a, \"[!]\")", &mut []);
        assert_eq!((answer.number, answer.place, answer.length), (18, 0, 0));
    }

    #[test]
    fn the_editions_differ_in_the_kind_alone() {
        for text in ["Op == 42", "a << -1 == 2 && b >>> 65 != c >> 1"] {
            let first = table_of(1, text.as_bytes()).unwrap();
            let mut second = table_of(2, text.as_bytes()).unwrap();
            assert_eq!((first[4], second[4]), (2, 4));
            second[4] = 2;
            assert_eq!(first, second);
        }
    }

    #[test]
    fn twenty_five_comes_before_ten() {
        let long = vec![b' '; 4097];
        for edition in [0, 3, 257, usize::MAX] {
            let mut buffer = [7; 4];
            for text in [&b"Op == 42"[..], b"", &long] {
                let answer = translate(edition, text, &mut buffer);
                assert_eq!((answer.number, answer.place, answer.length), (25, 0, 0));
            }
            assert_eq!(buffer, [7; 4]);
        }
        assert_eq!(table_of(2, &long), Err((10, 0)));
    }

    #[test]
    fn a_short_buffer_keeps_its_bytes() {
        let mut buffer = [7; 47];
        let answer = translate(1, b"Op == 42", &mut buffer);
        assert_eq!(
            answer,
            Translation {
                number: 9,
                place: 0,
                length: 0
            }
        );
        assert_eq!(buffer, [7; 47]);
    }

    #[test]
    fn sizes_have_limits() {
        let number = |text: String| {
            table_of(1, text.as_bytes())
                .map_err(|(number, _)| number)
                .map(|_| ())
        };
        let sum = |count: usize| vec!["a"; count].join(" + ") + " == b";
        assert_eq!(number(sum(255)), Ok(()));
        assert_eq!(number(sum(256)), Err(7));
        let deep = |count: usize| {
            let open = "a + a * a | a ^ a & a << ( ".repeat(count);
            open + "a" + &" )".repeat(count) + " == b"
        };
        assert_eq!(number(deep(5)), Ok(()));
        assert_eq!(number(deep(6)), Err(8));
        assert_eq!(number("a ".repeat(2049)), Err(10));
    }
}

//! Both sides on random texts, tables and notices: every answer and every byte must be the same.

use crate::hostile;
use crate::load::{self, Dice};
use crate::meters;
use crate::shifts;
use bench::{expert, ours, translate};

const TOKENS: [&str; 67] = [
    "a",
    "Op",
    "Subject",
    "Level",
    "Cost",
    "Id",
    "Key",
    "none",
    "1",
    "0",
    "-7",
    "42",
    "3L",
    "2147483647",
    "-2147483648",
    "9223372036854775807L",
    "0x1F",
    "017",
    "1.5",
    "-0.0",
    "2.5e3",
    "1.0e22",
    "\"x\"",
    "'ops'",
    "\"a\\\"b\"",
    "(",
    ")",
    ",",
    "==",
    "!=",
    "<",
    "<=",
    ">",
    ">=",
    "&&",
    "||",
    "^^",
    "!",
    "~",
    "+",
    "-",
    "*",
    "/",
    "%",
    "&",
    "|",
    "^",
    "<<",
    ">>",
    ">>>",
    "size (Subject)",
    "fold-case (Subject)",
    "int32 (Op)",
    "real64 (Cost)",
    "nan (Cost)",
    "require (Op)",
    "contains (Subject, \"e\")",
    "equals (Op, 1, 42)",
    "ends-with (fold-case (Event), \"D\", \"x\")",
    "begins-with (Subject, \"al\")",
    "wildcard (Subject, \"*e*l*\")",
    "wildcard (fold-case (Event), \"[!a-d]?*[s-]\", \"x\")",
    "wildcard (Op, \"*\\\\*\")",
    "regex (Subject, \"e+.?[l-p]\")",
    "regex (fold-case (Event), \"^(o|op)*s|[^a-d]$\", \"x\")",
    "wildcard (Subject, \"[\")",
    "regex (Subject, \"a||b\")",
];

const SIZES: [usize; 5] = [1, 2, 8, 32, 64];

fn value(dice: &mut Dice, depth: usize) -> String {
    match dice.next(if depth == 0 { 2 } else { 5 }) {
        0 => load::NAMES[dice.next(64)].0.to_string(),
        1 => TOKENS[8 + dice.next(17)].to_string(),
        2 => format!("~ {}", value(dice, 0)),
        _ => {
            let op = ["+", "-", "*", "/", "%", "&", "|", "^", "<<", ">>", ">>>"][dice.next(11)];
            format!(
                "({} {op} {})",
                value(dice, depth - 1),
                value(dice, depth - 1)
            )
        }
    }
}

fn logic(dice: &mut Dice, depth: usize) -> String {
    match dice.next(if depth == 0 { 2 } else { 6 }) {
        0 => format!(
            "{} {} {}",
            value(dice, 2),
            TOKENS[28 + dice.next(6)],
            value(dice, 2)
        ),
        // the last two have ill-formed patterns
        1 if dice.next(100) == 0 => TOKENS[65 + dice.next(2)].to_string(),
        1 => TOKENS[52 + dice.next(13)].to_string(),
        2 => format!("! ({})", logic(dice, depth - 1)),
        _ => format!(
            "({} {} {})",
            logic(dice, depth - 1),
            ["&&", "||", "^^"][dice.next(3)],
            logic(dice, depth - 1)
        ),
    }
}

/// A text that is often right, or tokens and bytes at random.
fn text(dice: &mut Dice) -> Vec<u8> {
    let mut t = match dice.next(4) {
        0 => {
            let n = 1 + dice.next(8);
            let words: Vec<&str> = (0..n).map(|_| TOKENS[dice.next(TOKENS.len())]).collect();
            words
                .join(if dice.next(2) == 0 { " " } else { "" })
                .into_bytes()
        }
        _ => {
            let depth = 1 + dice.next(5);
            logic(dice, depth).into_bytes()
        }
    };
    if dice.next(3) == 0 && !t.is_empty() {
        let i = dice.next(t.len());
        t[i] = dice.next(256) as u8;
    }
    t
}

/// So many bytes of these at most.
fn bytes(dice: &mut Dice, of: &[u8], most: usize) -> Vec<u8> {
    let n = dice.next(most + 1);
    (0..n).map(|_| of[dice.next(of.len())]).collect()
}

fn wildcard(dice: &mut Dice) -> Vec<u8> {
    let value = bytes(dice, b"ab-]!A", 6);
    let pattern = bytes(dice, b"**??[[]]!-\\aab", 9);
    of_pattern(dice, 60, value, pattern)
}

/// Bytes that are well-formed often enough, or parts by the grammar, up to long ones.
fn regex(dice: &mut Dice) -> Vec<u8> {
    let most = [6, 6, 6, 40][dice.next(4)];
    let value = bytes(dice, b"aabbcA\n", most);
    let pattern = match dice.next(3) {
        0 => bytes(dice, b"aaabb(())||**++??.^$[]-\\{", 8),
        _ => {
            let parts = [1, 2, 4, 4, 80][dice.next(5)];
            let (start, end) = (dice.next(4) == 0, dice.next(4) == 0);
            let anchor = |at: bool, anchor: &[u8]| if at { anchor.to_vec() } else { Vec::new() };
            [
                anchor(start, b"^"),
                expression(dice, parts, 3),
                anchor(end, b"$"),
            ]
            .concat()
        }
    };
    of_pattern(dice, 61, value, pattern)
}

/// So many parts at most, some under marks, in groups and branches.
fn expression(dice: &mut Dice, parts: usize, deep: usize) -> Vec<u8> {
    let mut all = Vec::new();
    for _ in 0..1 + dice.next(parts) {
        if !all.is_empty() && dice.next(8) == 0 {
            all.push(b'|');
        }
        match dice.next(8) {
            0 if deep > 0 => {
                all.push(b'(');
                all.extend(expression(dice, parts.min(4), deep - 1));
                all.push(b')');
            }
            1 => all.push(b'.'),
            2 => all.extend([&b"[ab]"[..], b"[^b]", b"[a-c]", b"[A-Z]"][dice.next(4)]),
            _ => all.push(b"abc"[dice.next(3)]),
        }
        for _ in 0..[0, 0, 0, 1, 1, 2][dice.next(6)] {
            all.push(b"*+?"[dice.next(3)]);
        }
    }
    all
}

/// A table of one pattern on a value, which is folded now and then.
fn of_pattern(dice: &mut Dice, op: u16, value: Vec<u8>, pattern: Vec<u8>) -> Vec<u8> {
    let mut entries = vec![hostile::string(value.len(), 0)];
    if dice.next(4) == 0 {
        entries.push(hostile::FOLD);
    }
    entries.push(hostile::string(pattern.len(), value.len()));
    entries.push((op, 1, 0));
    hostile::table(&entries, &[value, pattern].concat())
}

/// Characters of one to four bytes, and bytes that none of them has, at the ends of RFC 3629's ranges.
const PIECES: [&[u8]; 24] = [
    b"a",
    b"Z",
    b"eight by",
    b"sixteen of them, ",
    "\u{7f}".as_bytes(),
    "\u{80}".as_bytes(),
    "\u{e9}".as_bytes(),
    "\u{7ff}".as_bytes(),
    "\u{800}".as_bytes(),
    "\u{8f66}".as_bytes(),
    "\u{d7ff}".as_bytes(),
    "\u{e000}".as_bytes(),
    "\u{ffff}".as_bytes(),
    "\u{10000}".as_bytes(),
    "\u{1f695}".as_bytes(),
    "\u{10ffff}".as_bytes(),
    b"\xc1\xbf",
    b"\xe0\x9f\xbf",
    b"\xf0\x8f\xbf\xbf",
    b"\xed\xa0\x80",
    b"\xf4\x90\x80\x80",
    b"\xc3",
    b"\xe8\xbd",
    b"\xf0\x9f\x9a",
];

/// A table that compares the size of a string of these pieces, folded now and then, with a number beside that of its characters.
fn size(dice: &mut Dice) -> Vec<u8> {
    let of = if dice.next(2) == 0 { 16 } else { 24 };
    let n = dice.next(9);
    let text = (0..n).map(|_| PIECES[dice.next(of)]).collect::<Vec<_>>();
    let text = text.concat();
    let count = String::from_utf8_lossy(&text).chars().count();
    let mut entries = vec![hostile::string(text.len(), 0)];
    if dice.next(4) == 0 {
        entries.push(hostile::FOLD);
    }
    let beside = (count + dice.next(3)).saturating_sub(1);
    entries.extend([(7, 0, 0), (1, 0, beside as u64)]);
    entries.push((32 + dice.next(6) as u16, 0, 0));
    hostile::table(&entries, &text)
}

/// Both sides on a table that passes the check, on no fields.
fn same_run(table: &[u8]) {
    assert!(ours::check(table), "{table:?}");
    assert_eq!(
        ours::guarded(table, &hostile::EMPTY),
        expert::guarded(table, &hostile::EMPTY),
        "{table:?}"
    );
}

pub fn agree(cases: usize) {
    let mut dice = Dice(0xdead_beef_cafe_f00d);
    let notices: Vec<Vec<u8>> = SIZES.map(load::notice).to_vec();
    let (mut x, mut y) = (vec![0u8; 10250], vec![0u8; 10250]);
    let (mut accepted, mut passed) = (0, 0);
    for _ in 0..cases {
        for table in [wildcard(&mut dice), regex(&mut dice), size(&mut dice)] {
            passed += ours::check(&table) as usize;
            assert_eq!(
                ours::guarded(&table, &hostile::EMPTY),
                expert::guarded(&table, &hostile::EMPTY),
                "{table:?}"
            );
        }
        same_run(&meters::any(&mut dice));
        same_run(&shifts::any(&mut dice));
        let t = text(&mut dice);
        let room = if dice.next(50) == 0 {
            dice.next(600)
        } else {
            10250
        };
        let edition = match dice.next(100) {
            0 => [0, 3, 257, usize::MAX][dice.next(4)],
            _ => 1 + dice.next(2),
        };
        let a = ours::translate(edition, &t, &mut x[..room]);
        let b = translate::translate(edition, &t, &mut y[..room]);
        assert_eq!(a, b, "{}", String::from_utf8_lossy(&t));
        assert_eq!(x, y, "{}", String::from_utf8_lossy(&t));
        if a.0 != 0 {
            continue;
        }
        accepted += 1;
        let mut table = x[..a.2].to_vec();
        if dice.next(2) == 0 {
            let i = dice.next(table.len());
            table[i] = [0, 1, 2, 4, 5, 41, 44, 255][dice.next(8)];
        }
        assert_eq!(ours::check(&table), expert::check(&table));
        passed += ours::check(&table) as usize;
        let mut notice = notices[dice.next(notices.len())].clone();
        if dice.next(4) == 0 {
            let i = dice.next(notice.len());
            notice[i] = dice.next(256) as u8;
        }
        assert_eq!(ours::check_notice(&notice), expert::check_notice(&notice));
        assert_eq!(
            ours::guarded(&table, &notice),
            expert::guarded(&table, &notice),
            "{}",
            String::from_utf8_lossy(&t)
        );
    }
    println!("same answers on {cases} random texts, of which {accepted} have a table, and on {passed} tables that pass the check");
}

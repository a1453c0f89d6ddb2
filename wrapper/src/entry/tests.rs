//! The entries of tables, against document 01's list of ops.
use super::*;
use crate::{Edition, TABLE_MAX};

fn subscription<'a>(text: &str, room: &'a mut [u8]) -> SubscriptionRef<'a> {
    SubscriptionRef::translate_in(text, Edition::First, room).expect(text)
}

/// The last entry of a text's table.
fn last(text: &str) -> (u16, &'static str, u16) {
    let mut room = [0; TABLE_MAX];
    let entry = subscription(text, &mut room).entries().next_back().unwrap();
    (entry.op, entry.word(), entry.takes())
}

/// Each entry is what the library tells of it, and there is none past the last.
#[test]
fn entries_are_those_that_the_library_tells() {
    // the last one's pool is as long as two entries and more
    let texts = [
        "Op == 42",
        "wildcard (Cab, \"T-4?\", \"\") && -1L < 0.5 || ! require (Open)",
        "contains (fold-case (a), 'b', 'c') ^^ 1 << Door & Open != 0",
        "Console == \"the second counting room\"",
    ];
    for text in texts {
        let mut room = [0; TABLE_MAX];
        let subscription = subscription(text, &mut room);
        for k in 0..subscription.entry_count() + 3 {
            let told = raw::entry(subscription.as_table(), k.into());
            let meant = match told.number {
                0 => Ok((told.op, told.a, told.b, told.bytes)),
                number => Err(number),
            };
            let entry = subscription.entry(k).map(|e| (e.op, e.a, e.b, e.bytes));
            assert_eq!(
                entry.map_err(|refusal| refusal.number()),
                meant,
                "{text} {k}"
            );
            assert!(subscription.entry(k).is_err() || subscription.entry(k).unwrap().k == k);
        }
    }
}

/// "16..26: `<< >> >>> & ^ | * / % + -`. 32..37: `== != < <= > >=`. 40 `!`, 41 `&&`, 42 `^^`, 43 `||`."
#[test]
fn operators_by_their_numbers() {
    let values = ["<<", ">>", ">>>", "&", "^", "|", "*", "/", "%", "+", "-"];
    for (op, word) in (16..).zip(values) {
        let mut room = [0; TABLE_MAX];
        let text = format!("a {word} b == 1");
        let entry = subscription(&text, &mut room).entry(2).unwrap();
        assert_eq!((entry.op, entry.word(), entry.takes()), (op, word, 2));
    }
    for (op, word) in (32..).zip(["==", "!=", "<", "<=", ">", ">="]) {
        assert_eq!(last(&format!("a {word} b")), (op, word, 2));
    }
    for (op, word) in (41..).zip(["&&", "^^", "||"]) {
        assert_eq!(last(&format!("a == 1 {word} b == 1")), (op, word, 2));
    }
    assert_eq!(last("! (a == 1)"), (40, "!", 1));
}

/// "48..54: `int32 int64 real64 string opaque nan require`. 56..59: `begins-with contains ends-with equals`"; 60
/// `wildcard` and 61 `regex`.
#[test]
fn functions_by_their_numbers() {
    let tests = [
        "int32", "int64", "real64", "string", "opaque", "nan", "require",
    ];
    for (op, word) in (48..).zip(tests) {
        assert_eq!(last(&format!("{word} (a)")), (op, word, 1));
    }
    let matching = [
        "begins-with",
        "contains",
        "ends-with",
        "equals",
        "wildcard",
        "regex",
    ];
    for (op, word) in (56..).zip(matching) {
        assert_eq!(last(&format!("{word} (a, 'b', 'c')")), (op, word, 3));
    }
    let mut room = [0; TABLE_MAX];
    let text = "size (a) == ~ 1 && fold-case (b) == 'c'";
    let entries = subscription(text, &mut room).entries();
    let told: Vec<String> = entries.map(|entry| entry.to_string()).collect();
    let meant = [
        "name a",
        "size",
        "int32 1",
        "~",
        "==",
        "skip if false, 5 passed over",
        "name b",
        "fold-case",
        "string \"c\"",
        "==",
        "&&",
    ];
    assert_eq!(told, meant);
}

#[test]
fn literals_and_names() {
    let mut room = [0; TABLE_MAX];
    let text = "equals (a\\ b, -1, 2147483648L, -0.5, 'x\"')";
    let subscription = subscription(text, &mut room);
    let operands: Vec<Operand> = subscription
        .entries()
        .map(|entry| entry.operand())
        .collect();
    let meant = [
        Operand::Name(b"a b"),
        Operand::Int32(-1),
        Operand::Int64(2147483648),
        Operand::Real64(-0.5),
        Operand::String(b"x\""),
        Operand::Count(4),
    ];
    assert_eq!(operands, meant);
    let told: Vec<String> = subscription
        .entries()
        .map(|entry| entry.to_string())
        .collect();
    let meant = [
        "name a\\ b",
        "int32 -1",
        "int64 2147483648L",
        "real64 -0.5",
        "string \"x\\\"\"",
        "equals 4",
    ];
    assert_eq!(told, meant);
    assert!(
        subscription
            .entries()
            .all(|entry| entry.lands().is_none() && entry.leaves() == 1)
    );
}

/// "a is R's entries plus 1"; 44 and 45 "go a + 1 entries on".
#[test]
fn skips_land_behind_their_operators() {
    for (text, op, lands) in [
        ("a == 1 && b == 2", 44, 8),
        ("a == 1 || b == 2", 45, 8),
        ("a == 1 || require (b)", 45, 7),
    ] {
        let mut room = [0; TABLE_MAX];
        let subscription = subscription(text, &mut room);
        let skip = subscription.entry(3).unwrap();
        assert_eq!(
            (skip.k, skip.op, skip.leaves(), skip.takes()),
            (3, op, 0, 0)
        );
        assert_eq!(
            (skip.lands(), subscription.entry_count()),
            (Some(lands), lands)
        );
        assert_eq!(skip.operand(), Operand::Skip(lands - 4));
    }
}

/// Ops that no table has are told as nothing, since `Entry` may be made by anyone.
#[test]
fn ops_that_no_table_has() {
    let none = |op| Entry {
        k: u16::MAX,
        op,
        a: u16::MAX,
        b: u64::MAX,
        bytes: b"",
    };
    for op in [0, 9, 15, 27, 38, 46, 47, 55, 62, u16::MAX] {
        assert_eq!(
            (none(op).word(), none(op).operand(), none(op).takes()),
            ("", Operand::None, 0)
        );
    }
    assert_eq!((none(44).lands(), none(56).takes()), (None, u16::MAX));
    for op in 0..=70 {
        assert!(none(op).to_string().len() < 60);
    }
}

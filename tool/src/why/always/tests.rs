use super::*;
use crate::random::Random;
use crate::vectors;
use crate::why::kinds::Needs;
use virentolex::{Edition, Kind, Notice, Operand, Subscription, Value, Verdict};

fn said(text: &str) -> Vec<(usize, String)> {
    let subscription = Subscription::translate(text, Edition::First).unwrap();
    let found = Why::new(&subscription).always();
    found.into_iter().map(|f| (f.entry, f.why)).collect()
}

const WHOLE: &str = "so the whole is always bottom, and delivers no notice";
const NEVER: &str = "so the whole is never true, and delivers no notice";

#[test]
fn always_bottom() {
    for (text, entry, why) in [
        ("Staff > \"417\"", 2, "\"417\" is a string, > takes numbers"),
        (
            "1 == 'a'",
            2,
            "1 is an int32 and \"a\" a string, == takes two strings or two numbers",
        ),
        (
            "size (Name) == \"3\"",
            3,
            "size (Name) is an int32 and \"3\" a string, == takes two strings or two numbers",
        ),
        (
            "1 + Op == \"x\"",
            4,
            "1 + Op is a number and \"x\" a string, == takes two strings or two numbers",
        ),
        (
            "~ Op == \"x\"",
            3,
            "~Op is an integer and \"x\" a string, == takes two strings or two numbers",
        ),
        (
            "Op * 1.5 == \"x\"",
            4,
            "Op * 1.5 is a real64 and \"x\" a string, == takes two strings or two numbers",
        ),
        (
            "fold-case (Op) > 1",
            3,
            "fold-case (Op) is a string, > takes numbers",
        ),
        (
            "Op == 1 ^^ Op == 'x'",
            6,
            "a field in it would have to be of two kinds",
        ),
        (
            "Op == 1 || Fare > 'x' || Op == 2",
            6,
            "\"x\" is a string, > takes numbers",
        ),
    ] {
        assert_eq!(
            said(text),
            [(entry, format!("always bottom: {why}"))],
            "{text}"
        );
    }
}

#[test]
fn always_bottom_within() {
    for (text, entry, why) in [
        ("'a' + Fare == 1", 2, "\"a\" is a string, + takes numbers"),
        ("Op & 1.5 == 1", 2, "1.5 is a real64, & takes integers"),
        ("Fare / 0 == 1", 2, "0 is zero"),
        ("Fare % 0L == 1", 2, "0L is zero"),
        ("1 / 0.0 == 1", 2, "0.0 is zero"),
        ("1 << 32 == 0", 2, "32 is not 0 to 31"),
        ("size (Name) << 32 == 0", 3, "32 is not 0 to 31"),
        ("Op << 64 == 0", 2, "64 is not 0 to 63"),
        ("1 / (2 - 2) == 1", 4, "2 - 2 is zero"),
        (
            "Op / size (Name) % 1.5 == 1",
            5,
            "1.5 is a real64, % takes integers",
        ),
        (
            "Op + size (Op) == 1",
            3,
            "a field in it would have to be of two kinds",
        ),
    ] {
        let said = said(text);
        assert_eq!(said.len(), 2, "{text}: {said:?}");
        assert_eq!(said[0], (entry, format!("always bottom: {why}")), "{text}");
        assert_eq!(said[1].1, WHOLE, "{text}");
    }
}

#[test]
fn never_true() {
    for (text, why) in [
        ("Op == 1 && Op == 'x'", "never true: Op would have to be a number on the left of && and a string on its right"),
        ("Op == 1 && Op == 2", "never true: Op would have to be 1 and 2; or is ||"),
        ("equals (Op, 'a', 'b') && 'c' == Op", "never true: Op would have to be one of the values that it is compared with and \"c\"; or is ||"),
        ("string (Op) && Op < 5", "never true: Op would have to be a string on the left of && and a number on its right"),
        ("! require (Op)", "! require is never true, since require is true or bottom; that a field is absent cannot be asked"),
        ("! (1 == 1)", "never true: what ! stands before is never false"),
        ("1 == 2", "false on every notice, since there is no field in it"),
        ("require (a) ^^ require (b)", "never true: no notice makes one side of ^^ true and the other false"),
    ] {
        let said = said(text);
        assert_eq!(said.len(), 1, "{text}: {said:?}");
        assert_eq!(said[0].1, why, "{text}");
    }
    for text in [
        "begins-with (fold-case (Name), \"Foo\")",
        "fold-case (Name) == \"Foo\"",
        "equals (Op, 1) && Op == 1 && wildcard (fold-case (Name), \"[A-Z]T?\")",
    ] {
        let said = said(text);
        assert_eq!(said.len(), 2, "{text}: {said:?}");
        assert!(said[0].1.starts_with("this never fits"), "{text}: {said:?}");
        assert_eq!(said[1].1, NEVER, "{text}");
    }
}

#[test]
fn what_some_notice_decides() {
    for text in [
        "Staff != \"417\"",
        "equals (Op, 1, \"x\")",
        "Fare / 2 > 0 && Op << 40 == 1",
        "begins-with (fold-case (Name), \"foo\")",
        "size (Name) <= 20 ^^ Real > 1",
        "1 << 31 < 0",
        "fold-case ('A') == 'a'",
        "Op == Op && User == 'x'",
        "Op == 1 && Op == 1.0 && Op == 1L",
        "Op == 1 || Op == 'x'",
        "Op == 9.0e18 && Op == 9000000000000000000L",
        "equals (Op, fold-case (Name), \"Foo\")",
        "Hour >= 22 || Hour < 6",
        "Hour >= 6 && Hour < 22 && 12 > Hour",
        "! (Hour > 5) && ! (Hour <= 5)",
        "Big > 9223372036854775806L && Big < 9223372036854775807L",
        "! (Op == 9 && Op > 5)",
        "Op % 2 == 1 && Op + 1.5 > 2",
        "size (a) + size (b) < 9 && ! int32 (a)",
    ] {
        assert_eq!(said(text), [], "{text}");
    }
    let second = Subscription::translate("1 << 32 == 1", Edition::Second).unwrap();
    assert_eq!(Why::new(&second).always(), []);
}

/// A value of a random kind, most of them near those of texts.
fn value(random: &mut Random) -> Value<'static> {
    const STRINGS: [&[u8]; 8] = [b"", b"a", b"Foo", b"foo", b"417", b"x", b"T-41", b"\xff"];
    const NUMBERS: [i32; 8] = [0, 1, 2, 3, -1, 31, 40, i32::MIN];
    const REALS: [f64; 6] = [0.0, 1.0, 1.5, -2.0, f64::NAN, f64::INFINITY];
    match random.below(6) {
        0 => Value::Int32(*random.of(&NUMBERS)),
        1 => Value::Int64((*random.of(&NUMBERS)).into()),
        2 => Value::Int64(*random.of(&[i64::MIN, i64::MAX, 1 << 40])),
        3 => Value::Real64(*random.of(&REALS)),
        4 => Value::String(random.of::<&[u8]>(&STRINGS)),
        _ => Value::Opaque(random.of::<&[u8]>(&STRINGS)),
    }
}

/// A notice of some of the fields that a subscription names; a field may be equal to one of its literals.
fn notice(random: &mut Random, subscription: &Subscription) -> Notice {
    let mut notice = Notice::new();
    let literals: Vec<Value> = subscription
        .entries()
        .filter_map(|e| literal(e.operand()))
        .collect();
    for entry in subscription.entries().filter(|e| e.op == 5) {
        let value = match random.below(3) {
            0 if !literals.is_empty() => *random.of(&literals),
            _ => value(random),
        };
        if random.below(8) > 0 {
            // a name may stand in the text twice
            let _ = notice.insert(entry.bytes, value);
        }
    }
    notice
}

fn literal(operand: Operand) -> Option<Value> {
    match operand {
        Operand::Int32(n) => Some(Value::Int32(n)),
        Operand::Int64(n) => Some(Value::Int64(n)),
        Operand::Real64(x) => Some(Value::Real64(x)),
        Operand::String(bytes) => Some(Value::String(bytes)),
        _ => None,
    }
}

/// Whether a notice has what is needed.
fn admitted(needs: &Option<Needs>, notice: &Notice) -> bool {
    let kind = |name: &[u8]| notice.find(name).map(|field| field.value.kind());
    needs.as_ref().is_some_and(|needs| needs.admits(kind))
}

/// Whether an entry may leave what the library leaves there on a notice.
fn may(why: &Why, leaves: &Leaves, entries: std::ops::Range<usize>, notice: &Notice) -> bool {
    match leaves {
        Leaves::Nothing => true,
        Leaves::Value(value) => {
            let kind: Option<Kind> = why.kind(notice.as_notice(), entries.end - 1);
            kind.is_none_or(|kind| admitted(value.at(Kinds::of(kind)), notice))
        }
        Leaves::Condition(condition) => {
            match why.verdict(notice.as_notice(), None, entries, &[]).unwrap() {
                Verdict::True => admitted(&condition.yes, notice),
                Verdict::False => admitted(&condition.no, notice),
                Verdict::Bottom => true,
            }
        }
    }
}

/// Holds what each entry may leave to what the library leaves there on random notices; how many leave less than
/// true, false and bottom.
fn holds(random: &mut Random, subscription: &Subscription, notices: usize) -> usize {
    let why = Why::new(subscription);
    let possible = Possible::of(&why);
    let mut never = 0;
    for (k, leaves) in possible.leaves.iter().enumerate() {
        let mut first = k;
        while let Some(operand) = possible.operands[first].first() {
            first = *operand;
        }
        for _ in 0..notices {
            let notice = notice(random, subscription);
            let held = may(&why, leaves, first..k + 1, &notice);
            assert!(held, "{subscription:?} entry {k} on {notice}");
        }
        never += usize::from(leaves.is_bottom() || leaves.is_never_true());
    }
    never
}

/// Over the accepted texts of the vectors.
#[test]
fn the_library_agrees_on_the_vectors() {
    let mut random = Random::new(3);
    let (mut accepted, mut never) = (0, 0);
    for (edition, text) in vectors::texts() {
        if let Ok(subscription) = Subscription::translate(&text, edition) {
            accepted += 1;
            never += holds(&mut random, &subscription, 4);
        }
    }
    assert!(accepted > 1000 && never > 100, "{accepted} {never}");
}

/// A random value, or a random condition, of few names and literals.
fn expression(random: &mut Random, depth: usize, condition: bool) -> String {
    if depth == 0 {
        return operand(random, condition);
    }
    let inner = condition && random.below(2) == 0;
    let a = expression(random, depth - 1, inner);
    let b = expression(random, depth - 1, inner);
    let joined = match (condition, inner) {
        (true, true) => random.of(&["&&", "||", "^^", "&&"]),
        (true, false) => random.of(&["==", "!=", "<", ">="]),
        _ => random.of(&["+", "-", "*", "/", "%", "&", "|", "<<", ">>>"]),
    };
    let not = match (condition, random.below(6)) {
        (true, 0) => "! ",
        (false, 0) => "~ ",
        _ => "",
    };
    format!("{not}(({a}) {joined} ({b}))")
}

/// One without operators on others.
fn operand(random: &mut Random, condition: bool) -> String {
    let name = *random.of(&["a", "b", "c"]);
    let literal = *random.of(&["0", "1", "2L", "1.5", "'x'", "'Foo'", "40"]);
    match (condition, random.below(8)) {
        (true, 0) => format!("require ({name})"),
        (true, 1) => format!("{} ({name})", random.of(&["string", "opaque", "nan"])),
        (true, 2) => format!("{} ({name})", random.of(&["int32", "int64", "real64"])),
        (true, 3) => format!("begins-with (fold-case ({name}), 'Foo')"),
        (true, 4) => format!("equals ({name}, {literal}, 1)"),
        (true, 5) => format!("{name} != {literal}"),
        (true, 6) => format!("{name} {} {literal}", random.of(&["<", "<=", ">", ">="])),
        (true, _) => format!("{name} == {literal}"),
        (false, 0) => format!("size ({name})"),
        (false, 1) => format!("fold-case ({name})"),
        (false, 2..=4) => name.into(),
        (false, _) => literal.into(),
    }
}

/// Over random texts: what is named so never gives another verdict, and there are many of them.
#[test]
fn the_library_agrees_on_random_texts() {
    let mut random = Random::new(7);
    let mut never = 0;
    for round in 0..3_000 {
        let text = expression(&mut random, round % 4, true);
        let edition = *random.of(&[Edition::First, Edition::Second]);
        let subscription =
            Subscription::translate(&text, edition).unwrap_or_else(|e| panic!("{text}: {e}"));
        never += holds(&mut random, &subscription, 12);
    }
    assert!(never > 1000, "{never}");
}

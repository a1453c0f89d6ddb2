use super::*;
use crate::random::Random;
use virentolex::{Edition, Subscription};

fn found(text: &str) -> (u8, Hint) {
    let refusal = Subscription::translate(text, Edition::First).unwrap_err();
    let hint = hint(text.as_bytes(), refusal);
    (
        refusal.number(),
        hint.unwrap_or_else(|| panic!("{text}: {}", refusal.number())),
    )
}

#[test]
fn places_and_reasons() {
    for (text, number, place, why) in [
        ("Op = 42", 1, 3, "=="),
        ("Op == \"x", 1, 6, "closing quote"),
        ("09 == 9", 1, 0, "octal"),
        ("Op == 42x", 1, 6, "a number is"),
        ("a[1] == 2", 1, 0, "backslash"),
        ("Op == .5", 1, 6, "0.5"),
        ("Zo\u{eb} == 1", 1, 0, "ASCII"),
        ("\u{eb} == 1", 1, 0, "ASCII"),
        ("Op == 42 ; 1", 1, 9, "one condition"),
        ("Op == 42 ? 1", 1, 9, "operator starts so"),
        ("\u{feff}Op == 42", 1, 0, "byte order mark"),
        ("Op == \u{201c}x\u{201d}", 1, 6, "plain quotes"),
        ("a =~ 'x'", 1, 2, "regex (a"),
        ("a => 1", 1, 2, "written >="),
        ("a === 1", 1, 4, "one = too many"),
        ("0x80000000 == 0", 3, 0, "int32"),
        ("9223372036854775808L == 0", 3, 0, "int64"),
        ("1.0e24 == 0.0", 3, 0, "15 digits"),
        ("a -5", 2, 2, "a - 5"),
        ("", 2, 0, "empty"),
        ("Op == 42 &&", 2, 11, "ends where"),
        ("(Op == 42", 2, 9, ") that is open"),
        ("Op == 42)", 2, 8, "no ( is open"),
        ("Op == )", 2, 6, "is expected here"),
        ("Op 42", 2, 3, "an operator"),
        ("Op == 1 and Fare == 2", 2, 8, "written &&"),
        ("Op == 1 OR Fare == 2", 2, 8, "written ||"),
        ("not Op == 1", 2, 0, "written !"),
        ("Op == 1 && NOT Fare == 2", 2, 11, "written !"),
        ("Op in (1, 2)", 2, 3, "equals (a, 1, 2)"),
        ("Name LIKE 'T%'", 2, 5, "wildcard (a"),
        (
            "Name contains 'x'",
            2,
            5,
            "in parentheses: contains (a, ..)",
        ),
        ("exists Op", 2, 0, "in parentheses: require (a)"),
        ("Op == +5", 2, 6, "no + before it"),
        ("Op == - 5", 2, 6, "directly before it"),
        ("Name ~ 'x'", 2, 5, "regex (a"),
        ("Op == 42 // one", 2, 10, "no comments"),
        ("Op == 42 # one", 1, 9, "no comments"),
        ("Op \u{2265} 5", 1, 3, "written >="),
        ("Name begins_with 'x'", 2, 5, "begins-with (a, ..)"),
        ("Op <> 1", 2, 4, "written !="),
        ("Op == 1, Op == 2", 2, 7, "join conditions"),
        ("int32 ((a))", 4, 7, "one name"),
        ("int32 ()", 4, 0, "one name"),
        ("int32 (a, b)", 4, 10, "one too many"),
        ("contains (Staff, 417)", 4, 17, "write \"417\""),
        ("contains (Staff, 'a', x)", 4, 22, "write \"x\""),
        ("contains (Staff, ('a'))", 4, 17, "another form"),
        (
            "contains ('Staff', 'a')",
            4,
            10,
            "a name or a fold-case call",
        ),
        ("contains (Staff)", 4, 0, "1 to 8 strings"),
        (
            "contains (a, '', '', '', '', '', '', '', '', '9')",
            4,
            45,
            "one too many",
        ),
        ("startswith (Name, 'a')", 4, 0, "did you mean begins-with?"),
        ("not (Op == 1)", 4, 0, "written !"),
        ("fold-case (f (a)) == 'x'", 4, 11, "no function f"),
        ("Op == 1 && sise (Op) == 3", 4, 11, "no function sise"),
        ("equals (Op)", 4, 0, "then 1 to 8 values"),
        ("begins-with (a, b)", 4, 16, "1 to 8 strings"),
        ("fold-case (1) == 'x'", 4, 11, "string or fold-case"),
        ("wildcard (Cab, 'T', '[')", 18, 21, "an unclosed set"),
        (
            "regex (User, 'a', '(') && regex (User, '*')",
            18,
            19,
            "unmatched parentheses",
        ),
        ("! Op == 42", 5, 2, "! takes the condition"),
        ("(1 == 1) + 2 == (3 == 3) + 4", 5, 0, "+ takes a value"),
        ("1 && (2 == 2 == 2)", 5, 0, "&& takes a condition"),
        ("pipe=>20", 5, 0, "one name"),
        ("Op", 5, 0, "the whole text must be a condition"),
        ("! Op", 5, 2, "require (Op)"),
        ("Op == 1 && true", 5, 11, "1 == 1"),
        ("FALSE", 5, 0, "1 == 2"),
        ("Op && Fare == 1", 5, 0, "require (Op)"),
        ("Op == 1 || 2", 5, 11, "equals (a, 1, 2)"),
        ("1 == 1 && 1", 5, 10, "&& takes a condition"),
        ("1 + (2 == 2) == 3", 5, 4, "+ takes a value"),
        ("equals (Op, 1, 2 == 2)", 5, 15, "equals takes a value"),
        ("1 == 1 == 1", 5, 0, "== takes a value"),
        ("Op == 42 & Staff == 1", 5, 9, "and is written &&"),
        ("(Op == 42) & (Staff == 1)", 5, 11, "and is written &&"),
        ("Op == 42 | Staff == 1", 5, 9, "or is written ||"),
        (
            "Op == 1 && (Fare == 2 | Fare == 3)",
            5,
            22,
            "or is written ||",
        ),
        ("1 < 2 < 3", 5, 0, "a < b && b < c"),
    ] {
        let (said, hint) = found(text);
        assert_eq!((said, hint.place), (number, place), "{text}: {}", hint.why);
        assert!(hint.why.contains(why), "{text}: {}", hint.why);
    }
}

#[test]
fn a_name_that_is_too_long() {
    let (number, hint) = found(&format!("{} == 1", "a".repeat(65)));
    assert_eq!((number, hint.place), (3, 0));
    assert!(hint.why.contains("64"));
}

/// The counts behind 7 and 8, at the first entry that does not fit.
#[test]
fn too_many_entries_and_too_deep_a_stack() {
    let (number, hint) = found(&vec!["1 == 1"; 200].join(" && "));
    assert_eq!(number, 7);
    assert!(
        hint.why.contains("takes 998 entries, 486 too many"),
        "{}",
        hint.why
    );
    let (number, hint) = found(&vec!["1 == 1"; 103].join(" && "));
    assert_eq!(number, 7);
    assert!(
        hint.why.contains("takes 513 entries, 1 too many"),
        "{}",
        hint.why
    );
    let nested = vec!["1 == 1 && (1 == 1 || "; 16].concat() + "1 == 1" + &")".repeat(16);
    let (number, hint) = found(&nested);
    assert_eq!((number, hint.place), (8, 15 * 21 + 16));
    assert!(
        hint.why.contains("need 34 places, 2 too many"),
        "{}",
        hint.why
    );
}

#[test]
fn the_25th_parenthesis_and_prefix() {
    let (number, hint) = found(&format!("{}1{} == 1", "(".repeat(25), ")".repeat(25)));
    assert_eq!((number, hint.place), (6, 24));
    let (number, hint) = found(&format!("{}1 == 1", "~ ".repeat(25)));
    assert_eq!((number, hint.place), (6, 48));
    let (number, hint) = found(&format!(") {}", "(".repeat(25)));
    assert_eq!((number, hint.place), (6, 26));
}

/// Texts of random tokens: wherever the library refuses by 1 to 6 or 18, a place in the text is found.
#[test]
fn a_place_is_found_for_every_such_refusal() {
    const WORDS: [&str; 34] = [
        "a",
        "b",
        "1",
        "2L",
        "1.5",
        "'x'",
        "\"[\"",
        "(",
        ")",
        "(",
        ")",
        ",",
        "!",
        "~",
        "&&",
        "||",
        "^^",
        "==",
        "!=",
        "<",
        "+",
        "-",
        "*",
        "<<",
        "&",
        "size (a)",
        "require (a)",
        "fold-case (",
        "begins-with (a, 'x')",
        "equals (a,",
        "wildcard (a, '[')",
        "f (a)",
        "a == 1",
        "(a == 1)",
    ];
    let mut random = Random::new(1);
    let mut seen = [0; 31];
    for _ in 0..60_000 {
        let count = 1 + random.below(9);
        let words: Vec<&str> = (0..count).map(|_| *random.of(&WORDS)).collect();
        let text = words.join(" ");
        let Err(refusal) = Subscription::translate(&text, Edition::First) else {
            continue;
        };
        let hint = hint(text.as_bytes(), refusal);
        assert!(
            hint.is_some_and(|h| h.place <= text.len()),
            "{text}: {refusal}"
        );
        seen[usize::from(refusal.number())] += 1;
    }
    assert!([2, 4, 5, 18].iter().all(|n| seen[*n] > 50), "{seen:?}");
}

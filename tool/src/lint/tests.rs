use super::*;
use virentolex::Edition;

fn found(text: &str) -> Vec<(usize, String)> {
    let subscription = Subscription::translate(text, Edition::First).unwrap();
    let found = of(text.as_bytes(), &subscription);
    found.into_iter().map(|h| (h.place, h.why)).collect()
}

/// What is found, at which byte, and some of its words.
#[test]
fn places_and_words() {
    for (text, place, words) in [
        (
            r#"regex (Host, "\.net$")"#,
            14,
            r"so . is not plain in the pattern: write \\.",
        ),
        (r#"regex (Host, "[a\]b]")"#, 16, r"so ] is not plain"),
        (r#"wildcard (Cab, "T\*")"#, 17, r"write \\*"),
        (r#"regex (User, "\d+")"#, 14, r"\d is d; a digit is [0-9]"),
        (
            r#"regex (User, "^\\d+$")"#,
            17,
            "a backslash makes d plain here; a digit is [0-9]",
        ),
        (r#"regex (User, "[0-9]{3}")"#, 13, "braces are plain"),
        (
            r#"regex (User, "^[[:digit:]]+$")"#,
            13,
            "no classes such as [:digit:]",
        ),
        (
            r#"Note == "a\nb""#,
            10,
            r"\n is n; a literal has no such escapes",
        ),
        ("Staff != \"417\"", 0, "require (Staff) && Staff != \"417\""),
        ("Op == 1 && 2 != Fare", 11, "require (Fare) && 2 != Fare"),
        ("Op != 1 && 2 != Op", 0, "require (Op) && Op != 1"),
        ("Op%2 == 0", 0, "it is one name"),
        ("Op == 1 || Base+Tip > 5", 11, "a backslash before +"),
        ("Fare/100 > 5", 0, "a backslash before /"),
        ("Staff == Other;", 9, "a backslash before ;"),
        ("Op == 010", 6, "010 is 8"),
        ("Op == -0100L", 6, "-0100L is -64"),
        ("Ok == true", 6, "true is the name of a field"),
        ("equals (Ok, 1, NULL)", 15, "NULL is the name of a field"),
    ] {
        let found = found(text);
        assert_eq!(found.len(), 1, "{text}: {found:?}");
        assert_eq!(found[0].0, place, "{text}: {found:?}");
        assert!(found[0].1.contains(words), "{text}: {found:?}");
    }
}

/// What is said of the whole comes behind its cause.
#[test]
fn the_whole_comes_last() {
    let found = found("Op != 010 && Staff > \"417\"");
    let places: Vec<usize> = found.iter().map(|(place, _)| *place).collect();
    assert_eq!(places, [6, 0, 13, 0], "{found:?}");
    assert!(
        found[3].1.starts_with("so the whole is never true"),
        "{found:?}"
    );
}

/// Texts of which nothing is to be said.
#[test]
fn silent() {
    for text in [
        r#"regex (Host, "\\.net$")"#,
        r#"regex (Host, "[.]net$") && wildcard (Cab, "T-4?", "V*")"#,
        r#"regex (Note, "say \"a\"", 'it\'s', "\\\\", "\\{3}", "a{", "{3}", "{a}")"#,
        r#"Path == "C:\\temp\\new" || Note == 'a\"b'"#,
        r#"wildcard (Cab, "\\*", "a.b", "\\[x]")"#,
        "require (Staff) && Staff != \"417\"",
        "string (Staff) && \"417\" != Staff",
        "Base\\+Tip > 5 && km/h < 90 && the\\ pipe == a.b-c && cab-5 == 1",
        "Staff != Other && Op == 0 || Op == 0x10 || Op == 07 || Op == 0.5",
        "Mode & 022 == 0 && Mode >> 03 < 8",
        "require (true) && int32 (null) && size (none) < 3",
        "equals (true, 1, 2) || contains (nan, \"x\")",
        "Group == \"true\" && Truth == 1",
        "begins-with (fold-case (Name), \"foo\") && Name == \"Foo\"",
        "regex (fold-case (Name), \"[Ff]oo|FOO\") && wildcard (fold-case (Name), \"[A-Z]*\")",
        "Op == 1 || Op == 2 || Op == \"x\"",
        "! (Op == 1) && ! equals (Op, 1, 2)",
    ] {
        assert_eq!(found(text), [], "{text}");
    }
}

/// Every entry of the accepted texts of the vectors has a part of the text that it came from.
#[test]
fn the_parts_of_accepted_texts() {
    let mut accepted = 0;
    for (edition, text) in crate::vectors::texts() {
        let Ok(subscription) = Subscription::translate(&text, edition) else {
            continue;
        };
        accepted += 1;
        let parts = hint::parts(&text).unwrap();
        assert_eq!(parts.len(), usize::from(subscription.entry_count()));
        for (entry, part) in subscription.entries().zip(&parts) {
            let source = &text[part.clone()];
            match entry.op {
                4 => assert!(source.len() >= 2 + entry.bytes.len()),
                5 => assert!(source.len() >= entry.bytes.len()),
                44 => assert_eq!(source, b"&&"),
                45 => assert_eq!(source, b"||"),
                _ => assert!(!source.is_empty()),
            }
        }
    }
    assert!(accepted > 1000, "{accepted}");
}

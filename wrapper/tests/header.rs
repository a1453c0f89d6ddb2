//! The constants of include/virentolex.h are those of this crate.

use std::collections::BTreeMap;
use std::path::Path;
use virentolex::raw::{FREE, kind};
use virentolex::*;

/// The header's constants, without the start of their names.
fn constants() -> BTreeMap<String, String> {
    let header = Path::new(env!("CARGO_MANIFEST_DIR")).join("../include/virentolex.h");
    let header = std::fs::read_to_string(header).expect("the header");
    let mut constants = BTreeMap::new();
    for line in header.lines() {
        let words = line.strip_prefix("#define VIRENTOLEX_").unwrap_or_default();
        if let Some((name, value)) = words.split_once(' ') {
            let value = value.split("/*").next().unwrap_or_default().trim();
            let before = constants.insert(name.to_string(), value.to_string());
            assert_eq!(before, None, "{name}");
        }
    }
    constants
}

/// `UbfSyntax` as the header spells it: `UBF_SYNTAX`.
fn spelled(refusal: Refusal) -> String {
    let debug = format!("{refusal:?}");
    let case = debug.split([' ', '(']).next().unwrap_or_default();
    let mut name = String::new();
    for (at, c) in case.char_indices() {
        if at > 0 && c.is_ascii_uppercase() {
            name.push('_');
        }
        name.push(c.to_ascii_uppercase());
    }
    name
}

#[test]
fn every_refusal_has_its_number() {
    let mut found: BTreeMap<String, String> = constants()
        .into_iter()
        .filter_map(|(name, value)| Some((name.strip_prefix("REFUSAL_")?.to_string(), value)))
        .collect();
    for number in 1..=30u8 {
        let refusal = Refusal::from_number(number, 0).expect("no number but 0 is success");
        assert!(!matches!(refusal, Refusal::Unknown(_)), "{number}");
        let name = spelled(refusal);
        assert_eq!(found.remove(&name), Some(number.to_string()), "{name}");
    }
    assert_eq!(found, BTreeMap::new());
}

/// The byte that a verdict or a fate is.
fn byte<T: PartialEq>(of: T, reads: fn(u8) -> Option<T>) -> usize {
    let found = (0..=255).find(|byte| reads(*byte).as_ref() == Some(&of));
    found.expect("each has a byte").into()
}

const KINDS: [(&str, u16); 5] = [
    ("INT32", kind::INT32),
    ("INT64", kind::INT64),
    ("REAL64", kind::REAL64),
    ("STRING", kind::STRING),
    ("OPAQUE", kind::OPAQUE),
];

/// The other constants, and this crate's.
fn others() -> Vec<(&'static str, usize)> {
    let verdict = |of| byte(of, Verdict::of_byte);
    let fate = |of| byte(of, Fate::of_byte);
    let mut others = vec![
        ("FALSE", verdict(Verdict::False)),
        ("TRUE", verdict(Verdict::True)),
        ("BOTTOM", verdict(Verdict::Bottom)),
        ("REFUSED", raw::REFUSED.into()),
        ("FREE", FREE.into()),
        ("FIRST_EDITION", Edition::First.number()),
        ("SECOND_EDITION", Edition::Second.number()),
        ("TEXT_MAX", TEXT_MAX),
        ("TABLE_MAX", TABLE_MAX),
        ("NOTICE_MAX", NOTICE_MAX),
        ("TABLES_MAX", TABLES_MAX),
        ("NO_FIELD", 64),
        ("NO_ENTRY", 65_535),
        ("DECISION_HEAD", DECISION_HEAD),
        ("DECISION_MAX", DECISION_MAX),
        ("STORE_MIN", STORE_MIN),
        ("STORE_MAX", STORE_MAX),
        ("STORE_PLACES", STORE_PLACES),
        ("STORE_RECORD", STORE_RECORD),
        ("UBF_TEXT_MAX", UBF_TEXT_MAX),
        ("KEPT", fate(Fate::Kept)),
        ("MOVED", fate(Fate::Moved)),
        ("REPEATED", fate(Fate::Repeated)),
        ("BAD", fate(Fate::Bad)),
        ("CUT", fate(Fate::Cut)),
        ("LISTED", raw::LISTED),
        ("LIST_MAX", LIST_MAX),
    ];
    others.extend(KINDS.map(|(name, kind)| (name, kind.into())));
    others
}

#[test]
fn every_other_constant_is_this_crates() {
    let mut found = constants();
    for (name, value) in others() {
        assert_eq!(found.remove(name), Some(value.to_string()), "{name}");
    }
    found.retain(|name, _| !name.starts_with("REFUSAL_") && !name.starts_with("VERSION"));
    // `VIRENTOLEX_H` has no value, so it is no constant
    assert_eq!(found, BTreeMap::new());
}

#[test]
fn the_version_is_this_crates() {
    let constants = constants();
    let version = |part: &str| constants[&format!("VERSION{part}")].clone();
    let whole = env!("CARGO_PKG_VERSION");
    assert_eq!(version(""), format!("\"{whole}\""));
    let parts = ["_MAJOR", "_MINOR", "_PATCH"].map(version);
    assert_eq!(parts.join("."), whole);
}

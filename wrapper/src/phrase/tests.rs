//! Expressions, against the texts that they are from.
use crate::{Edition, SubscriptionRef, TABLE_MAX};

fn translated<'a>(text: &str, room: &'a mut [u8]) -> SubscriptionRef<'a> {
    SubscriptionRef::translate_in(text, Edition::First, room).expect(text)
}

/// A text with its parentheses is the phrase of its last entry, and this is translated to the same table.
#[test]
fn expressions() {
    for text in [
        "Staff != \"417\"",
        "(Fare / Trips) < 100",
        "(2 + (3 * (4 & 6))) == 14",
        "size (Name) <= 20",
        "begins-with (fold-case (Name), \"foo\", \"bar\")",
        "equals (Op, 1, 2L, 3.5 + 1.0, \"x\")",
        "equals (Op, 1, 2, 3, 4, 5, 6, 7, 8)",
        "(~Op) == -1",
        "the\\ pipe > 20",
        "(((1 - 2) - 3) - 4) == (5 - (6 - 7))",
        "(a == 1) && (b == 2)",
        "((a == 1) && (b == 2)) || ((c == 3) ^^ require (d))",
        "((a == 1) || ((b == 2) && (c == 3))) && (nan (d) || ((e + 1) > 2))",
    ] {
        let mut room = [0; TABLE_MAX];
        let subscription = translated(text, &mut room);
        let last = subscription.entry_count() - 1;
        assert_eq!(subscription.phrase(last).to_string(), text);
        assert_eq!(subscription.span(last), 0..last + 1);
    }
}

#[test]
fn spans_and_operands_of_each_entry() {
    let mut room = [0; TABLE_MAX];
    let subscription = translated("a == 1 && (2 + b) * 3 > ~c", &mut room);
    // a 1 == skip, 2 b + 3 * c ~ > &&
    let spans = (0..subscription.entry_count()).map(|k| subscription.span(k));
    let meant = [
        0..1,
        1..2,
        0..3,
        3..4,
        4..5,
        5..6,
        4..7,
        7..8,
        4..9,
        9..10,
        9..11,
        4..12,
        0..13,
    ];
    assert!(spans.eq(meant));
    let operands = |k: u16| subscription.operands(k);
    assert!(operands(2).eq([0, 1]) && operands(6).eq([4, 5]) && operands(8).eq([6, 7]));
    assert!(operands(10).eq([9]) && operands(11).eq([8, 10]) && operands(12).eq([2, 11]));
    assert_eq!(
        (operands(0).len(), operands(3).len(), operands(13).len()),
        (0, 0, 0)
    );
    // past the last entry nothing is said
    assert_eq!(subscription.phrase(13).to_string(), "");
}

#[test]
fn a_phrase_fits_its_characters_and_no_fewer() {
    let mut room = [0; TABLE_MAX];
    let phrase = translated("User == 'Zoë'", &mut room).phrase(2);
    assert_eq!(phrase.to_string().chars().count(), 13);
    assert!(phrase.fits(13) && !phrase.fits(12) && !phrase.fits(0));
}

/// Tables that were not translated, but pass the check, give some phrase and no panic.
#[test]
fn tables_of_any_bytes_have_phrases() {
    let mut room = [0; TABLE_MAX];
    let right = translated("a == 1 && (2 + b) * 3 > ~c || size (d) > 1", &mut room)
        .as_table()
        .to_vec();
    let mut passed = 0;
    for at in 10..right.len() {
        for byte in [0, 1, 2, 5, 8, 16, 25, 32, 41, 43, 44, 45, 48, 54, 56] {
            let mut table = right.clone();
            table[at] = byte;
            if let Ok(subscription) = SubscriptionRef::from_table(&table) {
                let phrases = (0..subscription.entry_count()).map(|k| subscription.phrase(k));
                passed += phrases
                    .filter(|phrase| !phrase.to_string().is_empty())
                    .count();
            }
        }
    }
    assert!(passed > 1000, "{passed}");
}

//! Subscriptions by their type; the cases are document 01's.
use super::*;
use crate::tests::{OP_IS_42, OP42};
use crate::{EMPTY_NOTICE, Operand, TABLE_MAX, Verdict};

/// A text's subscription of the first edition.
fn translated<'a>(text: &str, buffer: &'a mut [u8]) -> SubscriptionRef<'a> {
    SubscriptionRef::translate_in(text, Edition::First, buffer).expect(text)
}

#[test]
fn a_text_is_the_table_that_the_paper_lays_down() {
    let mut room = [0xAA; 50];
    let subscription = translated("Op == 42", &mut room);
    assert_eq!(subscription.as_table(), OP_IS_42);
    assert_eq!(subscription.edition(), Edition::First);
    assert_eq!(
        (subscription.entry_count(), subscription.pool()),
        (3, &b"Op"[..])
    );
    assert_eq!(room[48..], [0xAA; 2]);
}

#[test]
fn refused_texts_have_their_places() {
    let cases = [
        ("pipe=>20", Refusal::Kind),
        ("Op", Refusal::Kind),
        ("! Op == 42", Refusal::Kind),
        ("a -5", Refusal::Grammar { place: 2 }),
        ("", Refusal::Grammar { place: 0 }),
        ("Op == 42 &&", Refusal::Grammar { place: 11 }),
        ("09 == 9", Refusal::Token { place: 0 }),
        ("int32 ((a))", Refusal::Function),
        ("0x80000000 == 0", Refusal::Limit { place: 0 }),
        ("regex (a, '(')", Refusal::Pattern),
    ];
    for (text, refusal) in cases {
        for edition in [Edition::First, Edition::Second] {
            let mut room = [0xAA; 64];
            let refused = SubscriptionRef::translate_in(text, edition, &mut room);
            assert_eq!(refused, Err(refusal), "{text}");
            assert_eq!(room, [0xAA; 64]);
        }
    }
}

/// What a byte changed or cut makes of a table is refused as the library refuses it, or is a table.
#[test]
fn no_type_without_the_check() {
    let agrees = |table: &[u8]| {
        let number = raw::check(table);
        let refusal = SubscriptionRef::from_table(table).err();
        assert_eq!(refusal, Refusal::from_number(number, 0));
        number == 0
    };
    assert!(agrees(&OP_IS_42));
    (0..48).for_each(|end| assert!(!agrees(&OP_IS_42[..end])));
    let mut tables = 0;
    for (at, byte) in (0..48).flat_map(|at| (0..=255).map(move |byte| (at, byte))) {
        let mut changed = OP_IS_42;
        changed[at] = byte;
        tables += usize::from(agrees(&changed));
        if let Ok(subscription) = SubscriptionRef::try_from(&changed[..]) {
            // what passes is run and told, whatever it is
            assert!(subscription.run(OP42).is_ok());
            assert_eq!(subscription.entries().count(), 3);
            assert!(subscription.stack() <= 32);
        }
    }
    assert!(tables > 48 && tables < 256 * 48);
}

#[test]
fn verdicts_steps_and_what_was_undecided() {
    let outcome = |verdict, steps, undecided| Outcome {
        verdict,
        steps,
        undecided,
    };
    let cases = [
        ("Op == 42", &OP42[..], outcome(Verdict::True, 3, None)),
        (
            "Op == 42",
            &EMPTY_NOTICE,
            outcome(Verdict::Bottom, 3, Some(0)),
        ),
        (
            "Op == 1 && 1 == 2",
            &EMPTY_NOTICE,
            outcome(Verdict::False, 8, Some(0)),
        ),
        (
            "1 == 2 && Op == 42",
            &EMPTY_NOTICE,
            outcome(Verdict::False, 4, None),
        ),
        ("Op > \"41\"", &OP42, outcome(Verdict::Bottom, 3, Some(2))),
    ];
    for (text, notice, meant) in cases {
        let mut room = [0; 200];
        assert_eq!(translated(text, &mut room).run(notice), Ok(meant), "{text}");
    }
}

#[test]
fn a_notice_that_is_none_is_refused_with_its_place() {
    let mut cut = OP42;
    cut[8] = 8;
    let mut room = [0; 48];
    let subscription = translated("Op == 42", &mut room);
    assert_eq!(subscription.run(cut), Err(Refusal::Notice { place: 8 }));
    assert_eq!(
        subscription.run(&cut[..18]),
        Err(Refusal::Notice { place: 0 })
    );
    assert_eq!(subscription.run([]), Err(Refusal::Notice { place: 0 }));
}

#[test]
fn the_depth_of_the_stack() {
    let cases = [
        ("require (a)", 1),
        ("a == 1", 2),
        ("a == 1 && b == 1", 3),
        ("a == 1 || b == 1 || c == 1", 3),
        ("a + (b + (c + d)) == 1", 4),
        ("a + b + c + d == 1", 2),
        ("equals (a, 1, 2, 3, 4, 5, 6, 7, 8)", 9),
        ("contains (fold-case (a), 'b')", 2),
    ];
    for (text, depth) in cases {
        let mut room = [0; 300];
        assert_eq!(translated(text, &mut room).stack(), depth, "{text}");
    }
    // 8 slots below the last value, and one for each of its 23 parentheses beside the innermost
    let nested = |innermost: &str| {
        let (open, close) = ("1 + (".repeat(23), ")".repeat(24));
        format!("equals (a, 1, 2, 3, 4, 5, 6, 7, {open}{innermost}{close}")
    };
    let mut room = [0; TABLE_MAX];
    assert_eq!(translated(&nested("1"), &mut room).stack(), 32);
    let over = SubscriptionRef::translate_in(nested("1 + 1"), Edition::First, &mut room);
    assert_eq!(over, Err(Refusal::Stack));
}

#[test]
fn no_entry_past_the_last() {
    let mut room = [0; 48];
    let subscription = translated("Op == 42", &mut room);
    assert_eq!(
        subscription.entry(0).map(|e| e.operand()),
        Ok(Operand::Name(b"Op"))
    );
    for k in [3, 4, 512, u16::MAX] {
        assert_eq!(subscription.entry(k), Err(Refusal::Index));
    }
    let words: Vec<&str> = subscription.entries().rev().map(|e| e.word()).collect();
    assert_eq!(words, ["==", "int32", "name"]);
}

#[cfg(feature = "alloc")]
#[test]
fn owned_and_borrowed_subscriptions_are_the_same() {
    for edition in [Edition::First, Edition::Second] {
        let text = "1 << Op == 1024 || Staff == '417'";
        let mut room = [0; 200];
        let lent = SubscriptionRef::translate_in(text, edition, &mut room).unwrap();
        let owned = Subscription::translate(text, edition).unwrap();
        assert_eq!(
            (owned.as_subscription(), SubscriptionRef::from(&owned)),
            (lent, lent)
        );
        assert_eq!(Subscription::from(lent), owned);
        assert_eq!((owned.edition(), lent.edition()), (edition, edition));
        assert_eq!(
            (owned.run(OP42), owned.stack()),
            (lent.run(OP42), lent.stack())
        );
        assert_eq!(
            (owned.entry(1), owned.entry_count()),
            (lent.entry(1), lent.entry_count())
        );
        assert!(owned.entries().eq(lent.entries()));
        assert_eq!(
            (owned.pool(), owned.as_table()),
            (lent.pool(), lent.as_table())
        );
        assert_eq!(format!("{owned:?}"), format!("{lent:?}"));
        let table = owned.clone().into_table();
        assert_eq!(Subscription::try_from(table), Ok(owned));
    }
    assert_eq!(
        Subscription::from_table(&OP_IS_42[1..]),
        Err(Refusal::Table)
    );
    let long = Subscription::translate(" ".repeat(4097), Edition::First);
    assert_eq!(long, Err(Refusal::Length));
}

//! Verdicts and editions.
use super::*;
use crate::{Edition, Refusal};

#[test]
fn verdicts_are_ordered_and_told() {
    let all = [Verdict::False, Verdict::Bottom, Verdict::True];
    assert!(all.is_sorted());
    assert_eq!(
        all.map(|verdict| verdict.to_string()),
        ["false", "bottom", "true"]
    );
    assert_eq!(all.map(Verdict::is_delivered), [false, false, true]);
    assert_eq!(
        format!("{:>7}|{:<6}|", Verdict::Bottom, Verdict::True),
        " bottom|true  |"
    );
}

/// "0 false, 1 true, 2 bottom, 3 table refused", and 4 for a place that is free.
#[test]
fn bytes_of_verdicts() {
    let meant = [
        Some(Verdict::False),
        Some(Verdict::True),
        Some(Verdict::Bottom),
    ];
    for byte in 0..=255u8 {
        let verdict = meant.get(usize::from(byte)).copied().flatten();
        assert_eq!(Verdict::of_byte(byte), verdict);
    }
}

/// "25 for an edition other than 1 or 2": by the whole number, not by its low bytes.
#[test]
fn numbers_of_editions() {
    for edition in [Edition::First, Edition::Second] {
        assert_eq!(Edition::from_number(edition.number()), Ok(edition));
    }
    for number in [
        0,
        3,
        4,
        255,
        256,
        257,
        65_537,
        usize::MAX,
        usize::MAX / 2 + 2,
    ] {
        assert_eq!(Edition::from_number(number), Err(Refusal::Edition));
    }
    assert_eq!(Edition::default(), Edition::First);
}

#[test]
fn an_outcome_is_that_of_the_run() {
    let ran = raw::run(&crate::tests::OP_IS_42, &crate::EMPTY_NOTICE);
    let outcome = Outcome {
        verdict: Verdict::Bottom,
        steps: 3,
        undecided: Some(0),
    };
    assert_eq!(Outcome::from(ran), outcome);
    let ran = raw::run(&crate::tests::OP_IS_42, &crate::tests::OP42);
    assert_eq!(
        (
            Outcome::from(ran).undecided,
            Outcome::from(ran).is_delivered()
        ),
        (None, true)
    );
}

#[test]
fn one_verdict_is_true() {
    let verdicts = [Verdict::False, Verdict::Bottom, Verdict::True];
    assert_eq!(verdicts.map(Verdict::is_true), [false, false, true]);
    assert_eq!(verdicts.map(Verdict::is_delivered), [false, false, true]);
}

//! Decisions by their type; the cases are document 02's request 3 and the letter's.
use super::*;
use crate::tests::{OP_IS_42, OP42};
use crate::{DECISION_HEAD, DECISION_MAX, Edition, NoticeRef, SubscriptionRef};

fn opened(text: &str, needed: usize) -> Decision<[u8; DECISION_MAX]> {
    let mut room = [0; 500];
    let subscription = SubscriptionRef::translate_in(text, Edition::First, &mut room).unwrap();
    Decision::open_in([0xAA; DECISION_MAX], subscription, needed).unwrap()
}

/// A notice of string fields.
fn strings(fields: &[(&str, &str)]) -> Vec<u8> {
    let mut room = [0; 1000];
    let begun = NoticeRef::builder_in(&mut room);
    let built = fields
        .iter()
        .fold(begun, |notice, (name, value)| notice.field(name, *value));
    built.build().unwrap().as_bytes().to_vec()
}

fn tally(count: u8, reached: bool) -> Tally {
    Tally {
        count,
        reached,
        undecided: None,
    }
}

/// The letter's case: one supervisor at the counting room and again at the yard console, which sends no Staff.
#[test]
fn two_people_are_two_staff_numbers() {
    let mut decision = opened("Approve == 'payout'", 2);
    let first = strings(&[("Approve", "payout"), ("Staff", "417")]);
    let yard = strings(&[("Approve", "payout")]);
    let second = strings(&[("Approve", "payout"), ("Staff", "502")]);
    let other = strings(&[("Approve", "door"), ("Staff", "600")]);
    assert_eq!(decision.show(&first), Ok(tally(1, false)));
    assert_eq!(decision.show(&yard), Err(Refusal::Staff));
    assert_eq!(decision.tally(), tally(1, false));
    assert_eq!(decision.show(&first), Ok(tally(1, false)));
    assert_eq!(decision.show(&other), Ok(tally(1, false)));
    let undecided = decision.show(strings(&[("Staff", "601")]));
    assert_eq!(
        undecided,
        Ok(Tally {
            undecided: Some(0),
            ..tally(1, false)
        })
    );
    assert_eq!(decision.show(&second), Ok(tally(2, true)));
    let shown = "Decision { tally: Tally { count: 2, reached: true, undecided: None }, .. }";
    assert_eq!(format!("{decision:?}"), shown);
    assert_eq!(
        (decision.show(&yard), decision.tally()),
        (Err(Refusal::Staff), tally(2, true))
    );
}

#[test]
fn a_ninth_person_is_refused_and_changes_nothing() {
    let mut decision = opened("require (Staff)", 8);
    for count in 1..=8u8 {
        let staff = strings(&[("Staff", &"x".repeat(count.into()))]);
        assert_eq!(decision.show(staff), Ok(tally(count, count == 8)));
    }
    let before = decision.clone();
    for (staff, refusal) in [("y", Refusal::Ninth), ("", Refusal::Staff)] {
        assert_eq!(decision.show(strings(&[("Staff", staff)])), Err(refusal));
        assert_eq!(decision, before);
    }
    assert_eq!(
        decision.show(strings(&[("Staff", "xxx")])),
        Ok(tally(8, true))
    );
}

/// What is no notice is refused with its place, and leaves the decision as it stood.
#[test]
fn bytes_that_are_no_notice() {
    let mut decision = opened("require (Staff)", 1);
    decision.show(strings(&[("Staff", "417")])).unwrap();
    let before = decision.clone();
    let mut cut = OP42;
    cut[8] = 8;
    assert_eq!(decision.show(cut), Err(Refusal::Notice { place: 8 }));
    assert_eq!(decision, before);
}

#[test]
fn a_decision_is_kept_and_taken_up() {
    let mut decision = opened("require (Staff)", 2);
    decision.show(strings(&[("Staff", "417")])).unwrap();
    let mut again = Decision::kept(decision.as_bytes().to_vec()).unwrap();
    assert_eq!(again.tally(), tally(1, false));
    assert_eq!(again.show(strings(&[("Staff", "502")])), Ok(tally(2, true)));
    let buffer = again.into_buffer();
    assert_eq!(
        Decision::kept(buffer.clone()).map(|d| d.tally()),
        Ok(tally(2, true))
    );
    // what breaks the decision is refused: its head, its values, its table
    for at in 0..DECISION_HEAD + 12 {
        let mut broken = buffer.clone();
        broken[at] ^= 0xFF;
        let number = raw::quorum_show(&mut broken.clone(), &OP42).number;
        assert_eq!(
            Decision::kept(broken).err(),
            (number == 12).then_some(Refusal::Table),
            "{at}"
        );
    }
    assert_eq!(Decision::kept([]).err(), Some(Refusal::Table));
}

#[test]
fn openings_are_refused_in_their_order() {
    let refused = |room: usize, table: &[u8], needed| {
        let mut buffer = vec![0xAA; room];
        let refusal = Decision::open_in(&mut buffer[..], table, needed).err();
        assert!(refusal.is_none() || buffer == vec![0xAA; room]);
        refusal
    };
    assert_eq!(refused(0, &OP_IS_42[1..], 0), Some(Refusal::Table));
    assert_eq!(refused(0, &OP_IS_42, 0), Some(Refusal::Needed));
    assert_eq!(refused(0, &OP_IS_42, usize::MAX), Some(Refusal::Needed));
    assert_eq!(refused(575, &OP_IS_42, 8), Some(Refusal::Buffer));
    assert_eq!(refused(576, &OP_IS_42, 8), None);
}

#[cfg(feature = "alloc")]
#[test]
fn an_owned_decision_is_just_as_long_as_it_is() {
    let decision = Decision::open(OP_IS_42, 2).unwrap();
    assert_eq!(decision.as_bytes().len(), DECISION_HEAD + 48);
    for length in [0, 47, TABLE_MAX, TABLE_MAX + 1, 100_000] {
        assert_eq!(Decision::open(vec![0; length], 0), Err(Refusal::Table));
    }
    assert_eq!(Decision::open(OP_IS_42, 0), Err(Refusal::Needed));
}

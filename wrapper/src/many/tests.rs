//! Many subscriptions on one notice; the cases are document 02's request 8.
use super::*;
use crate::tests::{OP_IS_42, OP42};
use crate::{EMPTY_NOTICE, Edition, SubscriptionRef};

/// The table of a text.
fn table(text: &str) -> Vec<u8> {
    let mut room = [0; 200];
    let subscription = SubscriptionRef::translate_in(text, Edition::First, &mut room);
    subscription.unwrap().as_table().to_vec()
}

#[test]
fn each_is_answered_as_it_would_be_alone() {
    let mut refused = OP_IS_42;
    refused[4] = 3;
    let tables = [
        table("Op == 41"),
        OP_IS_42.to_vec(),
        table("Staff != '417'"),
        refused.to_vec(),
    ];
    for notice in [&OP42[..], &EMPTY_NOTICE] {
        let verdicts = run_many(tables.concat(), notice).unwrap();
        for (k, table) in tables.iter().enumerate() {
            let alone = SubscriptionRef::from_table(table).and_then(|s| s.run(notice));
            assert_eq!(verdicts.get(k), Some(alone.map(|outcome| outcome.verdict)));
        }
        assert_eq!(
            verdicts.iter().map(|(k, _)| k).collect::<Vec<_>>(),
            [0, 1, 2, 3]
        );
        for k in [4, 63, 64, usize::MAX] {
            assert_eq!(verdicts.get(k), None);
        }
    }
    let delivered = |notice: &[u8]| {
        run_many(tables.concat(), notice)
            .unwrap()
            .delivered()
            .count()
    };
    assert_eq!((delivered(&OP42), delivered(&EMPTY_NOTICE)), (1, 0));
}

#[test]
fn refusals_in_their_order() {
    let mut cut = OP42;
    cut[8] = 8;
    assert_eq!(
        run_many(OP_IS_42.repeat(65), cut),
        Err(Refusal::Notice { place: 8 })
    );
    assert_eq!(run_many(OP_IS_42.repeat(65), OP42), Err(Refusal::Tables));
    let all = run_many(OP_IS_42.repeat(64), OP42).unwrap();
    assert!(all.delivered().eq(0..64));
    assert_eq!(run_many([], OP42).unwrap().iter().count(), 0);
}

#[cfg(feature = "alloc")]
#[test]
fn tables_laid_end_to_end() {
    use crate::Subscription;
    let texts = ["Op == 42", "Op != 42", "Staff != '417'"];
    let mut tables = Tables::new();
    for text in texts {
        tables.push(&Subscription::translate(text, Edition::Second).unwrap());
    }
    let verdicts = tables.run(OP42).unwrap();
    let shown = "{0: Ok(True), 1: Ok(False), 2: Ok(Bottom)}";
    assert_eq!(format!("{verdicts:?}"), shown);
    let meant = [Verdict::True, Verdict::False, Verdict::Bottom].map(Ok);
    assert!(verdicts.iter().eq(meant.into_iter().enumerate()));
    tables.push(SubscriptionRef::from_table(&OP_IS_42).unwrap());
    assert!(tables.run(OP42).unwrap().delivered().eq([0, 3]));
    assert_eq!(tables.as_bytes()[tables.as_bytes().len() - 48..], OP_IS_42);
    (4..65).for_each(|_| tables.push(SubscriptionRef::from_table(&OP_IS_42).unwrap()));
    assert_eq!(tables.run(OP42), Err(Refusal::Tables));
}

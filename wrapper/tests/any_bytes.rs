//! Any bytes through the interface: it answers as the raw functions do, and what it takes it can tell.
#![cfg(feature = "alloc")]

use virentolex::{raw, *};

/// Numbers that look random, the same in each run (xorshift).
struct Random(u64);

impl Random {
    fn below(&mut self, end: usize) -> usize {
        self.0 ^= self.0 << 13;
        self.0 ^= self.0 >> 7;
        self.0 ^= self.0 << 17;
        (self.0 % end as u64) as usize
    }

    /// Bytes of a right form with some changed, cut or doubled.
    fn damaged(&mut self, right: &[u8]) -> Vec<u8> {
        let mut bytes = right.to_vec();
        for _ in 0..self.below(4) {
            if bytes.is_empty() {
                break;
            }
            let at = self.below(bytes.len());
            match self.below(4) {
                0 => bytes.truncate(at),
                1 => bytes[at] = self.below(256) as u8,
                2 => bytes[at] = bytes[at].wrapping_add(1),
                _ => bytes.extend_from_within(at..),
            }
        }
        bytes
    }
}

const TEXTS: [&str; 6] = [
    "Op == 42 && Staff != \"417\" || wildcard (Cab, \"T-4?\", 'V*')",
    "regex (fold-case (User), '^(a|b)*c$') ^^ size (Name) <= 20",
    "Load + 3 * -4L > 1.5e3 && nan (Fare) || ! require (Open)",
    "1 << Door & Open != 0",
    "equals (Op, 1, 0x2A, 'three', 4.5) || begins-with (Cab, 'T', 'V')",
    "(((a >>> 3 | ~ b) % 7) - c / 2) >= d",
];

fn notices() -> Vec<Notice> {
    let right = Notice::builder()
        .field("Op", 42)
        .field("Staff", "417")
        .field("Cab", "T-41")
        .field("Load", -7i64)
        .field("Fare", 12.5)
        .field("Seal", Value::Opaque(b"\0\xFF$~"));
    vec![
        Notice::new(),
        right.build().unwrap(),
        Notice::from_ubf("{\"Door\"33\"Open\"2}$").unwrap(),
    ]
}

/// The number of a result's refusal, and its place.
fn answer<T>(result: &Result<T, Refusal>) -> (u8, usize) {
    match result {
        Ok(_) => (0, 0),
        Err(refusal) => (refusal.number(), refusal.place().unwrap_or_default()),
    }
}

#[test]
fn texts_are_answered_as_the_library_answers_them() {
    let mut random = Random(1);
    let mut accepted = 0;
    for round in 0..20_000 {
        let text = random.damaged(TEXTS[round % TEXTS.len()].as_bytes());
        let edition = [Edition::First, Edition::Second][round % 2];
        let result = Subscription::translate(&text, edition);
        let mut table = [0; TABLE_MAX];
        let t = raw::translate(edition, &text, &mut table);
        assert_eq!(answer(&result), (t.number, t.place));
        let Ok(subscription) = result else { continue };
        accepted += 1;
        assert_eq!(
            (subscription.as_table(), subscription.edition()),
            (&table[..t.length], edition)
        );
        assert!(subscription.stack() >= 1 && subscription.stack() <= 32);
        assert!(
            subscription
                .entries()
                .all(|entry| !entry.to_string().is_empty())
        );
        assert_eq!(
            subscription.entries().len(),
            usize::from(subscription.entry_count())
        );
    }
    assert!(accepted > 2_000);
}

#[test]
fn tables_and_notices_are_answered_as_the_library_answers_them() {
    let mut random = Random(2);
    let tables = TEXTS.map(|text| Subscription::translate(text, Edition::First).unwrap());
    let notices = notices();
    let (mut runs, mut mended) = (0, 0);
    for round in 0..20_000 {
        let table = random.damaged(tables[round % tables.len()].as_table());
        let bytes = random.damaged(notices[round % notices.len()].as_bytes());
        let (held, notice) = (
            SubscriptionRef::from_table(&table),
            NoticeRef::from_bytes(&bytes),
        );
        assert_eq!(answer(&held), (raw::check(&table), 0));
        let checked = raw::check_notice(&bytes);
        assert_eq!(answer(&notice), (checked.number, checked.place));
        if let Ok(subscription) = held {
            let same = |e: Entry| {
                let told = raw::entry(&table, e.k.into());
                (told.op, told.a, told.b, told.bytes) == (e.op, e.a, e.b, e.bytes)
            };
            assert!(subscription.entries().all(same));
            assert_eq!(
                subscription.entries().count(),
                subscription.entry_count().into()
            );
            let ran = raw::run(&table, &bytes);
            let result = subscription.run(&bytes);
            assert_eq!(answer(&result), (ran.number, ran.place));
            runs += usize::from(result.is_ok_and(|outcome| outcome == ran.into()));
        }
        if let Ok(notice) = notice {
            assert_eq!(notice.fields().count(), notice.len());
            let same = |(k, f): (usize, Field)| {
                let read = raw::read(&bytes, k);
                (read.name, read.kind) == (f.name, f.value.kind().number())
            };
            assert!(notice.fields().enumerate().all(same));
            let written = notice
                .fields()
                .fold(Notice::builder(), |n, f| n.field(f.name, f.value));
            assert_eq!(written.build().map(Notice::into_bytes), Ok(bytes.clone()));
        }
        if let Ok(result) = Mended::mend(&bytes) {
            mended += usize::from(NoticeRef::from_bytes(result.notice().as_bytes()).is_ok());
            let stay = result.fates().filter(|listed| listed.fate.stays()).count();
            assert_eq!(stay, result.notice().len());
        } else {
            assert!(bytes.len() < 8);
            mended += 1;
        }
    }
    assert!(runs > 1_000);
    assert_eq!(mended, 20_000);
}

#[test]
fn door_texts_are_answered_as_the_library_answers_them() {
    let mut random = Random(3);
    let right = b"{\"s\"\"a\\\"\" %c% \"o\" 3~~$\"~ \"i\"-21 \"I\" -9`int64`}$";
    let mut accepted = 0;
    for _ in 0..20_000 {
        let text = random.damaged(right);
        let result = Notice::from_ubf(&text);
        let mut buffer = [0; NOTICE_MAX];
        let read = raw::ubf_read(&text, &mut buffer);
        assert_eq!(answer(&result), (read.number, 0));
        let Ok(notice) = result else { continue };
        accepted += 1;
        assert_eq!(notice.as_bytes(), &buffer[..read.length]);
        let again = notice.to_ubf().and_then(Notice::from_ubf);
        assert_eq!(again, Ok(notice));
    }
    assert!(accepted > 2_000);
}

#[test]
fn kept_decisions_and_stores_are_answered_as_the_library_answers_them() {
    let mut random = Random(4);
    let subscription = Subscription::translate("require (Staff)", Edition::First).unwrap();
    let mut decision = Decision::open(&subscription, 2).unwrap();
    decision.show(&notices()[1]).unwrap();
    let mut store = Store::make(vec![0; 200]).unwrap();
    store.add(&subscription).unwrap();
    let (mut decisions, mut stores) = (0, 0);
    for _ in 0..20_000 {
        let bytes = random.damaged(decision.as_bytes());
        let shown = raw::quorum_show(&mut bytes.clone(), &[]);
        let kept = Decision::kept(bytes.clone());
        assert_eq!(
            answer(&kept).0,
            if shown.number == 11 { 0 } else { shown.number }
        );
        if let Ok(kept) = kept {
            decisions += 1;
            assert_eq!(
                (kept.tally().count, kept.tally().reached),
                (shown.count, shown.reached)
            );
            assert_eq!(kept.into_buffer(), bytes);
        }
        let bytes = random.damaged(store.as_bytes());
        let fetched = raw::store_fetch(&bytes, 0);
        let kept = Store::kept(&bytes[..]);
        assert_eq!(answer(&kept).0, if fetched.number == 26 { 26 } else { 0 });
        if let Ok(kept) = kept {
            stores += 1;
            assert!(kept.run(Notice::new()).is_ok());
            assert!(
                kept.iter()
                    .all(|(id, held)| raw::store_fetch(&bytes, id).table == held.as_table())
            );
        }
    }
    assert!(decisions > 2_000 && stores > 2_000);
}

//! Every refusal, reached through the interface by misuse: the numbers and places are those of documents 01 and 02.
#![cfg(feature = "alloc")]

use virentolex::*;

fn translated(text: &str) -> Result<Subscription, Refusal> {
    Subscription::translate(text, Edition::First)
}

fn subscription(text: &str) -> Subscription {
    translated(text).expect(text)
}

fn staff(number: &str) -> Notice {
    Notice::builder().field("Staff", number).build().unwrap()
}

/// The refusals of translation, by misuse of the language.
fn texts() -> Vec<Refusal> {
    let long = " ".repeat(TEXT_MAX + 1);
    let deep = format!("{}a == 1{}", "(".repeat(25), ")".repeat(25));
    let entries = vec!["require (a)"; 171].join(" || ");
    let open = "1 + (".repeat(23);
    let stack = format!(
        "equals (a, 1, 2, 3, 4, 5, 6, 7, {open}1 + 1{}",
        ")".repeat(24)
    );
    let texts = [
        "a == 1 && 09 == 9",
        "Op == 42 &&",
        "a == 1 && 0x80000000 == 0",
        "size (a, b) == 1",
        "Op",
        &deep,
        &entries,
        &stack,
        &long,
        "regex (User, '(')",
    ];
    texts
        .into_iter()
        .map(|text| translated(text).unwrap_err())
        .collect()
}

/// The refusals of tables, notices and their parts.
fn tables_and_notices() -> Vec<Refusal> {
    let op = subscription("Op == 42");
    let notice = Notice::builder().field("Op", 42).build().unwrap();
    let mut broken = notice.clone().into_bytes();
    broken[8] = 8;
    let value = [b'v'; 1025];
    let many = (0..65).fold(Notice::builder(), |built, k| built.field(format!("{k}"), k));
    vec![
        SubscriptionRef::translate_in("Op == 42", Edition::First, &mut [0; 47]).unwrap_err(),
        op.run(&broken).unwrap_err(),
        Subscription::from_table(&op.as_table()[1..]).unwrap_err(),
        Notice::builder().field("", 1).build().unwrap_err(),
        Notice::builder()
            .field("Op", 1)
            .field("Op", 2)
            .build()
            .unwrap_err(),
        many.build().unwrap_err(),
        Notice::new()
            .insert("Note", Value::String(&value))
            .unwrap_err(),
        notice.field(1).unwrap_err(),
        op.entry(3).unwrap_err(),
        Edition::from_number(3).unwrap_err(),
    ]
}

/// The refusals of decisions, doors, many tables and mending.
fn the_others() -> Vec<Refusal> {
    let mut decision = Decision::open(subscription("1 == 1"), 8).unwrap();
    let nobody = decision.show(Notice::new()).unwrap_err();
    (0..8).for_each(|k| assert!(decision.show(staff(&k.to_string())).is_ok()));
    let mut tables = Tables::new();
    (0..65).for_each(|_| tables.push(&subscription("1 == 1")));
    vec![
        nobody,
        decision.show(staff("nine")).unwrap_err(),
        Decision::open(subscription("1 == 1"), 9).unwrap_err(),
        Notice::from_ubf("{\"Op\"42}").unwrap_err(),
        Notice::builder()
            .field("Fare", 1.5)
            .build()
            .unwrap()
            .to_ubf()
            .unwrap_err(),
        tables.run(Notice::new()).unwrap_err(),
        Mended::mend([0; 7]).unwrap_err(),
        Mended::mend([0; NOTICE_MAX + 1]).unwrap_err(),
    ]
}

/// The refusals of stores.
fn stores() -> Vec<Refusal> {
    let table = subscription("1 == 1");
    let mut small = Store::make([0; 10]).unwrap();
    let mut full = Store::make(vec![0; STORE_MAX]).unwrap();
    (0..64).for_each(|id| assert_eq!(full.add(&table), Ok(id)));
    vec![
        Store::kept([0; 100]).unwrap_err(),
        full.add(&table).unwrap_err(),
        small.add(&table).unwrap_err(),
        small.remove(0).unwrap_err(),
    ]
}

#[test]
fn every_refusal_is_reached_by_its_misuse() {
    let numbers =
        |refusals: Vec<Refusal>| -> Vec<u8> { refusals.iter().map(|r| r.number()).collect() };
    assert_eq!(numbers(texts()), [1, 2, 3, 4, 5, 6, 7, 8, 10, 18]);
    let places: Vec<Option<usize>> = texts().into_iter().take(4).map(Refusal::place).collect();
    assert_eq!(places, [Some(10), Some(11), Some(10), None]);
    let parts = tables_and_notices();
    assert_eq!(parts[1], Refusal::Notice { place: 8 });
    assert_eq!(numbers(parts), [9, 11, 12, 13, 14, 15, 16, 17, 17, 25]);
    assert_eq!(numbers(the_others()), [19, 20, 21, 22, 23, 24, 30, 10]);
    assert_eq!(numbers(stores()), [26, 27, 28, 29]);
    let all = [texts(), tables_and_notices(), the_others(), stores()].concat();
    let mut reached = numbers(all);
    reached.sort();
    reached.dedup();
    assert!(reached.into_iter().eq(1..=30));
}

/// What a caller sees who passes a refusal on, as `?` does.
#[test]
fn a_refusal_is_passed_on_in_words() {
    fn match_all(text: &str, notice: &[u8]) -> Result<Verdict, Box<dyn std::error::Error>> {
        let subscription = Subscription::translate(text, Edition::First)?;
        Ok(subscription.run(notice)?.verdict)
    }
    let told = |text, notice| match_all(text, notice).map_err(|error| error.to_string());
    assert_eq!(told("1 == 1", &EMPTY_NOTICE), Ok(Verdict::True));
    let refused = "the grammar is not kept, at byte 2 (refusal 2)";
    assert_eq!(told("a -5", &EMPTY_NOTICE), Err(refused.to_string()));
    let refused = "no well-formed notice, at byte 0 (refusal 11)";
    assert_eq!(told("1 == 1", b"Staff: 417"), Err(refused.to_string()));
}

/// The types may go from thread to thread, and be lent to several.
#[test]
fn types_go_between_threads() {
    fn shared<T: Send + Sync + Clone + std::fmt::Debug + 'static>() {}
    shared::<Subscription>();
    shared::<Notice>();
    shared::<Tables>();
    shared::<Decision<Vec<u8>>>();
    shared::<Store<Vec<u8>>>();
    shared::<Mended<Vec<u8>>>();
    shared::<SubscriptionRef<'static>>();
    shared::<NoticeRef<'static>>();
    shared::<Refusal>();
}

//! What is said of undecided runs, held to the fields of the notice.
use super::*;
use crate::{Edition, NOTICE_MAX, TABLE_MAX, Value, Verdict};

/// Gives the notice of fields of every kind to a test.
fn with_notice<T>(test: impl FnOnce(NoticeRef<'_>) -> T) -> T {
    let mut room = [0; 300];
    let notice = NoticeRef::builder_in(&mut room)
        .field("Bad", Value::String(b"\xff"))
        .field("Big", 1i64 << 40)
        .field("Key", Value::Opaque(b"k"))
        .field("Op", 42)
        .field("Real", 1.5)
        .field("Staff", 417)
        .field("User", "alice")
        .field("Wide", 32)
        .field("Zero", 0);
    test(notice.build().expect("nine fields"))
}

fn translated<'a>(text: &str, room: &'a mut [u8]) -> SubscriptionRef<'a> {
    SubscriptionRef::translate_in(text, Edition::First, room).expect(text)
}

/// The sentence for a text whose verdict on the notice is bottom.
fn explained(text: &str) -> String {
    let mut room = [0; TABLE_MAX];
    let subscription = translated(text, &mut room);
    with_notice(|notice| {
        let outcome = subscription.run(notice).expect("a notice");
        assert_eq!(outcome.verdict, Verdict::Bottom, "{text}");
        let undecided = outcome.undecided.expect("it is bottom");
        let why = subscription.why(notice, undecided).expect("an entry");
        assert_eq!(
            why.to_string(),
            format!("entry {undecided}: {}", why.reason())
        );
        why.to_string()
    })
}

#[test]
fn a_field_that_is_not_there() {
    assert_eq!(
        explained("Console == \"yard\""),
        "entry 0: there is no field Console"
    );
    assert_eq!(
        explained("Op == 42 && the\\ pipe > 20"),
        "entry 4: there is no field the\\ pipe"
    );
    assert_eq!(
        explained("require (Gate)"),
        "entry 0: there is no field Gate"
    );
}

#[test]
fn a_field_whose_name_differs_in_capitals() {
    assert_eq!(
        explained("zero == 0"),
        "entry 0: there is no field zero, but one \"Zero\""
    );
    assert_eq!(
        explained("BAD == 0"),
        "entry 0: there is no field BAD, but one \"Bad\""
    );
    assert_eq!(explained("Zer == 0"), "entry 0: there is no field Zer");
}

#[test]
fn kinds_that_are_not_compared() {
    assert_eq!(
        explained("Staff != \"417\""),
        "entry 2: Staff != \"417\": Staff is an int32 and \"417\" a string, != takes two strings or two numbers"
    );
    assert_eq!(
        explained("Key == Key"),
        "entry 2: Key == Key: Key is opaque and Key opaque, == takes two strings or two numbers"
    );
    assert_eq!(
        explained("equals (Op, 1, \"x\")"),
        "entry 3: equals (Op, 1, \"x\"): Op is an int32 and \"x\" a string, equals takes two strings or two numbers"
    );
}

#[test]
fn kinds_that_an_operator_does_not_take() {
    for (text, why) in [
        (
            "User > 3",
            "entry 2: User > 3: User is a string, > takes numbers",
        ),
        (
            "1 + User == 2",
            "entry 2: 1 + User: User is a string, + takes numbers",
        ),
        (
            "Real % 2 == 1",
            "entry 2: Real % 2: Real is a real64, % takes integers",
        ),
        (
            "Op & Real == 1",
            "entry 2: Op & Real: Real is a real64, & takes integers",
        ),
        (
            "~Real == 1",
            "entry 1: ~Real: Real is a real64, ~ takes integers",
        ),
        (
            "size (Op) == 1",
            "entry 1: size (Op): Op is an int32, size takes a string or an opaque value",
        ),
        (
            "fold-case (Op) == 'x'",
            "entry 1: fold-case (Op): Op is an int32, fold-case takes a string",
        ),
        (
            "contains (Key, 'x')",
            "entry 2: contains (Key, \"x\"): Key is opaque, contains takes a string",
        ),
        (
            "regex (Big, 'x')",
            "entry 2: regex (Big, \"x\"): Big is an int64, regex takes a string",
        ),
        (
            "(Op + 1) * User < 2",
            "entry 4: (Op + 1) * User: User is a string, * takes numbers",
        ),
    ] {
        assert_eq!(explained(text), why);
    }
}

#[test]
fn values_that_an_operator_does_not_take() {
    for (text, why) in [
        ("Op / Zero == 1", "entry 2: Op / Zero: Zero is zero"),
        (
            "Op % (Op - 42) == 1",
            "entry 4: Op % (Op - 42): Op - 42 is zero",
        ),
        ("Real / 0.0 == 1", "entry 2: Real / 0.0: 0.0 is zero"),
        ("1 << Wide == 1", "entry 2: 1 << Wide: Wide is not 0 to 31"),
        ("Big >>> -1 == 1", "entry 2: Big >>> -1: -1 is not 0 to 63"),
        (
            "size (Bad) < 3",
            "entry 1: size (Bad): Bad is not well-formed UTF-8",
        ),
    ] {
        assert_eq!(explained(text), why);
    }
}

#[test]
fn a_long_expression_is_named_by_its_operator() {
    let text = format!("{}User == 1", "Op + Op + Op + ".repeat(9));
    assert_eq!(
        explained(&text),
        "entry 54: +: User is a string, + takes numbers"
    );
}

/// Every operator on every two fields: what is said of an undecided one is true of its operands.
#[test]
fn every_operator_on_every_two_fields() {
    let names = ["Bad", "Big", "Key", "Op", "Real", "User", "Wide", "Zero"];
    let values = "<< >> >>> & ^ | * / % + -"
        .split(' ')
        .map(|op| (op, " == 1"));
    let conditions = "== != < <= > >=".split(' ').map(|op| (op, ""));
    let mut said = 0;
    for (op, rest) in values.chain(conditions) {
        for (left, right) in names.iter().flat_map(|l| names.iter().map(move |r| (l, r))) {
            let text = format!("{left} {op} {right}{rest}");
            let mut room = [0; TABLE_MAX];
            let subscription = translated(&text, &mut room);
            with_notice(|notice| {
                let outcome = subscription.run(notice).expect("a notice");
                if outcome.undecided == Some(2) {
                    let why = subscription.why(notice, 2).expect("an entry");
                    holds(notice, left, op, right, &why.to_string());
                    said += 1;
                }
            });
        }
    }
    assert!(said > 400, "{said}");
}

/// Holds what is said of `left op right` to the two fields.
fn holds(notice: NoticeRef<'_>, left: &str, op: &str, right: &str, why: &str) {
    let value = |name: &str| notice.find(name).expect(name).value;
    let kind = |name: &str| value(name).kind();
    let number = |name: &str| i64::try_from(value(name)).unwrap_or_default();
    let (head, said) = why
        .split_once(&format!("{left} {op} {right}: "))
        .expect(why);
    assert_eq!(head, "entry 2: ");
    let numbers = is_number(kind(left)) && is_number(kind(right));
    let integers = is_integer(kind(left)) && is_integer(kind(right));
    let right_here = match said {
        _ if said == format!("{right} is zero") => {
            numbers && number(right) == 0 && "/ %".contains(op)
        }
        _ if said.starts_with(&format!("{right} is not 0 to ")) => {
            let width = if kind(left) == Kind::Int32 { 32 } else { 64 };
            let told = said.ends_with(&format!(" {}", width - 1));
            integers && op.len() > 1 && told && !(0..width).contains(&number(right))
        }
        _ if said.ends_with("two strings or two numbers") => !compares(kind(left), kind(right)),
        _ if said.ends_with(&format!("{op} takes numbers")) => !numbers,
        _ if said.ends_with(&format!("{op} takes integers")) => !integers,
        _ => false,
    };
    assert!(right_here, "{why}");
}

#[test]
fn causes_name_their_operands() {
    let cause = |text: &str, k| {
        let mut room = [0; TABLE_MAX];
        let subscription = translated(text, &mut room);
        with_notice(
            |notice| match subscription.why(notice, k).expect("an entry").cause {
                // the notice ends here
                Cause::Absent { .. } => Cause::Other,
                Cause::Kind { operand, kind } => Cause::Kind { operand, kind },
                Cause::Unlike { first, other } => Cause::Unlike { first, other },
                Cause::Count { count, most } => Cause::Count { count, most },
                Cause::Zero { divisor } => Cause::Zero { divisor },
                Cause::Utf8 { text } => Cause::Utf8 { text },
                Cause::Other => Cause::Other,
            },
        )
    };
    let kind = Kind::String;
    assert_eq!(
        cause("(Op + 1) * User < 2", 4),
        Cause::Kind { operand: 3, kind }
    );
    let (first, other) = ((0, Kind::Int32), (2, Kind::String));
    assert_eq!(
        cause("equals (Op, 1, 'x')", 3),
        Cause::Unlike { first, other }
    );
    let (count, most) = (3, 63);
    assert_eq!(cause("Big + 1 << Wide + 40 == 1", 6), Cause::Other);
    assert_eq!(
        cause("(Big | 1) << -1 == 1", 4),
        Cause::Count { count, most }
    );
    assert_eq!(cause("Op % (Op - 42) == 1", 4), Cause::Zero { divisor: 3 });
    assert_eq!(cause("size (Bad) < 3", 1), Cause::Utf8 { text: 0 });
    // a name that is there, and an operator that was decided
    assert_eq!(cause("Op == 42", 0), Cause::Other);
    assert_eq!(cause("Op == 42", 2), Cause::Other);
}

/// The kind of an expression is that of a field with its value.
#[test]
fn kinds_of_expressions() {
    for (text, kind) in [
        ("Op + 1", Some(Kind::Int32)),
        ("Op * 2147483647", Some(Kind::Int64)),
        ("Big * Big * Big", Some(Kind::Real64)),
        ("Op + Real", Some(Kind::Real64)),
        ("~Big", Some(Kind::Int64)),
        ("fold-case (User)", Some(Kind::String)),
        ("size (Key)", Some(Kind::Int32)),
        ("Key", Some(Kind::Opaque)),
        ("1L", Some(Kind::Int64)),
        ("0.5", Some(Kind::Real64)),
        ("'x'", Some(Kind::String)),
        ("Op / Zero", None),
        ("Gate + 1", None),
        ("User + 1", None),
    ] {
        let mut room = [0; TABLE_MAX];
        let subscription = translated(&format!("{text} == 1"), &mut room);
        let k = subscription.entry_count() - 3;
        assert_eq!(
            with_notice(|notice| subscription.kind_on(notice, k)),
            kind,
            "{text}"
        );
        assert_eq!(subscription.kind_on(NoticeRef::EMPTY, 600), None);
    }
}

/// The longest table has a probe, too: 512 entries and a pool.
#[test]
fn the_kind_of_the_longest_expression() {
    let sum = vec!["Op"; 255].join(" + ");
    let mut room = [0; TABLE_MAX];
    let subscription = translated(&format!("{sum} > User"), &mut room);
    assert_eq!(subscription.entry_count(), 511);
    with_notice(|notice| {
        assert_eq!(subscription.kind_on(notice, 508), Some(Kind::Int32));
        let why = subscription.why(notice, 510).expect("an entry");
        assert_eq!(
            why.to_string(),
            "entry 510: >: User is a string, > takes numbers"
        );
    });
}

/// Of any entry of any notice something is said, without a panic.
#[test]
fn any_entry_is_answered() {
    let text =
        "Load > 3 && size (Note) + 1 < 9 || ! (wildcard (Cab, 'T-4?') ^^ equals (Op, 1, 'x'))";
    let mut room = [0; TABLE_MAX];
    let subscription = translated(text, &mut room);
    for k in 0..subscription.entry_count() {
        let said = with_notice(|notice| subscription.why(notice, k).map(|why| why.to_string()));
        assert!(said.is_ok_and(|said| said.starts_with(&format!("entry {k}: "))));
    }
    let past = subscription.why(NoticeRef::EMPTY, subscription.entry_count());
    assert_eq!(past, Err(Refusal::Index));
}

#[test]
fn names_that_differ_in_capitals_alone() {
    let mut room = [0; NOTICE_MAX];
    let notice = NoticeRef::builder_in(&mut room)
        .field("OP", 1)
        .field("op", 2)
        .build();
    let notice = notice.expect("two fields");
    assert_eq!(notice.other_case("Op"), Some(&b"OP"[..]));
    assert_eq!(notice.other_case("OP"), Some(&b"op"[..]));
    assert_eq!(notice.other_case("oq"), None);
    assert_eq!(NoticeRef::EMPTY.other_case("op"), None);
}

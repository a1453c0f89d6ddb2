//! The numbers are document 01's "Refusals by number" and document 02's.
use super::*;

#[test]
fn each_number_is_one_refusal() {
    assert_eq!(Refusal::from_number(0, 7), None);
    for number in 1..=255 {
        let refusal = Refusal::from_number(number, 7).expect("no number but 0 is success");
        assert_eq!(refusal.number(), number);
        assert_eq!(matches!(refusal, Refusal::Unknown(_)), number > 30);
        // document 01: "for 1 and 3 the token's start; for 2 ..; for 11 ..; else 0"
        let place = [1, 2, 3, 11].contains(&number).then_some(7);
        assert_eq!(refusal.place(), place, "{number}");
    }
}

#[test]
fn each_refusal_in_words() {
    let words = [
        "a token has no legal form",
        "the grammar is not kept",
        "a number or a name is outside its limits",
        "a function is unknown, or its arguments are wrong",
        "logic stands where a value is asked, or a value where logic is",
        "over 24 parentheses are open at once, or over 24 of ! and ~ in a row",
        "the table would have over 512 entries",
        "the run would need over 32 places on its stack",
        "the buffer is too short for the result",
        "too long: a text has at most 4,096 bytes, a notice to mend 16,384",
        "no well-formed notice",
        "no table that passes the check",
        "a field's name is not 1 to 64 bytes from space to ~",
        "a field of that name is already there",
        "no room: a notice has at most 64 fields and 16,384 bytes, and must fit its buffer",
        "the value's size is wrong for its kind, or the kind is unknown",
        "there is no field, or no entry, of that number",
        "a pattern is ill-formed",
        "the notice is true, but has no string field Staff of 1 to 64 bytes",
        "a ninth person: a decision counts at most 8",
        "a decision needs 1 to 8 people",
        "the text is outside the syntax of UBF(A)",
        "not one tuple of fields that a notice and UBF(A) both have",
        "over 64 tables",
        "an edition other than 1 or 2",
        "no store, or a buffer over 65,536 or under 8 bytes",
        "the store already holds 64 tables",
        "the store has no room for the table",
        "the store holds no table of that number",
        "under 8 bytes cannot be mended",
    ];
    for (number, words) in (1..=30).zip(words) {
        let refusal = Refusal::from_number(number, 12).unwrap();
        assert_eq!(refusal.reason(), words);
        let place = match number {
            1 | 2 | 3 | 11 => ", at byte 12",
            _ => "",
        };
        let told = format!("{words}{place} (refusal {number})");
        assert_eq!(refusal.to_string(), told);
    }
    let unknown = Refusal::from_number(31, 0).unwrap().to_string();
    assert_eq!(
        unknown,
        "a number that this version does not know (refusal 31)"
    );
}

#[test]
fn a_refusal_is_an_error() {
    fn failing() -> Result<(), Box<dyn std::error::Error + Send + Sync>> {
        Err(Refusal::Pattern)?
    }
    let error = failing().unwrap_err();
    assert_eq!(error.to_string(), "a pattern is ill-formed (refusal 18)");
    assert_eq!(error.downcast_ref(), Some(&Refusal::Pattern));
}

#[cfg(feature = "std")]
#[test]
fn a_refusal_is_data_that_is_not_valid() {
    let error = std::io::Error::from(Refusal::Notice { place: 8 });
    assert_eq!(error.kind(), std::io::ErrorKind::InvalidData);
    assert_eq!(
        error.to_string(),
        "no well-formed notice, at byte 8 (refusal 11)"
    );
}

//! What a case of the quorum counter met, for the tally. Of a state that is refused by 12, that one
//! thing alone is wrong in it.

use crate::edges::met;
use reference::notice::fields;
use reference::quorum::{Decision, HEAD, MOST_PEOPLE, PLACE, PLACES, STAFF};
use reference::run::NO_ENTRY;
use reference::Truth;

/// What must occur in a run of many cases.
pub const EDGES: [&str; 65] = [
    "opening with 12 and 21",
    "opening with 12 and 9",
    "opening with 21 and 9",
    "opening for 0",
    "opening for 1",
    "opening for 8",
    "opening for 9",
    "opening for over 255, the low byte right",
    "opening with room to the byte",
    "opening with a byte too few",
    "opening with more room",
    "opened again",
    "opening refused over a decision",
    "verdict True",
    "verdict False",
    "verdict Bottom",
    "undecided, verdict True",
    "undecided, verdict False",
    "undecided, verdict Bottom",
    "undecided and counted",
    "undecided with 19",
    "decided with 19",
    "undecided with 20",
    "decided with 20",
    "counted with 1 byte",
    "counted with 64 bytes",
    "counted the 8th",
    "counted beside one unlike in its last byte",
    "counted beside one unlike in its first byte",
    "counted beside one that it begins with",
    "counted beside one that begins with it",
    "reached turns true",
    "again",
    "again with 8 counted",
    "a ninth",
    "Staff missing",
    "Staff of another kind",
    "Staff of 0",
    "Staff of 65",
    "Staff not right, reached",
    "Staff not right, 8 counted",
    "Staff among 64 fields",
    "no notice, none counted",
    "no notice, some counted",
    "no notice, reached",
    "right state",
    "right state with 8 values",
    "right state for 8",
    "right state with more room",
    "right state, a place past the count equal to a value",
    "right state, values unlike in length alone",
    "state cut in its head",
    "state cut by a byte",
    "state of another kind",
    "state for 0",
    "state for 9",
    "state of 9 values",
    "state with a value of 0",
    "state with a value of 65",
    "state with equal values",
    "state with equal values, unlike behind them",
    "state with a table that fails",
    "state of a length too short",
    "state of a length too long",
    "state of a length past the end",
];

/// The edges of an opening in a buffer of that size, where a decision was opened before or not.
pub fn of_opening(buffer: usize, table: &[u8], needed: usize, again: bool) -> Vec<String> {
    let room = HEAD + table.len();
    let fails = reference::check(table) != 0;
    let outside = !(1..=MOST_PEOPLE).contains(&needed);
    let short = buffer < room;
    let judged = !fails && !short;
    let right = !fails && !outside;
    met([
        (fails && outside, "opening with 12 and 21"),
        (fails && !outside && short, "opening with 12 and 9"),
        (!fails && outside && short, "opening with 21 and 9"),
        (judged && needed == 0, "opening for 0"),
        (judged && needed == 1, "opening for 1"),
        (judged && needed == 8, "opening for 8"),
        (judged && needed == 9, "opening for 9"),
        (
            judged && needed > 255 && (1..=8).contains(&(needed & 255)),
            "opening for over 255, the low byte right",
        ),
        (right && buffer == room, "opening with room to the byte"),
        (right && buffer + 1 == room, "opening with a byte too few"),
        (right && buffer > room, "opening with more room"),
        (again && right && !short, "opened again"),
        (
            again && !(right && !short),
            "opening refused over a decision",
        ),
    ])
}

/// The edges of a notice that is shown to a decision, none if that is not right.
pub fn of_notice(decision: &Decision, notice: &[u8]) -> Vec<String> {
    if !decision.is_right() {
        return Vec::new();
    }
    let ran = reference::run(&decision.table, notice);
    let some = !decision.values.is_empty();
    let reached = decision.values.len() >= decision.needed;
    if ran.number != 0 {
        return met([
            (!some, "no notice, none counted"),
            (some, "no notice, some counted"),
            (reached, "no notice, reached"),
        ]);
    }
    let undecided = ran.undecided != NO_ENTRY;
    let mut found = vec![format!("verdict {:?}", ran.verdict)];
    found.extend(undecided.then(|| format!("undecided, verdict {:?}", ran.verdict)));
    if ran.verdict == Truth::True {
        found.extend(of_true(decision, notice, undecided));
    }
    found
}

/// The edges of a notice of which the decision's table is true, with an undecided entry or none.
fn of_true(decision: &Decision, notice: &[u8], undecided: bool) -> Vec<String> {
    let fields = fields(notice).unwrap_or_default();
    let staff = fields
        .iter()
        .find(|field| notice[field.name.clone()] == *STAFF);
    let (kind, value) = staff.map_or((0, &[][..]), |field| {
        (field.kind, &notice[field.value.clone()])
    });
    let full = decision.values.len() == MOST_PEOPLE;
    let reached = decision.values.len() >= decision.needed;
    let right = kind == 4 && (1..=64).contains(&value.len());
    let again = decision.values.iter().any(|counted| counted == value);
    let counted = right && !again && !full;
    let ninth = right && !again && full;
    let mut found = met([
        (right && again, "again"),
        (right && again && full, "again with 8 counted"),
        (ninth, "a ninth"),
        (undecided && counted, "undecided and counted"),
        (undecided && !right, "undecided with 19"),
        (!undecided && !right, "decided with 19"),
        (undecided && ninth, "undecided with 20"),
        (!undecided && ninth, "decided with 20"),
        (staff.is_none(), "Staff missing"),
        (staff.is_some() && kind != 4, "Staff of another kind"),
        (kind == 4 && value.is_empty(), "Staff of 0"),
        (kind == 4 && value.len() == 65, "Staff of 65"),
        (!right && reached, "Staff not right, reached"),
        (!right && full, "Staff not right, 8 counted"),
        (right && fields.len() == 64, "Staff among 64 fields"),
        (
            counted && decision.values.len() + 1 == decision.needed,
            "reached turns true",
        ),
    ]);
    if counted {
        found.extend(of_counted(&decision.values, value));
    }
    found
}

/// The edges of a value that is counted beside others.
fn of_counted(values: &[Vec<u8>], value: &[u8]) -> Vec<String> {
    let size = value.len();
    let beside = |is: &dyn Fn(&[u8]) -> bool| values.iter().any(|counted| is(counted));
    let same_size = |is: &dyn Fn(&[u8]) -> bool| {
        beside(&|counted| size > 1 && counted.len() == size && is(counted))
    };
    met([
        (size == 1, "counted with 1 byte"),
        (size == 64, "counted with 64 bytes"),
        (values.len() == 7, "counted the 8th"),
        (
            same_size(&|counted| counted[..size - 1] == value[..size - 1]),
            "counted beside one unlike in its last byte",
        ),
        (
            same_size(&|counted| counted[1..] == value[1..]),
            "counted beside one unlike in its first byte",
        ),
        (
            beside(&|counted| value.starts_with(counted)),
            "counted beside one that it begins with",
        ),
        (
            beside(&|counted| counted.starts_with(value)),
            "counted beside one that begins with it",
        ),
    ])
}

fn word(bytes: &[u8], at: usize) -> usize {
    let four = bytes.get(at..at + 4).and_then(|four| four.try_into().ok());
    four.map_or(0, |four| u32::from_le_bytes(four) as usize)
}

/// The edges of a state: of a right one, or the one thing that is wrong.
pub fn of_state(buffer: &[u8]) -> Vec<String> {
    let Some(table) = buffer.get(HEAD..HEAD + 4 + word(buffer, HEAD)) else {
        return of_cut(buffer);
    };
    let places = buffer[PLACES..HEAD].chunks(PLACE);
    let used: Vec<&[u8]> = places.take(usize::from(buffer[7])).collect();
    let mut wrong = wrong_in(buffer, table, &used);
    match wrong.len() {
        0 => of_right_state(buffer, &used),
        1 => {
            let behind = |a: &[u8], b: &[u8]| value(a) == value(b) && a != b;
            let equal = wrong[0] == "state with equal values" && any_two(&used, behind);
            wrong.extend(equal.then(|| "state with equal values, unlike behind them".into()));
            wrong
        }
        _ => Vec::new(),
    }
}

/// All that is wrong in a state whose table ends in the buffer.
fn wrong_in(buffer: &[u8], table: &[u8], used: &[&[u8]]) -> Vec<String> {
    let size = |is: fn(u8) -> bool| used.iter().any(|place| is(place[0]));
    let equal = any_two(used, |a, b| value(a) == value(b));
    let fails = reference::check(table) != 0;
    let (told, length) = (word(buffer, 0) + 4, HEAD + table.len());
    let past = told > buffer.len();
    met([
        (buffer[4..6] != [5, 0], "state of another kind"),
        (buffer[6] == 0, "state for 0"),
        (buffer[6] == 9, "state for 9"),
        (buffer[6] > 9, "state for over 9"),
        (buffer[7] == 9, "state of 9 values"),
        (buffer[7] > 9, "state of over 9 values"),
        (size(|size| size == 0), "state with a value of 0"),
        (size(|size| size == 65), "state with a value of 65"),
        (size(|size| size > 65), "state with a value of over 65"),
        (equal, "state with equal values"),
        (fails, "state with a table that fails"),
        (told < length, "state of a length too short"),
        (told > length && !past, "state of a length too long"),
        (past, "state of a length past the end"),
    ])
}

/// The edges of a state whose table passes the buffer's end.
fn of_cut(buffer: &[u8]) -> Vec<String> {
    let whole = word(buffer, 0) + 4;
    let short = buffer.len() + 1 == whole && whole == HEAD + 4 + word(buffer, HEAD);
    met([
        (buffer.len() < HEAD && whole > HEAD, "state cut in its head"),
        (short && buffer[4..6] == [5, 0], "state cut by a byte"),
    ])
}

/// A place's length and value.
fn value(place: &[u8]) -> &[u8] {
    &place[..=usize::from(place[0]).min(PLACE - 1)]
}

fn any_two(places: &[&[u8]], is: impl Fn(&[u8], &[u8]) -> bool) -> bool {
    let later = |at: usize| {
        places[at + 1..]
            .iter()
            .map(move |other| (places[at], *other))
    };
    (0..places.len()).flat_map(later).any(|(a, b)| is(a, b))
}

fn of_right_state(buffer: &[u8], used: &[&[u8]]) -> Vec<String> {
    let unused = buffer[PLACES..HEAD].chunks(PLACE).skip(used.len());
    let equal = unused
        .into_iter()
        .any(|place| used.iter().any(|other| value(place) == value(other)));
    let unlike_in_length = |a: &[u8], b: &[u8]| {
        let size = usize::from(a[0].max(b[0]));
        a[0] != b[0] && a[1..=size] == b[1..=size]
    };
    met([
        (true, "right state"),
        (used.len() == 8, "right state with 8 values"),
        (buffer[6] == 8, "right state for 8"),
        (
            buffer.len() > 4 + word(buffer, 0),
            "right state with more room",
        ),
        (
            equal,
            "right state, a place past the count equal to a value",
        ),
        (
            any_two(used, unlike_in_length),
            "right state, values unlike in length alone",
        ),
    ])
}

#[cfg(test)]
mod tests {
    use super::*;
    use crate::decisions::notice_of;
    use reference::compile::table_of;

    fn decision(values: &[&[u8]]) -> Decision {
        Decision {
            table: table_of(1, b"1 == 1").unwrap(),
            needed: 2,
            values: values.iter().map(|value| value.to_vec()).collect(),
        }
    }

    #[test]
    fn edges_of_openings() {
        let table = table_of(1, b"1 == 1").unwrap();
        let room = HEAD + table.len();
        let edges = |buffer, table, needed| of_opening(buffer, table, needed, false);
        assert_eq!(edges(0, b"", 0), ["opening with 12 and 21"]);
        assert_eq!(edges(0, b"", 1), ["opening with 12 and 9"]);
        assert_eq!(edges(0, &table, 0), ["opening with 21 and 9"]);
        assert_eq!(edges(room, &table, 9), ["opening for 9"]);
        assert_eq!(edges(room - 1, &table, 2), ["opening with a byte too few"]);
        let large = ["opening for over 255, the low byte right"];
        assert_eq!(edges(room, &table, 257), large);
        assert_eq!(
            of_opening(room, &table, 2, true),
            ["opening with room to the byte", "opened again"]
        );
    }

    #[test]
    fn edges_of_shown_notices() {
        let edges = |values: &[&[u8]], value: &[u8]| {
            of_notice(&decision(values), &notice_of(value))[1..].to_vec()
        };
        assert_eq!(
            edges(&[b"417"], b"418"),
            [
                "reached turns true",
                "counted beside one unlike in its last byte"
            ]
        );
        assert_eq!(edges(&[b"417"], b"417"), ["again"]);
        assert_eq!(edges(&[], b"a"), ["counted with 1 byte"]);
        assert_eq!(edges(&[], b""), ["decided with 19", "Staff of 0"]);
        let eight: [&[u8]; 8] = [b"a", b"b", b"c", b"d", b"e", b"f", b"g", b"h"];
        assert_eq!(edges(&eight, b"h"), ["again", "again with 8 counted"]);
        assert_eq!(edges(&eight, b"i"), ["a ninth", "decided with 20"]);
        let mut undecided = decision(&[]);
        undecided.table = table_of(1, b"gone == 1 || 1 == 1").unwrap();
        assert_eq!(
            of_notice(&undecided, &notice_of(b"ab")),
            [
                "verdict True",
                "undecided, verdict True",
                "undecided and counted"
            ]
        );
        assert_eq!(of_notice(&decision(&[]), b""), ["no notice, none counted"]);
        assert!(of_notice(&decision(&[b""]), b"").is_empty());
    }

    #[test]
    fn edges_of_states() {
        let decision = decision(&[b"417", b"41"]);
        let mut right = vec![0; HEAD + decision.table.len()];
        decision.put(&mut right);
        assert_eq!(of_state(&right), ["right state"]);
        let edges = |at: usize, byte: u8| {
            let mut buffer = right.clone();
            buffer[at] = byte;
            of_state(&buffer)
        };
        assert_eq!(edges(0, 0), ["state of a length too short"]);
        assert_eq!(edges(2, 1), ["state of a length past the end"]);
        assert_eq!(edges(5, 1), ["state of another kind"]);
        assert_eq!(edges(6, 9), ["state for 9"]);
        assert_eq!(edges(8, 0), ["state with a value of 0"]);
        assert_eq!(edges(73, 65), ["state with a value of 65"]);
        assert_eq!(edges(HEAD + 4, 0), ["state with a table that fails"]);
        assert_eq!(of_state(&right[..right.len() - 1]), ["state cut by a byte"]);
        assert_eq!(of_state(&right[..HEAD - 1]), ["state cut in its head"]);
        let mut equal = right.clone();
        equal.copy_within(8..12, 73);
        equal[80] = 1;
        assert_eq!(
            of_state(&equal),
            [
                "state with equal values",
                "state with equal values, unlike behind them"
            ]
        );
    }
}

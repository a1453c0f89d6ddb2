//! "The program `verdict`": standard input to standard output.

use crate::compile::table_of;
use crate::run::run;
use crate::value::Truth;
use crate::word;

/// The lines that the program prints for its whole standard input.
pub fn verdict(input: &[u8]) -> Vec<u8> {
    let mut lines = String::new();
    let mut table = None;
    let mut rest = input;
    while !rest.is_empty() {
        let Some((record, after)) = record(rest) else {
            // "`E` and stops"
            lines.push_str("E\n");
            break;
        };
        lines.push_str(&line(record, &mut table));
        rest = after;
    }
    lines.into_bytes()
}

/// The first record and what follows it; none "where a record is cut, or its length is under 2 or over
/// 16,380".
fn record(rest: &[u8]) -> Option<(&[u8], &[u8])> {
    let length = word(rest, 0, 4)? as usize;
    if !(2..=16380).contains(&length) || rest.len() < 4 + length {
        return None;
    }
    Some(rest.split_at(4 + length))
}

/// One record's line: "Kind 3 is a subscription text, which replaces the last one even if refused; kind
/// 1 a notice."
fn line(record: &[u8], table: &mut Option<Vec<u8>>) -> String {
    match word(record, 4, 2) {
        Some(3) => text_line(&record[6..], table),
        Some(1) => notice_line(record, table),
        kind => format!("X {}\n", kind.unwrap_or(0)),
    }
}

/// "`S number place length`"
fn text_line(text: &[u8], table: &mut Option<Vec<u8>>) -> String {
    // document 02, request 9: "(`verdict` names 1)"
    let result = table_of(1, text);
    *table = result.clone().ok();
    match result {
        Ok(table) => format!("S 0 0 {}\n", table.len()),
        Err((number, place)) => format!("S {number} {place} 0\n"),
    }
}

/// "`N number verdict steps place` (verdict `true`, `false` or `bottom`; no table gives 12)"; document 02,
/// request 7: "The `N` line of `verdict` gains it [the undecided entry] at its end"
fn notice_line(notice: &[u8], table: &Option<Vec<u8>>) -> String {
    // No bytes are no table, so the check refuses them.
    let answer = run(table.as_deref().unwrap_or_default(), notice);
    let verdict = match answer.verdict {
        Truth::True => "true",
        Truth::False => "false",
        Truth::Bottom => "bottom",
    };
    format!(
        "N {} {verdict} {} {} {}\n",
        answer.number, answer.steps, answer.place, answer.undecided
    )
}

#[cfg(test)]
mod tests {
    use super::*;
    use crate::notice::examples::{E, OP42};

    /// A record of the kind.
    fn record_of(kind: u16, body: &[u8]) -> Vec<u8> {
        let length = (2 + body.len()) as u32;
        [&length.to_le_bytes()[..], &kind.to_le_bytes(), body].concat()
    }

    fn printed(records: &[&[u8]]) -> String {
        String::from_utf8(verdict(&records.concat())).unwrap()
    }

    #[test]
    fn the_example_session() {
        let text = record_of(3, b"Op == 42");
        // request 7: "document 01's three lines end in 48 (`S`, unchanged), 65535 and 0"
        let meant = "S 0 0 48\nN 0 true 3 0 65535\nN 0 bottom 3 0 0\n";
        assert_eq!(printed(&[&text, &OP42, &E]), meant);
    }

    #[test]
    fn a_refused_text_leaves_no_table() {
        let (text, bad) = (record_of(3, b"Op == 42"), record_of(3, b""));
        assert_eq!(
            printed(&[&text, &bad, &E]),
            "S 0 0 48\nS 2 0 0\nN 12 bottom 0 0 65535\n"
        );
    }

    #[test]
    fn texts_are_of_the_first_edition() {
        let text = record_of(3, b"Op >> 33 == 21");
        assert_eq!(printed(&[&text, &OP42]), "S 0 0 72\nN 0 bottom 5 0 2\n");
        // a table of the second edition is a record of another kind
        let table = table_of(2, b"Op == 42").unwrap();
        assert_eq!(printed(&[&table]), "X 4\n");
    }

    #[test]
    fn other_kinds_and_cut_records() {
        assert_eq!(printed(&[&record_of(7, b"")]), "X 7\n");
        let meant = "N 12 bottom 0 0 65535\nE\n";
        assert_eq!(printed(&[&E, &[1, 0]]), meant);
        assert_eq!(printed(&[&E, &[1, 0, 0, 0, 0, 0]]), meant);
        assert_eq!(printed(&[]), "");
        let long = record_of(9, &[0; 16378]);
        assert_eq!(printed(&[&long]), "X 9\n");
        assert_eq!(printed(&[&record_of(9, &[0; 16379])]), "E\n");
    }
}

//! Notices shown to a decision, beside the guarded run of its table on the same notice.

use crate::clock::{compare, Pace};
use crate::{entries_of, fields_of, load, row, table_of};
use bench::ours;
use std::hint::black_box;

/// Names with numbers, of eight people.
fn people() -> Vec<String> {
    (1..=8).map(|i| format!("person-{i:02}")).collect()
}

/// A notice of the load with the field Staff beside its own.
fn notice(fields: usize, staff: &str) -> Vec<u8> {
    let mut buffer = load::notice(fields);
    let length = buffer.len();
    buffer.resize(length + 10 + staff.len(), 0);
    assert_eq!(
        ours::write(&mut buffer, length, b"Staff", 4, staff.as_bytes()).0,
        0
    );
    buffer
}

/// A decision that has counted these people, the table true or not.
fn decision(table: &[u8], people: &[String]) -> Vec<u8> {
    let mut buffer = vec![0; 528 + table.len()];
    assert_eq!(ours::quorum_open(&mut buffer, table, 8).0, 0);
    buffer[7] = people.len() as u8;
    for (i, p) in people.iter().enumerate() {
        let at = 8 + 65 * i;
        buffer[at] = p.len() as u8;
        buffer[at + 1..at + 1 + p.len()].copy_from_slice(p.as_bytes());
    }
    buffer
}

pub fn shows(pace: Pace) {
    println!(
        "\n{:<56}{:>12}{:>12}{:>8}",
        "quorum counter, per notice", "show ns", "run", "ratio"
    );
    let people = people();
    for entries in [3, 10, 50, 500] {
        // its last clause makes every verdict true, so that the Staff is looked for
        let text = match entries {
            3 => load::subscription(3),
            n => format!("{} || Op == 42", load::subscription(n - 5)),
        };
        let table = table_of(&text);
        assert_eq!(entries_of(&table), entries);
        for fields in [1, 8, 32] {
            let notice = notice(fields, &people[7]);
            assert_eq!(ours::guarded(&table, &notice).2, 1);
            for kept in [&people[7..], &people] {
                let mut d = decision(&table, kept);
                let before = d.clone();
                let count = kept.len() as u8;
                let undecided = ours::guarded(&table, &notice).4;
                assert_eq!(
                    ours::quorum_show(&mut d, &notice),
                    (0, 0, count, count >= 8, undecided)
                );
                assert_eq!(d, before);
                let (a, b, r) = compare(
                    &mut |times| {
                        for _ in 0..times {
                            black_box(ours::quorum_show(black_box(&mut d), black_box(&notice)));
                        }
                    },
                    &mut |times| {
                        for _ in 0..times {
                            black_box(ours::guarded(black_box(&table), black_box(&notice)));
                        }
                    },
                    pace,
                );
                let name = format!(
                    "{entries} entries, {} and Staff, {count} kept",
                    fields_of(fields)
                );
                row(&name, a, b, r);
            }
        }
    }
}

//! Tables in files: which bytes are one, and what is wrong with one that is refused.
use crate::reading::refused;
use crate::spell::{count, thousands};
use crate::table::{ENTRY, HEAD};
use virentolex::{Refusal, Subscription, TABLE_MAX};

/// Whether a file is no text but one of the layouts of docs/FORMATS.md: a length whose upper half is 0, then a kind.
pub fn is_binary(bytes: &[u8]) -> bool {
    matches!(bytes, [_, _, 0, 0, 1..=6, 0, ..])
}

/// The subscription of a table, or what is said of it.
pub fn subscription(bytes: &[u8]) -> Result<Subscription, String> {
    Subscription::from_table(bytes).map_err(|refusal| match refusal {
        Refusal::Table => format!("{}; {}", refused(refusal), fault(bytes)),
        _ => refused(refusal),
    })
}

/// What breaks the layout.
fn fault(bytes: &[u8]) -> String {
    let size = bytes.len();
    let word = |at: usize| {
        let two = bytes.get(at..at + 2).unwrap_or(&[0, 0]);
        usize::from(u16::from_le_bytes([two[0], two[1]]))
    };
    if size < HEAD {
        let bytes = count(size as u64, "byte", "bytes");
        return format!("{bytes}, and the header alone has {HEAD}");
    }
    let length = word(0) + (word(2) << 16);
    let (entries, pool) = (word(6), word(8));
    let counted = HEAD + ENTRY * entries + pool;
    match word(4) {
        2 | 4 => (),
        kind => return format!("kind {kind}{}, and a table is of kind 2 or 4", whose(kind)),
    }
    if size > TABLE_MAX {
        return format!("a table has at most {} bytes", thousands(TABLE_MAX as u64));
    }
    if length != size - 4 {
        return format!("the length says {length}, and {} bytes follow it", size - 4);
    }
    if !(1..=512).contains(&entries) {
        return format!("{entries} entries, and a table has 1 to 512");
    }
    match counted == size {
        false => format!(
            "{} and a pool of {pool} make {counted} bytes, and there are {size}",
            count(entries as u64, "entry", "entries")
        ),
        true => {
            "an entry is none, lacks an operand, or lands nowhere: translate the text again".into()
        }
    }
}

/// Which of the layouts a kind is of.
fn whose(kind: usize) -> &'static str {
    match kind {
        1 => ", a notice",
        5 => ", a decision",
        6 => ", a store",
        _ => "",
    }
}

#[cfg(test)]
mod tests {
    use super::*;
    use virentolex::Edition;

    fn table() -> Vec<u8> {
        let subscription = Subscription::translate("Op == 42", Edition::First).unwrap();
        subscription.into_table()
    }

    #[test]
    fn what_is_wrong_with_a_table() {
        let changed = |at: usize, byte: u8| {
            let mut bytes = table();
            bytes[at] = byte;
            bytes
        };
        for (bytes, why) in [
            (
                [&table()[..], &[0; TABLE_MAX]].concat(),
                "at most 10,250 bytes",
            ),
            (vec![9], "1 byte, and the header alone has 10"),
            (changed(0, 43), "the length says 43, and 44 bytes follow it"),
            (
                changed(4, 1),
                "kind 1, a notice, and a table is of kind 2 or 4",
            ),
            (changed(6, 0), "0 entries, and a table has 1 to 512"),
            (
                changed(8, 3),
                "3 entries and a pool of 3 make 49 bytes, and there are 48",
            ),
            (changed(10, 99), "an entry is none"),
            (
                table()[..30].to_vec(),
                "the length says 44, and 26 bytes follow it",
            ),
        ] {
            let said = subscription(&bytes).unwrap_err();
            let head = "refused 12: no table that passes the check; ";
            assert!(said.starts_with(head) && said.contains(why), "{said}");
        }
    }

    /// A table is known as one, and no accepted text is taken for one.
    #[test]
    fn tables_and_texts() {
        assert!(is_binary(&table()) && subscription(&table()).is_ok());
        for text in ["Op == 42", "a == \"\0\0\"", "\"\0\0\" == a", "", "a"] {
            assert!(!is_binary(text.as_bytes()), "{text:?}");
        }
    }
}

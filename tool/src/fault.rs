//! What is wrong with the bytes of a notice that is refused by 11, and where.
use crate::spell::{self, hex};
use virentolex::{Refusal, NOTICE_MAX};

/// How many bytes are shown from the place on.
const SHOWN: usize = 16;

/// The refusal in words; of 11 the bytes at the place, with a caret under the first, and what breaks the layout.
pub fn refused(bytes: &[u8], refusal: Refusal) -> String {
    let head = crate::reading::refused(refusal);
    let Refusal::Notice { place } = refusal else {
        return head;
    };
    let rest = bytes.get(place..).unwrap_or_default();
    let shown = hex(&rest[..rest.len().min(SHOWN)]);
    let more = if rest.len() > SHOWN { " .." } else { "" };
    let why = match place {
        0 => header(bytes),
        _ if fields_before(bytes, place) == count(bytes) => {
            format!(
                "spare bytes; the header counts {}, which end here",
                spell::count(count(bytes) as u64, "field", "fields")
            )
        }
        _ => field(rest),
    };
    format!("{head}\nbyte {place}: {why}\n  {shown}{more}\n  ^")
}

/// The count of fields that the header of 8 bytes tells.
fn count(bytes: &[u8]) -> usize {
    bytes
        .get(6..8)
        .map_or(0, |w| usize::from(u16::from_le_bytes([w[0], w[1]])))
}

/// How many fields lie between the header and a place, by their length words.
fn fields_before(bytes: &[u8], place: usize) -> usize {
    let (mut at, mut fields) = (8, 0);
    while at < place {
        let Some(length) = bytes.get(at..at + 2) else {
            break;
        };
        at += 2 + usize::from(u16::from_le_bytes([length[0], length[1]]));
        fields += 1;
    }
    fields
}

/// What is wrong with the header.
fn header(bytes: &[u8]) -> String {
    let size = bytes.len();
    if spell::is_utf_16(bytes) {
        return spell::NO_UTF_16.into();
    }
    if size > NOTICE_MAX {
        return format!("a notice has at most {NOTICE_MAX} bytes");
    }
    if size < 8 {
        return format!("{size} bytes, and the header alone has 8");
    }
    let length = u32::from_le_bytes([bytes[0], bytes[1], bytes[2], bytes[3]]);
    if length as usize != size - 4 {
        return format!("the length says {length}, and {} bytes follow it", size - 4);
    }
    match (u16::from_le_bytes([bytes[4], bytes[5]]), count(bytes)) {
        (1, count) => format!("{count} fields, and a notice has at most 64"),
        (kind, _) => format!("kind {kind}, and a notice is of kind 1"),
    }
}

/// What is wrong with the field that the bytes start with.
pub fn field(rest: &[u8]) -> String {
    let [low, high, after @ ..] = rest else {
        return match rest.len() {
            0 => "the bytes end, and the header counts one field more".into(),
            _ => "a single byte is left".into(),
        };
    };
    let length = usize::from(u16::from_le_bytes([*low, *high]));
    if length > after.len() {
        return format!("the field's length {length} passes the end");
    }
    let [kind_low, kind_high, name, after @ ..] = &after[..length] else {
        return format!("the field's length {length} leaves no room for a kind and a name");
    };
    let kind = u16::from_le_bytes([*kind_low, *kind_high]);
    let name = usize::from(*name);
    if !(1..=64).contains(&name) || length < 3 + name {
        return format!("the name's length {name} is not 1 to 64, or passes the field");
    }
    let value = length - 3 - name;
    let right = match kind {
        1 => value == 4,
        2 | 3 => value == 8,
        4 | 5 => value <= 1024,
        _ => return format!("there is no kind {kind}"),
    };
    let printing = after.iter().take(name).all(|b| (32..=126).contains(b));
    match (right, printing) {
        (false, _) => format!(
            "a value of {} is wrong for kind {kind}",
            spell::count(value as u64, "byte", "bytes")
        ),
        (true, false) => "the name has bytes outside 32 to 126".into(),
        (true, true) => "its name does not rise above the one before".into(),
    }
}

#[cfg(test)]
mod tests {
    use super::*;
    use virentolex::NoticeRef;

    fn said(bytes: &[u8]) -> String {
        refused(bytes, NoticeRef::from_bytes(bytes).unwrap_err())
    }

    const OP: &[u8] = b"\x09\0\x01\0\x02Op\x2a\0\0\0";

    fn notice(count: u8, fields: &[&[u8]]) -> Vec<u8> {
        let fields = fields.concat();
        let length = (fields.len() + 4) as u32;
        [&length.to_le_bytes()[..], &[1, 0, count, 0], &fields].concat()
    }

    #[test]
    fn headers() {
        for (bytes, why) in [
            (vec![0; NOTICE_MAX + 1], "at most 16384 bytes"),
            (vec![4, 0, 0], "3 bytes, and the header alone has 8"),
            (
                vec![9, 0, 0, 0, 1, 0, 0, 0],
                "the length says 9, and 4 bytes follow it",
            ),
            (vec![4, 0, 0, 0, 3, 0, 0, 0], "kind 3"),
            (vec![4, 0, 0, 0, 1, 0, 65, 0], "65 fields"),
        ] {
            let said = said(&bytes);
            assert!(
                said.starts_with("refused 11: ") && said.contains(why),
                "{said}"
            );
        }
    }

    #[test]
    fn fields() {
        for (bytes, place, why) in [
            (notice(2, &[OP]), 19, "the bytes end"),
            (
                notice(1, &[OP, b"x"]),
                19,
                "spare bytes; the header counts 1 field",
            ),
            (notice(2, &[OP, b"x"]), 19, "a single byte"),
            (notice(2, &[OP, b"\x02\0\x01\0"]), 19, "leaves no room"),
            (
                notice(2, &[OP, b"\x30\0\x01\0\x02Op"]),
                19,
                "passes the end",
            ),
            (
                notice(1, &[b"\x08\0\x01\0\0\0\0\0\0\0"]),
                8,
                "name's length 0",
            ),
            (
                notice(1, &[b"\x08\0\x01\0\x02Op\0\0\0"]),
                8,
                "a value of 3 bytes",
            ),
            (notice(1, &[b"\x09\0\x07\0\x02Op\0\0\0\0"]), 8, "no kind 7"),
            (
                notice(1, &[b"\x09\0\x01\0\x02O\n\0\0\0\0"]),
                8,
                "outside 32 to 126",
            ),
            (notice(2, &[OP, OP]), 19, "does not rise"),
            (notice(1, &[OP, OP]), 19, "spare bytes"),
            (
                notice(0, &[OP]),
                8,
                "spare bytes; the header counts 0 fields",
            ),
        ] {
            let said = said(&bytes);
            assert!(said.contains(&format!("byte {place}: ")), "{said}");
            assert!(said.contains(why), "{said}");
        }
    }

    #[test]
    fn the_bytes_are_shown() {
        let said = said(&notice(2, &[OP, OP]));
        assert!(
            said.ends_with("\n  09 00 01 00 02 4F 70 2A 00 00 00\n  ^"),
            "{said}"
        );
    }
}

//! Counts and bytes, spelled for readers.

/// The three bytes that some editors write at the start of a UTF-8 file, and what is said of them.
pub const BYTE_ORDER_MARK: &[u8] = b"\xef\xbb\xbf";
pub const WITHOUT_MARK: &str =
    "the file starts with a byte order mark; save it as UTF-8 without one";
pub const NO_UTF_16: &str =
    "the file is UTF-16, with a byte order mark; save it as UTF-8 without one";

/// Whether bytes start with the byte order mark of UTF-16.
pub fn is_utf_16(bytes: &[u8]) -> bool {
    bytes.starts_with(b"\xff\xfe") || bytes.starts_with(b"\xfe\xff")
}

/// Whether a character may go to a terminal as it is: no control, and none that turns the writing round.
pub fn prints(c: char) -> bool {
    let turns = matches!(c, '\u{200e}' | '\u{200f}' | '\u{2028}'..='\u{202e}' | '\u{2066}'..='\u{2069}' | '\u{feff}');
    !(c.is_control() || turns)
}

/// Bytes in hex, parted by blanks.
pub fn hex(bytes: &[u8]) -> String {
    let words: Vec<String> = bytes.iter().map(|b| format!("{b:02X}")).collect();
    words.join(" ")
}

/// `1 entry`, `1,234 entries`.
pub fn count(n: u64, one: &str, many: &str) -> String {
    format!("{} {}", thousands(n), if n == 1 { one } else { many })
}

/// A number with a comma before every three digits.
pub fn thousands(n: u64) -> String {
    let digits = n.to_string();
    let groups = digits.as_bytes().rchunks(3).rev();
    let groups: Vec<String> = groups
        .map(|g| String::from_utf8_lossy(g).into_owned())
        .collect();
    groups.join(",")
}

#[cfg(test)]
mod tests {
    use super::*;

    #[test]
    fn what_prints() {
        assert!(prints('a') && prints(' ') && prints('é'));
        assert!(!prints('\n') && !prints('\x1b') && !prints('\u{85}') && !prints('\u{202e}'));
    }

    #[test]
    fn bytes() {
        assert_eq!(hex(b"\x0fA"), "0F 41");
        assert_eq!(hex(b""), "");
    }

    #[test]
    fn counts() {
        assert_eq!(count(1, "notice", "notices"), "1 notice");
        assert_eq!(count(0, "notice", "notices"), "0 notices");
        assert_eq!(thousands(1234567), "1,234,567");
        assert_eq!(thousands(999), "999");
    }
}

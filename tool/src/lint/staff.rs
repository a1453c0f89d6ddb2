//! People who may be counted twice by a decision, since one number is written in two ways.
use virentolex::{Notice, NoticeRef, Subscription, Value, Verdict};

/// The most bytes of a Staff value.
const MOST: usize = 64;

/// One of the values that differs from another in blanks or leading zeros alone.
pub fn alike<'a>(mut counted: impl Iterator<Item = &'a [u8]>, staff: &[u8]) -> Option<&'a [u8]> {
    counted.find(|other| *other != staff && bare(other) == bare(staff))
}

/// A value without blanks, and a number without leading zeros.
fn bare(staff: &[u8]) -> Vec<u8> {
    let mut bytes: Vec<u8> = staff
        .iter()
        .filter(|b| !b.is_ascii_whitespace())
        .copied()
        .collect();
    if bytes.iter().all(u8::is_ascii_digit) {
        let zeros = bytes.iter().take_while(|b| **b == b'0').count();
        bytes.drain(..zeros);
    }
    bytes
}

/// Another spelling of a true notice's Staff with which it is true too: the subscription does not fix the form.
pub fn other_form(subscription: &Subscription, notice: NoticeRef) -> Option<Vec<u8>> {
    let Value::String(staff) = notice.find("Staff")?.value else {
        return None;
    };
    let mut others = vec![[staff, b" "].concat(), [b" ", staff].concat()];
    if staff.iter().all(u8::is_ascii_digit) {
        others.push([b"0", staff].concat());
    }
    let is_true = |other: &Vec<u8>| {
        let changed = with_staff(notice, other);
        changed.is_some_and(|n| {
            subscription
                .run(&n)
                .is_ok_and(|o| o.verdict == Verdict::True)
        })
    };
    others
        .into_iter()
        .filter(|other| other.len() <= MOST)
        .find(is_true)
}

/// The notice with another Staff, if there is room.
fn with_staff(notice: NoticeRef, staff: &[u8]) -> Option<Notice> {
    let mut changed = Notice::new();
    for field in notice.fields() {
        let value = match field.name {
            b"Staff" => Value::String(staff),
            _ => field.value,
        };
        changed.insert(field.name, value).ok()?;
    }
    Some(changed)
}

#[cfg(test)]
mod tests {
    use super::*;
    use virentolex::Edition;

    #[test]
    fn values_that_are_alike() {
        let counted = ["417", "alice", "007"].map(str::as_bytes);
        for (staff, other) in [
            ("417 ", Some("417")),
            ("0417", Some("417")),
            (" 4 17", Some("417")),
            ("417", None),
            ("4170", None),
            ("7", Some("007")),
            ("alice\t", Some("alice")),
            ("0alice", None),
            ("Alice", None),
            ("", None),
        ] {
            let found = alike(counted.into_iter(), staff.as_bytes());
            assert_eq!(found, other.map(str::as_bytes), "{staff:?}");
        }
    }

    #[test]
    fn forms_that_are_fixed_or_not() {
        for (text, staff, other) in [
            ("require (Staff)", "417", Some("417 ")),
            ("require (Staff)", "alice", Some("alice ")),
            ("regex (Staff, \"^[1-9][0-9]*$\")", "417", None),
            ("regex (Staff, \"^[0-9]+$\")", "417", Some("0417")),
            ("regex (Staff, \"^[0-9][0-9][0-9]$\")", "417", None),
            ("equals (Staff, \"417\", \"502\")", "417", None),
            ("wildcard (Staff, \"*7\")", "417", Some(" 417")),
            ("regex (Staff, \"^[a-z]+$\")", "alice", None),
        ] {
            let subscription = Subscription::translate(text, Edition::First).unwrap();
            let notice = Notice::builder()
                .field("Op", 1)
                .field("Staff", staff)
                .build()
                .unwrap();
            let found = other_form(
                &subscription,
                NoticeRef::from_bytes(notice.as_bytes()).unwrap(),
            );
            assert_eq!(found.as_deref(), other.map(str::as_bytes), "{text}");
        }
        let subscription = Subscription::translate("require (Staff)", Edition::First).unwrap();
        let full = Notice::builder()
            .field("Staff", "a".repeat(64).as_str())
            .build()
            .unwrap();
        assert_eq!(
            other_form(
                &subscription,
                NoticeRef::from_bytes(full.as_bytes()).unwrap()
            ),
            None
        );
    }
}

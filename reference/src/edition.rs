//! Document 02, request 9: "Shift counts, second edition". Words in quotes are that request's.

/// "The caller names the edition when translating"
#[derive(Clone, Copy, PartialEq, Eq, Debug)]
pub enum Edition {
    First,
    Second,
}

impl Edition {
    /// "25 for an edition other than 1 or 2": none for those.
    pub fn of_number(number: usize) -> Option<Edition> {
        [Edition::First, Edition::Second]
            .into_iter()
            .find(|edition| edition.number() == number)
    }

    /// The number that names it.
    pub fn number(self) -> usize {
        match self {
            Edition::First => 1,
            Edition::Second => 2,
        }
    }

    /// "Tables of kind 4 shall be second edition ..; kind 2 keeps the first."
    pub fn kind(self) -> u16 {
        match self {
            Edition::First => 2,
            Edition::Second => 4,
        }
    }

    /// The edition of a table's kind; none if no table has it.
    pub fn of_kind(kind: u64) -> Option<Edition> {
        [Edition::First, Edition::Second]
            .into_iter()
            .find(|edition| u64::from(edition.kind()) == kind)
    }

    /// How far an integer of `width` bits is shifted by a count. First: document 01's "the count must be 0 to
    /// width less 1, else bottom". Second: "the count's remainder by the width, 0 to width less 1, so -1
    /// shifts an int32 by 31".
    pub fn distance(self, count: i64, width: i64) -> Option<u32> {
        let distance = match self {
            Edition::First if !(0..width).contains(&count) => return None,
            Edition::First => count,
            // at least 0 also where the count is below 0
            Edition::Second => count.rem_euclid(width),
        };
        u32::try_from(distance).ok()
    }
}

#[cfg(test)]
mod tests {
    use super::*;

    #[test]
    fn numbers_and_kinds() {
        for (number, kind) in [(1, 2), (2, 4)] {
            let edition = Edition::of_number(number).unwrap();
            assert_eq!(edition.kind(), kind);
            assert_eq!(Edition::of_kind(kind.into()), Some(edition));
        }
        for number in [0, 3, 4, 256, 257, 1 << 32, (1 << 32) + 1, usize::MAX] {
            assert_eq!(Edition::of_number(number), None);
        }
        for kind in [0, 1, 3, 5, 6, 258, 260, 1024, 65535] {
            assert_eq!(Edition::of_kind(kind), None);
        }
    }

    #[test]
    fn a_count_within_the_width_is_the_same_in_both() {
        for width in [32, 64] {
            for count in 0..width {
                for edition in [Edition::First, Edition::Second] {
                    assert_eq!(edition.distance(count, width), u32::try_from(count).ok());
                }
            }
        }
    }

    #[test]
    fn counts_outside_the_width() {
        // count, by 32, by 64
        let cases = [
            (-1, 31, 63),
            (-31, 1, 33),
            (-32, 0, 32),
            (-33, 31, 31),
            (-64, 0, 0),
            (-65, 31, 63),
            (64, 0, 0),
            (65, 1, 1),
            (i64::from(i32::MAX), 31, 63),
            (i64::from(i32::MIN), 0, 0),
            ((1 << 32) + 5, 5, 5),
            ((1 << 32) + 37, 5, 37),
            (i64::MAX, 31, 63),
            (i64::MIN, 0, 0),
            (i64::MIN + 1, 1, 1),
        ];
        for (count, short, long) in cases {
            assert_eq!(Edition::Second.distance(count, 32), Some(short), "{count}");
            assert_eq!(Edition::Second.distance(count, 64), Some(long), "{count}");
            assert_eq!(Edition::First.distance(count, 32), None, "{count}");
            assert_eq!(Edition::First.distance(count, 64), None, "{count}");
        }
        assert_eq!(Edition::Second.distance(32, 32), Some(0));
        assert_eq!(Edition::First.distance(32, 32), None);
        assert_eq!(Edition::First.distance(32, 64), Some(32));
    }
}

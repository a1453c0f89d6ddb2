//! What is refused, by the numbers of documents 01 and 02.

use core::error::Error;
use core::fmt;

/// Why something was refused: one case for each number of documents 01 and 02. A refusal changes no byte that was
/// lent.
///
/// ```
/// use virentolex::{Edition, Refusal, SubscriptionRef, TABLE_MAX};
///
/// let mut room = [0; TABLE_MAX];
/// let refusal = SubscriptionRef::translate_in("Op == 42 &&", Edition::First, &mut room).unwrap_err();
/// assert_eq!(refusal, Refusal::Grammar { place: 11 });
/// assert_eq!((refusal.number(), refusal.place()), (2, Some(11)));
/// ```
#[derive(Debug, Clone, Copy, PartialEq, Eq, Hash)]
pub enum Refusal {
    /// 1: a token of the text has no legal form.
    Token {
        /// The token's start in the text.
        place: usize,
    },
    /// 2: the text does not keep the grammar.
    Grammar {
        /// The start of the first token after which the grammar allows no completion, or the text's length.
        place: usize,
    },
    /// 3: a number or a name of the text has a legal form, but is outside its limits.
    Limit {
        /// The token's start in the text.
        place: usize,
    },
    /// 4: a function is unknown, or the count or the form of its arguments is wrong.
    Function,
    /// 5: logic stands where a value is asked, or a value where logic is.
    Kind,
    /// 6: over 24 parentheses are open at once, or there are over 24 of `!` and `~` in a row.
    Depth,
    /// 7: the table would have over 512 entries.
    Entries,
    /// 8: the run would hold over 32 values on its stack.
    Stack,
    /// 9: a lent buffer is shorter than what is to be written there.
    Buffer,
    /// 10: a text is over 4,096 bytes, or bytes to be mended are over 16,384.
    Length,
    /// 11: bytes do not keep the layout of a notice.
    Notice {
        /// The faulty field's start, the first spare byte, or 0 for the header.
        place: usize,
    },
    /// 12: bytes do not keep the layout of a table, or fail its check; or bytes are no decision.
    Table,
    /// 13: a field's name breaks the rules for names.
    Name,
    /// 14: a field of that name is already there.
    Present,
    /// 15: a 65th field, a notice over 16,384 bytes, or a buffer too short for the notice or the UBF(A) text.
    Room,
    /// 16: a value's size is wrong for its kind, or the kind is unknown.
    Size,
    /// 17: there is no field, or no entry, of that number.
    Index,
    /// 18: a pattern of `wildcard` or `regex` is ill-formed.
    Pattern,
    /// 19: a true notice has no string field Staff of 1 to 64 bytes.
    Staff,
    /// 20: a ninth person.
    Ninth,
    /// 21: a decision needs 1 to 8 people.
    Needed,
    /// 22: a text is outside the syntax of UBF(A).
    UbfSyntax,
    /// 23: a UBF(A) text is not one tuple of fields, or a notice has a field that UBF(A) has not (a real64).
    UbfFields,
    /// 24: over 64 tables in one call.
    Tables,
    /// 25: an edition other than 1 or 2.
    Edition,
    /// 26: bytes are no store, or their buffer is over 65,536 or under 8 bytes.
    Store,
    /// 27: the store holds 64 tables.
    Held,
    /// 28: the store has no room for the table.
    StoreRoom,
    /// 29: the store holds no table of that number.
    NotHeld,
    /// 30: bytes to be mended are under 8, so that no header stands there.
    Short,
    /// A number that neither paper has. The library never answers one; it stands here so that no number of
    /// another library is taken for success.
    Unknown(u8),
}

impl Refusal {
    /// The refusal of a number that the library answered, with the place it answered; none for 0, which is no
    /// refusal.
    ///
    /// ```
    /// use virentolex::{raw, Refusal};
    ///
    /// let checked = raw::check_notice(&[1, 2, 3]);
    /// let refusal = Refusal::from_number(checked.number, checked.place);
    /// assert_eq!(refusal, Some(Refusal::Notice { place: 0 }));
    /// assert_eq!(Refusal::from_number(0, 0), None);
    /// ```
    pub fn from_number(number: u8, place: usize) -> Option<Refusal> {
        Some(match number {
            0 => return None,
            1 => Refusal::Token { place },
            2 => Refusal::Grammar { place },
            3 => Refusal::Limit { place },
            4 => Refusal::Function,
            5 => Refusal::Kind,
            6 => Refusal::Depth,
            7 => Refusal::Entries,
            8 => Refusal::Stack,
            9 => Refusal::Buffer,
            10 => Refusal::Length,
            11 => Refusal::Notice { place },
            12 => Refusal::Table,
            13 => Refusal::Name,
            14 => Refusal::Present,
            15 => Refusal::Room,
            16 => Refusal::Size,
            17 => Refusal::Index,
            18 => Refusal::Pattern,
            19 => Refusal::Staff,
            20 => Refusal::Ninth,
            21 => Refusal::Needed,
            22 => Refusal::UbfSyntax,
            23 => Refusal::UbfFields,
            24 => Refusal::Tables,
            25 => Refusal::Edition,
            26 => Refusal::Store,
            27 => Refusal::Held,
            28 => Refusal::StoreRoom,
            29 => Refusal::NotHeld,
            30 => Refusal::Short,
            other => Refusal::Unknown(other),
        })
    }

    /// The number in documents 01 and 02.
    ///
    /// ```
    /// assert_eq!(virentolex::Refusal::Pattern.number(), 18);
    /// ```
    pub fn number(self) -> u8 {
        match self {
            Refusal::Token { .. } => 1,
            Refusal::Grammar { .. } => 2,
            Refusal::Limit { .. } => 3,
            Refusal::Function => 4,
            Refusal::Kind => 5,
            Refusal::Depth => 6,
            Refusal::Entries => 7,
            Refusal::Stack => 8,
            Refusal::Buffer => 9,
            Refusal::Length => 10,
            Refusal::Notice { .. } => 11,
            Refusal::Table => 12,
            Refusal::Name => 13,
            Refusal::Present => 14,
            Refusal::Room => 15,
            Refusal::Size => 16,
            Refusal::Index => 17,
            Refusal::Pattern => 18,
            Refusal::Staff => 19,
            Refusal::Ninth => 20,
            Refusal::Needed => 21,
            Refusal::UbfSyntax => 22,
            Refusal::UbfFields => 23,
            Refusal::Tables => 24,
            Refusal::Edition => 25,
            Refusal::Store => 26,
            Refusal::Held => 27,
            Refusal::StoreRoom => 28,
            Refusal::NotHeld => 29,
            Refusal::Short => 30,
            Refusal::Unknown(number) => number,
        }
    }

    /// The place, for the refusals that have one: of 1, 2 and 3 in the text, of 11 in the notice.
    ///
    /// ```
    /// use virentolex::{NoticeRef, Refusal};
    ///
    /// // the field's length is a byte too short
    /// let bytes = *b"\x0F\0\0\0\x01\0\x01\0\x08\0\x01\0\x02Op\x2A\0\0\0";
    /// let refusal = NoticeRef::from_bytes(&bytes).unwrap_err();
    /// assert_eq!(refusal.place(), Some(8));
    /// assert_eq!(Refusal::Kind.place(), None);
    /// ```
    pub fn place(self) -> Option<usize> {
        match self {
            Refusal::Token { place }
            | Refusal::Grammar { place }
            | Refusal::Limit { place }
            | Refusal::Notice { place } => Some(place),
            _ => None,
        }
    }

    /// The answer as a result: what it holds, if the number is 0.
    pub(crate) fn or<T>(number: u8, place: usize, answer: T) -> Result<T, Refusal> {
        match Refusal::from_number(number, place) {
            None => Ok(answer),
            Some(refusal) => Err(refusal),
        }
    }

    /// The reason in plain words, without the place and the number.
    ///
    /// ```
    /// assert_eq!(virentolex::Refusal::Pattern.reason(), "a pattern is ill-formed");
    /// ```
    pub fn reason(self) -> &'static str {
        match self {
            Refusal::Token { .. } => "a token has no legal form",
            Refusal::Grammar { .. } => "the grammar is not kept",
            Refusal::Limit { .. } => "a number or a name is outside its limits",
            Refusal::Function => "a function is unknown, or its arguments are wrong",
            Refusal::Kind => "logic stands where a value is asked, or a value where logic is",
            Refusal::Depth => {
                "over 24 parentheses are open at once, or over 24 of ! and ~ in a row"
            }
            Refusal::Entries => "the table would have over 512 entries",
            Refusal::Stack => "the run would need over 32 places on its stack",
            Refusal::Buffer => "the buffer is too short for the result",
            Refusal::Length => "too long: a text has at most 4,096 bytes, a notice to mend 16,384",
            Refusal::Notice { .. } => "no well-formed notice",
            Refusal::Table => "no table that passes the check",
            Refusal::Name => "a field's name is not 1 to 64 bytes from space to ~",
            Refusal::Present => "a field of that name is already there",
            Refusal::Room => {
                "no room: a notice has at most 64 fields and 16,384 bytes, and must fit its buffer"
            }
            Refusal::Size => "the value's size is wrong for its kind, or the kind is unknown",
            Refusal::Index => "there is no field, or no entry, of that number",
            Refusal::Pattern => "a pattern is ill-formed",
            Refusal::Staff => "the notice is true, but has no string field Staff of 1 to 64 bytes",
            Refusal::Ninth => "a ninth person: a decision counts at most 8",
            Refusal::Needed => "a decision needs 1 to 8 people",
            Refusal::UbfSyntax => "the text is outside the syntax of UBF(A)",
            Refusal::UbfFields => "not one tuple of fields that a notice and UBF(A) both have",
            Refusal::Tables => "over 64 tables",
            Refusal::Edition => "an edition other than 1 or 2",
            Refusal::Store => "no store, or a buffer over 65,536 or under 8 bytes",
            Refusal::Held => "the store already holds 64 tables",
            Refusal::StoreRoom => "the store has no room for the table",
            Refusal::NotHeld => "the store holds no table of that number",
            Refusal::Short => "under 8 bytes cannot be mended",
            Refusal::Unknown(_) => "a number that this version does not know",
        }
    }
}

/// The reason in plain words, with the place and the number.
///
/// ```
/// use virentolex::Refusal;
///
/// let told = format!("{}", Refusal::Token { place: 7 });
/// assert_eq!(told, "a token has no legal form, at byte 7 (refusal 1)");
/// assert_eq!(Refusal::Tables.to_string(), "over 64 tables (refusal 24)");
/// ```
impl fmt::Display for Refusal {
    fn fmt(&self, f: &mut fmt::Formatter<'_>) -> fmt::Result {
        f.write_str(self.reason())?;
        if let Some(place) = self.place() {
            write!(f, ", at byte {place}")?;
        }
        write!(f, " (refusal {})", self.number())
    }
}

impl Error for Refusal {}

/// For programs that read and write files: a refusal is data that is not valid.
///
/// ```
/// use std::io::{Error, ErrorKind};
///
/// let error = Error::from(virentolex::Refusal::Table);
/// assert_eq!(error.kind(), ErrorKind::InvalidData);
/// ```
#[cfg(feature = "std")]
impl From<Refusal> for std::io::Error {
    fn from(refusal: Refusal) -> Self {
        std::io::Error::new(std::io::ErrorKind::InvalidData, refusal)
    }
}

#[cfg(test)]
mod tests;

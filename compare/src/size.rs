//! The kind of case `size` (document 02, request 2): the size of strings and opaque values, in tables made
//! by hand, where a string may be folded, and in texts. Which characters they are is told by the corners
//! of op 7; here is told where the bytes stood.

use crate::cases::{Case, Outcome};
use crate::characters;
use crate::editions;
use crate::expressions::COMPARISONS;
use crate::notices::{rendered, Field};
use crate::operations::{push_string, pushed};
use crate::tables::{laid_out, Draft};
use reference::op::{Op, OPS};
use reference::value::Value;

/// Where bytes stand whose size is taken.
const PLACES: [&str; 7] = [
    "literal",
    "folded literal",
    "field",
    "folded field",
    "opaque field",
    "text: field",
    "text: opaque field",
];
/// What they are.
const COUNTS: [&str; 3] = ["one byte each", "fewer characters", "ill-formed"];
/// What has no size.
const NONE: [&str; 5] = [
    "missing",
    "int32 field",
    "folded opaque field",
    "text: missing",
    "text: int32 field",
];

/// What must occur in a run of many cases.
pub fn names() -> Vec<String> {
    let places = PLACES.iter();
    places
        .flat_map(|place| COUNTS.map(|count| format!("{place}, {count}")))
        .chain(NONE.map(String::from))
        .collect()
}

/// What the bytes are, by Rust's own library.
fn count_of(bytes: &[u8]) -> &'static str {
    match std::str::from_utf8(bytes) {
        Ok(text) if text.is_ascii() => COUNTS[0],
        Ok(_) => COUNTS[1],
        Err(_) => COUNTS[2],
    }
}

/// So many tables are tried in one case, and half as many texts.
const TRIED: usize = 6;

impl Case<'_> {
    pub fn size(&mut self) -> Outcome {
        (0..TRIED).try_for_each(|_| self.size_table())?;
        (0..TRIED / 2).try_for_each(|_| self.size_text())
    }

    /// The size of a literal or of field `s`, folded now and then, in a table.
    fn size_table(&mut self) -> Outcome {
        let mut value = characters::string(&mut self.random);
        let (literal, folded) = (self.random.once_in(2), self.random.once_in(3));
        // the pool has a name of one byte beside it
        value.truncate(if literal {
            reference::MOST_POOL - 1
        } else {
            1024
        });
        let field = self.sized_field(&value);
        let mut draft = Draft {
            entries: Vec::new(),
            pool: b"s".to_vec(),
        };
        match literal {
            true => push_string(&mut draft, &value),
            false => draft.entries.push((Op::Name.code(), 1, 0)),
        }
        if folded {
            draft.entries.push((Op::FoldCase.code(), 0, 0));
        }
        draft.entries.push((Op::Size.code(), 0, 0));
        self.told_by(&mut draft, &value);
        let notice = rendered(std::slice::from_ref(&field));
        let edition = editions::any(&mut self.random);
        self.running(&laid_out(edition, &draft), &notice)?;
        let told = match (literal, where_it_is(&field), folded) {
            (true, _, false) => "literal",
            (true, _, true) => "folded literal",
            (_, "field", true) => "folded field",
            (_, "opaque field", true) => "folded opaque field",
            (_, place, _) => place,
        };
        // folding that changes nothing tells nothing
        if !folded || value.iter().any(u8::is_ascii_uppercase) {
            self.count_size(told, &value);
        }
        Ok(())
    }

    /// Field `s` of the bytes, most often a string; now and then an int32, or a field of another name.
    fn sized_field(&mut self, value: &[u8]) -> Field {
        let kind = self.random.pick(&[4, 4, 4, 4, 4, 5, 5, 1]);
        let value = match kind {
            1 => self.random.bytes(4),
            _ => value.to_vec(),
        };
        let name = match self.random.below(16) {
            0 => b"t".to_vec(),
            _ => b"s".to_vec(),
        };
        Field { name, kind, value }
    }

    /// A number at or beside the count of characters, or the count of bytes.
    fn near_size(&mut self, value: &[u8]) -> i32 {
        let bytes = value.len() as i32;
        let count = reference::utf8::characters(value).map_or(bytes, |count| count as i32);
        let near = [count, count, count, count - 1, count + 1, bytes];
        self.random.pick(&near)
    }

    /// The size beside a number, or a test of it.
    fn told_by(&mut self, draft: &mut Draft, value: &[u8]) {
        if self.random.once_in(4) {
            let test = self.random.pick(&OPS[31..38]);
            return draft.entries.push((test.code(), 0, 0));
        }
        let beside = Value::Int32(self.near_size(value));
        draft.entries.push(pushed(&beside));
        let comparison = self.random.pick(&OPS[19..25]);
        draft.entries.push((comparison.code(), 0, 0));
    }

    /// The size of field `s` in a text, as the kiosk's `size (Name) <= 20`.
    fn size_text(&mut self) -> Outcome {
        let mut value = characters::string(&mut self.random);
        value.truncate(1024);
        let field = self.sized_field(&value);
        let beside = self.near_size(&value);
        let comparison = self.random.pick(&COMPARISONS);
        let text = match self.random.below(4) {
            0 => format!("! (size (s) {comparison} {beside})"),
            1 => format!("size (s) + 1 {comparison} {beside} + 1 || string (s)"),
            2 => format!("{beside} {comparison} size (s) && require (s)"),
            _ => format!("size (s) {comparison} {beside}"),
        };
        let notice = rendered(std::slice::from_ref(&field));
        self.both_editions(text.as_bytes(), &notice)?;
        self.count_size(&format!("text: {}", where_it_is(&field)), &value);
        Ok(())
    }

    /// Counts a size that was asked for.
    fn count_size(&mut self, place: &str, value: &[u8]) {
        let told = match NONE.contains(&place) {
            true => place.to_string(),
            false => format!("{place}, {}", count_of(value)),
        };
        self.tally.count("size", told);
    }
}

/// What a run finds under the name `s`.
fn where_it_is(field: &Field) -> &'static str {
    match (&field.name[..], field.kind) {
        (b"s", 4) => "field",
        (b"s", 5) => "opaque field",
        (b"s", _) => "int32 field",
        _ => "missing",
    }
}

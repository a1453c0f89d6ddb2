//! Document 02, request 5: "Yard doors speak UBF(A)". Words in quotes are that request's, or those of
//! source document 001 where the line says so.
//!
//! A text is read by descent into a tree of items that own their bytes; the notice's fields are taken
//! from that tree.

use crate::notice::{field_bytes, fields, name_right, notice_bytes, Writing};
use crate::{MOST_FIELDS, MOST_NOTICE};
use std::collections::BTreeSet;

/// Source document 001: "item ::= integer | atom | string | binary | tuple | list | store | push |
/// comment | tag". A list is its `#` and its `&`, since "a register, `&` or tag may follow any value or
/// none"; comments "count as whitespace" and are not kept.
#[derive(Clone, PartialEq, Eq, Debug)]
pub enum Item {
    Integer(Integer),
    Atom(Vec<u8>),
    Text(Vec<u8>),
    Binary(Vec<u8>),
    Tuple(Vec<Item>),
    EmptyList,
    Cons,
    Store(u8),
    Push(u8),
    Tag(Vec<u8>),
}

/// Source document 001: "integer ::= '-'?[0-9]+", of any size.
#[derive(Clone, PartialEq, Eq, Debug)]
pub struct Integer {
    pub negative: bool,
    pub digits: Vec<u8>,
}

impl Integer {
    /// Its value, if that has at most 19 digits after leading zeros.
    fn value(&self) -> Option<i128> {
        let zeros = self.digits.iter().take_while(|digit| **digit == b'0');
        let digits = &self.digits[zeros.count()..];
        if digits.len() > 19 {
            return None;
        }
        let digit = |sum, digit: &u8| 10 * sum + i128::from(digit - b'0');
        let value = digits.iter().fold(0, digit);
        Some(if self.negative { -value } else { value })
    }
}

/// Source document 001: "White space is any sequence of blank, tab, newline or carriage-return
/// characters".
fn is_white(byte: u8) -> bool {
    matches!(byte, b' ' | b'\t' | b'\n' | b'\r')
}

/// Source document 001: "reg ::= [^-%"~'`{}#& \n\r\t,0-9]"; "the first `$` .. ends the text".
fn is_register(byte: u8) -> bool {
    !b"-%\"~'`{}#& \n\r\t,0123456789$".contains(&byte)
}

/// What is left of a text.
struct Rest<'a> {
    bytes: &'a [u8],
}

impl Rest<'_> {
    fn next(&mut self) -> Option<u8> {
        let (first, rest) = self.bytes.split_first()?;
        self.bytes = rest;
        Some(*first)
    }

    fn take(&mut self, count: usize) -> Option<Vec<u8>> {
        let taken = self.bytes.get(..count)?;
        self.bytes = &self.bytes[count..];
        Some(taken.to_vec())
    }

    /// Source document 001: "'"' ([^\"] | '\\' | '\"')* '"'", and so for the other delimiters: what
    /// stands up to the delimiter, without its backslashes.
    fn quoted(&mut self, delimiter: u8) -> Option<Vec<u8>> {
        let mut body = Vec::new();
        loop {
            match self.next()? {
                byte if byte == delimiter => return Some(body),
                b'\\' => {
                    let escaped = self.next()?;
                    if escaped != b'\\' && escaped != delimiter {
                        return None;
                    }
                    body.push(escaped);
                }
                byte => body.push(byte),
            }
        }
    }

    /// Whitespace and comments.
    fn skip_white(&mut self) -> Option<()> {
        while let Some(first) = self.bytes.first() {
            if *first == b'%' {
                self.next();
                self.quoted(b'%')?;
            } else if is_white(*first) {
                self.next();
            } else {
                break;
            }
        }
        Some(())
    }

    /// The digits of an integer whose first byte, a digit or `-`, was taken, and the binary that follows
    /// it, if a `~` does.
    fn counted(&mut self, first: u8) -> Option<Item> {
        let more = self.bytes.iter().take_while(|byte| byte.is_ascii_digit());
        let more = self.take(more.count())?;
        let negative = first == b'-';
        let digits = if negative {
            more
        } else {
            [vec![first], more].concat()
        };
        if digits.is_empty() {
            return None;
        }
        let integer = Integer { negative, digits };
        self.skip_white()?;
        match self.bytes.first() {
            Some(b'~') => self.binary(&integer).map(Item::Binary),
            _ => Some(Item::Integer(integer)),
        }
    }

    /// Source document 001: "Read n bytes from the input stream .. The next byte must be the character
    /// ~". "A binary .. with a negative or wrong count" breaks the syntax.
    fn binary(&mut self, count: &Integer) -> Option<Vec<u8>> {
        self.next();
        let bytes = self.take(usize::try_from(count.value()?).ok()?)?;
        (self.next()? == b'~').then_some(bytes)
    }

    /// Items up to the end mark, which is taken: `}` of a tuple, `$` of the text.
    fn items(&mut self, end: u8) -> Option<Vec<Item>> {
        let mut items = Vec::new();
        loop {
            self.skip_white()?;
            match self.next()? {
                first if first == end => return Some(items),
                first => items.push(self.item(first)?),
            }
        }
    }

    /// One item, whose first byte was taken.
    fn item(&mut self, first: u8) -> Option<Item> {
        match first {
            b'-' | b'0'..=b'9' => self.counted(first),
            b'\'' => self.quoted(b'\'').map(Item::Atom),
            b'"' => self.quoted(b'"').map(Item::Text),
            b'`' => self.quoted(b'`').map(Item::Tag),
            b'{' => self.items(b'}').map(Item::Tuple),
            b'#' => Some(Item::EmptyList),
            b'&' => Some(Item::Cons),
            b'>' => Some(self.store()),
            _ => is_register(first).then_some(Item::Push(first)),
        }
    }

    /// Source document 001: "store ::= '>' reg"; a `>` with no register after it is a register itself.
    fn store(&mut self) -> Item {
        match self.bytes.first() {
            Some(register) if is_register(*register) => {
                self.next();
                Item::Store(*register)
            }
            _ => Item::Push(b'>'),
        }
    }
}

/// Source document 001: "input ::= item* '$'"; "bytes after it .. break the syntax".
pub fn items(text: &[u8]) -> Option<Vec<Item>> {
    let mut rest = Rest { bytes: text };
    let items = rest.items(b'$')?;
    rest.bytes.is_empty().then_some(items)
}

/// A field as the text or the notice has it.
#[derive(Clone, PartialEq, Eq, Debug)]
pub struct Field {
    pub name: Vec<u8>,
    pub kind: u16,
    pub value: Vec<u8>,
}

/// "Untagged integers are int32, integers tagged `int64` are int64, strings are strings, counted
/// binaries are opaque." None for "integers that do not fit" and for what is no value.
fn value_of(item: &Item, tagged: bool) -> Option<(u16, Vec<u8>)> {
    match (item, tagged) {
        (Item::Integer(integer), false) => {
            let value = i32::try_from(integer.value()?).ok()?;
            Some((1, value.to_le_bytes().to_vec()))
        }
        (Item::Integer(integer), true) => {
            let value = i64::try_from(integer.value()?).ok()?;
            Some((2, value.to_le_bytes().to_vec()))
        }
        (Item::Text(value), false) => Some((4, value.clone())),
        (Item::Binary(value), false) => Some((5, value.clone())),
        _ => None,
    }
}

/// "one tuple of name and value by turns, the name a string": the fields in the text's order, or none for
/// what 23 refuses.
pub fn fields_of(items: &[Item]) -> Option<Vec<Field>> {
    let [Item::Tuple(items)] = items else {
        return None;
    };
    let mut fields = Vec::new();
    let mut rest = &items[..];
    while let Some((name, after)) = rest.split_first() {
        let Item::Text(name) = name else {
            return None;
        };
        let (item, mut after) = after.split_first()?;
        let tagged = after.first() == Some(&Item::Tag(b"int64".to_vec()));
        if tagged {
            after = &after[1..];
        }
        let (kind, value) = value_of(item, tagged)?;
        let name = name.clone();
        fields.push(Field { name, kind, value });
        rest = after;
    }
    Some(fields)
}

/// "then over all fields 13, 16, 14, 15 in that order"; else the notice, "with fields put in name order".
fn notice_of(mut fields: Vec<Field>, room: usize) -> Result<Vec<u8>, u8> {
    if !fields.iter().all(|field| name_right(&field.name)) {
        return Err(13);
    }
    if fields.iter().any(|field| field.value.len() > 1024) {
        return Err(16);
    }
    let names: BTreeSet<&Vec<u8>> = fields.iter().map(|field| &field.name).collect();
    if names.len() < fields.len() {
        return Err(14);
    }
    fields.sort_by(|left, right| left.name.cmp(&right.name));
    let parts: Vec<Vec<u8>> = fields
        .iter()
        .map(|field| field_bytes(&field.name, field.kind, &field.value))
        .collect();
    let size = 8 + parts.iter().map(Vec::len).sum::<usize>();
    if fields.len() > MOST_FIELDS || size > MOST_NOTICE || size > room {
        return Err(15);
    }
    let parts: Vec<&[u8]> = parts.iter().map(Vec::as_slice).collect();
    Ok(notice_bytes(fields.len(), &parts))
}

/// The notice that a text says, for a buffer of that length, or "22 for text outside the syntax .., then
/// 23 .., then over all fields 13, 16, 14, 15".
pub fn notice_said(text: &[u8], room: usize) -> Result<Vec<u8>, u8> {
    let items = items(text).ok_or(22)?;
    let fields = fields_of(&items).ok_or(23)?;
    notice_of(fields, room)
}

/// "Bytes past either result stay; both answer number, place and the result's length, 0 if refused."
fn answer(result: Result<Vec<u8>, (u8, usize)>, buffer: &mut [u8]) -> Writing {
    match result {
        Err((number, place)) => Writing {
            number,
            place,
            length: 0,
        },
        Ok(bytes) => {
            buffer[..bytes.len()].copy_from_slice(&bytes);
            Writing {
                number: 0,
                place: 0,
                length: bytes.len(),
            }
        }
    }
}

/// "reading into our notice"
pub fn read(text: &[u8], buffer: &mut [u8]) -> Writing {
    let notice = notice_said(text, buffer.len());
    answer(notice.map_err(|number| (number, 0)), buffer)
}

/// "escapes only where needed"
fn string_text(bytes: &[u8]) -> Vec<u8> {
    let mut text = vec![b'"'];
    for byte in bytes {
        if matches!(byte, b'"' | b'\\') {
            text.push(b'\\');
        }
        text.push(*byte);
    }
    text.push(b'"');
    text
}

/// "plain decimal"; none for a real64 value, or one of the wrong size.
fn value_text(kind: u16, value: &[u8]) -> Option<Vec<u8>> {
    match kind {
        1 => Some(
            i32::from_le_bytes(value.try_into().ok()?)
                .to_string()
                .into(),
        ),
        2 => {
            let value = i64::from_le_bytes(value.try_into().ok()?);
            Some(format!("{value}`int64`").into())
        }
        4 => Some(string_text(value)),
        5 => Some([value.len().to_string().as_bytes(), b"~", value, b"~"].concat()),
        _ => None,
    }
}

/// "one fixed form (no whitespace, no comments, plain decimal, escapes only where needed, names rising)",
/// or "11, then 23 for a real64 field, then 15 for room", with the place.
pub fn text_of(notice: &[u8], room: usize) -> Result<Vec<u8>, (u8, usize)> {
    let fields = fields(notice).map_err(|place| (11, place))?;
    let mut text = vec![b'{'];
    for field in fields {
        text.extend(string_text(&notice[field.name]));
        text.extend(value_text(field.kind, &notice[field.value]).ok_or((23, 0))?);
    }
    text.extend(b"}$");
    match text.len() <= room {
        true => Ok(text),
        false => Err((15, 0)),
    }
}

/// "writing back"
pub fn write(notice: &[u8], buffer: &mut [u8]) -> Writing {
    answer(text_of(notice, buffer.len()), buffer)
}

#[cfg(test)]
mod tests {
    use super::*;

    fn number(text: &[u8]) -> u8 {
        notice_said(text, MOST_NOTICE).err().unwrap_or(0)
    }

    fn numbers(number_meant: u8, texts: &[&[u8]]) {
        for text in texts {
            assert_eq!(number(text), number_meant, "{}", text.escape_ascii());
        }
    }

    /// A field of each kind in another order, with whitespace, comments and escapes; then the fixed form.
    #[test]
    fn a_text_is_read_and_written() {
        let text =
            b" { \"b\\\\\" %\\% c%-007\t\"a\\\"\" 12 %c% `int64`\r\n\"d\"\"\"\"c\"3\n~}$~~ } $";
        let fields = [
            field_bytes(b"a\"", 2, &12i64.to_le_bytes()),
            field_bytes(b"b\\", 1, &(-7i32).to_le_bytes()),
            field_bytes(b"c", 5, b"}$~"),
            field_bytes(b"d", 4, b""),
        ];
        let parts: Vec<&[u8]> = fields.iter().map(Vec::as_slice).collect();
        let notice = notice_bytes(4, &parts);
        let mut buffer = vec![9; notice.len() + 2];
        let length = notice.len();
        let meant = Writing {
            number: 0,
            place: 0,
            length,
        };
        assert_eq!(read(text, &mut buffer), meant);
        assert_eq!(buffer, [&notice[..], &[9, 9]].concat());
        assert_eq!(read(text, &mut buffer[..length - 1]).number, 15);
        let written = text_of(&notice, 100).unwrap();
        let form = b"{\"a\\\"\"12`int64`\"b\\\\\"-7\"c\"3~}$~~\"d\"\"\"}$";
        assert_eq!(written, form);
        assert_eq!(text_of(&notice, form.len()).unwrap(), form);
        assert_eq!(text_of(&notice, form.len() - 1), Err((15, 0)));
    }

    #[test]
    fn texts_outside_the_syntax() {
        numbers(
            22,
            &[
                b"",
                b"{}",
                b"{}$ ",
                b"{}$$",
                b"$ ",
                b"{$}",
                b"{$}$",
                b"{{}$",
                b"}{$",
                b"{}}$",
                b",$",
                b"{\"a\",1}$",
                b"-$",
                b"--1$",
                b"-a$",
                b"~~$",
                b"0~~~$",
                b"{\"a\"2~abc~}$",
                b"{\"a\"2~a~}$",
                b"-1~a~$",
                b"'a'1`t`~a~$",
                b"1a~a~$",
                b"1{~a~}$",
                b"1\"\"~a~$",
                b"12~ab~$",
                b"99999999999999999999~a~$",
                b"18446744073709551617~a~$",
                b"\"\\a\"$",
                b"'\\\"'$",
                b"\"\\'\"$",
                b"`\\\"`$",
                b"%\\n%$",
                b"%$",
                b"\"$",
                b"'$",
                b"`$",
                b"\"\\$",
                b"{\"a\"1~$",
                b">,$",
                b">-$",
            ],
        );
    }

    #[test]
    fn texts_of_something_else() {
        numbers(
            23,
            &[
                b"$",
                b" %a% $",
                b"{}{}$",
                b"1$",
                b"\"a\"$",
                b"'a'$",
                b"#$",
                b"&$",
                b"`a`$",
                b">a$",
                b">$",
                b">>>$",
                b"a$",
                b"\\$",
                b"\0$",
                b"\xff$",
                b"{}x$",
                b"{}`int64`$",
                b"{{}}$",
                b"{\"a\"{}}$",
                b"{\"a\"}$",
                b"{\"a\"1\"b\"}$",
                b"{1 1}$",
                b"{'a'1}$",
                b"{\"a\"'b'}$",
                b"{\"a\"#}$",
                b"{\"a\"# 1&}$",
                b"{\"a\"1`int32`}$",
                b"{\"a\"1`int64``int64`}$",
                b"{\"a\"\"b\"`int64`}$",
                b"{\"a\"1~b~`int64`}$",
                b"{\"a\"`int64`1}$",
                b"{\"a\"2147483648}$",
                b"{\"a\"-2147483649}$",
                b"{\"a\"9223372036854775808`int64`}$",
                b"{\"a\"-9223372036854775809`int64`}$",
                b"{1~a~1}$",
                b"{`int64`}$",
                b"{\"a\"1>r}$",
                b"{\"a\"r}$",
            ],
        );
    }

    #[test]
    fn accepted_edges() {
        numbers(
            0,
            &[
                b"{}$",
                b"%a%{%b%}%c%$",
                b"{\"a\"-0}$",
                b"{\"a\"-0~~}$",
                b"{\"a\"000001~$~}$",
                b"{\"a\"-2147483648\"b\"2147483647}$",
                b"{\"a\"00000000000000000000000001}$",
                b"{\"a\"-9223372036854775808`int64`\"b\"9223372036854775807 %x% `int64`}$",
                b"{\"a\"1%x% ~~~}$",
                b"{\"a\"\"\0\xff$}\n\"}$",
                b"{\" \"\"\\\"\\\\\"\"~\"1}$",
            ],
        );
    }

    #[test]
    fn refusals_of_fields_stand_in_order() {
        let long = vec![b'v'; 1025];
        let many: Vec<u8> = (0..65)
            .flat_map(|at| format!("\"n{at}\"1").into_bytes())
            .collect();
        let text = |parts: &[&[u8]]| [&b"{"[..], &parts.concat(), b"}$"].concat();
        let large = [&b"\"x\"\""[..], &long, b"\""].concat();
        let fits = [&b"\"x\"1024~"[..], &long[..1024], b"~"].concat();
        assert_eq!(number(&text(&[&large, b"\"a\"1\"a\"2\"\"1"])), 13);
        assert_eq!(number(&text(&[b"\"a\"1\"a\"2", &large])), 16);
        assert_eq!(number(&text(&[&many, b"\"a\"1\"a\"2"])), 14);
        assert_eq!(number(&text(&[&many])), 15);
        assert_eq!(number(&text(&[&fits])), 0);
        assert_eq!(number(&text(&[b"\"\x7f\"1"])), 13);
        assert_eq!(number(&text(&[b"\"\x1f\"1"])), 13);
    }

    #[test]
    fn real64_is_not_written() {
        let fields = [field_bytes(b"a", 3, &[0; 8]), field_bytes(b"b", 1, &[0; 4])];
        let notice = notice_bytes(2, &[&fields[0], &fields[1]]);
        assert_eq!(text_of(&notice, 0), Err((23, 0)));
        assert_eq!(text_of(&notice[..20], 0), Err((11, 0)));
        assert_eq!(text_of(&notice_bytes(0, &[]), 3).unwrap(), b"{}$");
        assert_eq!(text_of(&notice_bytes(0, &[]), 2), Err((15, 0)));
    }
}

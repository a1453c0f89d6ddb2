//! The line of a text that a place is in, with a caret under it.

/// The most characters of a line that are shown, and how many of them stand before the caret at most.
const WIDTH: usize = 72;
const BEFORE: usize = 48;

/// A place in a text as a reader counts it, and the line with the caret.
#[derive(Debug, PartialEq, Eq)]
pub struct Excerpt {
    /// The line and the column, both from 1; the column counts characters.
    pub line: usize,
    pub column: usize,
    shown: String,
    caret: String,
}

impl Excerpt {
    /// The excerpt for a byte's place. A place at the end, behind blanks, is shown behind the last word.
    pub fn of(text: &[u8], place: usize) -> Excerpt {
        let place = match text.get(place..) {
            Some(rest) if !rest.trim_ascii().is_empty() => place,
            _ => text.trim_ascii_end().len(),
        };
        let before = &text[..place];
        let start = before
            .iter()
            .rposition(|b| *b == b'\n')
            .map_or(0, |k| k + 1);
        let length = text[start..].iter().position(|b| *b == b'\n');
        let end = length.map_or(text.len(), |n| start + n);
        let column = shown(&text[start..place]).chars().count();
        let (line, cut) = clipped(&shown(text[start..end].trim_ascii_end()), column);
        Excerpt {
            line: 1 + before.iter().filter(|b| **b == b'\n').count(),
            column: 1 + column,
            caret: format!("{}^", " ".repeat(column - cut)),
            shown: line,
        }
    }

    /// `line 2, column 7`.
    pub fn whereabouts(&self) -> String {
        format!("line {}, column {}", self.line, self.column)
    }

    /// The line and the caret below it, both set in by two blanks.
    pub fn picture(&self) -> String {
        format!("  {}\n  {}", self.shown, self.caret)
    }
}

/// A line as a terminal may show it: a tab as a blank, what does not print as `\u{fffd}`.
fn shown(line: &[u8]) -> String {
    let readable = |c: char| match c {
        '\t' => ' ',
        c if crate::spell::prints(c) => c,
        _ => char::REPLACEMENT_CHARACTER,
    };
    String::from_utf8_lossy(line)
        .chars()
        .map(readable)
        .collect()
}

/// The part of a long line around a column, and how many columns were left out before it.
fn clipped(line: &str, column: usize) -> (String, usize) {
    let count = line.chars().count();
    if count <= WIDTH {
        return (line.to_string(), 0);
    }
    let from = column.saturating_sub(BEFORE);
    let part: String = line.chars().skip(from).take(WIDTH).collect();
    match from {
        0 => (part, 0),
        // two points stand for what is left out
        _ => (
            format!("..{}", part.chars().skip(2).collect::<String>()),
            from,
        ),
    }
}

#[cfg(test)]
mod tests {
    use super::*;

    fn lines(text: &str, place: usize) -> (String, String) {
        let e = Excerpt::of(text.as_bytes(), place);
        (e.whereabouts(), e.picture())
    }

    #[test]
    fn the_caret_stands_under_the_place() {
        let (place, picture) = lines("a -5", 2);
        assert_eq!(place, "line 1, column 3");
        assert_eq!(picture, "  a -5\n    ^");
    }

    #[test]
    fn a_later_line() {
        let (place, picture) = lines("Op == 1 &&\n\tOp = 2\n", 15);
        assert_eq!(place, "line 2, column 5");
        assert_eq!(picture, "   Op = 2\n      ^");
    }

    #[test]
    fn the_end_is_behind_the_last_word() {
        assert_eq!(
            lines("Op == 42 &&\n\n", 13).1,
            "  Op == 42 &&\n             ^"
        );
        assert_eq!(lines("", 0).1, "  \n  ^");
        assert_eq!(lines("a", 900).1, "  a\n   ^");
    }

    #[test]
    fn columns_are_characters() {
        assert_eq!(lines("\"é\" x", 5).0, "line 1, column 5");
    }

    #[test]
    fn a_long_line_is_clipped_around_the_place() {
        let text = format!("{}={}", "a".repeat(200), "b".repeat(200));
        let (place, picture) = lines(&text, 200);
        assert_eq!(place, "line 1, column 201");
        let (line, caret) = picture.split_once('\n').unwrap();
        assert_eq!(line.chars().count(), 2 + WIDTH);
        assert_eq!(line.chars().nth(caret.chars().count() - 1), Some('='));
    }

    #[test]
    fn bytes_that_do_not_print_are_hidden() {
        let e = Excerpt::of(b"\x1b[31m x", 6);
        assert_eq!(e.picture(), "  \u{fffd}[31m x\n        ^");
    }
}

//! The text of a table, for readers of a store, which keeps tables alone.
use virentolex::{Entry, Operand, Subscription, Value};

/// A part of the text, and how loosely it binds: 0 for a word or a call.
struct Part {
    text: String,
    level: usize,
}

/// The text, if it translates to this very table; else the fields that the table names.
pub fn recognised(subscription: &Subscription) -> String {
    let text = text(subscription);
    let same = |text: &String| {
        Subscription::translate(text, subscription.edition()).is_ok_and(|s| s == *subscription)
    };
    text.filter(same).unwrap_or_else(|| fields(subscription))
}

/// The text by which the entries are translated, in as few parentheses as it needs.
fn text(subscription: &Subscription) -> Option<String> {
    let mut stack: Vec<Part> = Vec::new();
    for entry in subscription.entries().filter(|entry| entry.leaves() > 0) {
        let start = stack.len().checked_sub(entry.takes().into())?;
        let operands = stack.split_off(start);
        stack.push(part(&entry, operands));
    }
    stack.pop().map(|part| part.text)
}

/// What an entry makes of its operands.
fn part(entry: &Entry, operands: Vec<Part>) -> Part {
    let (word, level) = (entry.word(), level(entry.op));
    let text = match (entry.op, operands.as_slice()) {
        (1..=5, _) => entry.operand().to_string(),
        (8 | 40, [x]) => format!("{word} {}", within(x, 1)),
        (16..=43, [left, right]) => {
            let (left, right) = (within(left, level), within(right, level - 1));
            format!("{left} {word} {right}")
        }
        (_, parts) => {
            let parts: Vec<&str> = parts.iter().map(|part| part.text.as_str()).collect();
            format!("{word} ({})", parts.join(", "))
        }
    };
    Part { text, level }
}

/// The part, in parentheses if it binds more loosely.
fn within(part: &Part, level: usize) -> String {
    match part.level > level {
        true => format!("({})", part.text),
        false => part.text.clone(),
    }
}

/// The level of an operator, as document 01 lists them, the tightest 1.
fn level(op: u16) -> usize {
    match op {
        8 | 40 => 1,
        16..=18 => 2,
        19 => 3,
        20 => 4,
        21 => 5,
        22..=24 => 6,
        25..=26 => 7,
        34..=37 => 8,
        32..=33 => 9,
        41 => 10,
        42 => 11,
        43 => 12,
        _ => 0,
    }
}

/// `on the fields Op, Staff`: the names, each once, in their order in the table.
fn fields(subscription: &Subscription) -> String {
    let mut names: Vec<String> = Vec::new();
    for entry in subscription.entries() {
        if let Operand::Name(name) = entry.operand() {
            let name = Value::String(name).to_string();
            if !names.contains(&name) {
                names.push(name);
            }
        }
    }
    match names.len() {
        0 => "on no field".into(),
        1 => format!("on the field {}", names[0]),
        _ => format!("on the fields {}", names.join(", ")),
    }
}

#[cfg(test)]
mod tests {
    use super::*;
    use virentolex::Edition;

    fn recognised(text: &str) -> String {
        super::recognised(&Subscription::translate(text, Edition::First).unwrap())
    }

    #[test]
    fn texts_come_back() {
        for text in [
            "Staff != \"417\"",
            "Op == 42 && Staff != \"417\" || ! require (Load) ^^ nan (x)",
            "(a == 1 || b == 2) && (c == 3 || d == 4)",
            "a == 1 && (b == 2 && c == 3) && d == 4",
            "1 - (2 - 3) - 4 * 5 % 6 == 2 + 3 * 4 & 6 ^ 1 | 7 << 2 >>> (1 >> 1)",
            "! (! (a < 1)) && ~ (~ b) == -5L && 1.5 <= x",
            "wildcard (Cab, \"T-4?\") || begins-with (fold-case (fold-case (n)), \"a\", \"b\")",
            "size (the\\ pipe) > 20 && equals (Op, 1, 2 + 3, \"x\")",
            "(a == 1 ^^ b == 2) ^^ (c == 3 ^^ d == 4)",
        ] {
            let again = recognised(text);
            assert_eq!(recognised(&again), again, "{text}");
            assert!(!again.starts_with("on "), "{text}: {again}");
            let plain = |s: &str| s.replace(['(', ')', ' '], "");
            assert_eq!(plain(&again), plain(text));
        }
        assert_eq!(recognised("((Op)) == (42)"), "Op == 42");
        assert_eq!(
            recognised("(a == 1 && b == 2) && c == 3"),
            "a == 1 && b == 2 && c == 3"
        );
    }

    #[test]
    fn what_has_no_text_here_is_known_by_its_fields() {
        assert_eq!(
            recognised("a == \"\n\" && b == a"),
            "on the fields \"a\", \"b\""
        );
        assert_eq!(recognised("a == \"\n\""), "on the field \"a\"");
        assert_eq!(recognised("\"\n\" == \"\n\""), "on no field");
    }
}

//! Terms that one field of the notice decides: its value beside a literal that is the same or near.

use crate::expressions::{integer, quoted, spelled, Maker, COMPARISONS, MATCHES, TESTS};
use crate::notices::Field;
use crate::{patterns, regexes, words};
use reference::utf8::characters;

/// The little-endian integer of a value's bytes.
fn whole(value: &[u8]) -> i64 {
    match value.try_into() {
        Ok(eight) => i64::from_le_bytes(eight),
        Err(_) => i64::from(i32::from_le_bytes(value.try_into().unwrap_or_default())),
    }
}

impl Maker<'_> {
    /// A term about a field of the notice; false, and no term, if there is none.
    pub fn pointed(&mut self) -> bool {
        let about = self.about;
        let Some(field) = about.field(self.random) else {
            return false;
        };
        match field.kind {
            _ if self.random.once_in(6) => self.test(field),
            1 | 2 => self.about_whole(field),
            3 => self.about_real(field),
            4 if !self.random.once_in(3) => self.about_string(field),
            5 if self.random.once_in(4) => self.with_itself(field),
            _ => self.about_size(field),
        }
        true
    }

    fn name(&mut self, field: &Field) {
        let name = spelled(self.random, &field.name);
        self.put(name);
    }

    /// A call of the function on the field's name.
    fn of_name(&mut self, function: &str, field: &Field) {
        self.put(function);
        self.put("(");
        self.name(field);
        self.put(")");
    }

    fn test(&mut self, field: &Field) {
        let test = self.random.pick(&TESTS);
        self.of_name(test, field);
    }

    /// The integer or one beside it, spelled for the type if it has it.
    fn near(&mut self, kind: u16, value: i64) -> String {
        let value = i128::from(value) + self.random.pick(&[0, 0, 0, 0, 1, -1]);
        let long = if kind == 2 || i32::try_from(value).is_err() {
            "L"
        } else {
            ""
        };
        integer(self.random, value) + long
    }

    fn about_whole(&mut self, field: &Field) {
        let literal = self.near(field.kind, whole(&field.value));
        if self.random.once_in(3) {
            return self.last_of_values(field, &literal);
        }
        let turned = self.random.once_in(2);
        if turned {
            self.put(&literal);
        } else {
            self.name(field);
        }
        self.put_any(&COMPARISONS);
        if turned {
            self.name(field);
        } else {
            self.put(literal);
        }
    }

    /// `equals` with the literal as the last of its values.
    fn last_of_values(&mut self, field: &Field, literal: &str) {
        self.put("equals");
        self.put("(");
        self.name(field);
        for _ in 0..self.random.pick(&[0, 1, 6, 7, 7, 7]) {
            self.put(",");
            let other = self.random.below(9).to_string();
            self.put(other);
        }
        self.put(",");
        self.put(literal);
        self.put(")");
    }

    fn about_real(&mut self, field: &Field) {
        if self.random.once_in(4) {
            return self.of_name("nan", field);
        }
        let value = f64::from_bits(whole(&field.value) as u64);
        let literal = match self.random.below(4) {
            0 => self.near(2, 1 << 53),
            1 => self.near(2, -(1 << 53)),
            _ if value.abs() < 1e9 => format!("{value:.1}"),
            _ => "0.0".into(),
        };
        self.name(field);
        self.put_any(&COMPARISONS);
        self.put(literal);
    }

    /// The field on both sides: bottom if it is opaque.
    fn with_itself(&mut self, field: &Field) {
        self.name(field);
        self.put_any(&COMPARISONS);
        self.name(field);
    }

    /// A string's size is the number of its characters.
    fn about_size(&mut self, field: &Field) {
        let size = match field.kind {
            4 => characters(&field.value),
            _ => None,
        };
        self.of_name("size", field);
        self.put_any(&COMPARISONS);
        let literal = self.near(1, size.unwrap_or(field.value.len()) as i64);
        self.put(literal);
    }

    fn about_string(&mut self, field: &Field) {
        match self.random.below(5) {
            0 => {
                self.of_name("fold-case", field);
                self.put_any(&COMPARISONS[..2]);
                let folded = field.value.to_ascii_lowercase();
                self.close_to(&folded);
            }
            1 => {
                self.name(field);
                self.put_any(&COMPARISONS[..2]);
                self.close_to(&field.value);
            }
            2 => self.pattern_of(field),
            _ => self.last_of_literals(field),
        }
    }

    /// A pattern that the field's value fits, or nearly.
    fn pattern_of(&mut self, field: &Field) {
        let (function, pattern) = match self.random.below(2) {
            0 => ("wildcard", patterns::well_formed(self.random, &field.value)),
            _ => ("regex", regexes::well_formed(self.random, &field.value)),
        };
        self.put(function);
        self.put("(");
        self.name(field);
        self.put(",");
        let string = quoted(self.random, &pattern);
        self.put(string);
        self.put(")");
    }

    /// The string, or one that differs in its last byte.
    fn close_to(&mut self, text: &[u8]) {
        let mut text = text.to_vec();
        match text.last_mut() {
            Some(last) if self.random.once_in(3) => *last ^= 1,
            _ => (),
        }
        let string = quoted(self.random, &text);
        self.put(string);
    }

    /// A match whose last literal is a part of the field's value.
    fn last_of_literals(&mut self, field: &Field) {
        self.put_any(&MATCHES);
        self.put("(");
        self.name(field);
        for _ in 0..self.random.pick(&[0, 0, 1, 6, 7, 7]) {
            self.put(",");
            let other = quoted(self.random, b"no part");
            self.put(other);
        }
        self.put(",");
        let part = words::part(self.random, &field.value);
        self.close_to(&part);
        self.put(")");
    }
}

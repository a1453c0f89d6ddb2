//! Expressions by the grammar, as tokens: operators, operands and calls of the right kinds, with names
//! that notices have.

use crate::about::About;
use crate::random::Random;
use crate::{pattern_cases, patterns, regexes, words};

pub const LOGIC: [&str; 3] = ["&&", "^^", "||"];
pub const COMPARISONS: [&str; 6] = ["==", "!=", "<", "<=", ">", ">="];
pub const ARITHMETIC: [&str; 11] = ["<<", ">>", ">>>", "&", "^", "|", "*", "/", "%", "+", "-"];
pub const TESTS: [&str; 7] = [
    "int32", "int64", "real64", "string", "opaque", "nan", "require",
];
pub const MATCHES: [&str; 3] = ["begins-with", "contains", "ends-with"];

pub type Tokens = Vec<Vec<u8>>;

/// Makes the tokens of a text by the grammar.
pub struct Maker<'a> {
    pub random: &'a mut Random,
    /// The notice that the text is to be run on.
    pub about: &'a About,
    pub tokens: Tokens,
}

/// The tokens of a logic expression with about `size` operands and at most `deep` parentheses.
pub fn tokens(random: &mut Random, about: &About, size: usize, deep: usize) -> Tokens {
    let mut maker = Maker {
        random,
        about,
        tokens: Vec::new(),
    };
    maker.logic(size, deep);
    maker.tokens
}

impl Maker<'_> {
    pub fn put(&mut self, token: impl AsRef<[u8]>) {
        self.tokens.push(token.as_ref().to_vec());
    }

    pub fn put_any(&mut self, of: &[&str]) {
        let token = self.random.pick(of);
        self.put(token);
    }

    /// A row of a prefix operator, most often none.
    fn row(&mut self, operator: &str) {
        let count = [0, 0, 0, 0, 0, 1, 1, 2, 3][self.random.below(9)];
        (0..count).for_each(|_| self.put(operator));
    }

    fn logic(&mut self, size: usize, deep: usize) {
        let terms = self.random.between(1, size.clamp(1, 5));
        for term in 0..terms {
            if term > 0 {
                self.put_any(&LOGIC);
            }
            self.term(size / terms, deep);
        }
    }

    fn term(&mut self, size: usize, deep: usize) {
        if self.random.once_in(3) && self.pointed() {
            return;
        }
        match self.random.below(8) {
            0..=2 if deep > 0 => {
                self.row("!");
                self.put("(");
                self.logic(size, deep - 1);
                self.put(")");
            }
            3 | 4 => {
                self.row("!");
                self.call(size, deep);
            }
            5 => self.text_comparison(),
            _ => {
                self.value(size / 2, deep);
                self.put_any(&COMPARISONS);
                self.value(size / 2, deep);
            }
        }
    }

    fn text_comparison(&mut self) {
        self.folded();
        self.put_any(&COMPARISONS[..2]);
        self.folded();
    }

    /// A name, a string or a `fold-case` call.
    fn folded(&mut self) {
        match self.random.below(5) {
            0 => {
                self.put("fold-case");
                self.put("(");
                self.folded();
                self.put(")");
            }
            1 | 2 => self.string(),
            _ => self.name_of(&words::STRINGS, &[4]),
        }
    }

    fn value(&mut self, size: usize, deep: usize) {
        let operands = self.random.between(1, size.clamp(1, 5));
        for operand in 0..operands {
            if operand > 0 {
                self.put_any(&ARITHMETIC);
            }
            self.operand(size / operands, deep);
        }
    }

    fn operand(&mut self, size: usize, deep: usize) {
        self.row("~");
        match self.random.below(12) {
            0 | 1 if deep > 0 => {
                self.put("(");
                self.value(size, deep - 1);
                self.put(")");
            }
            2 => self.one_name("size"),
            3 => self.folded(),
            4 | 5 => self.name_of(&words::NAMES, &[1, 2, 3, 4, 5]),
            6 | 7 => self.name_of(&words::NUMBERS, &[1, 2, 3]),
            _ => {
                let number = number(self.random);
                self.put(number);
            }
        }
    }

    fn one_name(&mut self, function: &str) {
        self.put(function);
        self.put("(");
        self.name_of(&words::NAMES, &[1, 2, 3, 4, 5]);
        self.put(")");
    }

    fn call(&mut self, size: usize, deep: usize) {
        match self.random.below(4) {
            0 | 1 => {
                let test = self.random.pick(&TESTS);
                self.one_name(test);
            }
            2 => self.equals(size, deep),
            _ => self.matching(),
        }
    }

    fn matching(&mut self) {
        let function = self
            .random
            .pick(&[&MATCHES[..], &["wildcard", "regex"]].concat());
        self.put(function);
        self.put("(");
        match self.random.below(4) {
            0 => {
                self.put("fold-case");
                self.put("(");
                self.folded();
                self.put(")");
            }
            1 => self.name_of(&words::NAMES, &[1, 2, 3, 4, 5]),
            _ => self.name_of(&words::STRINGS, &[4]),
        }
        for _ in 0..self.random.pick(&[1, 1, 1, 2, 2, 3, 7, 8]) {
            self.put(",");
            match function {
                "wildcard" => self.pattern(patterns::pattern, patterns::well_formed),
                "regex" => self.pattern(regexes::pattern, regexes::well_formed),
                _ => self.string(),
            }
        }
        self.put(")");
    }

    /// A pattern for one of the strings, seldom an ill-formed one.
    fn pattern(&mut self, any: pattern_cases::Maker, well_formed: pattern_cases::Maker) {
        let text = words::text(self.random);
        let pattern = match self.random.below(12) {
            0 => any(self.random, &text),
            _ => well_formed(self.random, &text),
        };
        let string = quoted(self.random, &pattern);
        self.put(string);
    }

    fn equals(&mut self, size: usize, deep: usize) {
        self.put("equals");
        self.put("(");
        self.name_of(&words::NAMES, &[1, 2, 3, 4, 5]);
        for _ in 0..self.random.pick(&[1, 1, 1, 2, 2, 3, 8]) {
            self.put(",");
            match self.random.below(3) {
                0 => self.folded(),
                _ => self.value(size / 4, deep.saturating_sub(1)),
            }
        }
        self.put(")");
    }

    /// A field of one of the kinds, or one of the names.
    fn name_of(&mut self, names: &[&'static [u8]], kinds: &[u16]) {
        let named = self.about.name(self.random, kinds);
        let name = named.unwrap_or_else(|| self.random.pick(names).to_vec());
        let name = spelled(self.random, &name);
        self.put(name);
    }

    fn string(&mut self) {
        let text = words::text(self.random);
        let string = quoted(self.random, &text);
        self.put(string);
    }
}

/// A name with the escapes that it needs, and now and then others.
pub fn spelled(random: &mut Random, name: &[u8]) -> Vec<u8> {
    let mut spelled = Vec::new();
    for (at, byte) in name.iter().enumerate() {
        let first = at == 0 && !byte.is_ascii_alphabetic() && *byte != b'_';
        if first || b" ()[]'\"\\,".contains(byte) || random.once_in(60) {
            spelled.push(b'\\');
        }
        spelled.push(*byte);
    }
    spelled
}

/// A string in either quotes, with the escapes that it needs, and now and then others.
pub fn quoted(random: &mut Random, text: &[u8]) -> Vec<u8> {
    let quote = random.pick(b"\"'");
    let mut quoted = vec![quote];
    for byte in text {
        if *byte == quote || *byte == b'\\' || random.once_in(20) {
            quoted.push(b'\\');
        }
        quoted.push(*byte);
    }
    quoted.push(quote);
    quoted
}

/// A number's spelling, most often within its limits.
pub fn number(random: &mut Random) -> String {
    let long = words::whole(random);
    let short = words::short_whole(random);
    match random.below(8) {
        0 | 1 => real(random),
        2 | 3 => integer(random, i128::from(long)) + random.pick(&["l", "L"]),
        4 if random.once_in(4) => integer(random, i128::from(long) * 2) + random.pick(&["", "L"]),
        _ => integer(random, i128::from(short)),
    }
}

/// An integer in decimal, octal or hex.
pub fn integer(random: &mut Random, value: i128) -> String {
    let sign = if value < 0 { "-" } else { "" };
    let size = value.unsigned_abs();
    match random.below(6) {
        0 => format!("{sign}0{size:o}"),
        1 => format!("{sign}0x{size:x}"),
        2 => format!("{sign}0x{size:X}"),
        _ => format!("{sign}{size}"),
    }
}

/// A real whose digits and scale (document 01's E) are at their limits or one over.
fn real_at_limits(random: &mut Random) -> String {
    let count = random.pick(&[1, 14, 15, 15, 16]);
    let fraction = random.between(1, count);
    let scale = random.pick(&[-23, -22, -22, -21, 0, 21, 22, 22, 23]);
    let mut digits = vec![b'0'; 1 + random.below(2)];
    digits.push(b'1' + random.below(9) as u8);
    digits.extend((1..count).map(|_| b'0' + random.below(10) as u8));
    digits.insert(digits.len() - fraction, b'.');
    let digits = String::from_utf8(digits).expect("digits");
    let exponent = scale + fraction as i32;
    let sign = if exponent < 0 {
        "-"
    } else {
        random.pick(&["", "+"])
    };
    let zeros = random.pick(&["", "", "0", "00"]);
    format!("{digits}e{sign}{zeros}{}", exponent.abs())
}

/// A real of random digits, near the limits of digits and exponent now and then.
fn real(random: &mut Random) -> String {
    if random.once_in(4) {
        return real_at_limits(random);
    }
    let mut digits = |most: usize| -> String {
        let count = random.between(1, most);
        (0..count)
            .map(|_| char::from(b'0' + random.below(10) as u8))
            .collect()
    };
    let (whole, fraction) = if digits(1).as_str() < "3" {
        (digits(10), digits(8))
    } else {
        (digits(2), digits(1))
    };
    let sign = random.pick(&["", "-"]);
    let size = random.pick(&[0, 1, 2, 5, 10, 20, 21, 22, 23, 24, 25, 999, 1000]);
    let zeros = random.pick(&["", "", "", "0", "00", "000"]);
    let exponent = match random.below(6) {
        0 => format!("e{zeros}{size}"),
        1 => format!("E+{zeros}{size}"),
        2 => format!("e-{zeros}{size}"),
        _ => String::new(),
    };
    format!("{sign}{whole}.{fraction}{exponent}")
}

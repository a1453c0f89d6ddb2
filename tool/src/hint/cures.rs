//! What may be meant by a word of another language, or by one that is nearly right.

/// The functions of the language.
const FUNCTIONS: [&str; 15] = [
    "int32",
    "int64",
    "real64",
    "string",
    "opaque",
    "nan",
    "require",
    "size",
    "fold-case",
    "begins-with",
    "contains",
    "ends-with",
    "equals",
    "wildcard",
    "regex",
];

/// Functions of other languages, in small letters and without - and _, with what they are here.
const FUNCTIONS_ELSEWHERE: [(&str, &str); 30] = [
    ("startswith", "begins-with"),
    ("hasprefix", "begins-with"),
    ("prefix", "begins-with"),
    ("hassuffix", "ends-with"),
    ("suffix", "ends-with"),
    ("endswith", "ends-with"),
    ("beginswith", "begins-with"),
    ("includes", "contains"),
    ("substr", "contains"),
    ("instr", "contains"),
    ("lower", "fold-case"),
    ("lowercase", "fold-case"),
    ("tolower", "fold-case"),
    ("casefold", "fold-case"),
    ("len", "size"),
    ("length", "size"),
    ("strlen", "size"),
    ("count", "size"),
    ("exists", "require"),
    ("defined", "require"),
    ("present", "require"),
    ("has", "require"),
    ("isnan", "nan"),
    ("like", "wildcard"),
    ("glob", "wildcard"),
    ("match", "regex"),
    ("matches", "regex"),
    ("regexp", "regex"),
    ("in", "equals"),
    ("eq", "equals"),
];

/// Operators of other languages in words, with what they are here.
const OPERATORS_ELSEWHERE: [(&str, &str); 18] = [
    ("and", "and is written &&"),
    ("or", "or is written ||"),
    ("xor", "one of the two and not both is written ^^"),
    (
        "not",
        "not is written !, and takes what follows directly: ! (..)",
    ),
    ("in", "one of several values is written equals (a, 1, 2)"),
    (
        "like",
        "a pattern is written wildcard (a, \"T-*\"), with * for any characters and ? for one",
    ),
    (
        "ilike",
        "a pattern is written wildcard (fold-case (a), \"t-*\")",
    ),
    (
        "matches",
        "an expression is written regex (a, \"^T-[0-9]+$\")",
    ),
    (
        "regexp",
        "an expression is written regex (a, \"^T-[0-9]+$\")",
    ),
    (
        "is",
        "equality is written ==, and require (a) asks for a field",
    ),
    ("eq", "equality is written =="),
    ("ne", "unequal is written !="),
    ("lt", "less is written <"),
    ("le", "at most is written <="),
    ("gt", "greater is written >"),
    ("ge", "at least is written >="),
    ("mod", "a remainder is written %"),
    ("between", "a value between two is written a >= 1 && a <= 9"),
];

fn small(word: &str) -> String {
    word.to_ascii_lowercase().replace(['-', '_'], "")
}

/// What is said of a function that there is not.
pub fn function(name: &str) -> String {
    let shown = crate::report::line(name);
    if let Some(cure) = operator(name.as_bytes()).filter(|_| !name.eq_ignore_ascii_case("in")) {
        return format!("there is no function {shown}; {cure}");
    }
    match elsewhere(name).or_else(|| nearest(name, FUNCTIONS.into_iter())) {
        Some(here) => format!("there is no function {shown}; did you mean {here}?"),
        None => format!(
            "there is no function {shown}; there are {}",
            FUNCTIONS.join(", ")
        ),
    }
}

/// What is said of a word that is an operator of another language.
pub fn operator(word: &[u8]) -> Option<&'static str> {
    let word = std::str::from_utf8(word).ok()?.to_ascii_lowercase();
    let found = OPERATORS_ELSEWHERE.iter().find(|(other, _)| *other == word);
    found.map(|(_, cure)| *cure)
}

/// What is said of a function whose arguments are not in parentheses behind it.
pub fn without_parentheses(word: &[u8]) -> Option<String> {
    let word = std::str::from_utf8(word).ok()?;
    let here = FUNCTIONS.iter().find(|f| small(f) == small(word));
    let function = here.copied().or_else(|| elsewhere(word))?;
    Some(format!(
        "a function stands before its arguments, which are in parentheses: {function} (a{})",
        if takes_more(function) { ", .." } else { "" }
    ))
}

/// Whether a function takes more than one argument.
fn takes_more(function: &str) -> bool {
    matches!(
        function,
        "begins-with" | "contains" | "ends-with" | "equals" | "wildcard" | "regex"
    )
}

/// What a function of another language is here.
fn elsewhere(word: &str) -> Option<&'static str> {
    let found = FUNCTIONS_ELSEWHERE
        .iter()
        .find(|(other, _)| *other == small(word));
    found.map(|(_, here)| *here)
}

/// What is said of an operator on bits beside a condition.
pub fn bits(operator: &[u8]) -> Option<&'static str> {
    match operator {
        b"&" => Some("& works on the bits of integers, and binds tighter than ==; and is written &&"),
        b"|" => Some("| works on the bits of integers, and binds tighter than ==; or is written ||"),
        b"^" => Some("^ works on the bits of integers, and binds tighter than ==; one of the two and not both is written ^^"),
        _ => None,
    }
}

/// What is said of a comparison that is compared.
pub fn between(operator: &str) -> &'static str {
    match operator {
        "<" | "<=" | ">" | ">=" => "; for a value between two write a < b && b < c",
        "==" | "!=" => "; join two comparisons by && or ||",
        _ => "",
    }
}

/// The one of some words that a word is nearly.
pub fn nearest<'a>(word: &str, words: impl Iterator<Item = &'a str>) -> Option<&'a str> {
    let far = |other: &&str| distance(small(word).as_bytes(), small(other).as_bytes());
    let most = match word.chars().count() {
        0..=2 => 0,
        3..=5 => 1,
        _ => 2,
    };
    words
        .map(|other| (far(&other), other))
        .filter(|(n, _)| *n <= most)
        .min_by_key(|(n, _)| *n)
        .map(|(_, other)| other)
}

/// How many bytes must be put in, left out, changed or swapped with the next to make one of the other.
fn distance(one: &[u8], other: &[u8]) -> usize {
    let mut rows: Vec<Vec<usize>> = vec![(0..=other.len()).collect()];
    for (i, a) in one.iter().enumerate() {
        let mut row = vec![i + 1];
        for (j, b) in other.iter().enumerate() {
            let changed = rows[i][j] + usize::from(a != b);
            let mut least = changed.min(rows[i][j + 1] + 1).min(row[j] + 1);
            if i > 0 && j > 0 && one[i - 1] == *b && other[j - 1] == *a {
                least = least.min(rows[i - 1][j - 1] + 1);
            }
            row.push(least);
        }
        rows.push(row);
    }
    rows[one.len()][other.len()]
}

#[cfg(test)]
mod tests {
    use super::*;

    #[test]
    fn distances() {
        for (one, other, far) in [
            ("size", "size", 0),
            ("sise", "size", 1),
            ("chekc", "check", 1),
            ("", "abc", 3),
            ("abc", "", 3),
            ("kitten", "sitting", 3),
        ] {
            assert_eq!(
                distance(one.as_bytes(), other.as_bytes()),
                far,
                "{one} {other}"
            );
        }
    }

    #[test]
    fn near_misses() {
        for (word, meant) in [
            ("sise", "did you mean size?"),
            ("Size", "did you mean size?"),
            ("begins_with", "did you mean begins-with?"),
            ("startsWith", "did you mean begins-with?"),
            ("toLower", "did you mean fold-case?"),
            ("exists", "did you mean require?"),
            ("regexp", "regex (a"),
            ("not", "! (..)"),
            ("IN", "did you mean equals?"),
            ("wildcrad", "did you mean wildcard?"),
            ("decompose", "there are int32, "),
            ("f", "there are int32, "),
        ] {
            assert!(function(word).contains(meant), "{word}: {}", function(word));
        }
        for name in FUNCTIONS {
            assert_eq!(nearest(name, FUNCTIONS.into_iter()), Some(name));
        }
    }
}

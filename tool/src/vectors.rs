//! The texts of tests/vectors, for tests.
use std::fs;
use std::path::Path;
use virentolex::Edition;

/// The bytes of a word in hex, `-` being none.
fn bytes(word: &str) -> Vec<u8> {
    let pairs = word.as_bytes().chunks_exact(2);
    let digit = |b: u8| char::from(b).to_digit(16).unwrap_or(0) as u8;
    pairs.map(|p| 16 * digit(p[0]) + digit(p[1])).collect()
}

fn lines(file: &str) -> Vec<Vec<String>> {
    let folder = Path::new(env!("CARGO_MANIFEST_DIR")).join("../tests/vectors");
    let text = fs::read_to_string(folder.join(file)).unwrap();
    let words = |line: &str| line.split(' ').map(String::from).collect();
    text.lines().map(words).collect()
}

/// The texts that are translated, with their editions.
pub fn texts() -> Vec<(Edition, Vec<u8>)> {
    let mut texts = Vec::new();
    for file in ["translate.txt", "01-translate.txt"] {
        texts.extend(lines(file).iter().map(|w| (Edition::First, bytes(&w[0]))));
    }
    for file in ["09-translate.txt", "13-translate.txt", "10-more.txt"] {
        for words in lines(file) {
            let edition = match words[0].as_str() {
                "1" => Edition::First,
                "2" => Edition::Second,
                _ => continue,
            };
            texts.push((edition, bytes(&words[1])));
        }
    }
    texts
}

/// Patterns of `wildcard`, or of `regex`, and whether each is well-formed.
pub fn patterns(file: &str) -> Vec<(Vec<u8>, bool)> {
    lines(file)
        .iter()
        .map(|words| (bytes(&words[0]), words[2] == "1"))
        .collect()
}

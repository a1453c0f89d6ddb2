//! Texts: valid ones by the grammar, short, long and near each limit; damaged ones; bytes of no shape.

use crate::about::About;
use crate::expressions::{number, quoted, tokens, Tokens, ARITHMETIC, COMPARISONS, LOGIC, MATCHES};
use crate::random::Random;

/// Any text, to be run on the notice.
pub fn text(random: &mut Random, about: &About) -> Vec<u8> {
    match random.below(24) {
        0 => {
            let length = random.below(40);
            random.bytes(length)
        }
        1 => soup(random),
        2 | 3 => near_limits(random),
        4 => nested(random),
        5 => with_odd_call(random, about),
        6..=10 => {
            let text = valid(random, about);
            damaged(random, text)
        }
        11..=13 => damaged_tokens(random, about),
        _ => valid(random, about),
    }
}

/// A text that keeps grammar, forms and kinds, and most often the sizes too.
pub fn valid(random: &mut Random, about: &About) -> Vec<u8> {
    match random.below(16) {
        0 => many_entries(random),
        1 => high_stack(random),
        2 => long(random, about),
        3..=8 => tokens_joined(random, about, 3, 2),
        9..=13 => tokens_joined(random, about, 9, 4),
        _ => tokens_joined(random, about, 30, 9),
    }
}

fn tokens_joined(random: &mut Random, about: &About, size: usize, deep: usize) -> Vec<u8> {
    let tokens = tokens(random, about, size, deep);
    join(random, &tokens)
}

/// Whether two tokens would run together without whitespace between them.
fn run_together(left: &[u8], right: &[u8]) -> bool {
    let number = left.len() > 1 && left[0] == b'-' && left[1].is_ascii_digit();
    let word = left
        .first()
        .is_some_and(|byte| byte.is_ascii_alphanumeric() || b"_\\".contains(byte));
    let minus = left == b"-" && right.first().is_some_and(u8::is_ascii_digit);
    (word || number) && !matches!(right.first(), Some(b'(' | b')' | b',')) || minus
}

/// The text of the tokens, with whitespace where it must be and by chance elsewhere.
fn join(random: &mut Random, tokens: &[Vec<u8>]) -> Vec<u8> {
    let roomy = random.once_in(2);
    let mut text = Vec::new();
    for (at, token) in tokens.iter().enumerate() {
        let needed = at > 0 && run_together(&tokens[at - 1], token);
        if needed || random.once_in(if roomy { 2 } else { 12 }) {
            text.extend(
                random
                    .pick(&[" ", " ", " ", "\t", "\n", "\r", " \r\n"])
                    .bytes(),
            );
        }
        text.extend(token);
    }
    text
}

/// Sums, differences and chains of comparisons with about 512 entries.
fn many_entries(random: &mut Random) -> Vec<u8> {
    let (first, each, last, count) = match random.below(4) {
        0 => ("a", " + a", " == b", random.between(250, 257)),
        1 => ("n1", " - n1", " < n2", random.between(250, 257)),
        2 => ("a == b", " ^^ a == b", "", random.between(125, 130)),
        _ => (
            "a == b",
            random.pick(&[" && a == b", " || n1 == n2"]),
            "",
            random.between(100, 105),
        ),
    };
    let more = random.pick(&["", "~ ", "~~"]);
    [more, first, &each.repeat(count - 1), last]
        .concat()
        .into_bytes()
}

/// Operands that wait on the stack, about 32 of them.
fn high_stack(random: &mut Random) -> Vec<u8> {
    let mut open = String::new();
    let mut close = 0;
    let waiting = random.between(28, 33);
    let steps = ["n1 + ", "n2 * ", "i1 | ", "i2 ^ ", "Op & ", "n3 << ", "( "];
    let mut at = random.below(6);
    let mut count = 0;
    while count < waiting {
        open.push_str(steps[at]);
        close += usize::from(at == 6);
        count += usize::from(at < 6);
        at = if at == 6 { random.below(3) } else { at + 1 };
    }
    let value = open + "n1" + &" )".repeat(close);
    let tail = random.pick(&[" == n2", " < r1 || int32 (a)", " != 1 && a == b"]);
    let head = random.pick(&["", "int32 (a) ^^ ", "a == "]);
    [head, &value, if head == "a == " { "" } else { tail }]
        .concat()
        .into_bytes()
}

/// A text of about 4,096 bytes: a valid one with a long string or whitespace.
fn long(random: &mut Random, about: &About) -> Vec<u8> {
    let target = random.pick(&[4094, 4095, 4096, 4096, 4096, 4097, 3000]);
    let text = tokens_joined(random, about, 9, 4);
    let room = target - text.len().min(target);
    let mut long = match random.below(3) {
        0 => {
            let string = vec![random.pick(b"aB \xff"); room.saturating_sub(10)];
            [b"s1 != '", &string[..], b"'||", &text].concat()
        }
        _ => text,
    };
    long.resize(target.max(long.len()), random.pick(b" \t\r\n"));
    long
}

/// Parentheses and rows of prefix operators, about 24 deep.
fn nested(random: &mut Random) -> Vec<u8> {
    let deep = random.between(22, 26);
    let close = if random.once_in(4) {
        random.below(27)
    } else {
        deep
    };
    let row = random.between(22, 26);
    let open = random.pick(&["(", "( ", "!(", "size(", "a == (", "a == b && ("]);
    match random.below(4) {
        0 => ["!".repeat(row), "int32(a)".into()].concat().into_bytes(),
        1 => [
            "~ ".repeat(row),
            "n1 == ".into(),
            "~".repeat(row % 24),
            "n1".into(),
        ]
        .concat()
        .into_bytes(),
        2 => [
            "!~".repeat(row / 2),
            ") !".repeat(row % 3),
            "(a)".repeat(row),
        ]
        .concat()
        .into_bytes(),
        _ => [open.repeat(deep), "a == b".into(), ")".repeat(close)]
            .concat()
            .into_bytes(),
    }
}

/// Numbers at their limits, on both sides.
const LIMITS: &str =
    "2147483647 2147483648 -2147483648 -2147483649 9223372036854775807L 9223372036854775808l \
    -9223372036854775808L -9223372036854775809L 0x7fffffff 0x80000000 -0x80000000 0xffffffffL \
    0x8000000000000000L -0x8000000000000000L 017777777777 020000000000 0777777777777777777777L \
    01000000000000000000000L 00 09 0x 0xg 1.0e23 1.0e24 123456789012345.6 12345678901234.5 0.0e22 \
    0.0000000000000000000001 0.00000000000000000000001 1.5e-21 1. 1e5 000123456789012345.0 \
    340282366920938463463374607431768211456";

/// Numbers and names near their limits, alone in a comparison.
fn near_limits(random: &mut Random) -> Vec<u8> {
    let edge = match random.below(3) {
        0 => String::from_utf8_lossy(&vec![b'n'; random.between(62, 66)]).into_owned(),
        1 => number(random),
        _ => word_of(random, LIMITS).to_string(),
    };
    let text = format!(
        "{edge}{}{}{edge}",
        random.pick(&[" ", "\t", ""]),
        random.pick(&["== ", "<=", "- "])
    );
    let text = text.into_bytes();
    if random.once_in(3) {
        damaged(random, text)
    } else {
        text
    }
}

/// Calls and operators with a wrong name, count, form or kind, and one that is right.
const ODD: &str = r#"int32() int32(a,b) int32((a)) int32(1) size("a")==1 wildcard(a) wildcard(a,b)
    wildcard((a),'*') wildcard('a','*') Wildcard(a,'*') wild\card(a,'*') wildcard(a,'[') regex(a,'b') Int32(a)
    regex(a) regex(a,b) regex((a),'b') regex('a','b') Regex(a,'b') reg\ex(a,'b') regex(a,'*') decompose(a,'b')
    int\32(a) begins-with(a) begins-with('a','b') contains((s1),'a') ends-with(a,b)
    contains(a,'1','2','3','4','5','6','7','8','9') equals(a) equals(1,2)
    equals(a,1,2,3,4,5,6,7,8,9) equals(a,b==1) equals(a,(b)) fold-case()=='' fold-case(1)==''
    fold-case((a))=='' size(a) !a ~(a==b)==1 begins-with(fold\-case(a),'')"#;

/// One of the words of a list.
fn word_of<'a>(random: &mut Random, list: &'a str) -> &'a str {
    let words: Vec<&str> = list.split_whitespace().collect();
    random.pick(&words)
}

/// A call with 8 literals or values, which is right, or with 9.
fn full_call(random: &mut Random) -> Vec<u8> {
    let function = random.pick(&[&MATCHES[..], &["equals", "wildcard", "regex"]].concat());
    let mut call = format!("{function}(s1").into_bytes();
    for at in 0..random.pick(&[8, 9]) {
        call.push(b',');
        match function {
            "equals" => call.extend(at.to_string().bytes()),
            "regex" => call.extend(quoted(random, &b"abc"[at % 3..])),
            _ => call.extend(quoted(random, &b"abc"[..at % 4])),
        }
    }
    call.push(b')');
    call
}

/// One of the odd calls, alone or beside a valid text.
fn with_odd_call(random: &mut Random, about: &About) -> Vec<u8> {
    if random.once_in(3) {
        return full_call(random);
    }
    let odd = word_of(random, ODD).as_bytes().to_vec();
    let text = tokens_joined(random, about, 3, 2);
    let (left, right) = match random.below(3) {
        0 => (odd, text),
        1 => (text, odd),
        _ => return odd,
    };
    [
        &left[..],
        random.pick(&[" && ", " || ", " == ", " , "]).as_bytes(),
        &right,
    ]
    .concat()
}

/// Tokens in no order.
fn soup(random: &mut Random) -> Vec<u8> {
    const OTHER: [&str; 14] = [
        "(", ")", ",", "(", ")", ",", "!", "~", "a", "f", "size", "1", "'s'", "equals",
    ];
    let mut tokens: Tokens = Vec::new();
    for _ in 0..random.between(0, 12) {
        let token = match random.below(4) {
            0 => random.pick(&ARITHMETIC),
            1 => random.pick(&[LOGIC.as_slice(), &COMPARISONS].concat()),
            _ => random.pick(&OTHER),
        };
        tokens.push(token.as_bytes().to_vec());
    }
    join(random, &tokens)
}

/// A valid text with tokens left out, doubled, swapped or changed for others.
fn damaged_tokens(random: &mut Random, about: &About) -> Vec<u8> {
    let mut tokens = tokens(random, about, 6, 3);
    for _ in 0..random.between(1, 2) {
        let at = random.below(tokens.len());
        match random.below(5) {
            0 if tokens.len() > 1 => drop(tokens.remove(at)),
            1 => tokens.insert(at, tokens[at].clone()),
            2 => {
                let other = random.below(tokens.len());
                tokens.swap(at, other);
            }
            3 => tokens.truncate(at + 1),
            _ => {
                tokens[at] = random
                    .pick(&["(", ")", ",", "!", "~", "+", "&&", "==", "a", "1", "'s'"])
                    .into()
            }
        }
    }
    join(random, &tokens)
}

/// Bytes changed, left out, put in or cut off.
pub fn damaged(random: &mut Random, mut bytes: Vec<u8>) -> Vec<u8> {
    for _ in 0..random.between(1, 3) {
        let at = random.below(bytes.len() + 1);
        let byte = match random.below(3) {
            0 => random.byte(),
            _ => random.pick(b" ()[]'\"\\,=!~&|^<>-+*/%.0123456789xXlLeEaZ_\t\n\x7f\x80"),
        };
        match random.below(8) {
            0 => bytes.truncate(at),
            1 | 2 => bytes.insert(at, byte),
            3 | 4 if at < bytes.len() => drop(bytes.remove(at)),
            _ if at < bytes.len() => bytes[at] = byte,
            _ => bytes.push(byte),
        }
    }
    bytes
}

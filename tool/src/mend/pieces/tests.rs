use super::*;
use crate::random::Random;
use std::io::Cursor;
use virentolex::{Notice, Value};

fn pieces(bytes: &[u8]) -> Vec<(usize, Vec<u8>)> {
    let mut pieces = Pieces::new(Box::new(Cursor::new(bytes.to_vec())));
    let mut found = Vec::new();
    while let Some(piece) = pieces.next().unwrap() {
        found.push(piece);
    }
    found
}

const OP42: &[u8] = b"\x0f\0\0\0\x01\0\x01\0\x09\0\x01\0\x02Op\x2a\0\0\0";
const EMPTY: &[u8] = b"\x04\0\0\0\x01\0\0\0";

/// The parts that the bytes fall into.
fn parted(parts: &[&[u8]]) {
    let found = pieces(&parts.concat());
    let mut start = 0;
    for ((at, bytes), part) in found.iter().zip(parts) {
        assert_eq!((*at, bytes.len()), (start, part.len()));
        assert!(bytes == part);
        start += part.len();
    }
    assert_eq!(found.len(), parts.len());
}

#[test]
fn notices_are_parted_by_their_lengths() {
    parted(&[OP42]);
    parted(&[OP42, EMPTY, EMPTY, OP42]);
    // the first field's length passes the notice's end
    let mut long = OP42.to_vec();
    long[8] = 200;
    parted(&[&long, OP42, &long, EMPTY]);
    let cut = &OP42[..12];
    parted(&[OP42, cut]);
}

#[test]
fn a_length_that_is_wrong_is_not_believed() {
    for length in [0, 3, 14, 16, 200, 60_000] {
        let mut wrong = OP42.to_vec();
        wrong[..2].copy_from_slice(&u16::to_le_bytes(length));
        parted(&[&wrong]);
        parted(&[&wrong, OP42]);
        parted(&[OP42, &[&EMPTY[..6], &[1, 0], &OP42[8..]].concat(), EMPTY]);
    }
    let header: &[u8] = &[0; 8];
    parted(&[&[header, &OP42[8..]].concat(), EMPTY]);
}

/// A wrong length, and a field that passes the end: the next notice is found by its own length.
#[test]
fn a_notice_behind_a_cut_field() {
    let cut: &[u8] = b"\xff\0\0\0\x01\0\x01\0\x0b\0\x04\0\x05Staff502\x09\0\x04\0";
    parted(&[OP42, cut, EMPTY]);
    parted(&[cut, OP42, EMPTY, cut, OP42]);
}

/// A header that is none, behind a notice that is right; but a field there is one more of that notice.
#[test]
fn what_follows_a_right_notice() {
    let bad: &[u8] = b"\xff\xff\0\0\x07\0\x09\0";
    parted(&[OP42, &[bad, &OP42[8..]].concat()]);
    parted(&[OP42, EMPTY, bad]);
    parted(&[OP42, &[&[0; 8], &OP42[8..]].concat()]);
    parted(&[&[OP42, &OP42[8..]].concat(), EMPTY]);
    parted(&[&[EMPTY, &OP42[8..], &OP42[8..]].concat()]);
}

#[test]
fn what_is_no_header_parts_nothing() {
    let mut wrong = OP42.to_vec();
    wrong[0] = 14;
    parted(&[b""]);
    parted(&[b"short"]);
    parted(&[&[OP42, b"abc"].concat()]);
    parted(&[&[OP42, &EMPTY[..7]].concat()]);
    parted(&[&[OP42, &[0; 40]].concat()]);
    parted(&[&[&wrong, &b"\x0f\0\0\0\x02\0\x01\0"[..]].concat()]);
    parted(&[&[&wrong, &b"\x0f\0\0\0\x01\0\x41\0"[..]].concat()]);
    parted(&[&[&wrong, &b"\x02\0\0\0\x01\0\x01\0"[..]].concat()]);
}

/// What is longer than a notice, with no end in sight, is given up.
#[test]
fn an_input_without_end() {
    let mut pieces = Pieces::new(Box::new(io::repeat(0)));
    assert_eq!(pieces.next().unwrap(), Some((0, vec![0; WINDOW])));
    assert_eq!(pieces.next().unwrap(), None);
}

/// The longest notices, more than the window holds.
#[test]
fn long_notices_follow_one_another() {
    let mut notice = Notice::new();
    let value = [b'x'; 1024];
    for k in 0..15 {
        notice
            .insert(format!("{k:03}"), Value::String(&value))
            .unwrap();
    }
    let rest = NOTICE_MAX - notice.as_bytes().len() - 8;
    notice.insert("016", Value::String(&value[..rest])).unwrap();
    let longest = notice.as_bytes();
    assert_eq!(longest.len(), NOTICE_MAX);
    parted(&[longest]);
    parted(&[longest, longest, OP42, longest]);
    let mut wrong = longest.to_vec();
    wrong[0] ^= 1;
    parted(&[&wrong, longest, &wrong]);
}

/// Fields spoiled at random: each notice is what it is by itself.
#[test]
fn spoiled_fields() {
    let mut random = Random::new(2);
    for _ in 0..2_000 {
        let parts: Vec<Vec<u8>> = (0..1 + random.below(5))
            .map(|_| {
                let mut notice = Notice::new();
                for name in ["a", "bb", "ccc"] {
                    let count = random.below(9);
                    let bytes = random.bytes(count);
                    notice.insert(name, Value::String(&bytes)).unwrap();
                }
                let mut bytes = notice.into_bytes();
                for _ in 0..random.below(4) {
                    let at = HEAD + random.below(bytes.len() - HEAD);
                    bytes[at] = random.below(256) as u8;
                }
                bytes
            })
            .collect();
        parted(&parts.iter().map(Vec::as_slice).collect::<Vec<_>>());
    }
}

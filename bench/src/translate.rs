//! Text to table as an expert would write it for speed: one pass that makes tokens with their values, one
//! recursive descent over them that judges and writes entries and pool into local buffers, and two copies.

use crate::{regex, wildcard};
use std::mem::MaybeUninit;

const NAME: u8 = 5;
const OPEN: u8 = 9;
const CLOSE: u8 = 10;
const COMMA: u8 = 11;
const END: u8 = 99;

// classes of bytes
const SPACE: u8 = 1;
const DELIMITER: u8 = 2;
const STARTS_NAME: u8 = 4;
const PLAIN: u8 = 8;
const DIGIT: u8 = 16;

const fn classes() -> [u8; 256] {
    let mut t = [0u8; 256];
    let mut i = 0;
    while i < 256 {
        let b = i as u8;
        let mut c = 0;
        if matches!(b, b' ' | b'\t' | b'\n' | b'\r') {
            c |= SPACE | DELIMITER;
        }
        if matches!(b, b'(' | b')' | b',') {
            c |= DELIMITER;
        }
        if b.is_ascii_alphabetic() || b == b'_' || b == b'\\' {
            c |= STARTS_NAME;
        }
        if b > 32 && b < 127 && !matches!(b, b'[' | b']' | b'\'' | b'"') {
            c |= PLAIN;
        }
        if b.is_ascii_digit() {
            c |= DIGIT;
        }
        t[i] = c;
        i += 1;
    }
    t
}

static CLASS: [u8; 256] = classes();

#[inline(always)]
fn is(b: u8, class: u8) -> bool {
    CLASS[b as usize] & class != 0
}

/// The level of each kind; 11 for a kind that is no binary operator.
const fn ranks() -> [u8; 256] {
    let mut t = [11u8; 256];
    t[16] = 10;
    t[17] = 10;
    t[18] = 10;
    t[19] = 9;
    t[20] = 8;
    t[21] = 7;
    t[22] = 6;
    t[23] = 6;
    t[24] = 6;
    t[25] = 5;
    t[26] = 5;
    t[34] = 4;
    t[35] = 4;
    t[36] = 4;
    t[37] = 4;
    t[32] = 3;
    t[33] = 3;
    t[41] = 2;
    t[42] = 1;
    t[43] = 0;
    t
}

static RANK: [u8; 256] = ranks();

/// A token: its kind, its start, and its value: an integer, a real's bits, or for a name or string the place and
/// length of its raw bytes, its length without escapes and whether it has any.
#[derive(Clone, Copy)]
struct Token {
    value: u64,
    start: u16,
    kind: u8,
}

fn part(at: usize, raw: usize, len: usize) -> u64 {
    (at as u64) << 32 | (raw as u64) << 16 | len as u64
}

// ---- tokens

/// What stands at `at`: kind, value, end; or a refusal's number.
#[inline(always)]
fn scan(s: &[u8], at: usize) -> Result<(u8, u64, usize), u8> {
    let a = s[at];
    if is(a, STARTS_NAME) {
        return name(s, at);
    }
    if is(a, DIGIT) || (a == b'-' && at + 1 < s.len() && is(s[at + 1], DIGIT)) {
        return number(s, at);
    }
    if a == b'"' || a == b'\'' {
        return string(s, at, a);
    }
    let b = if at + 1 < s.len() { s[at + 1] } else { 0 };
    let (kind, len) = match (a, b) {
        (b'=', b'=') => (32, 2),
        (b'!', b'=') => (33, 2),
        (b'<', b'=') => (35, 2),
        (b'>', b'=') => (37, 2),
        (b'<', b'<') => (16, 2),
        (b'>', b'>') if at + 2 < s.len() && s[at + 2] == b'>' => (18, 3),
        (b'>', b'>') => (17, 2),
        (b'&', b'&') => (41, 2),
        (b'^', b'^') => (42, 2),
        (b'|', b'|') => (43, 2),
        (b'~', _) => (8, 1),
        (b'(', _) => (OPEN, 1),
        (b')', _) => (CLOSE, 1),
        (b',', _) => (COMMA, 1),
        (b'&', _) => (19, 1),
        (b'^', _) => (20, 1),
        (b'|', _) => (21, 1),
        (b'*', _) => (22, 1),
        (b'/', _) => (23, 1),
        (b'%', _) => (24, 1),
        (b'+', _) => (25, 1),
        (b'-', _) => (26, 1),
        (b'<', _) => (34, 1),
        (b'>', _) => (36, 1),
        (b'!', _) => (40, 1),
        _ => return Err(1),
    };
    Ok((kind, 0, at + len))
}

#[inline(always)]
fn name(s: &[u8], at: usize) -> Result<(u8, u64, usize), u8> {
    let mut i = at;
    let mut escapes = 0;
    let mut legal = true;
    while i < s.len() {
        let b = s[i];
        if is(b, DELIMITER) {
            break;
        }
        if b == b'\\' {
            escapes += 1;
            i += 1;
            if i == s.len() {
                return Err(1);
            }
            legal &= s[i].wrapping_sub(32) <= 94;
        } else {
            legal &= is(b, PLAIN);
        }
        i += 1;
    }
    if !legal {
        return Err(1);
    }
    let raw = i - at;
    if raw - escapes > 64 {
        return Err(3);
    }
    Ok((NAME, part(at, raw, raw - escapes), i))
}

#[inline(always)]
fn string(s: &[u8], at: usize, quote: u8) -> Result<(u8, u64, usize), u8> {
    let mut i = at + 1;
    let mut escapes = 0;
    while i < s.len() {
        let b = s[i];
        if b == quote {
            let raw = i - at - 1;
            return Ok((4, part(at + 1, raw, raw - escapes), i + 1));
        }
        if b == b'\\' {
            escapes += 1;
            i += 1;
        }
        i += 1;
    }
    Err(1)
}

#[inline(always)]
fn ends(s: &[u8], i: usize) -> bool {
    i == s.len() || is(s[i], DELIMITER)
}

fn number(s: &[u8], at: usize) -> Result<(u8, u64, usize), u8> {
    let negative = s[at] == b'-';
    let first = at + negative as usize;
    // digits as a decimal number, with a mark where they pass 64 bits
    let mut i = first;
    let mut v: u64 = 0;
    let mut over = false;
    while i < s.len() && is(s[i], DIGIT) {
        let (m, o) = v.overflowing_mul(10);
        let (m, p) = m.overflowing_add((s[i] - b'0') as u64);
        over |= o | p;
        v = m;
        i += 1;
    }
    if i < s.len() && s[i] == b'.' {
        return real(s, negative, i, v, over);
    }
    if s[first] == b'0' {
        over = false;
        v = 0;
        if first + 1 < s.len() && s[first + 1] == b'x' {
            i = first + 2;
            let from = i;
            while i < s.len() && s[i].is_ascii_hexdigit() {
                over |= v >> 60 != 0;
                v = v << 4 | (s[i] as char).to_digit(16).unwrap() as u64;
                i += 1;
            }
            if i == from {
                return Err(1);
            }
        } else {
            i = first;
            while i < s.len() && (b'0'..=b'7').contains(&s[i]) {
                over |= v >> 61 != 0;
                v = v << 3 | (s[i] - b'0') as u64;
                i += 1;
            }
        }
    }
    let long = i < s.len() && (s[i] | 32) == b'l';
    let end = i + long as usize;
    if !ends(s, end) {
        return Err(1);
    }
    let half = if long { 1u64 << 63 } else { 1u64 << 31 };
    if over || v > half || (v == half && !negative) {
        return Err(3);
    }
    let value = if negative { v.wrapping_neg() } else { v };
    Ok((1 + long as u8, value, end))
}

const POWERS: [f64; 23] = [
    1e0, 1e1, 1e2, 1e3, 1e4, 1e5, 1e6, 1e7, 1e8, 1e9, 1e10, 1e11, 1e12, 1e13, 1e14, 1e15, 1e16,
    1e17, 1e18, 1e19, 1e20, 1e21, 1e22,
];

/// From the point on; `v` is the whole part.
fn real(
    s: &[u8],
    negative: bool,
    point: usize,
    v: u64,
    over: bool,
) -> Result<(u8, u64, usize), u8> {
    let mut v = v;
    let mut over = over;
    let mut i = point + 1;
    while i < s.len() && is(s[i], DIGIT) {
        let (m, o) = v.overflowing_mul(10);
        let (m, p) = m.overflowing_add((s[i] - b'0') as u64);
        over |= o | p;
        v = m;
        i += 1;
    }
    let fraction = i - point - 1;
    if fraction == 0 {
        return Err(1);
    }
    let mut exponent: i64 = 0;
    let mut long = false;
    if i < s.len() && (s[i] | 32) == b'e' {
        i += 1;
        let down = i < s.len() && s[i] == b'-';
        if down || (i < s.len() && s[i] == b'+') {
            i += 1;
        }
        let from = i;
        while i < s.len() && is(s[i], DIGIT) {
            if i - from < 4 {
                exponent = exponent * 10 + (s[i] - b'0') as i64;
            }
            i += 1;
        }
        if i == from {
            return Err(1);
        }
        long = i - from > 3;
        if down {
            exponent = -exponent;
        }
    }
    if !ends(s, i) {
        return Err(1);
    }
    let e = exponent - fraction as i64;
    if long || over || v >= 1_000_000_000_000_000 || !(-22..=22).contains(&e) {
        return Err(3);
    }
    let x = if e < 0 {
        v as f64 / POWERS[-e as usize]
    } else {
        v as f64 * POWERS[e as usize]
    };
    let x = if negative { -x } else { x };
    Ok((3, x.to_bits(), i))
}

// ---- parsing and writing

#[derive(Clone, Copy, PartialEq)]
enum Form {
    Name,
    Text,
    Fold,
    Other,
}

struct Parser<'a> {
    text: &'a [u8],
    tokens: &'a [MaybeUninit<Token>],
    next: usize,
    entries: [MaybeUninit<u8>; 6144],
    count: usize,
    pool: [MaybeUninit<u8>; 4096],
    pool_len: usize,
    depth: usize,
    most: usize,
    forms: bool,
    patterns: bool,
    kinds: bool,
}

/// The form of an expression as an argument, and whether it is logic; or the token that cannot go on.
type Parsed = Result<(Form, bool), usize>;

impl Parser<'_> {
    #[inline(always)]
    fn token(&self, i: usize) -> Token {
        // SAFETY: every token up to the length and one of kind END were written
        unsafe { self.tokens.get_unchecked(i).assume_init() }
    }

    #[inline(always)]
    fn put_at(&mut self, i: usize, op: u16, a: u16, b: u64) {
        if i < 512 {
            // SAFETY: 512 entries of 12 bytes
            unsafe {
                let p = (self.entries.as_mut_ptr() as *mut u8).add(12 * i);
                (p as *mut u32).write_unaligned((op as u32 | (a as u32) << 16).to_le());
                (p.add(4) as *mut u64).write_unaligned(b.to_le());
            }
        }
    }

    #[inline(always)]
    fn put(&mut self, op: u16, a: u16, b: u64) {
        self.put_at(self.count, op, a, b);
        self.count += 1;
    }

    #[inline(always)]
    fn push(&mut self) {
        self.depth += 1;
        self.most = self.most.max(self.depth);
    }

    /// The pool's bytes from the place on.
    fn pooled(&self, start: usize) -> &[u8] {
        // SAFETY: the pool's bytes up to its length were written
        unsafe {
            let p = (self.pool.as_ptr() as *const u8).add(start);
            std::slice::from_raw_parts(p, self.pool_len - start)
        }
    }

    /// A name's or string's bytes to the pool; the entry.
    #[inline(always)]
    fn put_part(&mut self, t: Token) {
        let at = (t.value >> 32) as usize;
        let raw = (t.value >> 16) as usize & 0xffff;
        let len = t.value as usize & 0xffff;
        // SAFETY: the pool is no longer than the text, and the raw bytes lie in it
        unsafe {
            let mut p = (self.pool.as_mut_ptr() as *mut u8).add(self.pool_len);
            let mut from = self.text.as_ptr().add(at);
            if raw == len {
                std::ptr::copy_nonoverlapping(from, p, len);
            } else {
                let end = from.add(raw);
                while from < end {
                    if *from == b'\\' {
                        from = from.add(1);
                    }
                    *p = *from;
                    p = p.add(1);
                    from = from.add(1);
                }
            }
        }
        self.put(t.kind as u16, len as u16, self.pool_len as u64);
        self.pool_len += len;
    }

    fn level(&mut self, l: u8) -> Parsed {
        let mut left = self.prefix()?;
        loop {
            let k = self.token(self.next).kind;
            let r = RANK[k as usize];
            if r < l || r >= 11 {
                return Ok(left);
            }
            self.next += 1;
            let skip = self.count;
            let skips = k == 41 || k == 43;
            self.count += skips as usize;
            let right = self.level(r + 1)?;
            if skips {
                self.put_at(skip, 44 + (k == 43) as u16, (self.count - skip) as u16, 0);
            }
            self.put(k as u16, 0, 0);
            self.depth -= 1;
            self.kinds &= (left.1 == (k >= 40)) & (right.1 == (k >= 40));
            left = (Form::Other, k >= 32);
        }
    }

    fn prefix(&mut self) -> Parsed {
        let t = self.token(self.next);
        match t.kind {
            40 | 8 => {
                self.next += 1;
                let (_, logic) = self.prefix()?;
                self.put(t.kind as u16, 0, 0);
                self.kinds &= logic == (t.kind == 40);
                Ok((Form::Other, t.kind == 40))
            }
            1..=3 => {
                self.next += 1;
                self.put(t.kind as u16, 0, t.value);
                self.push();
                Ok((Form::Other, false))
            }
            4 => {
                self.next += 1;
                self.put_part(t);
                self.push();
                Ok((Form::Text, false))
            }
            NAME => {
                if self.token(self.next + 1).kind == OPEN {
                    return self.call(t);
                }
                self.next += 1;
                self.put_part(t);
                self.push();
                Ok((Form::Name, false))
            }
            OPEN => {
                self.next += 1;
                let (_, logic) = self.level(0)?;
                if self.token(self.next).kind != CLOSE {
                    return Err(self.next);
                }
                self.next += 1;
                Ok((Form::Other, logic))
            }
            _ => Err(self.next),
        }
    }

    fn call(&mut self, t: Token) -> Parsed {
        let at = (t.value >> 32) as usize;
        let raw = (t.value >> 16) as usize & 0xffff;
        let f: u8 = match &self.text[at..at + raw] {
            b"fold-case" => 6,
            b"size" => 7,
            b"int32" => 48,
            b"int64" => 49,
            b"real64" => 50,
            b"string" => 51,
            b"opaque" => 52,
            b"nan" => 53,
            b"require" => 54,
            b"begins-with" => 56,
            b"contains" => 57,
            b"ends-with" => 58,
            b"equals" => 59,
            b"wildcard" => 60,
            b"regex" => 61,
            _ => 0,
        };
        self.next += 2;
        let before = self.depth;
        let mut count = 0;
        let mut first = Form::Other;
        let mut texts = true;
        if self.token(self.next).kind == CLOSE {
            self.next += 1;
        } else {
            loop {
                let start = self.pool_len;
                let (form, logic) = self.level(0)?;
                self.kinds &= !logic;
                if count == 0 {
                    first = form;
                } else {
                    texts &= form == Form::Text;
                    if form == Form::Text {
                        self.patterns &= match f {
                            60 => wildcard::well_formed(self.pooled(start)),
                            61 => regex::well_formed(self.pooled(start)),
                            _ => true,
                        };
                    }
                }
                count += 1;
                let k = self.token(self.next).kind;
                if k != CLOSE && k != COMMA {
                    return Err(self.next);
                }
                self.next += 1;
                if k == CLOSE {
                    break;
                }
            }
        }
        self.forms &= match f {
            6 => count == 1 && first != Form::Other,
            7 | 48..=54 => count == 1 && first == Form::Name,
            56..=58 | 60 | 61 => {
                (2..=9).contains(&count) && texts && matches!(first, Form::Name | Form::Fold)
            }
            59 => (2..=9).contains(&count) && first == Form::Name,
            _ => false,
        };
        self.put(
            f as u16,
            if f >= 56 {
                (count as u16).wrapping_sub(1)
            } else {
                0
            },
            0,
        );
        self.depth = before;
        self.push();
        Ok((if f == 6 { Form::Fold } else { Form::Other }, f >= 32))
    }
}

/// Number, place and table length. A refusal changes no byte of the buffer. The editions' tables differ in their kinds (document 02, request 9).
pub fn translate(edition: usize, text: &[u8], out: &mut [u8]) -> (u8, usize, usize) {
    if edition != 1 && edition != 2 {
        return (25, 0, 0);
    }
    if text.len() > 4096 {
        return (10, 0, 0);
    }
    let mut tokens = [MaybeUninit::<Token>::uninit(); 4098];
    let mut n = 0;
    let mut at = 0;
    let (mut open, mut row, mut deep) = (0, 0, false);
    while at < text.len() {
        if is(text[at], SPACE) {
            at += 1;
            continue;
        }
        match scan(text, at) {
            Ok((kind, value, end)) => {
                tokens[n].write(Token {
                    value,
                    start: at as u16,
                    kind,
                });
                n += 1;
                at = end;
                row = if kind == 40 || kind == 8 { row + 1 } else { 0 };
                if kind == OPEN {
                    open += 1;
                } else if kind == CLOSE && open > 0 {
                    open -= 1;
                }
                deep |= open > 24 || row > 24;
            }
            Err(number) => return (number, at, 0),
        }
    }
    if deep {
        return (6, 0, 0);
    }
    let end = Token {
        value: 0,
        start: text.len() as u16,
        kind: END,
    };
    tokens[n].write(end);
    tokens[n + 1].write(end);
    let mut p = Parser {
        text,
        tokens: &tokens,
        next: 0,
        entries: [MaybeUninit::uninit(); 6144],
        count: 0,
        pool: [MaybeUninit::uninit(); 4096],
        pool_len: 0,
        depth: 0,
        most: 0,
        forms: true,
        patterns: true,
        kinds: true,
    };
    let logic = match p.level(0) {
        Ok((_, logic)) if p.next == n => logic,
        Ok(_) => return (2, p.token(p.next).start as usize, 0),
        Err(i) => return (2, p.token(i).start as usize, 0),
    };
    if !p.forms {
        return (4, 0, 0);
    }
    if !p.patterns {
        return (18, 0, 0);
    }
    if !p.kinds || !logic {
        return (5, 0, 0);
    }
    if p.count > 512 {
        return (7, 0, 0);
    }
    if p.most > 32 {
        return (8, 0, 0);
    }
    let len = 10 + 12 * p.count + p.pool_len;
    if out.len() < len {
        return (9, 0, 0);
    }
    out[0..4].copy_from_slice(&(len as u32 - 4).to_le_bytes());
    out[4..6].copy_from_slice(&(2 * edition as u16).to_le_bytes());
    out[6..8].copy_from_slice(&(p.count as u16).to_le_bytes());
    out[8..10].copy_from_slice(&(p.pool_len as u16).to_le_bytes());
    // SAFETY: as many bytes were written, and the buffer has room for them
    unsafe {
        let to = out.as_mut_ptr().add(10);
        std::ptr::copy_nonoverlapping(p.entries.as_ptr() as *const u8, to, 12 * p.count);
        std::ptr::copy_nonoverlapping(
            p.pool.as_ptr() as *const u8,
            to.add(12 * p.count),
            p.pool_len,
        );
    }
    (0, 0, len)
}

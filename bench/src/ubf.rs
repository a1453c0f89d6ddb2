//! UBF(A) texts (document 02, request 5) as an expert would read and write them: one pass over the text with the fields' parts
//! in an array of fixed size, a sort of small keys if names do not rise, and then copies. Nothing is allocated for a text that is a
//! notice. Quoted parts are searched by words of eight bytes. What is refused is judged anew, and slowly.

use std::mem::MaybeUninit;

const MOST: usize = 64;
const ONES: u64 = 0x0101_0101_0101_0101;
const HIGHS: u64 = 0x8080_8080_8080_8080;

/// A field's parts: a number, or where the value's bytes start. `key` is the name's first eight bytes, as they sort.
#[derive(Clone, Copy)]
struct Span {
    key: u64,
    value: u64,
    name: u32,
    /// bytes in the text, and in the notice
    raw_name: u16,
    name_len: u16,
    raw: u32,
    len: u32,
    kind: u16,
}

#[inline(always)]
fn word(s: &[u8], at: usize) -> u64 {
    debug_assert!(at + 8 <= s.len());
    // SAFETY: the caller has seen that eight bytes are there
    u64::from_le(unsafe { (s.as_ptr().add(at) as *const u64).read_unaligned() })
}

/// The high bit of each byte of the word that is b, and perhaps of some above the first such one.
#[inline(always)]
fn hits(w: u64, b: u8) -> u64 {
    let x = w ^ (ONES * b as u64);
    x.wrapping_sub(ONES) & !x & HIGHS
}

/// Where the delimiter or a backslash stands next, or the length.
#[inline(always)]
fn find(s: &[u8], mut i: usize, q: u8) -> usize {
    while i + 8 <= s.len() {
        let w = word(s, i);
        let hit = hits(w, q) | hits(w, b'\\');
        if hit != 0 {
            return i + (hit.trailing_zeros() / 8) as usize;
        }
        i += 8;
    }
    while i < s.len() && s[i] != q && s[i] != b'\\' {
        i += 1;
    }
    i
}

/// Where a quoted part that starts at i closes, and how many escapes it has.
#[inline(always)]
fn quoted(s: &[u8], mut i: usize, q: u8) -> Option<(usize, usize)> {
    let mut escapes = 0;
    loop {
        i = find(s, i, q);
        if *s.get(i)? == q {
            return Some((i, escapes));
        }
        let b = *s.get(i + 1)?;
        if b != q && b != b'\\' {
            return None;
        }
        escapes += 1;
        i += 2;
    }
}

/// The next place that is neither whitespace nor in a comment.
#[inline(always)]
fn blanks(s: &[u8], mut i: usize) -> Option<usize> {
    loop {
        match *s.get(i)? {
            b' ' | b'\t' | b'\n' | b'\r' => i += 1,
            b'%' => i = quoted(s, i + 1, b'%')?.0 + 1,
            _ => return Some(i),
        }
    }
}

/// Copies what stands with escapes in the text, run by run.
#[inline(always)]
fn unescape(out: &mut [u8], s: &[u8]) {
    let (mut from, mut at) = (0, 0);
    loop {
        let end = find(s, from, b'\\');
        out[at..at + end - from].copy_from_slice(&s[from..end]);
        at += end - from;
        if end == s.len() {
            return;
        }
        out[at] = s[end + 1];
        at += 1;
        from = end + 2;
    }
}

/// The name without escapes, in a room of 64 bytes.
fn plain_name<'a>(s: &'a [u8], f: &Span, room: &'a mut [u8; 64]) -> &'a [u8] {
    let raw = &s[f.name as usize..][..f.raw_name as usize];
    if f.raw_name == f.name_len {
        return raw;
    }
    let out = &mut room[..f.name_len as usize];
    unescape(out, raw);
    out
}

fn order(s: &[u8], f: &Span, g: &Span) -> std::cmp::Ordering {
    f.key.cmp(&g.key).then_with(|| {
        let (mut x, mut y) = ([0; 64], [0; 64]);
        plain_name(s, f, &mut x).cmp(plain_name(s, g, &mut y))
    })
}

/// The first eight bytes of a part, zeros behind a shorter one.
#[inline(always)]
fn first_word(s: &[u8], from: usize, len: usize) -> u64 {
    if from + 8 > s.len() {
        let mut w = [0; 8];
        w[..len.min(8)].copy_from_slice(&s[from..from + len.min(8)]);
        return u64::from_le_bytes(w);
    }
    let w = word(s, from);
    if len >= 8 {
        return w;
    }
    w & ((1 << (8 * len)) - 1)
}

/// Whether the bytes of a word, as many as `len` tells, are 32 to 126.
#[inline(always)]
fn printable(w: u64, len: usize) -> bool {
    let low = w & !HIGHS;
    let wrong = w | !(low + 0x60 * ONES) | (low + ONES);
    let mask = if len >= 8 {
        HIGHS
    } else {
        HIGHS & ((1 << (8 * len)) - 1)
    };
    wrong & mask == 0
}

/// Whether a name's bytes in the text are right, its first word told already.
#[inline(always)]
fn named(s: &[u8], first: u64, from: usize, end: usize) -> bool {
    let len = end - from;
    if !printable(first, len) {
        return false;
    }
    let mut i = from + 8;
    while i < end {
        if !printable(first_word(s, i, end - i), end - i) {
            return false;
        }
        i += 8;
    }
    true
}

/// What a text is: one tuple of fields, of which the first 64 are kept.
struct Tuple {
    count: usize,
    size: usize,
    named: bool,
    sized: bool,
    rising: bool,
}

/// The number at i, its sign, and where its digits end; more than 19 digits as the greatest.
#[inline(always)]
fn integer(s: &[u8], mut i: usize) -> Option<(bool, u64, usize)> {
    let negative = s[i] == b'-';
    i += negative as usize;
    let first = i;
    let mut n = 0u64;
    while let Some(d) = s.get(i).map(|b| b.wrapping_sub(b'0')).filter(|d| *d < 10) {
        // the first 19 digits cannot overflow
        n = if i - first < 19 {
            n * 10 + d as u64
        } else {
            let more = n.checked_mul(10).and_then(|n| n.checked_add(d as u64));
            more.unwrap_or(u64::MAX)
        };
        i += 1;
    }
    (i > first).then_some((negative, n, i))
}

/// A value at i: its kind, number or start, bytes in the text and in the notice, and where it ends with the blanks after it.
#[inline(always)]
fn value(s: &[u8], i: usize) -> Option<(u16, u64, usize, usize, usize)> {
    if s[i] == b'"' {
        let (end, escapes) = quoted(s, i + 1, b'"')?;
        let raw = end - i - 1;
        return Some((4, i as u64 + 1, raw, raw - escapes, blanks(s, end + 1)?));
    }
    if s[i] != b'-' && !s[i].is_ascii_digit() {
        return None;
    }
    let (negative, n, end) = integer(s, i)?;
    let next = blanks(s, end)?;
    match s[next] {
        b'~' => {
            if negative && n != 0 || n >= s.len() as u64 {
                return None;
            }
            let end = next + 1 + n as usize;
            if *s.get(end)? != b'~' {
                return None;
            }
            let n = n as usize;
            Some((5, next as u64 + 1, n, n, blanks(s, end + 1)?))
        }
        b'`' => {
            if !s[next + 1..].starts_with(b"int64`") || n > i64::MAX as u64 + negative as u64 {
                return None;
            }
            let n = if negative { n.wrapping_neg() } else { n };
            Some((2, n, 0, 8, blanks(s, next + 7)?))
        }
        _ => {
            if n > i32::MAX as u64 + negative as u64 {
                return None;
            }
            let n = if negative { n.wrapping_neg() } else { n };
            Some((1, n, 0, 4, next))
        }
    }
}

/// The tuple, if the text is one; `spans` gets its first fields, `more` every field after them.
#[inline(always)]
fn tuple(s: &[u8], spans: &mut [MaybeUninit<Span>; MOST], more: &mut Vec<Span>) -> Option<Tuple> {
    let mut t = Tuple {
        count: 0,
        size: 8,
        named: true,
        sized: true,
        rising: true,
    };
    let mut i = blanks(s, 0)?;
    if s[i] != b'{' {
        return None;
    }
    i = blanks(s, i + 1)?;
    let mut last = 0;
    while s[i] == b'"' {
        let name = i + 1;
        let (end, escapes) = quoted(s, name, b'"')?;
        let raw = end - name;
        let from = blanks(s, end + 1)?;
        let (kind, start, raw_value, len, next) = value(s, from)?;
        let first = first_word(s, name, raw);
        t.named &= (1..=64).contains(&(raw - escapes)) && named(s, first, name, end);
        t.sized &= len <= 1024;
        t.size += 5 + raw - escapes + len;
        let mut span = Span {
            key: first.swap_bytes(),
            value: start,
            name: name as u32,
            raw_name: raw as u16,
            name_len: (raw - escapes) as u16,
            raw: raw_value as u32,
            len: len as u32,
            kind,
        };
        if escapes != 0 && t.named {
            let mut room = [0; 64];
            let name = plain_name(s, &span, &mut room);
            span.key = first_word(name, 0, name.len()).swap_bytes();
        }
        // equal keys are told apart by the sort
        t.rising &= t.count == 0 || last < span.key;
        last = span.key;
        match spans.get_mut(t.count) {
            Some(place) => {
                place.write(span);
            }
            None => more.push(span),
        }
        t.count += 1;
        i = next;
    }
    if s[i] != b'}' {
        return None;
    }
    i = blanks(s, i + 1)?;
    (s[i] == b'$' && i + 1 == s.len()).then_some(t)
}

/// One field's bytes at the buffer's start, and how many they are.
#[inline(always)]
fn put(out: &mut [u8], s: &[u8], f: &Span) -> usize {
    let (n, len) = (f.name_len as usize, f.len as usize);
    let out = &mut out[..5 + n + len];
    out[..2].copy_from_slice(&((3 + n + len) as u16).to_le_bytes());
    out[2..4].copy_from_slice(&f.kind.to_le_bytes());
    out[4] = n as u8;
    let raw = &s[f.name as usize..][..f.raw_name as usize];
    if raw.len() == n {
        out[5..5 + n].copy_from_slice(raw);
    } else {
        unescape(&mut out[5..5 + n], raw);
    }
    let value = &mut out[5 + n..];
    match f.kind {
        1 => value.copy_from_slice(&(f.value as u32).to_le_bytes()),
        2 => value.copy_from_slice(&f.value.to_le_bytes()),
        _ => {
            let raw = &s[f.value as usize..][..f.raw as usize];
            if raw.len() == len {
                value.copy_from_slice(raw);
            } else {
                unescape(value, raw);
            }
        }
    }
    5 + n + len
}

/// Number and length.
pub fn read(s: &[u8], notice: &mut [u8]) -> (u8, usize) {
    let mut spans = [const { MaybeUninit::<Span>::uninit() }; MOST];
    let mut more = Vec::new();
    let Some(t) = tuple(s, &mut spans, &mut more) else {
        return (if in_syntax(s) { 23 } else { 22 }, 0);
    };
    if !t.named {
        return (13, 0);
    }
    if !t.sized {
        return (16, 0);
    }
    // SAFETY: the first fields are set, as many as there are, and a span is its bytes
    let spans = unsafe {
        std::slice::from_raw_parts_mut(spans.as_mut_ptr() as *mut Span, t.count.min(MOST))
    };
    if t.count > MOST {
        more.extend_from_slice(spans);
        more.sort_by(|f, g| order(s, f, g));
        let again = more
            .windows(2)
            .any(|two| order(s, &two[0], &two[1]).is_eq());
        return (if again { 14 } else { 15 }, 0);
    }
    if !t.rising {
        spans.sort_unstable_by(|f, g| order(s, f, g));
        if spans
            .windows(2)
            .any(|two| order(s, &two[0], &two[1]).is_eq())
        {
            return (14, 0);
        }
    }
    if t.size > 16384 || t.size > notice.len() {
        return (15, 0);
    }
    let out = &mut notice[..t.size];
    out[..4].copy_from_slice(&(t.size as u32 - 4).to_le_bytes());
    out[4..8].copy_from_slice(&[1, 0, t.count as u8, 0]);
    let mut at = 8;
    for f in spans {
        at += put(&mut out[at..], s, f);
    }
    (0, t.size)
}

/// Whether the text keeps the syntax, of whatever it is.
fn in_syntax(s: &[u8]) -> bool {
    judged(s) == Some(s.len())
}

/// Where the text's `$` ends it, if all before it is right.
fn judged(s: &[u8]) -> Option<usize> {
    let (mut i, mut depth) = (0, 0usize);
    loop {
        i = blanks(s, i)?;
        match s[i] {
            b'$' => return (depth == 0).then_some(i + 1),
            b'{' => depth += 1,
            b'}' => depth = depth.checked_sub(1)?,
            b',' | b'~' => return None,
            q @ (b'"' | b'\'' | b'`') => i = quoted(s, i + 1, q)?.0,
            b'-' | b'0'..=b'9' => {
                let (negative, n, end) = integer(s, i)?;
                i = blanks(s, end)?;
                if s[i] != b'~' {
                    continue;
                }
                if negative && n != 0 || n >= s.len() as u64 {
                    return None;
                }
                i += 1 + n as usize;
                if *s.get(i)? != b'~' {
                    return None;
                }
            }
            _ => (),
        }
        i += 1;
    }
}

/// Two digits of each number below 100.
const PAIRS: &[u8; 200] = b"0001020304050607080910111213141516171819202122232425262728293031323334353637383940414243444546474849\
5051525354555657585960616263646566676869707172737475767778798081828384858687888990919293949596979899";

/// The digits of n behind `at`, and where they end.
#[inline(always)]
fn put_decimal(out: &mut [u8], at: usize, mut n: u64) -> usize {
    let mut digits = [0u8; 20];
    let mut first = 20;
    while n >= 100 {
        let pair = 2 * (n % 100) as usize;
        n /= 100;
        first -= 2;
        digits[first..first + 2].copy_from_slice(&PAIRS[pair..pair + 2]);
    }
    if n >= 10 {
        first -= 2;
        digits[first..first + 2].copy_from_slice(&PAIRS[2 * n as usize..2 * n as usize + 2]);
    } else {
        first -= 1;
        digits[first] = b'0' + n as u8;
    }
    let len = 20 - first;
    out[at..at + len].copy_from_slice(&digits[first..]);
    at + len
}

/// A string behind `at`, by runs without an escape, and where it ends.
#[inline(always)]
fn put_string(out: &mut [u8], mut at: usize, s: &[u8]) -> usize {
    out[at] = b'"';
    at += 1;
    let mut i = 0;
    loop {
        let end = find(s, i, b'"');
        out[at..at + end - i].copy_from_slice(&s[i..end]);
        at += end - i;
        if end == s.len() {
            break;
        }
        out[at] = b'\\';
        out[at + 1] = s[end];
        at += 2;
        i = end + 1;
    }
    out[at] = b'"';
    at + 1
}

fn escaped(s: &[u8]) -> usize {
    s.len() + s.iter().filter(|b| **b == b'"' || **b == b'\\').count()
}

fn digits(n: u64) -> usize {
    n.checked_ilog10().unwrap_or(0) as usize + 1
}

/// The fields of a right notice: kind, name and value.
#[inline(always)]
fn each<'a>(notice: &'a [u8], mut see: impl FnMut(u8, &'a [u8], &'a [u8])) {
    let mut at = 8;
    while at < notice.len() {
        let end = at + 2 + u16::from_le_bytes([notice[at], notice[at + 1]]) as usize;
        let value = at + 5 + notice[at + 4] as usize;
        see(notice[at + 2], &notice[at + 5..value], &notice[value..end]);
        at = end;
    }
}

fn value_length(kind: u8, value: &[u8]) -> usize {
    match kind {
        1 => {
            let n = i32::from_le_bytes(value.try_into().unwrap());
            digits(n.unsigned_abs() as u64) + (n < 0) as usize
        }
        2 => {
            let n = i64::from_le_bytes(value.try_into().unwrap());
            digits(n.unsigned_abs()) + (n < 0) as usize + 7
        }
        4 => escaped(value) + 2,
        _ => digits(value.len() as u64) + value.len() + 2,
    }
}

/// Number, place and length.
pub fn write(notice: &[u8], text: &mut [u8]) -> (u8, usize, usize) {
    if let Some(place) = crate::expert::check_notice(notice) {
        return (11, place, 0);
    }
    let mut real = false;
    each(notice, |kind, _, _| real |= kind == 3);
    if real {
        return (23, 0, 0);
    }
    // no text is longer than twice its notice and three bytes a field
    if text.len() < 2 * notice.len() + 200 {
        let mut length = 3;
        each(notice, |kind, name, value| {
            length += escaped(name) + 2 + value_length(kind, value);
        });
        if length > text.len() {
            return (15, 0, 0);
        }
    }
    text[0] = b'{';
    let mut at = 1;
    each(notice, |kind, name, value| {
        at = put_string(text, at, name);
        match kind {
            1 => {
                let n = i32::from_le_bytes(value.try_into().unwrap());
                text[at] = b'-';
                at = put_decimal(text, at + (n < 0) as usize, n.unsigned_abs() as u64);
            }
            2 => {
                let n = i64::from_le_bytes(value.try_into().unwrap());
                text[at] = b'-';
                at = put_decimal(text, at + (n < 0) as usize, n.unsigned_abs());
                text[at..at + 7].copy_from_slice(b"`int64`");
                at += 7;
            }
            4 => at = put_string(text, at, value),
            _ => {
                at = put_decimal(text, at, value.len() as u64);
                text[at] = b'~';
                text[at + 1..][..value.len()].copy_from_slice(value);
                at += value.len() + 2;
                text[at - 1] = b'~';
            }
        }
    });
    text[at..at + 2].copy_from_slice(b"}$");
    (0, 0, at + 2)
}

//! The router core as an expert would write it for speed in Rust: entries decoded once into a compact
//! enum, stack in an array that is not initialised, no allocation, no test that a check has made already.
//! Same answers as documents 01 and 02 ask; written for this benchmark only.

use crate::{regex, wildcard};
use std::mem::MaybeUninit;

pub const FALSE: u8 = 0;
pub const BOTTOM: u8 = 1;
pub const TRUE: u8 = 2;

// ---- reading bytes that a check has found to be there

#[inline(always)]
pub(crate) unsafe fn u16_at(s: &[u8], at: usize) -> u16 {
    u16::from_le((s.as_ptr().add(at) as *const u16).read_unaligned())
}

#[inline(always)]
unsafe fn u32_at(s: &[u8], at: usize) -> u32 {
    u32::from_le((s.as_ptr().add(at) as *const u32).read_unaligned())
}

#[inline(always)]
unsafe fn u64_at(s: &[u8], at: usize) -> u64 {
    u64::from_le((s.as_ptr().add(at) as *const u64).read_unaligned())
}

/// Equality of two stretches of the same length, by words that may overlap.
#[inline(always)]
unsafe fn same_bytes(a: *const u8, b: *const u8, n: usize) -> bool {
    if n >= 8 {
        let mut i = 0;
        while i + 8 <= n {
            if (a.add(i) as *const u64).read_unaligned()
                != (b.add(i) as *const u64).read_unaligned()
            {
                return false;
            }
            i += 8;
        }
        return (a.add(n - 8) as *const u64).read_unaligned()
            == (b.add(n - 8) as *const u64).read_unaligned();
    }
    if n >= 4 {
        return (a as *const u32).read_unaligned() == (b as *const u32).read_unaligned()
            && (a.add(n - 4) as *const u32).read_unaligned()
                == (b.add(n - 4) as *const u32).read_unaligned();
    }
    if n >= 2 {
        return (a as *const u16).read_unaligned() == (b as *const u16).read_unaligned()
            && *a.add(n - 1) == *b.add(n - 1);
    }
    n == 0 || *a == *b
}

// ---- the program

/// One decoded entry, 16 bytes. A skip has the entry it lands at.
#[derive(Clone, Copy)]
pub enum Ins {
    Int32(i32),
    Int64(i64),
    Real(f64),
    Text(u16, u16),
    Name(u16, u16),
    Fold,
    Size,
    Complement,
    Shl,
    Sar,
    Shr,
    // the second edition's (document 02, request 9)
    ShlAny,
    SarAny,
    ShrAny,
    BitAnd,
    BitXor,
    BitOr,
    Mul,
    Div,
    Rem,
    Add,
    Sub,
    Eq,
    Ne,
    Lt,
    Le,
    Gt,
    Ge,
    Not,
    And,
    Xor,
    Or,
    SkipFalse(u16),
    SkipTrue(u16),
    IsKind(u8),
    Nan,
    Require,
    Begins(u8),
    Contains(u8),
    Ends(u8),
    Equals(u8),
    Wildcard(u8),
    Regex(u8),
}

pub type Code = [MaybeUninit<Ins>; 512];

pub fn no_code() -> Code {
    [MaybeUninit::uninit(); 512]
}

pub struct Program<'a> {
    pub code: &'a [MaybeUninit<Ins>],
    pub pool: &'a [u8],
}

/// Whether a byte of the word is none of 32..126.
#[inline(always)]
fn odd_byte(x: u64) -> bool {
    (x.wrapping_sub(0x2020_2020_2020_2020) | x.wrapping_add(0x0101_0101_0101_0101) | x)
        & 0x8080_8080_8080_8080
        != 0
}

#[inline(always)]
pub(crate) fn name_right(name: &[u8]) -> bool {
    let n = name.len();
    if n == 0 || n > 64 {
        return false;
    }
    let p = name.as_ptr();
    // SAFETY: each word lies in the name; the last ones may overlap
    unsafe {
        if n >= 8 {
            let mut i = 0;
            let mut bad = false;
            while i + 8 <= n {
                bad |= odd_byte((p.add(i) as *const u64).read_unaligned());
                i += 8;
            }
            return !(bad | odd_byte((p.add(n - 8) as *const u64).read_unaligned()));
        }
        if n >= 4 {
            let low = (p as *const u32).read_unaligned() as u64;
            let high = (p.add(n - 4) as *const u32).read_unaligned() as u64;
            return !odd_byte(low | high << 32);
        }
        let (a, b, c) = (*p, *p.add(n / 2), *p.add(n - 1));
        a.wrapping_sub(32) <= 94 && b.wrapping_sub(32) <= 94 && c.wrapping_sub(32) <= 94
    }
}

/// Whether the `a` entries directly before the entry i are strings, which the check has passed, and well-formed.
fn patterns_right(
    table: &[u8],
    pool: &[u8],
    i: usize,
    a: usize,
    well_formed: fn(&[u8]) -> bool,
) -> bool {
    i >= a
        && (i - a..i).all(|k| {
            let at = 10 + 12 * k;
            // SAFETY: the entry lies in the table
            let (op, len, start) = unsafe {
                (
                    u16_at(table, at),
                    u16_at(table, at + 2) as usize,
                    u64_at(table, at + 4) as usize,
                )
            };
            op == 4 && well_formed(&pool[start..start + len])
        })
}

/// The check in one pass over the entries, with decoding into `code` where asked for. The kinds on the stack are
/// a number: 1 for none, then a bit for each slot (1 for a value). Answers the number of entries, 0 if the check fails.
#[inline(always)]
fn check_decode<const DECODE: bool>(table: &[u8], code: &mut Code) -> usize {
    if table.len() < 10 {
        return 0;
    }
    let (kind, n, pool_len) = unsafe {
        if u32_at(table, 0) as usize + 4 != table.len() {
            return 0;
        }
        (
            u16_at(table, 4),
            u16_at(table, 6) as usize,
            u16_at(table, 8) as usize,
        )
    };
    if kind != 2 && kind != 4 {
        return 0;
    }
    if n == 0 || n > 512 || pool_len > 4096 || 10 + 12 * n + pool_len != table.len() {
        return 0;
    }
    let pool = &table[10 + 12 * n..];
    let mut shapes = [MaybeUninit::<u64>::uninit(); 513];
    let mut skips = [MaybeUninit::<(u16, u16)>::uninit(); 512];
    let mut skip_count = 0;
    let mut c: u64 = 1;
    for i in 0..n {
        let (op, a, b) = unsafe {
            let at = 10 + 12 * i;
            (
                u16_at(table, at),
                u16_at(table, at + 2),
                u64_at(table, at + 4),
            )
        };
        shapes[i].write(c);
        macro_rules! plain {
            () => {
                if a != 0 || b != 0 {
                    return 0;
                }
            };
        }
        macro_rules! push {
            () => {{
                if c > 0xffff_ffff {
                    return 0;
                }
                c = 2 * c + 1;
            }};
        }
        macro_rules! one_value {
            ($bit:expr) => {{
                plain!();
                if c < 3 || c & 1 == 0 {
                    return 0;
                }
                c = (c & !1) | $bit;
            }};
        }
        macro_rules! two {
            ($both:expr, $bit:expr) => {{
                plain!();
                if c < 4 || c & 3 != $both {
                    return 0;
                }
                c = ((c >> 2) << 1) | $bit;
            }};
        }
        let ins = match op {
            1 => {
                if a != 0 || b as i64 != b as i32 as i64 {
                    return 0;
                }
                push!();
                Ins::Int32(b as i32)
            }
            2 | 3 => {
                if a != 0 {
                    return 0;
                }
                push!();
                if op == 2 {
                    Ins::Int64(b as i64)
                } else {
                    Ins::Real(f64::from_bits(b))
                }
            }
            4 | 5 => {
                if b > 4096 || b as usize + a as usize > pool_len {
                    return 0;
                }
                if op == 5 && !name_right(&pool[b as usize..b as usize + a as usize]) {
                    return 0;
                }
                push!();
                if op == 4 {
                    Ins::Text(b as u16, a)
                } else {
                    Ins::Name(b as u16, a)
                }
            }
            6 => {
                one_value!(1);
                Ins::Fold
            }
            7 => {
                one_value!(1);
                Ins::Size
            }
            8 => {
                one_value!(1);
                Ins::Complement
            }
            16..=18 if kind == 4 => {
                two!(3, 1);
                [Ins::ShlAny, Ins::SarAny, Ins::ShrAny][op as usize - 16]
            }
            16..=26 => {
                two!(3, 1);
                [
                    Ins::Shl,
                    Ins::Sar,
                    Ins::Shr,
                    Ins::BitAnd,
                    Ins::BitXor,
                    Ins::BitOr,
                    Ins::Mul,
                    Ins::Div,
                    Ins::Rem,
                    Ins::Add,
                    Ins::Sub,
                ][op as usize - 16]
            }
            32..=37 => {
                two!(3, 0);
                [Ins::Eq, Ins::Ne, Ins::Lt, Ins::Le, Ins::Gt, Ins::Ge][op as usize - 32]
            }
            40 => {
                plain!();
                if c < 2 || c & 1 != 0 {
                    return 0;
                }
                Ins::Not
            }
            41..=43 => {
                two!(0, 0);
                [Ins::And, Ins::Xor, Ins::Or][op as usize - 41]
            }
            44 | 45 => {
                let to = i + a as usize + 1;
                if a == 0 || b != 0 || to > n || c < 2 || c & 1 != 0 {
                    return 0;
                }
                skips[skip_count].write((i as u16, to as u16));
                skip_count += 1;
                if op == 44 {
                    Ins::SkipFalse(to as u16)
                } else {
                    Ins::SkipTrue(to as u16)
                }
            }
            48..=54 => {
                one_value!(0);
                match op {
                    53 => Ins::Nan,
                    54 => Ins::Require,
                    _ => Ins::IsKind(op as u8 - 47),
                }
            }
            56..=61 => {
                if a == 0 || a > 8 || b != 0 {
                    return 0;
                }
                let well_formed: Option<fn(&[u8]) -> bool> = match op {
                    60 => Some(wildcard::well_formed),
                    61 => Some(regex::well_formed),
                    _ => None,
                };
                if well_formed.is_some_and(|f| !patterns_right(table, pool, i, a as usize, f)) {
                    return 0;
                }
                let mask = (2u64 << a) - 1;
                if c <= mask || c & mask != mask {
                    return 0;
                }
                c = (c >> (a + 1)) << 1;
                match op {
                    56 => Ins::Begins(a as u8),
                    57 => Ins::Contains(a as u8),
                    58 => Ins::Ends(a as u8),
                    59 => Ins::Equals(a as u8),
                    60 => Ins::Wildcard(a as u8),
                    _ => Ins::Regex(a as u8),
                }
            }
            _ => return 0,
        };
        if DECODE {
            code[i].write(ins);
        }
    }
    if c != 2 {
        return 0;
    }
    shapes[n].write(c);
    for s in &skips[..skip_count] {
        unsafe {
            let (from, to) = s.assume_init();
            if shapes[from as usize].assume_init() != shapes[to as usize].assume_init() {
                return 0;
            }
        }
    }
    n
}

pub fn check(table: &[u8]) -> bool {
    check_decode::<false>(table, &mut no_code()) != 0
}

/// The program of a table, decoded once; none if the check fails.
pub fn decode<'a>(table: &'a [u8], code: &'a mut Code) -> Option<Program<'a>> {
    let n = check_decode::<true>(table, code);
    if n == 0 {
        return None;
    }
    Some(Program {
        code: &code[..n],
        pool: &table[10 + 12 * n..],
    })
}

/// The program that `decode` last made of this table; none of an empty one.
///
/// # Safety
/// `decode` has filled `code` from these bytes, or they are none.
pub unsafe fn decoded<'a>(table: &'a [u8], code: &'a Code) -> Option<Program<'a>> {
    if table.is_empty() {
        return None;
    }
    let n = u16_at(table, 6) as usize;
    Some(Program {
        code: &code[..n],
        pool: &table[10 + 12 * n..],
    })
}

// ---- notices

/// Whether a name is before another, the empty one first: most differ in the first byte.
#[inline(always)]
fn before(a: &[u8], b: &[u8]) -> bool {
    if a.is_empty() || a[0] != b[0] {
        return a.is_empty() || a[0] < b[0];
    }
    let n = a.len().min(b.len());
    for i in 1..n {
        if a[i] != b[i] {
            return a[i] < b[i];
        }
    }
    a.len() < b.len()
}

/// None if the notice is well formed, else the place of its first fault.
pub fn check_notice(notice: &[u8]) -> Option<usize> {
    check_fields(notice, |_, _, _| ())
}

/// The same, with each right field's number, start and name told.
#[inline(always)]
fn check_fields(notice: &[u8], mut tell: impl FnMut(usize, usize, &[u8])) -> Option<usize> {
    let len = notice.len();
    if !(8..=16384).contains(&len) {
        return Some(0);
    }
    unsafe {
        let count = u16_at(notice, 6);
        if u32_at(notice, 0) as usize + 4 != len || u16_at(notice, 4) != 1 || count > 64 {
            return Some(0);
        }
        let mut at = 8;
        let mut last = notice.get_unchecked(8..8);
        for k in 0..count {
            if len - at < 5 {
                return Some(at);
            }
            let size = u16_at(notice, at) as usize;
            let name_len = *notice.get_unchecked(at + 4) as usize;
            if size < 3 + name_len || size > len - at - 2 {
                return Some(at);
            }
            let name = notice.get_unchecked(at + 5..at + 5 + name_len);
            let value_len = size - 3 - name_len;
            let right = match u16_at(notice, at + 2) {
                1 => value_len == 4,
                2 | 3 => value_len == 8,
                4 | 5 => value_len <= 1024,
                _ => false,
            };
            if !right || !name_right(name) || !before(last, name) {
                return Some(at);
            }
            tell(k as usize, at, name);
            last = name;
            at += 2 + size;
        }
        if at == len {
            None
        } else {
            Some(at)
        }
    }
}

/// The value of the field that starts at the place.
#[inline(always)]
unsafe fn value_at(notice: &[u8], at: usize) -> Slot {
    let start = at + 5 + *notice.get_unchecked(at + 4) as usize;
    let len = at + 2 + u16_at(notice, at) as usize - start;
    match u16_at(notice, at + 2) {
        1 => Slot::Int32(u32_at(notice, start) as i32),
        2 => Slot::Int64(u64_at(notice, start) as i64),
        3 => Slot::Real(f64::from_bits(u64_at(notice, start))),
        4 => Slot::Text(Piece {
            at: start as u16,
            len: len as u16,
            in_pool: false,
            folded: false,
        }),
        _ => Slot::Opaque(len as u16),
    }
}

/// The value of the field of a name. Names rise, so a first byte past the name's ends the walk.
#[inline(always)]
unsafe fn lookup(notice: &[u8], key: &[u8]) -> Slot {
    let mut left = u16_at(notice, 6);
    let mut at = 8;
    let first = *key.get_unchecked(0);
    while left > 0 {
        let head = *notice.get_unchecked(at + 5);
        if head == first {
            let name_len = *notice.get_unchecked(at + 4) as usize;
            if name_len == key.len()
                && same_bytes(notice.as_ptr().add(at + 5), key.as_ptr(), name_len)
            {
                return value_at(notice, at);
            }
        } else if head > first {
            return Slot::Missing;
        }
        at += 2 + u16_at(notice, at) as usize;
        left -= 1;
    }
    Slot::Missing
}

// ---- values

#[derive(Clone, Copy)]
pub struct Piece {
    at: u16,
    len: u16,
    in_pool: bool,
    folded: bool,
}

#[derive(Clone, Copy)]
pub enum Slot {
    Truth(u8),
    Missing,
    Int32(i32),
    Int64(i64),
    Real(f64),
    Text(Piece),
    Opaque(u16),
}

const _: () = assert!(std::mem::size_of::<Ins>() == 16 && std::mem::size_of::<Slot>() == 16);

/// Up to this size every integer is an f64.
const EXACT: i64 = 1 << 53;
/// 2^63: int64 goes from its negation up to it, itself left out.
const END: f64 = 9223372036854775808.0;

#[inline(always)]
fn as_real(s: Slot) -> Option<f64> {
    match s {
        Slot::Int32(x) => Some(x as f64),
        Slot::Int64(x) => Some(x as f64),
        Slot::Real(x) => Some(x),
        _ => None,
    }
}

#[inline(always)]
fn as_int(s: Slot) -> Option<i64> {
    match s {
        Slot::Int32(x) => Some(x as i64),
        Slot::Int64(x) => Some(x),
        _ => None,
    }
}

#[inline(always)]
fn of_bool(b: bool) -> u8 {
    (b as u8) << 1
}

#[inline(always)]
fn order(
    x: Slot,
    y: Slot,
    ints: impl Fn(i64, i64) -> bool,
    reals: impl Fn(f64, f64) -> bool,
) -> u8 {
    if let (Slot::Int32(a), Slot::Int32(b)) = (x, y) {
        return of_bool(ints(a as i64, b as i64));
    }
    if let (Some(a), Some(b)) = (as_int(x), as_int(y)) {
        return of_bool(ints(a, b));
    }
    match (x, y) {
        (Slot::Real(a), Slot::Real(b)) => of_bool(reals(a, b)),
        (Slot::Int32(a), Slot::Real(b)) => of_bool(reals(a as f64, b)),
        (Slot::Real(a), Slot::Int32(b)) => of_bool(reals(a, b as f64)),
        (Slot::Int64(a), Slot::Real(b)) => of_bool(exactly(a, b, ints, reals)),
        (Slot::Real(a), Slot::Int64(b)) => {
            of_bool(exactly(b, a, |b, a| ints(a, b), |b, a| reals(a, b)))
        }
        _ => BOTTOM,
    }
}

/// An int64 beside a real by exact value. A real in the range of int64 beside an integer over 2^53 in size is whole, or so far below
/// it that its fraction does not tell; one out of that range lies to the integer as to 0.
#[inline(always)]
fn exactly(
    n: i64,
    x: f64,
    ints: impl Fn(i64, i64) -> bool,
    reals: impl Fn(f64, f64) -> bool,
) -> bool {
    if (-EXACT..=EXACT).contains(&n) {
        return reals(n as f64, x);
    }
    if (-END..END).contains(&x) {
        // SAFETY: x is in the range of int64
        return ints(n, unsafe { x.to_int_unchecked() });
    }
    reals(0.0, x)
}

#[inline(always)]
unsafe fn bytes<'a>(pool: &'a [u8], notice: &'a [u8], p: Piece) -> &'a [u8] {
    let s = if p.in_pool { pool } else { notice };
    s.get_unchecked(p.at as usize..p.at as usize + p.len as usize)
}

#[inline(always)]
fn fold(mark: bool, b: u8) -> u8 {
    if mark {
        b.to_ascii_lowercase()
    } else {
        b
    }
}

/// The bytes A..Z of a word as a..z, if it is marked.
#[inline(always)]
fn fold_word(mark: bool, x: u64) -> u64 {
    if !mark {
        return x;
    }
    let low = x & 0x7f7f_7f7f_7f7f_7f7f;
    // the high bit of each byte from A on, but not from the one after Z on
    let upper = (low + 0x3f3f_3f3f_3f3f_3f3f) ^ (low + 0x2525_2525_2525_2525);
    x | (upper & !x & 0x8080_8080_8080_8080) >> 2
}

/// As `same_bytes`, each side folded where it is marked.
unsafe fn same_folded(a: *const u8, a_mark: bool, b: *const u8, b_mark: bool, n: usize) -> bool {
    let same = |i: usize| {
        fold_word(a_mark, (a.add(i) as *const u64).read_unaligned())
            == fold_word(b_mark, (b.add(i) as *const u64).read_unaligned())
    };
    if n >= 8 {
        let mut i = 0;
        while i + 8 <= n {
            if !same(i) {
                return false;
            }
            i += 8;
        }
        return same(n - 8);
    }
    (0..n).all(|i| fold(a_mark, *a.add(i)) == fold(b_mark, *b.add(i)))
}

#[inline(always)]
fn same_text(s: &[u8], s_mark: bool, t: &[u8], t_mark: bool) -> bool {
    if s.len() != t.len() {
        return false;
    }
    if !s_mark && !t_mark {
        return unsafe { same_bytes(s.as_ptr(), t.as_ptr(), s.len()) };
    }
    unsafe { same_folded(s.as_ptr(), s_mark, t.as_ptr(), t_mark, s.len()) }
}

/// Looks for the literal's first two bytes, or for its first byte folded, and compares the rest by words: plain, and good on short
/// literals, but with no memory of what it has compared, so that a hostile literal costs the string's bytes times its own.
fn contains(s: &[u8], s_mark: bool, t: &[u8], t_mark: bool) -> bool {
    let last = s.len() - t.len();
    if t.len() >= 2 && !s_mark && !t_mark {
        // SAFETY: two bytes lie at each place up to the last, since the literal has two
        let head = unsafe { u16_at(t, 0) };
        return (0..=last).any(|i| {
            let here = unsafe { u16_at(s, i) };
            here == head && same_text(&s[i..i + t.len()], false, t, false)
        });
    }
    let Some(&first) = t.first() else {
        return true;
    };
    let first = fold(t_mark, first);
    (0..=last).any(|i| {
        fold(s_mark, s[i]) == first && same_text(&s[i + 1..i + t.len()], s_mark, &t[1..], t_mark)
    })
}

fn fits(how: u8, s: &[u8], s_mark: bool, t: &[u8], t_mark: bool) -> bool {
    if how == 3 {
        // a pattern has no mark: its entry stands directly before the operator
        return wildcard::fits(t, s, s_mark);
    }
    if how == 4 {
        return regex::fits(t, s, s_mark);
    }
    if t.len() > s.len() {
        return false;
    }
    match how {
        0 => same_text(&s[..t.len()], s_mark, t, t_mark),
        2 => same_text(&s[s.len() - t.len()..], s_mark, t, t_mark),
        _ => contains(s, s_mark, t, t_mark),
    }
}

/// The size of a string (document 02, request 2), by std.
fn characters(s: &[u8]) -> Slot {
    match std::str::from_utf8(s) {
        Ok(text) => Slot::Int32(text.chars().count() as i32),
        Err(_) => Slot::Missing,
    }
}

#[inline(always)]
unsafe fn equal(pool: &[u8], notice: &[u8], x: Slot, y: Slot) -> u8 {
    if let (Slot::Text(p), Slot::Text(q)) = (x, y) {
        if p.len != q.len {
            return FALSE;
        }
        return of_bool(same_text(
            bytes(pool, notice, p),
            p.folded,
            bytes(pool, notice, q),
            q.folded,
        ));
    }
    order(x, y, |a, b| a == b, |a, b| a == b)
}

#[inline(always)]
fn narrow(z: i64) -> Slot {
    if z == z as i32 as i64 {
        Slot::Int32(z as i32)
    } else {
        Slot::Int64(z)
    }
}

/// The nearest real of a result beyond int64.
#[cold]
fn beyond(z: i128) -> Slot {
    Slot::Real(z as f64)
}

#[inline(always)]
fn arithmetic(
    x: Slot,
    y: Slot,
    small: impl Fn(i64, i64) -> i64,
    large: impl Fn(i64, i64) -> Option<i64>,
    exact: impl Fn(i128, i128) -> i128,
    real: impl Fn(f64, f64) -> Option<f64>,
) -> Slot {
    if let (Slot::Int32(a), Slot::Int32(b)) = (x, y) {
        return narrow(small(a as i64, b as i64));
    }
    if let (Some(a), Some(b)) = (as_int(x), as_int(y)) {
        return match large(a, b) {
            Some(z) => Slot::Int64(z),
            None => beyond(exact(a as i128, b as i128)),
        };
    }
    if let (Some(a), Some(b)) = (as_real(x), as_real(y)) {
        return match real(a, b) {
            Some(r) => Slot::Real(r),
            None => Slot::Missing,
        };
    }
    Slot::Missing
}

#[inline(always)]
fn is_zero(y: Slot) -> bool {
    match y {
        Slot::Int32(b) => b == 0,
        Slot::Int64(b) => b == 0,
        Slot::Real(b) => b == 0.0,
        _ => false,
    }
}

#[inline(always)]
fn bitwise(x: Slot, y: Slot, f: impl Fn(i64, i64) -> i64) -> Slot {
    if let (Slot::Int32(a), Slot::Int32(b)) = (x, y) {
        return Slot::Int32(f(a as i64, b as i64) as i32);
    }
    match (as_int(x), as_int(y)) {
        (Some(a), Some(b)) => Slot::Int64(f(a, b)),
        _ => Slot::Missing,
    }
}

#[inline(always)]
fn shift(
    x: Slot,
    y: Slot,
    small: impl Fn(i32, u32) -> i32,
    large: impl Fn(i64, u32) -> i64,
) -> Slot {
    let Some(k) = as_int(y) else {
        return Slot::Missing;
    };
    match x {
        Slot::Int32(a) if (0..32).contains(&k) => Slot::Int32(small(a, k as u32)),
        Slot::Int64(a) if (0..64).contains(&k) => Slot::Int64(large(a, k as u32)),
        _ => Slot::Missing,
    }
}

/// The same by the count's remainder by the width, which a shift of the machine takes by itself.
#[inline(always)]
fn shift_any(
    x: Slot,
    y: Slot,
    small: impl Fn(i32, u32) -> i32,
    large: impl Fn(i64, u32) -> i64,
) -> Slot {
    let Some(k) = as_int(y) else {
        return Slot::Missing;
    };
    match x {
        Slot::Int32(a) => Slot::Int32(small(a, k as u32)),
        Slot::Int64(a) => Slot::Int64(large(a, k as u32)),
        _ => Slot::Missing,
    }
}

// ---- the run

/// The undecided entry where there is none.
const NO_ENTRY: u16 = 65535;

/// What is answered where nothing is run: verdict, steps and undecided entry.
pub const NOT_RUN: (u8, usize, u16) = (BOTTOM, 0, NO_ENTRY);

#[inline(always)]
fn is_bottom(s: Slot) -> bool {
    matches!(s, Slot::Missing | Slot::Truth(BOTTOM))
}

/// Verdict, steps and the first entry that left bottom on the stack (document 02, request 7), which only a name, or an operator on values that are there, can be.
/// The program was checked when it was decoded; the notice has been checked or is known to be right.
///
/// # Safety
/// The notice is well formed.
pub unsafe fn run(p: &Program, notice: &[u8]) -> (u8, usize, u16) {
    run_by(p, notice, |name| lookup(notice, name))
}

/// The same with another way to find the field of a name.
#[inline(always)]
unsafe fn run_by(p: &Program, notice: &[u8], find: impl Fn(&[u8]) -> Slot) -> (u8, usize, u16) {
    let pool = p.pool;
    let code = p.code;
    let mut stack = [MaybeUninit::<Slot>::uninit(); 33];
    let base = stack.as_mut_ptr() as *mut Slot;
    // the slot after the topmost
    let mut top = base;
    let mut at = 0;
    let mut steps = 0;
    let mut undecided = NO_ENTRY;
    while at < code.len() {
        steps += 1;
        macro_rules! note {
            ($v:expr) => {
                if is_bottom($v) && undecided == NO_ENTRY {
                    undecided = at as u16;
                }
            };
        }
        macro_rules! push {
            ($v:expr) => {{
                let v = $v;
                top.write(v);
                top = top.add(1);
            }};
        }
        macro_rules! unary {
            ($x:ident, $v:expr) => {{
                let $x = top.sub(1).read();
                let v = $v;
                note!(v);
                top.sub(1).write(v);
            }};
        }
        macro_rules! test {
            ($x:ident, $v:expr) => {{
                let $x = top.sub(1).read();
                top.sub(1).write(Slot::Truth($v));
            }};
        }
        macro_rules! binary {
            ($x:ident, $y:ident, $v:expr) => {{
                let $y = top.sub(1).read();
                let $x = top.sub(2).read();
                top = top.sub(1);
                let v = $v;
                note!(v);
                top.sub(1).write(v);
            }};
        }
        macro_rules! truths {
            ($x:ident, $y:ident, $v:expr) => {{
                let $y = truth(top.sub(1).read());
                let $x = truth(top.sub(2).read());
                top = top.sub(1);
                top.sub(1).write(Slot::Truth($v));
            }};
        }
        macro_rules! many {
            ($n:expr, $first:ident, $later:ident, $v:expr) => {{
                let n = $n as usize;
                top = top.sub(n);
                let $first = top.sub(1).read();
                let $later = std::slice::from_raw_parts(top, n);
                let v = Slot::Truth($v);
                note!(v);
                top.sub(1).write(v);
            }};
        }
        match code.get_unchecked(at).assume_init() {
            Ins::Int32(x) => push!(Slot::Int32(x)),
            Ins::Int64(x) => push!(Slot::Int64(x)),
            Ins::Real(x) => push!(Slot::Real(x)),
            Ins::Text(start, len) => push!(Slot::Text(Piece {
                at: start,
                len,
                in_pool: true,
                folded: false
            })),
            Ins::Name(start, len) => push!({
                let name = pool.get_unchecked(start as usize..start as usize + len as usize);
                let v = find(name);
                note!(v);
                v
            }),
            Ins::Fold => unary!(
                x,
                match x {
                    Slot::Text(p) => Slot::Text(Piece { folded: true, ..p }),
                    _ => Slot::Missing,
                }
            ),
            Ins::Size => unary!(
                x,
                match x {
                    Slot::Text(p) => characters(bytes(pool, notice, p)),
                    Slot::Opaque(n) => Slot::Int32(n as i32),
                    _ => Slot::Missing,
                }
            ),
            Ins::Complement => unary!(
                x,
                match x {
                    Slot::Int32(a) => Slot::Int32(!a),
                    Slot::Int64(a) => Slot::Int64(!a),
                    _ => Slot::Missing,
                }
            ),
            Ins::Shl => binary!(x, y, shift(x, y, |a, k| a << k, |a, k| a << k)),
            Ins::Sar => binary!(x, y, shift(x, y, |a, k| a >> k, |a, k| a >> k)),
            Ins::Shr => binary!(
                x,
                y,
                shift(
                    x,
                    y,
                    |a, k| (a as u32 >> k) as i32,
                    |a, k| (a as u64 >> k) as i64
                )
            ),
            Ins::ShlAny => binary!(x, y, shift_any(x, y, i32::wrapping_shl, i64::wrapping_shl)),
            Ins::SarAny => binary!(x, y, shift_any(x, y, i32::wrapping_shr, i64::wrapping_shr)),
            Ins::ShrAny => binary!(
                x,
                y,
                shift_any(
                    x,
                    y,
                    |a, k| (a as u32).wrapping_shr(k) as i32,
                    |a, k| (a as u64).wrapping_shr(k) as i64
                )
            ),
            Ins::BitAnd => binary!(x, y, bitwise(x, y, |a, b| a & b)),
            Ins::BitXor => binary!(x, y, bitwise(x, y, |a, b| a ^ b)),
            Ins::BitOr => binary!(x, y, bitwise(x, y, |a, b| a | b)),
            Ins::Mul => binary!(
                x,
                y,
                arithmetic(
                    x,
                    y,
                    |a, b| a * b,
                    i64::checked_mul,
                    |a, b| a * b,
                    |a, b| Some(a * b)
                )
            ),
            Ins::Div => binary!(
                x,
                y,
                if is_zero(y) {
                    Slot::Missing
                } else {
                    arithmetic(
                        x,
                        y,
                        |a, b| a / b,
                        i64::checked_div,
                        // the least int64 by -1, and no other quotient
                        |a, _| -a,
                        |a, b| Some(a / b),
                    )
                }
            ),
            Ins::Rem => binary!(
                x,
                y,
                if is_zero(y) {
                    Slot::Missing
                } else {
                    arithmetic(
                        x,
                        y,
                        |a, b| a % b,
                        |a, b| Some(a.wrapping_rem(b)),
                        |_, _| 0,
                        |_, _| None,
                    )
                }
            ),
            Ins::Add => binary!(
                x,
                y,
                arithmetic(
                    x,
                    y,
                    |a, b| a + b,
                    i64::checked_add,
                    |a, b| a + b,
                    |a, b| Some(a + b)
                )
            ),
            Ins::Sub => binary!(
                x,
                y,
                arithmetic(
                    x,
                    y,
                    |a, b| a - b,
                    i64::checked_sub,
                    |a, b| a - b,
                    |a, b| Some(a - b)
                )
            ),
            Ins::Eq => binary!(x, y, Slot::Truth(equal(pool, notice, x, y))),
            Ins::Ne => binary!(x, y, Slot::Truth(2 - equal(pool, notice, x, y))),
            Ins::Lt => binary!(x, y, Slot::Truth(order(x, y, |a, b| a < b, |a, b| a < b))),
            Ins::Le => binary!(x, y, Slot::Truth(order(x, y, |a, b| a <= b, |a, b| a <= b))),
            Ins::Gt => binary!(x, y, Slot::Truth(order(x, y, |a, b| a > b, |a, b| a > b))),
            Ins::Ge => binary!(x, y, Slot::Truth(order(x, y, |a, b| a >= b, |a, b| a >= b))),
            Ins::Not => {
                let t = truth(top.sub(1).read());
                top.sub(1).write(Slot::Truth(2 - t));
            }
            Ins::And => truths!(x, y, x.min(y)),
            Ins::Or => truths!(x, y, x.max(y)),
            Ins::Xor => truths!(
                x,
                y,
                if x == BOTTOM || y == BOTTOM {
                    BOTTOM
                } else {
                    x ^ y
                }
            ),
            Ins::SkipFalse(to) => {
                if truth(top.sub(1).read()) == FALSE {
                    at = to as usize;
                    continue;
                }
            }
            Ins::SkipTrue(to) => {
                if truth(top.sub(1).read()) == TRUE {
                    at = to as usize;
                    continue;
                }
            }
            Ins::IsKind(k) => test!(
                x,
                match x {
                    Slot::Missing => BOTTOM,
                    Slot::Int32(_) => of_bool(k == 1),
                    Slot::Int64(_) => of_bool(k == 2),
                    Slot::Real(_) => of_bool(k == 3),
                    Slot::Text(_) => of_bool(k == 4),
                    _ => of_bool(k == 5),
                }
            ),
            Ins::Nan => test!(
                x,
                match x {
                    Slot::Missing => BOTTOM,
                    Slot::Real(r) => of_bool(r.is_nan()),
                    _ => FALSE,
                }
            ),
            Ins::Require => test!(
                x,
                match x {
                    Slot::Missing => BOTTOM,
                    _ => TRUE,
                }
            ),
            Ins::Begins(n) => many!(n, x, later, fit(pool, notice, 0, x, later)),
            Ins::Contains(n) => many!(n, x, later, fit(pool, notice, 1, x, later)),
            Ins::Ends(n) => many!(n, x, later, fit(pool, notice, 2, x, later)),
            Ins::Wildcard(n) => many!(n, x, later, fit(pool, notice, 3, x, later)),
            Ins::Regex(n) => many!(n, x, later, fit(pool, notice, 4, x, later)),
            Ins::Equals(n) => many!(n, x, later, {
                let mut t = FALSE;
                for &y in later {
                    t = t.max(equal(pool, notice, x, y));
                    if t == TRUE {
                        break;
                    }
                }
                t
            }),
        }
        at += 1;
    }
    (truth(base.read()), steps, undecided)
}

#[inline(always)]
fn truth(s: Slot) -> u8 {
    match s {
        Slot::Truth(t) => t,
        // the check has made it impossible
        _ => unsafe { std::hint::unreachable_unchecked() },
    }
}

#[inline(always)]
unsafe fn fit(pool: &[u8], notice: &[u8], how: u8, x: Slot, later: &[Slot]) -> u8 {
    let Slot::Text(p) = x else {
        return BOTTOM;
    };
    let s = bytes(pool, notice, p);
    let mut t = FALSE;
    for &y in later {
        let Slot::Text(q) = y else {
            return BOTTOM;
        };
        if t == FALSE {
            t = of_bool(fits(how, s, p.folded, bytes(pool, notice, q), q.folded));
        }
    }
    t
}

/// A verdict's number in the interface: false 0, true 1, bottom 2.
fn number_of(verdict: u8) -> u8 {
    [0, 2, 1][verdict as usize]
}

/// The guarded run over bytes: number, place, the verdict's number, steps, the undecided entry.
pub fn guarded(table: &[u8], notice: &[u8]) -> (u8, usize, u8, usize, u16) {
    let mut code = no_code();
    let Some(p) = decode(table, &mut code) else {
        return (12, 0, number_of(BOTTOM), 0, NO_ENTRY);
    };
    if let Some(place) = check_notice(notice) {
        return (11, place, number_of(BOTTOM), 0, NO_ENTRY);
    }
    let (verdict, steps, undecided) = unsafe { run(&p, notice) };
    (0, 0, number_of(verdict), steps, undecided)
}

// ---- many tables

/// A notice's fields, so that a name is found without a walk: where each starts, and a byte that most other names do not have.
pub(crate) struct Index {
    starts: [MaybeUninit<u16>; 64],
    tags: [u8; 64],
    count: usize,
}

#[inline(always)]
unsafe fn tag(name: &[u8]) -> u8 {
    let last = *name.get_unchecked(name.len() - 1);
    name.get_unchecked(0)
        .wrapping_mul(31)
        .wrapping_add(last.wrapping_mul(7))
        .wrapping_add(name.len() as u8)
}

impl Index {
    /// The index of a notice, or the place of its first fault.
    pub(crate) fn of(notice: &[u8]) -> Result<Index, usize> {
        let mut index = Index {
            starts: [MaybeUninit::uninit(); 64],
            tags: [0; 64],
            count: 0,
        };
        let fault = check_fields(notice, |k, at, name| {
            index.starts[k].write(at as u16);
            // SAFETY: a right name is not empty
            index.tags[k] = unsafe { tag(name) };
            index.count = k + 1;
        });
        match fault {
            None => Ok(index),
            Some(place) => Err(place),
        }
    }

    /// A bit for each field whose tag is the one.
    #[inline(always)]
    unsafe fn places(&self, tag: u8) -> u64 {
        use std::arch::x86_64::*;
        let sought = _mm_set1_epi8(tag as i8);
        let mut all = 0;
        let mut k = 0;
        while k < self.count {
            let sixteen = _mm_loadu_si128(self.tags.as_ptr().add(k) as *const __m128i);
            all |= (_mm_movemask_epi8(_mm_cmpeq_epi8(sought, sixteen)) as u64) << k;
            k += 16;
        }
        all & (u64::MAX >> (64 - self.count))
    }

    /// The value of the field of a name in the notice that the index is of.
    #[inline(always)]
    unsafe fn find(&self, notice: &[u8], name: &[u8]) -> Slot {
        if self.count == 0 {
            return Slot::Missing;
        }
        let mut places = self.places(tag(name));
        while places != 0 {
            let at = self.starts[places.trailing_zeros() as usize].assume_init() as usize;
            if *notice.get_unchecked(at + 4) as usize == name.len()
                && same_bytes(notice.as_ptr().add(at + 5), name.as_ptr(), name.len())
            {
                return value_at(notice, at);
            }
            places &= places - 1;
        }
        Slot::Missing
    }
}

/// How many of these bytes the table at their start takes.
#[inline(always)]
fn extent(s: &[u8]) -> usize {
    if s.len() < 4 {
        return s.len();
    }
    // SAFETY: there are four bytes
    let size = 4 + unsafe { u32_at(s, 0) } as usize;
    size.min(s.len())
}

/// The verdict byte of one table, checked and decoded in one pass: 3 if it is refused. The index is that of the notice.
#[inline(always)]
pub(crate) unsafe fn verdict_byte(
    table: &[u8],
    notice: &[u8],
    index: &Index,
    code: &mut Code,
) -> u8 {
    match decode(table, code) {
        Some(p) => number_of(run_by(&p, notice, |name| index.find(notice, name)).0),
        None => 3,
    }
}

/// Up to 64 tables end to end on one notice (document 02, request 8): number, place, how many verdict bytes. The notice is checked
/// and its index made once; each table is checked and decoded in one pass and then run.
pub fn many(tables: &[u8], notice: &[u8], verdicts: &mut [u8]) -> (u8, usize, usize) {
    let index = match Index::of(notice) {
        Ok(index) => index,
        Err(place) => return (11, place, 0),
    };
    let mut ends = [0; 64];
    let (mut count, mut end) = (0, 0);
    while end < tables.len() {
        if count == 64 {
            return (24, 0, 0);
        }
        end += extent(&tables[end..]);
        ends[count] = end;
        count += 1;
    }
    if verdicts.len() < count {
        return (9, 0, 0);
    }
    let mut code = no_code();
    let mut start = 0;
    for (&end, verdict) in ends[..count].iter().zip(verdicts) {
        // SAFETY: the notice has been checked, and the index is of it
        *verdict = unsafe { verdict_byte(&tables[start..end], notice, &index, &mut code) };
        start = end;
    }
    (0, 0, count)
}

//! Regular expressions (document 02, request 13) as an expert would match them: the pattern's automaton with one state for each of its single bytes (Glushkov's), whose sets of states are
//! bits of 1, 4, 16 or 64 words. Where a byte may lead is told once for each byte that occurs. Patterns of up to 64 single bytes allocate nothing.

use crate::wildcard::{in_set, set_end};
use std::mem::MaybeUninit;

/// "bracket sets as in request 1 with `^` for `!`"
const MARK: u8 = b'^';

/// Whether the pattern is well-formed, in one pass.
pub fn well_formed(p: &[u8]) -> bool {
    let anchored = p.first() == Some(&MARK);
    let mut j = anchored as usize;
    let mut depth = 0;
    // the branch has nothing in it; the byte before ends what a mark may repeat
    let (mut empty, mut ends) = (!anchored, false);
    while j < p.len() {
        match p[j] {
            b'(' => {
                depth += 1;
                (empty, ends) = (true, false);
                j += 1;
                if depth > 8 {
                    return false;
                }
                continue;
            }
            b')' if depth == 0 || empty => return false,
            b')' => {
                depth -= 1;
                j += 1;
            }
            b'|' if empty => return false,
            b'|' => {
                (empty, ends) = (true, false);
                j += 1;
                continue;
            }
            b'*' | b'+' | b'?' if !ends => return false,
            b'*' | b'+' | b'?' => j += 1,
            b'^' => return false,
            b'$' => return j + 1 == p.len() && depth == 0,
            b'\\' if j + 1 == p.len() => return false,
            b'\\' => j += 2,
            b'[' => match set_end(p, j + 1, MARK) {
                Some(end) => j = end,
                None => return false,
            },
            _ => j += 1,
        }
        (empty, ends) = (false, true);
    }
    depth == 0 && !empty
}

/// How a state takes its byte; a set by where it stands in the pattern.
#[derive(Clone, Copy)]
enum One {
    Any,
    Byte(u8),
    Set(u16),
}

/// A part of the pattern: whether it fits the empty string, and the states that its first and its last byte may be.
#[derive(Clone, Copy)]
struct Part<const W: usize> {
    none: bool,
    first: [u64; W],
    last: [u64; W],
}

struct Automaton<'a, const W: usize> {
    p: &'a [u8],
    j: usize,
    states: usize,
    ones: &'a mut [MaybeUninit<One>],
    /// The states that may come after each.
    follow: &'a mut [[u64; W]],
}

#[inline(always)]
fn join<const W: usize>(a: &mut [u64; W], b: &[u64; W]) {
    for i in 0..W {
        a[i] |= b[i];
    }
}

#[inline(always)]
fn each<const W: usize>(set: &[u64; W], mut f: impl FnMut(usize)) {
    for (i, word) in set.iter().enumerate() {
        let mut x = *word;
        while x != 0 {
            f(64 * i + x.trailing_zeros() as usize);
            x &= x - 1;
        }
    }
}

impl<const W: usize> Automaton<'_, W> {
    fn lead(&mut self, from: &[u64; W], to: &[u64; W]) {
        let follow = &mut self.follow;
        each(from, |k| join(&mut follow[k], to));
    }

    fn group(&mut self) -> Part<W> {
        let mut all = self.branch();
        while self.p.get(self.j) == Some(&b'|') {
            self.j += 1;
            let next = self.branch();
            all.none |= next.none;
            join(&mut all.first, &next.first);
            join(&mut all.last, &next.last);
        }
        all
    }

    /// Parts up to `|`, `)`, `$` or the end.
    fn branch(&mut self) -> Part<W> {
        let mut all = Part {
            none: true,
            first: [0; W],
            last: [0; W],
        };
        while self.j < self.p.len() && !matches!(self.p[self.j], b'|' | b')' | b'$') {
            let next = self.part();
            self.lead(&all.last, &next.first);
            if all.none {
                join(&mut all.first, &next.first);
            }
            if !next.none {
                all.last = [0; W];
            }
            join(&mut all.last, &next.last);
            all.none &= next.none;
        }
        all
    }

    fn part(&mut self) -> Part<W> {
        let mut part = if self.p[self.j] == b'(' {
            self.j += 1;
            let group = self.group();
            self.j += 1;
            group
        } else {
            self.one()
        };
        // marks in a row are led round once
        let mut round = false;
        while let Some(mark @ (b'*' | b'+' | b'?')) = self.p.get(self.j) {
            round |= *mark != b'?';
            part.none |= *mark != b'+';
            self.j += 1;
        }
        if round {
            self.lead(&part.last, &part.first);
        }
        part
    }

    fn one(&mut self) -> Part<W> {
        let (one, next) = match self.p[self.j] {
            b'.' => (One::Any, self.j + 1),
            b'\\' => (One::Byte(self.p[self.j + 1]), self.j + 2),
            b'[' => (
                One::Set(self.j as u16 + 1),
                set_end(self.p, self.j + 1, MARK).unwrap_or(self.p.len()),
            ),
            plain => (One::Byte(plain), self.j + 1),
        };
        self.j = next;
        let k = self.states;
        self.states += 1;
        self.ones[k].write(one);
        self.follow[k] = [0; W];
        let mut own = [0; W];
        own[k / 64] = 1 << (k % 64);
        Part {
            none: false,
            first: own,
            last: own,
        }
    }

    /// The states that take the byte.
    fn taken_by(&self, b: u8) -> [u64; W] {
        let mut row = [0; W];
        for k in 0..self.states {
            // SAFETY: `one` has written each state
            let takes = match unsafe { self.ones[k].assume_init() } {
                One::Any => true,
                One::Byte(plain) => plain == b,
                One::Set(at) => in_set(self.p, at as usize, b, MARK).0,
            };
            row[k / 64] |= (takes as u64) << (k % 64);
        }
        row
    }

    /// Whether some stretch fits; `rows` has room for each byte's row.
    fn fits(&mut self, s: &[u8], mark: bool, rows: &mut [MaybeUninit<[u64; W]>; 256]) -> bool {
        let at_start = self.p[0] == MARK;
        self.j = at_start as usize;
        let none = [0; W];
        let (mut always, mut only_start) = (none, none);
        let (mut ends, mut only_end) = (none, none);
        loop {
            let start = at_start && self.j == 1;
            let branch = self.branch();
            let end = self.p.get(self.j) == Some(&b'$');
            if branch.none && (!(start && end) || s.is_empty()) {
                return true;
            }
            join(
                if start { &mut only_start } else { &mut always },
                &branch.first,
            );
            join(if end { &mut only_end } else { &mut ends }, &branch.last);
            if self.p.get(self.j) != Some(&b'|') {
                break;
            }
            self.j += 1;
        }
        let mut told = [0u64; 4];
        let mut now = none;
        join(&mut only_start, &always);
        let mut first = &only_start;
        for &b in s {
            let b = if mark { b.to_ascii_lowercase() } else { b };
            let mut next = *first;
            each(&now, |k| join(&mut next, &self.follow[k]));
            let (word, bit) = (b as usize / 64, 1 << (b % 64));
            if told[word] & bit == 0 {
                told[word] |= bit;
                rows[b as usize].write(self.taken_by(b));
            }
            // SAFETY: the row is told
            let row = unsafe { rows[b as usize].assume_init_ref() };
            let mut found = 0;
            for i in 0..W {
                now[i] = next[i] & row[i];
                found |= now[i] & ends[i];
            }
            if found != 0 {
                return true;
            }
            first = &always;
        }
        (0..W).any(|i| now[i] & only_end[i] != 0)
    }
}

/// On the stack: up to 64 states.
fn small(p: &[u8], s: &[u8], mark: bool) -> bool {
    let mut rows = [MaybeUninit::uninit(); 256];
    Automaton {
        p,
        j: 0,
        states: 0,
        ones: &mut [MaybeUninit::uninit(); 64],
        follow: &mut [[0; 1]; 64],
    }
    .fits(s, mark, &mut rows)
}

fn large<const W: usize>(p: &[u8], s: &[u8], mark: bool) -> bool {
    let states = 64 * W;
    let mut rows: Box<[MaybeUninit<[u64; W]>; 256]> = vec![MaybeUninit::uninit(); 256]
        .into_boxed_slice()
        .try_into()
        .unwrap_or_else(|_| unreachable!("256 rows"));
    Automaton {
        p,
        j: 0,
        states: 0,
        ones: &mut vec![MaybeUninit::uninit(); states],
        follow: &mut vec![[0; W]; states],
    }
    .fits(s, mark, &mut rows)
}

/// Whether some stretch of the value fits the well-formed pattern, A..Z of the value as a..z if it is marked.
pub fn fits(p: &[u8], s: &[u8], mark: bool) -> bool {
    // no pattern has more states than bytes
    match p.len() {
        0..=64 => small(p, s, mark),
        65..=256 => large::<4>(p, s, mark),
        257..=1024 => large::<16>(p, s, mark),
        _ => large::<64>(p, s, mark),
    }
}

//! Where the rule of `wildcard` turns, for the corners of op 60. What is said of a pattern is said of
//! one that stands alone beside a string.

use crate::corners::{Corner, Visit};
use crate::operands::{is_bottom, is_empty, is_text, text};
use reference::op::Op;
use reference::wildcard::{Part, Pattern};

const WILDCARD: &[Op] = &[Op::Wildcard];

/// A pattern that stands alone, its bytes, and the value.
struct Tried<'a> {
    pattern: Pattern,
    bytes: &'a [u8],
    value: &'a [u8],
}

fn tried<'a>(v: &'a Visit) -> Option<Tried<'a>> {
    let [value, bytes] = v.operands else {
        return None;
    };
    let (value, bytes) = (text(value)?, text(bytes)?);
    let pattern = Pattern::of(bytes).ok()?;
    Some(Tried {
        pattern,
        bytes,
        value,
    })
}

impl Tried<'_> {
    fn fits(&self) -> bool {
        self.pattern.fits(self.value)
    }

    fn singles(&self) -> usize {
        let parts = self.pattern.parts.iter();
        parts.filter(|part| **part != Part::Run).count()
    }

    fn runs(&self) -> usize {
        self.pattern.parts.len() - self.singles()
    }

    /// The value fits, and the pattern has such a part.
    fn fits_with(&self, is: fn(&Part) -> bool) -> bool {
        self.fits() && self.pattern.parts.iter().any(is)
    }

    /// Short enough to be tried many times.
    fn short(&self) -> bool {
        self.value.len() <= 64
    }

    /// The value does not fit, and would with `?` in the place of one such part.
    fn misses_by(&self, is: fn(&Part) -> bool) -> bool {
        let without = |at: usize| {
            let mut parts = self.pattern.parts.clone();
            parts[at] = Part::Any;
            Pattern { parts }.fits(self.value)
        };
        let parts = self.pattern.parts.iter().enumerate();
        self.short()
            && !self.fits()
            && parts
                .filter(|(_, part)| is(part))
                .any(|(at, _)| without(at))
    }

    /// The value does not fit, but a start of it does, or an end.
    fn start_fits(&self) -> bool {
        let mut starts = (0..self.value.len()).map(|end| &self.value[..end]);
        self.short() && !self.fits() && starts.any(|start| self.pattern.fits(start))
    }

    fn end_fits(&self) -> bool {
        let mut ends = (1..=self.value.len()).map(|start| &self.value[start..]);
        self.short() && !self.fits() && ends.any(|end| self.pattern.fits(end))
    }

    /// The value fits, but not if each run ends where the next part first fits.
    fn tries_again(&self) -> bool {
        let mut at = 0;
        let mut parts = self.pattern.parts.iter().peekable();
        while let Some(part) = parts.next() {
            match (part, parts.peek()) {
                (Part::Run, None) => return false,
                (Part::Run, Some(next)) => {
                    while self.value.get(at).is_some_and(|byte| !next.takes(*byte)) {
                        at += 1;
                    }
                }
                (one, _) if self.value.get(at).is_some_and(|byte| one.takes(*byte)) => at += 1,
                _ => return self.fits(),
            }
        }
        at < self.value.len() && self.fits()
    }

    /// A byte in a set alone, and the set's ranges of more than one byte.
    fn in_set(&self, is: fn(u8, u8, u8) -> bool) -> bool {
        match (&self.pattern.parts[..], self.value) {
            (
                [Part::Set {
                    complement: false,
                    ranges,
                }],
                [byte],
            ) => {
                let wide = ranges.iter().filter(|(from, to)| from < to);
                wide.into_iter().any(|(from, to)| is(*byte, *from, *to))
            }
            _ => false,
        }
    }

    /// A byte beside a complement alone.
    fn in_complement(&self, byte: u8) -> bool {
        let complement = |part: &Part| {
            matches!(
                part,
                Part::Set {
                    complement: true,
                    ..
                }
            )
        };
        self.value == [byte] && self.pattern.parts.len() == 1 && complement(&self.pattern.parts[0])
    }

    /// The byte as a member of a set for itself.
    fn member(&self, byte: u8) -> bool {
        self.pattern.parts.iter().any(|part| match part {
            Part::Set { ranges, .. } => ranges.contains(&(byte, byte)),
            _ => false,
        })
    }

    /// The byte outside sets.
    fn plain(&self, byte: u8) -> bool {
        self.pattern.parts.contains(&Part::Byte(byte))
    }
}

fn is_set(part: &Part) -> bool {
    matches!(
        part,
        Part::Set {
            complement: false,
            ..
        }
    )
}

fn is_complement(part: &Part) -> bool {
    matches!(
        part,
        Part::Set {
            complement: true,
            ..
        }
    )
}

fn is_byte(part: &Part) -> bool {
    matches!(part, Part::Byte(_))
}

fn is_any(part: &Part) -> bool {
    *part == Part::Any
}

/// Whether there is a pattern alone of which this holds.
fn of(v: &Visit, holds: impl Fn(&Tried) -> bool) -> bool {
    tried(v).is_some_and(|tried| holds(&tried))
}

/// Corners of patterns.
pub const WILDCARDS: [Corner; 46] = [
    ("fits", WILDCARD, |v| of(v, |t| t.fits())),
    ("misses", WILDCARD, |v| of(v, |t| !t.fits())),
    ("a start fits", WILDCARD, |v| of(v, |t| t.start_fits())),
    ("an end fits", WILDCARD, |v| of(v, |t| t.end_fits())),
    ("empty on empty", WILDCARD, |v| {
        of(v, |t| t.bytes.is_empty() && t.value.is_empty())
    }),
    ("empty on another", WILDCARD, |v| {
        of(v, |t| t.bytes.is_empty() && !t.value.is_empty())
    }),
    ("* on empty", WILDCARD, |v| {
        of(v, |t| t.bytes == b"*" && t.value.is_empty())
    }),
    ("* of none", WILDCARD, |v| {
        of(v, |t| {
            t.fits() && t.runs() > 0 && t.singles() == t.value.len()
        })
    }),
    ("* of some", WILDCARD, |v| {
        of(v, |t| t.fits() && t.singles() < t.value.len())
    }),
    ("**", WILDCARD, |v| {
        of(v, |t| {
            t.fits()
                && t.pattern
                    .parts
                    .windows(2)
                    .any(|two| two == [Part::Run, Part::Run])
        })
    }),
    ("* that goes on", WILDCARD, |v| {
        of(v, |t| t.runs() == 1 && t.tries_again())
    }),
    ("the second * that goes on", WILDCARD, |v| {
        of(v, |t| t.runs() == 2 && t.tries_again())
    }),
    ("? with no byte", WILDCARD, |v| {
        of(v, |t| {
            t.runs() == 0
                && t.singles() == t.value.len() + 1
                && t.pattern.parts.contains(&Part::Any)
        })
    }),
    ("?", WILDCARD, |v| of(v, |t| t.fits_with(is_any))),
    ("plain byte", WILDCARD, |v| of(v, |t| t.fits_with(is_byte))),
    ("plain byte alone unlike", WILDCARD, |v| {
        of(v, |t| t.misses_by(is_byte))
    }),
    ("set", WILDCARD, |v| of(v, |t| t.fits_with(is_set))),
    ("set alone unlike", WILDCARD, |v| {
        of(v, |t| t.misses_by(is_set))
    }),
    ("complement", WILDCARD, |v| {
        of(v, |t| t.fits_with(is_complement))
    }),
    ("complement alone unlike", WILDCARD, |v| {
        of(v, |t| t.misses_by(is_complement))
    }),
    ("first of a range", WILDCARD, |v| {
        of(v, |t| t.in_set(|byte, from, _| byte == from))
    }),
    ("last of a range", WILDCARD, |v| {
        of(v, |t| t.in_set(|byte, _, to| byte == to))
    }),
    ("within a range", WILDCARD, |v| {
        of(v, |t| t.in_set(|byte, from, to| from < byte && byte < to))
    }),
    ("one before a range", WILDCARD, |v| {
        of(v, |t| {
            !t.fits() && t.in_set(|byte, from, _| byte.checked_add(1) == Some(from))
        })
    }),
    ("one after a range", WILDCARD, |v| {
        of(v, |t| {
            !t.fits() && t.in_set(|byte, _, to| to.checked_add(1) == Some(byte))
        })
    }),
    ("range from 0 to 255", WILDCARD, |v| {
        of(v, |t| t.in_set(|_, from, to| (from, to) == (0, 255)))
    }),
    ("0 beside a complement", WILDCARD, |v| {
        of(v, |t| t.in_complement(0))
    }),
    ("255 beside a complement", WILDCARD, |v| {
        of(v, |t| t.in_complement(255))
    }),
    ("plain *", WILDCARD, |v| {
        of(v, |t| t.fits() && t.plain(b'*'))
    }),
    ("plain ?", WILDCARD, |v| {
        of(v, |t| t.fits() && t.plain(b'?'))
    }),
    ("plain [", WILDCARD, |v| {
        of(v, |t| t.fits() && t.plain(b'['))
    }),
    ("plain ]", WILDCARD, |v| {
        of(v, |t| t.fits() && t.plain(b']'))
    }),
    ("plain \\", WILDCARD, |v| {
        of(v, |t| t.fits() && t.plain(b'\\'))
    }),
    ("member ]", WILDCARD, |v| {
        of(v, |t| t.fits() && t.member(b']'))
    }),
    ("member [", WILDCARD, |v| {
        of(v, |t| t.fits() && t.member(b'['))
    }),
    ("member -", WILDCARD, |v| {
        of(v, |t| t.fits() && t.member(b'-'))
    }),
    ("member !", WILDCARD, |v| {
        of(v, |t| t.fits() && t.member(b'!'))
    }),
    ("member \\", WILDCARD, |v| {
        of(v, |t| t.fits() && t.member(b'\\'))
    }),
    ("value of 1024", WILDCARD, |v| {
        of(v, |t| t.value.len() == 1024 && t.fits())
    }),
    ("value of 1024, missed", WILDCARD, |v| {
        of(v, |t| t.value.len() == 1024 && !t.fits())
    }),
    ("empty first", WILDCARD, |v| v.is(is_empty)),
    ("first bottom", WILDCARD, |v| v.is(is_bottom)),
    ("first no string", WILDCARD, |v| {
        !v.is(is_text) && !v.is(is_bottom)
    }),
    ("8 patterns, the last fits alone", WILDCARD, |v| {
        v.last_of_8()
    }),
    ("8 patterns, none fits", WILDCARD, |v| v.none_of_8()),
    ("8 patterns, the first fits", WILDCARD, |v| v.first_of_8()),
];

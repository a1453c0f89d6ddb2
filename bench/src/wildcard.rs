//! Wildcard patterns (document 02, request 1) as an expert would match them: greedily over the pattern's own bytes, going back to the last `*` alone.

/// Whether the pattern is well-formed: every set closed and not empty, no range that falls, no backslash at the end.
pub fn well_formed(p: &[u8]) -> bool {
    let mut j = 0;
    while j < p.len() {
        match p[j] {
            b'\\' if j + 1 == p.len() => return false,
            b'\\' => j += 2,
            b'[' => match set_end(p, j + 1, b'!') {
                Some(end) => j = end,
                None => return false,
            },
            _ => j += 1,
        }
    }
    true
}

/// The byte after the set whose first byte stands at k, with its mark of the complement; none if it is ill-formed.
pub fn set_end(p: &[u8], mut k: usize, mark: u8) -> Option<usize> {
    if p.get(k) == Some(&mark) {
        k += 1;
    }
    let first = k;
    while *p.get(k)? != b']' {
        let (low, next) = member(p, k)?;
        k = next;
        if p.get(k) == Some(&b'-') && *p.get(k + 1)? != b']' {
            let (high, next) = member(p, k + 1)?;
            if high < low {
                return None;
            }
            k = next;
        }
    }
    (k > first).then_some(k + 1)
}

/// A member of a set and where the next one stands.
fn member(p: &[u8], k: usize) -> Option<(u8, usize)> {
    match *p.get(k)? {
        b'\\' => Some((*p.get(k + 1)?, k + 2)),
        b => Some((b, k + 1)),
    }
}

/// Whether the set at k, after its `[`, takes the byte, and where it ends. The pattern is well-formed.
pub fn in_set(p: &[u8], mut k: usize, b: u8, mark: u8) -> (bool, usize) {
    let complement = p[k] == mark;
    k += complement as usize;
    let mut held = false;
    while p[k] != b']' {
        k += (p[k] == b'\\') as usize;
        let low = p[k];
        let mut high = low;
        k += 1;
        if p[k] == b'-' && p[k + 1] != b']' {
            k += 1 + (p[k + 1] == b'\\') as usize;
            high = p[k];
            k += 1;
        }
        held |= low <= b && b <= high;
    }
    (held != complement, k + 1)
}

/// Where the pattern goes on if the part at j takes the byte.
#[inline(always)]
fn one(p: &[u8], j: usize, b: u8) -> Option<usize> {
    match p[j] {
        b'?' => Some(j + 1),
        b'\\' => (p[j + 1] == b).then_some(j + 2),
        b'[' => {
            let (takes, end) = in_set(p, j + 1, b, b'!');
            takes.then_some(end)
        }
        plain => (plain == b).then_some(j + 1),
    }
}

/// Whether the whole value fits the well-formed pattern, A..Z of the value as a..z if it is marked.
pub fn fits(p: &[u8], s: &[u8], mark: bool) -> bool {
    let (mut i, mut j) = (0, 0);
    // after the last `*`, and where the value goes on behind the bytes that it takes
    let mut star = None;
    let mut from = 0;
    loop {
        if j == p.len() {
            if i == s.len() {
                return true;
            }
        } else if p[j] == b'*' {
            j += 1;
            if j == p.len() {
                return true;
            }
            star = Some(j);
            from = i;
            continue;
        } else if i == s.len() {
            return false;
        } else {
            let b = if mark {
                s[i].to_ascii_lowercase()
            } else {
                s[i]
            };
            if let Some(next) = one(p, j, b) {
                i += 1;
                j = next;
                continue;
            }
        }
        let Some(again) = star else {
            return false;
        };
        from += 1;
        i = from;
        j = again;
    }
}

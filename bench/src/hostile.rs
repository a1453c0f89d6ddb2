//! Inputs made to be slow: tables laid out by hand, which pass the check though no text gives them, and notices at their limits.

/// op, a, b
pub type Entry = (u16, u16, u64);

pub const EMPTY: [u8; 8] = [4, 0, 0, 0, 1, 0, 0, 0];

/// `^^`, which has no skip.
const XOR: Entry = (42, 0, 0);
/// The folding mark of the topmost string.
pub const FOLD: Entry = (6, 0, 0);

/// A string of the pool.
pub fn string(len: usize, at: usize) -> Entry {
    (4, len as u16, at as u64)
}

/// A field's name, which stands in the pool.
pub fn name(len: usize, at: usize) -> Entry {
    (5, len as u16, at as u64)
}

pub fn table(entries: &[Entry], pool: &[u8]) -> Vec<u8> {
    let length = 6 + 12 * entries.len() + pool.len();
    let mut all = (length as u32).to_le_bytes().to_vec();
    for word in [2, entries.len(), pool.len()] {
        all.extend_from_slice(&(word as u16).to_le_bytes());
    }
    for (op, a, b) in entries {
        all.extend_from_slice(&op.to_le_bytes());
        all.extend_from_slice(&a.to_le_bytes());
        all.extend_from_slice(&b.to_le_bytes());
    }
    all.extend_from_slice(pool);
    all
}

/// The table with another kind: 4 is the second edition's (document 02, request 9).
pub fn of_kind(kind: u16, mut table: Vec<u8>) -> Vec<u8> {
    table[4..6].copy_from_slice(&kind.to_le_bytes());
    table
}

/// The group, which leaves one truth value, as often as it fits into 512 entries, joined so that nothing is passed over.
pub fn often(group: &[Entry]) -> Vec<Entry> {
    times(group, 513 / (group.len() + 1))
}

/// The group so many times.
pub fn times(group: &[Entry], count: usize) -> Vec<Entry> {
    let mut all = group.to_vec();
    for _ in 1..count {
        all.extend_from_slice(group);
        all.push(XOR);
    }
    all
}

/// A first operand, eight later ones that are all the same, and the op over them.
pub fn eight(first: &[Entry], later: &[Entry], op: u16) -> Vec<Entry> {
    let mut group = first.to_vec();
    for _ in 0..8 {
        group.extend_from_slice(later);
    }
    group.push((op, 8, 0));
    group
}

/// A notice of fields whose names rise: name, kind, value.
pub fn notice(fields: &[(Vec<u8>, u16, Vec<u8>)]) -> Vec<u8> {
    let mut body = Vec::new();
    for (name, kind, value) in fields {
        body.extend_from_slice(&((3 + name.len() + value.len()) as u16).to_le_bytes());
        body.extend_from_slice(&kind.to_le_bytes());
        body.push(name.len() as u8);
        body.extend_from_slice(name);
        body.extend_from_slice(value);
    }
    let mut all = ((4 + body.len()) as u32).to_le_bytes().to_vec();
    all.extend_from_slice(&1u16.to_le_bytes());
    all.extend_from_slice(&(fields.len() as u16).to_le_bytes());
    all.extend_from_slice(&body);
    all
}

/// So many names of so many bytes that differ in the last two.
pub fn alike(count: usize, len: usize) -> Vec<Vec<u8>> {
    (0..count)
        .map(|i| {
            let mut name = vec![b'n'; len - 2];
            name.extend_from_slice(format!("{i:02}").as_bytes());
            name
        })
        .collect()
}

/// `contains` of a literal that is as the string but for its last byte: the first is a run of the pool of 2n - 1 bytes, the literal n bytes of its end.
/// A mark folds the first operand, two fold both.
pub fn almost_contained(n: usize, marks: usize) -> (Vec<Entry>, Vec<u8>) {
    let mut pool = vec![b'a'; 2 * n - 1];
    pool.push(b'b');
    let fold = |on: bool, load: Entry| if on { vec![load, FOLD] } else { vec![load] };
    let first = fold(marks > 0, string(2 * n - 1, 0));
    let later = fold(marks > 1, string(n, n));
    (eight(&first, &later, 57), pool)
}

/// The same with a field of the notice as the first operand: of 2n bytes, with a literal of n.
pub fn almost_contained_field(n: usize, mark: bool) -> (Vec<Entry>, Vec<u8>, Vec<u8>) {
    let mut pool = b"s".to_vec();
    pool.extend(vec![b'a'; n - 1]);
    pool.push(b'b');
    let mut first = vec![name(1, 0)];
    if mark {
        first.push(FOLD);
    }
    let field = (b"s".to_vec(), 4, vec![b'a'; 2 * n]);
    (eight(&first, &[string(n, 1)], 57), pool, notice(&[field]))
}

//! What is measured: notices and subscriptions of given sizes, the same on every run.

/// A small generator of numbers, so that every run measures the same texts.
pub struct Dice(pub u64);

impl Dice {
    pub fn next(&mut self, below: usize) -> usize {
        self.0 ^= self.0 << 13;
        self.0 ^= self.0 >> 7;
        self.0 ^= self.0 << 17;
        (self.0 >> 11) as usize % below
    }
}

/// The field names, rising by bytes, with their kinds: as a router of log and chat notices would see them.
pub const NAMES: [(&str, u16); 64] = [
    ("Address", 4),
    ("Attempt", 1),
    ("Bytes-In", 2),
    ("Bytes-Out", 2),
    ("Channel", 4),
    ("Client", 4),
    ("Colour", 4),
    ("Cost", 3),
    ("Count", 1),
    ("Country", 4),
    ("Day", 1),
    ("Delay", 3),
    ("Department", 4),
    ("Device", 4),
    ("Domain", 4),
    ("Duration", 3),
    ("Error", 1),
    ("Event", 4),
    ("File", 4),
    ("Flags", 1),
    ("From", 4),
    ("Group", 4),
    ("Height", 3),
    ("Host", 4),
    ("Hour", 1),
    ("Id", 2),
    ("Key", 5),
    ("Language", 4),
    ("Level", 1),
    ("Line", 1),
    ("Load", 3),
    ("Memory", 2),
    ("Message", 4),
    ("Message-Id", 4),
    ("Minute", 1),
    ("Mode", 4),
    ("Month", 1),
    ("Office", 4),
    ("Op", 1),
    ("Owner", 4),
    ("Payload", 5),
    ("Port", 1),
    ("Price", 3),
    ("Priority", 1),
    ("Process", 1),
    ("Project", 4),
    ("Protocol", 4),
    ("Queue", 4),
    ("Rate", 3),
    ("Reply-To", 4),
    ("Room", 4),
    ("Sequence", 2),
    ("Service", 4),
    ("Session", 2),
    ("Severity", 1),
    ("Size", 2),
    ("Status", 1),
    ("Subject", 4),
    ("Temperature", 3),
    ("Thread-Id", 2),
    ("Time", 2),
    ("User", 4),
    ("Version", 1),
    ("Zone", 4),
];

const WORDS: [&str; 8] = [
    "alert: disk full",
    "build",
    "Error in line 7",
    "mail.example.org",
    "ops",
    "search results",
    "tickertape",
    "x",
];

/// One field: `Op` with this value, any other with one by the dice.
fn put_field(body: &mut Vec<u8>, (name, kind): (&str, u16), op: i32, dice: &mut Dice) {
    let value: Vec<u8> = match kind {
        1 if name == "Op" => op.to_le_bytes().to_vec(),
        1 => (dice.next(10) as i32).to_le_bytes().to_vec(),
        2 => (dice.next(1_000_000) as i64).to_le_bytes().to_vec(),
        3 => (dice.next(1000) as f64 / 8.0).to_le_bytes().to_vec(),
        4 => WORDS[dice.next(WORDS.len())].as_bytes().to_vec(),
        _ => vec![7; dice.next(24)],
    };
    body.extend_from_slice(&((3 + name.len() + value.len()) as u16).to_le_bytes());
    body.extend_from_slice(&kind.to_le_bytes());
    body.push(name.len() as u8);
    body.extend_from_slice(name.as_bytes());
    body.extend_from_slice(&value);
}

/// The notice of these fields.
fn framed(body: &[u8], count: usize) -> Vec<u8> {
    let mut all = ((4 + body.len()) as u32).to_le_bytes().to_vec();
    all.extend_from_slice(&1u16.to_le_bytes());
    all.extend_from_slice(&(count as u16).to_le_bytes());
    all.extend_from_slice(body);
    all
}

/// A notice of so many fields: `Op` alone, or `Op` among others spread over the names.
pub fn notice(fields: usize) -> Vec<u8> {
    let step = NAMES.len() / fields;
    let mut body = Vec::new();
    let mut count = 0;
    let mut dice = Dice(0x9e37_79b9_7f4a_7c15);
    for (i, field) in NAMES.into_iter().enumerate() {
        let chosen = if fields == 1 {
            field.0 == "Op"
        } else {
            i % step == 38 % step
        };
        if chosen {
            put_field(&mut body, field, 42, &mut dice);
            count += 1;
        }
    }
    assert_eq!(count, fields);
    framed(&body, count)
}

/// A notice of `Op`, which is 42 in every other, and of so many fields more, chosen by the dice.
fn other_notice(more: usize, dice: &mut Dice) -> Vec<u8> {
    let op = [42, dice.next(100) as i32][dice.next(2)];
    let mut body = Vec::new();
    let (mut wanted, mut left) = (more, NAMES.len() - 1);
    for field in NAMES {
        if field.0 != "Op" {
            let chosen = dice.next(left) < wanted;
            left -= 1;
            if !chosen {
                continue;
            }
            wanted -= 1;
        }
        put_field(&mut body, field, op, dice);
    }
    framed(&body, more + 1)
}

/// 4,096 notices as a router sees them: of 1 to 16 fields, one in 64 of all 64.
pub fn notices(dice: &mut Dice) -> Vec<Vec<u8>> {
    let more = |i: usize| if i % 64 == 0 { 63 } else { i % 16 };
    (0..4096).map(|i| other_notice(more(i), dice)).collect()
}

/// One clause over a random field, with its count of entries: 3, or 4 or 5 for a few.
fn clause(dice: &mut Dice) -> (String, usize) {
    let (name, kind) = NAMES[dice.next(NAMES.len())];
    let order = ["<", "<=", ">", ">=", "==", "!="][dice.next(6)];
    let word = WORDS[dice.next(WORDS.len())];
    match kind {
        1 => match dice.next(4) {
            0 => (
                format!("{name} + {} {order} {}", dice.next(9), dice.next(19)),
                5,
            ),
            1 => (format!("{name} & 3 == {}", dice.next(4)), 5),
            _ => (format!("{name} {order} {}", dice.next(10)), 3),
        },
        2 => (format!("{name} {order} {}L", dice.next(1_000_000)), 3),
        3 => (format!("{name} {order} {}.5", dice.next(125)), 3),
        4 => match dice.next(6) {
            0 => (format!("begins-with ({name}, \"{}\")", &word[..1]), 3),
            1 => (
                format!("contains ({name}, \"{}\")", &word[word.len() / 2..]),
                3,
            ),
            2 => (
                format!(
                    "begins-with (fold-case ({name}), \"{}\")",
                    word.to_lowercase()
                ),
                4,
            ),
            _ => (format!("{name} == \"{word}\""), 3),
        },
        _ => (format!("size ({name}) {order} {}", dice.next(24)), 4),
    }
}

/// A subscription of exactly so many entries: for 3 `Op == 42`, else groups of clauses joined by `&&`, the groups by `||`.
pub fn subscription(entries: usize) -> String {
    if entries == 3 {
        return "Op == 42".to_string();
    }
    let mut dice = Dice(0x2545_f491_4f6c_dd1d ^ entries as u64);
    loop {
        let mut text = String::new();
        let mut count = 0;
        while count < entries {
            let (c, n) = clause(&mut dice);
            if count == 0 {
                text = c;
                count = n;
                continue;
            }
            text.push_str(if dice.next(3) == 0 { " || " } else { " && " });
            text.push_str(&c);
            count += n + 2;
        }
        if count == entries && text.len() <= 4096 {
            return text;
        }
    }
}

/// A subscription of exactly so many entries of which none is ever passed over: `^^` has no skip.
pub fn whole_subscription(entries: usize) -> String {
    let mut dice = Dice(0x1234_5678_9abc_def1);
    loop {
        let mut text = String::new();
        let mut count = 0;
        while count < entries {
            let (c, n) = clause(&mut dice);
            if count > 0 {
                text.push_str(" ^^ ");
                count += 1;
            }
            text.push_str(&c);
            count += n;
        }
        if count == entries && text.len() <= 4096 {
            return text;
        }
    }
}

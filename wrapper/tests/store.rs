//! The static library on the calls of tests/vectors/12-store.txt, whose answers are from elsewhere: buffer length,
//! number of calls, the calls, `:`, the number of making the store empty, then number:answer of each call.

use virentolex::raw::{store_add, store_fetch, store_make, store_remove};

fn bytes(word: &str) -> Vec<u8> {
    let digits = if word == "-" { "" } else { word };
    (0..digits.len())
        .step_by(2)
        .map(|at| u8::from_str_radix(&digits[at..at + 2], 16).expect("hex"))
        .collect()
}

fn hex(bytes: &[u8]) -> String {
    if bytes.is_empty() {
        return "-".to_string();
    }
    bytes.iter().map(|byte| format!("{byte:02x}")).collect()
}

/// One call, `a` table, `r` number or `f` number, and its answer.
fn answer(store: &mut [u8], call: &str) -> String {
    let (what, rest) = call.split_at(1);
    let number = || rest.parse().expect("a number");
    match what {
        "a" => {
            let added = store_add(store, &bytes(rest));
            format!("{}:{}", added.number, added.id)
        }
        "r" => format!("{}:0", store_remove(store, number())),
        "f" => {
            let fetched = store_fetch(store, number());
            format!("{}:{}", fetched.number, hex(fetched.table))
        }
        _ => panic!("{call}"),
    }
}

#[test]
fn calls_from_an_empty_store() {
    let path = concat!(env!("CARGO_MANIFEST_DIR"), "/../tests/vectors/12-store.txt");
    let lines = std::fs::read_to_string(path).expect(path);
    assert_eq!(lines.lines().count(), 250);
    for line in lines.lines() {
        let (given, meant) = line.split_once(" : ").expect("calls and answers");
        let mut words = given.split(' ').filter(|word| !word.is_empty());
        let [room, count] = [(); 2].map(|()| words.next().and_then(|word| word.parse().ok()));
        let (room, count): (Option<usize>, Option<usize>) = (room, count);
        let mut buffer = vec![0xAA; room.expect("a length")];
        let mut told = vec![store_make(&mut buffer).to_string()];
        told.extend(words.map(|call| answer(&mut buffer, call)));
        assert_eq!(Some(told.len()), count.map(|count| count + 1));
        assert_eq!(told.join(" "), meant, "{given}");
    }
}

//! The editions of a table: a subscription that shifts by the number of a door, run by each edition on
//! notices, which are UBF(A) texts. By the first a number outside the width of 32 bits is bottom; by the
//! second it is taken by its remainder. There is no third.
use virentolex::{Edition, Notice, Refusal, Subscription};

const TEXT: &str = "1 << Door & Open != 0";
const NOTICES: [&str; 3] = [
    "{\"Door\"1\"Open\"2}$",
    "{\"Door\"33\"Open\"2}$",
    "{\"Door\"-1\"Open\"2}$",
];

fn run(number: usize) -> Result<(), Refusal> {
    let subscription = Subscription::translate(TEXT, Edition::from_number(number)?)?;
    let table = subscription.as_table();
    let (kind, length) = (table[4], table.len());
    println!("{TEXT}, edition {number}: a table of kind {kind}, {length} bytes");
    for text in NOTICES {
        let outcome = subscription.run(Notice::from_ubf(text)?)?;
        println!("  {text}: {}", outcome.verdict);
    }
    Ok(())
}

fn main() {
    for number in [1, 2, 3] {
        if let Err(refusal) = run(number) {
            println!("{TEXT}, edition {number}: refused {}", refusal.number());
        }
    }
}

//! A router with three subscriptions: their tables lie end to end, and one call gives each one's verdict
//! on a notice. A table that is spoiled is refused alone; the others are answered as before.
mod notice;
use notice::{notice, show, translate};
use virentolex::{Notice, Refusal, Verdict, run_many};

const TEXTS: [&str; 3] = [
    "Console == \"counting room\"",
    "wildcard (Cab, \"T-4?\", \"V*\")",
    "Staff != \"417\"",
];

fn deliver(tables: &[u8], notice: &Notice) -> Result<(), Refusal> {
    let verdicts = run_many(tables, notice)?;
    println!("{}: {} verdicts", show(notice), verdicts.iter().count());
    for (k, verdict) in verdicts.iter() {
        match verdict {
            Ok(Verdict::True) => println!("  {}: true, delivered", TEXTS[k]),
            Ok(verdict) => println!("  {}: {verdict}, not delivered", TEXTS[k]),
            Err(_) => println!("  {}: table refused, not delivered", TEXTS[k]),
        }
    }
    Ok(())
}

fn main() -> Result<(), Refusal> {
    let subscriptions: Option<Vec<_>> = TEXTS.iter().map(|text| translate(text)).collect();
    let Some(subscriptions) = subscriptions else {
        return Ok(());
    };
    let mut tables: Vec<Vec<u8>> = subscriptions.into_iter().map(|s| s.into_table()).collect();
    let notice = notice(&[("Cab", "T-41"), ("Console", "yard")]);
    deliver(&tables.concat(), &notice)?;
    // the second table's kind, which is 2
    tables[1][4] = 7;
    deliver(&tables.concat(), &notice)
}

//! Subscriptions come and go while notices are matched. The store has 160 bytes: two of three subscriptions fit. One
//! of them is removed, and the third takes its number and its room.
mod notice;
use notice::{notice, show, translate};
use virentolex::{Notice, Refusal, Store, Subscription, Verdict};

const TEXTS: [&str; 3] = [
    "Console == \"counting room\"",
    "wildcard (Cab, \"T-4?\", \"V*\")",
    "Staff != \"417\"",
];

fn add(store: &mut Store<&mut [u8]>, text: &str, subscription: &Subscription) {
    match store.add(subscription) {
        Ok(id) => println!("added {text}: number {id}"),
        Err(refusal) => println!("added {text}: refused {}", refusal.number()),
    }
}

fn remove(store: &mut Store<&mut [u8]>, id: usize) {
    match store.remove(id) {
        Ok(()) => println!("removed number {id}"),
        Err(refusal) => println!("removed number {id}: refused {}", refusal.number()),
    }
}

fn deliver(store: &Store<&mut [u8]>, notice: &Notice) -> Result<(), Refusal> {
    let verdicts = store.run(notice)?;
    println!("{}: {} held", show(notice), verdicts.iter().count());
    for (id, verdict) in verdicts.iter() {
        let length = store.fetch(id)?.as_table().len();
        let told = match verdict {
            Ok(Verdict::True) => "true, delivered".to_string(),
            Ok(verdict) => format!("{verdict}, not delivered"),
            Err(_) => "refused, not delivered".to_string(),
        };
        println!("  {id}, a table of {length} bytes: {told}");
    }
    Ok(())
}

fn main() -> Result<(), Refusal> {
    let subscriptions: Option<Vec<_>> = TEXTS.iter().map(|text| translate(text)).collect();
    let Some(subscriptions) = subscriptions else {
        return Ok(());
    };
    let mut buffer = [0; 160];
    let mut store = Store::make(&mut buffer[..])?;
    println!("a store of 160 bytes: number 0");
    let at_counter = notice(&[("Cab", "T-41"), ("Console", "counting room")]);
    let in_yard = notice(&[("Cab", "T-41"), ("Console", "yard"), ("Staff", "502")]);
    deliver(&store, &at_counter)?;
    for (text, subscription) in TEXTS.iter().zip(&subscriptions) {
        add(&mut store, text, subscription);
    }
    deliver(&store, &at_counter)?;
    deliver(&store, &in_yard)?;
    remove(&mut store, 0);
    remove(&mut store, 0);
    deliver(&store, &in_yard)?;
    add(&mut store, TEXTS[2], &subscriptions[2]);
    deliver(&store, &in_yard)
}

//! The letter's case. One supervisor, 417, approves a payout at the counting room, again at the yard
//! console, which sends no Staff field, and again there with it; then a second person does. Two decisions
//! are shown the four notices. The first waits for one person who is not 417, by the letter's own
//! Staff != "417": without a Staff field that is undecided, so nobody is counted. The second waits for two
//! people by a text that is true of all four: without a Staff field the notice is refused.
mod notice;
use notice::{notice, show, translate};
use std::process::ExitCode;
use virentolex::{Decision, Notice, Operand, Refusal, Subscription};

/// Which entry of the table was undecided, and of a name that no field has it.
fn explain(subscription: &Subscription, k: u16) -> String {
    let field = match subscription.entry(k).map(|entry| entry.operand()) {
        Ok(Operand::Name(name)) => format!(": no field {}", String::from_utf8_lossy(name)),
        _ => String::new(),
    };
    format!("; entry {k} undecided{field}")
}

/// Opens a decision and shows it the notices; none if the text or the opening is refused.
fn decide(text: &str, needed: usize, notices: &[Notice]) -> Option<()> {
    let subscription = translate(text)?;
    let opened = Decision::open(&subscription, needed);
    let number = opened.as_ref().map_or_else(|r| r.number(), |_| 0);
    println!(
        "a decision of {} bytes, {needed} needed: number {number}",
        virentolex::DECISION_HEAD + subscription.as_table().len()
    );
    // where the opening is refused there is no decision to show a notice to
    let mut decision = opened.ok()?;
    for n in notices {
        let number = decision.show(n).map_or_else(Refusal::number, |_| 0);
        // a refusal leaves the count as it stood
        let tally = decision.tally();
        let reached = match tally.reached {
            true => "reached",
            false => "not reached",
        };
        let why = tally.undecided.map(|k| explain(&subscription, k));
        println!(
            "{}: number {number}, count {}, {reached}{}",
            show(n),
            tally.count,
            why.unwrap_or_default()
        );
    }
    Some(())
}

fn main() -> ExitCode {
    let notices = [
        notice(&[
            ("Approve", "payout"),
            ("Console", "counting room"),
            ("Staff", "417"),
        ]),
        notice(&[("Approve", "payout"), ("Console", "yard")]),
        notice(&[("Approve", "payout"), ("Console", "yard"), ("Staff", "417")]),
        notice(&[("Approve", "payout"), ("Console", "yard"), ("Staff", "502")]),
    ];
    let done = decide("Staff != \"417\"", 1, &notices)
        .and_then(|()| decide("Approve == \"payout\"", 2, &notices));
    ExitCode::from(u8::from(done.is_none()))
}

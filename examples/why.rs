//! Why was it undecided? For a subscription and notices, each a UBF(A) text, prints the verdict and, if it
//! is bottom, the first entry of the table that was undecided: a field that the notice has not, or an
//! operator that does not take what it got, with the fields that it got it from and their kinds.
//!
//!     cargo run --example why -- 'Staff != "417"' '{"Console""yard"}$' ..
//!
//! Without words it tells the cases below. It tells the first cause, and not what else may be lacking; of
//! an operator it does not tell whether a kind is wrong or a value, as a zero divisor is, or a shift count
//! outside the width.
use std::borrow::Cow;
use std::os::unix::ffi::OsStringExt;
use virentolex::{Edition, Entry, Notice, Operand, Refusal, Subscription, Verdict};

fn shown(bytes: &[u8]) -> Cow<'_, str> {
    String::from_utf8_lossy(bytes)
}

/// The entries directly before entry k that give its operands.
fn operands_of(subscription: &Subscription, k: u16) -> Vec<Entry<'_>> {
    let mut before = subscription.entries().take(k.into()).rev();
    let mut wanted = subscription.entry(k).map_or(0, |entry| entry.takes());
    let mut operands = Vec::new();
    while wanted > 0 {
        let Some(entry) = before.next() else {
            break;
        };
        wanted = wanted - 1 + entry.takes();
        operands.insert(0, entry);
    }
    operands
}

/// What was lacking at entry k, the first undecided one.
fn explain(subscription: &Subscription, notice: &Notice, k: u16) -> Result<String, Refusal> {
    let entry = subscription.entry(k)?;
    if let Operand::Name(name) = entry.operand() {
        return Ok(format!("no field {}", shown(name)));
    }
    let operands = operands_of(subscription, k);
    let fields: Vec<String> = operands
        .iter()
        .filter(|entry| matches!(entry.operand(), Operand::Name(_)))
        .filter_map(|entry| notice.find(entry.bytes))
        .map(|field| format!("{} ({})", shown(field.name), field.value.kind()))
        .collect();
    let got = match fields.is_empty() {
        true => "its literals".to_string(),
        false => format!("what it got from {}", fields.join(", ")),
    };
    Ok(format!("{} does not take {got}", entry.word()))
}

/// Tells of one notice.
fn tell(subscription: &Subscription, text: &[u8]) -> Result<(), Refusal> {
    let notice = Notice::from_ubf(text);
    let text = shown(text);
    let notice = match notice {
        Ok(notice) => notice,
        Err(refusal) => {
            println!("  {text}: no notice, number {}", refusal.number());
            return Ok(());
        }
    };
    let outcome = subscription.run(&notice)?;
    match (outcome.verdict, outcome.undecided) {
        (Verdict::Bottom, Some(k)) => {
            let lacking = explain(subscription, &notice, k)?;
            println!("  {text}: bottom, entry {k}: {lacking}");
        }
        (verdict, _) => println!("  {text}: {verdict}"),
    }
    Ok(())
}

/// Tells of a subscription on notices.
fn why(text: &[u8], notices: &[&[u8]]) -> Result<(), Refusal> {
    let subscription = match Subscription::translate(text, Edition::First) {
        Ok(subscription) => subscription,
        Err(refusal) => {
            println!("{}: {refusal}", shown(text));
            return Ok(());
        }
    };
    println!("{}", shown(text));
    notices
        .iter()
        .try_for_each(|notice| tell(&subscription, notice))
}

fn main() -> Result<(), Refusal> {
    let words = std::env::args_os().skip(1);
    let words: Vec<Vec<u8>> = words.map(OsStringExt::into_vec).collect();
    let words: Vec<&[u8]> = words.iter().map(Vec::as_slice).collect();
    if let [text, notices @ ..] = &words[..] {
        return why(text, notices);
    }
    why(
        b"Staff != \"417\"",
        &[
            b"{\"Console\"\"yard\"}$",
            b"{\"Staff\"417}$",
            b"{\"Staff\"\"502\"}$",
        ],
    )?;
    why(
        b"Load > 3 && Fare / Trips < 100",
        &[
            b"{\"Load\"\"full\"}$",
            b"{\"Fare\"900\"Load\"4\"Trips\"0}$",
            b"{\"Fare\"900\"Load\"4}$",
            b"{\"Load\"2}$",
        ],
    )?;
    why(
        b"size (Note) > Limit || Note == \"late\"",
        &[
            b"{\"Load\"\"full\"\"Note\"\"late\"}$",
            b"{\"Limit\"\"9\"\"Note\"\"too long\"}$",
        ],
    )
}

//! `match`: the verdict of each notice, and why it is bottom.
use crate::args::Args;
use crate::fault;
use crate::reading::{self, Label, Record};
use crate::report::{Answer, Failure, Out};
use crate::subscription::Named;
use crate::tally::Tally;
use crate::why::Why;
use virentolex::{Outcome, Subscription, Verdict};

/// `match TEXT NOTICE..`.
pub fn matching(args: &mut Args, out: &mut Out) -> Answer {
    let named = Named::take(args)?;
    reading::named(args, named.is_standard_input())?;
    let subscription = named.translate(args.edition)?;
    let why = Why::new(&subscription);
    let mut tally = Tally::new(out, args.quiet);
    let read = reading::each(args, out, |out, label, record| {
        match ran(&subscription, record) {
            Ok((notice, outcome)) => {
                tally.verdict(outcome.verdict);
                if !args.quiet && args.only.is_none_or(|only| only == outcome.verdict) {
                    told(out, label, &why, notice, outcome)?;
                }
            }
            Err(said) => {
                tally.refusal();
                out.tell(&format!("{}: {said}", label.of_refused()))?;
            }
        }
        Ok(())
    })?;
    if !args.quiet {
        tally.summary(out)?;
    }
    Ok(tally.status().max(read))
}

/// The run on a record, and the record as a notice; or what is wrong with it.
fn ran<'a>(subscription: &Subscription, record: Record<'a>) -> Result<(&'a [u8], Outcome), String> {
    let bytes = record?;
    let outcome = subscription
        .run(bytes)
        .map_err(|refusal| fault::refused(bytes, refusal))?;
    Ok((bytes, outcome))
}

/// The line of one notice.
fn told(
    out: &mut Out,
    label: &Label,
    why: &Why,
    notice: &[u8],
    outcome: Outcome,
) -> Result<(), Failure> {
    let (verdict, steps) = (outcome.verdict, outcome.steps);
    let word = if steps == 1 { "step" } else { "steps" };
    match (verdict, outcome.undecided) {
        (Verdict::Bottom, Some(k)) => {
            let lacking = why.explain(notice, k);
            out.line(format_args!(
                "{label}: {verdict}, {steps} {word}; {lacking}"
            ))?;
        }
        _ => out.line(format_args!("{label}: {verdict}, {steps} {word}"))?,
    }
    Ok(())
}

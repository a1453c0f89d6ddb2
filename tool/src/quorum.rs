//! `quorum`: how many people a run of notices counts, in one call or, with `--state`, over several.
mod state;

use crate::args::{Args, Word};
use crate::fault;
use crate::lint::staff;
use crate::reading::{self, refused, Record};
use crate::report::{Answer, Failure, Out, Status};
use crate::subscription::Named;
use crate::why::Why;
use state::{Opened, State};
use std::ffi::OsStr;
use virentolex::{Decision, NoticeRef, Refusal, Subscription, Value, Verdict};

/// A decision, what explains it, and where it is kept.
struct Counter<'a> {
    subscription: &'a Subscription,
    why: Why<'a>,
    decision: Opened,
    needed: usize,
    state: Option<State>,
    /// Another spelling of a value that was counted with which it would count, too.
    other_form: Option<Vec<u8>>,
}

/// `quorum NEEDED TEXT NOTICE..`.
pub fn quorum(args: &mut Args, out: &mut Out) -> Answer {
    let state = args.state.take().map(State::new).transpose()?;
    let decision = decision(args, state.as_ref())?;
    let table = Subscription::from_table(state::table(&decision));
    let subscription = table.map_err(|refusal| Failure::Told(refused(refusal)))?;
    let mut counter = Counter {
        why: Why::new(&subscription),
        subscription: &subscription,
        other_form: None,
        needed: state::needed(&decision),
        decision,
        state,
    };
    if args.words.is_empty() && !args.quiet {
        counter.people(out)?;
    }
    let status = counted(args, out, &mut counter)?;
    let tally = counter.decision.tally();
    let (word, answer) = match tally.reached {
        true => ("reached", Status::Yes),
        false => ("not reached", Status::No),
    };
    if !args.quiet {
        out.line(format_args!(
            "{word}: {} of {}",
            tally.count, counter.needed
        ))?;
    }
    Ok(status.max(answer))
}

/// Shows each notice, and says what became of it.
fn counted(args: &Args, out: &mut Out, counter: &mut Counter) -> Answer {
    let mut status = Status::Yes;
    let read = reading::each(args, out, |out, label, record| {
        match counter.show(record)? {
            Ok(_) if args.quiet => (),
            Ok(said) => out.line(format_args!("{label}: {said}"))?,
            Err(said) => {
                status = Status::Refused;
                out.tell(&format!("{}: {said}", label.of_refused()))?;
            }
        }
        Ok(())
    })?;
    if let Some(other) = counter.other_form.as_ref().filter(|_| !args.quiet) {
        out.tell(&format!(
            "the subscription does not fix the form of Staff, and {} would count as one more person: add a test such as && regex (Staff, \"^[1-9][0-9]*$\")",
            Value::String(other)
        ))?;
    }
    Ok(status.max(read))
}

/// The decision that the words open, or that is kept. Of one that is kept the number and the text may be left out.
fn decision(args: &mut Args, state: Option<&State>) -> Result<Opened, Failure> {
    let Some(state) = state else {
        return open(args, false);
    };
    let first = args.words.iter().find_map(|word| match word {
        Word::Plain(word) => Some(number(word).is_some()),
        Word::Notice(_) => None,
    });
    if first == Some(true) || args.file.is_some() || args.table.is_some() {
        return state.decision(Some(open(args, true)?));
    }
    if !args.words.is_empty() {
        reading::named(args, false)?;
    }
    state.decision(None)
}

/// Opens a decision by the number and the text of the words. One that is kept may be opened without a notice.
fn open(args: &mut Args, kept: bool) -> Result<Opened, Failure> {
    let needed = args.word().and_then(|word| number(&word));
    let lacking = || Failure::Use("the needed number of people comes first, 1 to 8".into());
    let needed = needed.ok_or_else(lacking)?;
    let named = Named::take(args)?;
    if !(kept && args.words.is_empty()) {
        reading::named(args, named.is_standard_input())?;
    }
    let subscription = named.translate(args.edition)?;
    Decision::open(&subscription, needed).map_err(|refusal| Failure::Told(refused(refusal)))
}

/// What is no number is wrong use; 0, 9 and more are refused.
fn number(word: &OsStr) -> Option<usize> {
    word.to_str()?.parse().ok()
}

impl Counter<'_> {
    /// A line for each person that is counted already.
    fn people(&self, out: &mut Out) -> Result<(), Failure> {
        for staff in state::people(&self.decision) {
            out.line(format_args!("Staff {} counted", Value::String(staff)))?;
        }
        Ok(())
    }

    /// Shows a notice, and says what became of it.
    fn show(&mut self, record: Record) -> Result<Result<String, String>, Failure> {
        let bytes = match record {
            Ok(bytes) => bytes,
            Err(said) => return Ok(Err(said.to_string())),
        };
        if let Some(state) = &self.state {
            if let Some((before, after)) = state.count(&self.decision, bytes)? {
                self.decision = before;
                let said = self.told(bytes);
                self.decision = after;
                return Ok(said);
            }
        }
        Ok(self.told(bytes))
    }

    /// Shows a notice to the decision.
    fn told(&mut self, bytes: &[u8]) -> Result<String, String> {
        let before = self.decision.tally().count;
        let shown = self.decision.show(bytes);
        let now = format!("{} of {}", self.decision.tally().count, self.needed);
        let tally = shown.map_err(|refusal| match refusal {
            Refusal::Notice { .. } => fault::refused(bytes, refusal),
            _ => format!("{}; {now}", refused(refusal)),
        })?;
        let notice = NoticeRef::from_bytes(bytes).map_err(refused)?;
        let outcome = self.subscription.run(notice).map_err(refused)?;
        Ok(match (outcome.verdict, tally.undecided) {
            (Verdict::True, _) => {
                let found = notice.find("Staff").map(|f| f.value);
                let staff = found.map_or(String::new(), |value| value.to_string());
                match tally.count > before {
                    true => format!("true, Staff {staff} counted; {now}{}", self.alike(notice)),
                    false => format!("true, Staff {staff} counted before; {now}"),
                }
            }
            (Verdict::Bottom, Some(k)) => {
                format!("bottom, not counted; {now}; {}", self.why.explain(bytes, k))
            }
            (verdict, _) => format!("{verdict}, not counted; {now}"),
        })
    }

    /// Says of a value that was counted whether it may be a person counted before.
    fn alike(&mut self, notice: NoticeRef) -> String {
        let Some(Value::String(staff)) = notice.find("Staff").map(|f| f.value) else {
            return String::new();
        };
        if self.other_form.is_none() {
            self.other_form = staff::other_form(self.subscription, notice);
        }
        staff::alike(state::people(&self.decision), staff).map_or(String::new(), |other| {
            let other = Value::String(other);
            format!("; it differs from {other} in blanks or leading zeros alone")
        })
    }
}

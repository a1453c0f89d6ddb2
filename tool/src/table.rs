//! `table`: the entries of a subscription's table, and its bytes. `check`: what it takes.
use crate::args::Args;
use crate::lint;
use crate::notices::Target;
use crate::report::{Answer, Out, Status};
use crate::spell;
use crate::subscription::Named;
use std::io;
use virentolex::{Edition, Entry, Operand, Subscription, Value};

/// The bytes before the entries, and those of an entry.
pub const HEAD: usize = 10;
pub const ENTRY: usize = 12;
/// The width of an entry's bytes in hex.
const HEX: usize = 3 * ENTRY - 1;

/// `check TEXT`.
pub fn check(args: &mut Args, out: &mut Out) -> Answer {
    let (text, subscription) = lint::read(args)?;
    out.line(format_args!("accepted: {}", measures(&subscription)))?;
    lint::told(text.as_deref(), &subscription, out)?;
    Ok(Status::Yes)
}

/// `table TEXT`.
pub fn table(args: &mut Args, out: &mut Out) -> Answer {
    let subscription = Named::only(args)?.translate(args.edition)?;
    if args.output.is_some() {
        let mut target = Target::open(args, out)?;
        target.write(out, subscription.as_table())?;
        target.close()?;
        return Ok(Status::Yes);
    }
    let edition = match subscription.edition() {
        Edition::First => "first edition, kind 2",
        Edition::Second => "second edition, kind 4",
    };
    out.line(format_args!("{}; {edition}", measures(&subscription)))?;
    match args.hex {
        true => listed_in_hex(&subscription, out)?,
        false => listed(&subscription, out)?,
    }
    Ok(Status::Yes)
}

/// The entries, and the pool.
fn listed(subscription: &Subscription, out: &mut Out) -> io::Result<()> {
    for entry in subscription.entries() {
        out.line(format_args!("{}", described(&entry, subscription)))?;
    }
    out.line(format_args!("pool {}", Value::String(subscription.pool())))
}

/// The same behind their bytes.
fn listed_in_hex(subscription: &Subscription, out: &mut Out) -> io::Result<()> {
    let (head, rest) = subscription.as_table().split_at(HEAD);
    out.line(format_args!("{}", spell::hex(head)))?;
    for (entry, bytes) in subscription.entries().zip(rest.chunks(ENTRY)) {
        let described = described(&entry, subscription);
        out.line(format_args!("{:HEX$}  {described}", spell::hex(bytes)))?;
    }
    for part in subscription.pool().chunks(ENTRY) {
        out.line(format_args!(
            "{:HEX$}  pool {}",
            spell::hex(part),
            Value::String(part)
        ))?;
    }
    Ok(())
}

/// `3 entries, stack 2 of 32, 54 bytes`.
pub fn measures(subscription: &Subscription) -> String {
    let entries = spell::count(subscription.entry_count().into(), "entry", "entries");
    let bytes = spell::thousands(subscription.as_table().len() as u64);
    format!(
        "{entries}, stack {} of 32, {bytes} bytes",
        subscription.stack()
    )
}

/// An entry's number, its word and what it holds.
fn described(entry: &Entry, subscription: &Subscription) -> String {
    let word = entry.word();
    let held = match entry.operand() {
        Operand::Skip(over) => {
            let lands = match entry.lands() {
                Some(k) if k < subscription.entry_count() => format!("to entry {k}"),
                _ => "to the end".to_string(),
            };
            return format!("{:>3}  {word}, {lands} ({over} passed over)", entry.k);
        }
        Operand::Count(n) => spell::count(n.into(), "value", "values"),
        operand @ (Operand::String(_) | Operand::Name(_)) => {
            let end = entry.b.saturating_add(entry.a.into());
            format!("{:<20} pool {}..{end}", operand.to_string(), entry.b)
        }
        operand => operand.to_string(),
    };
    format!("{:>3}  {word:<11} {held}", entry.k)
        .trim_end()
        .to_string()
}

#[cfg(test)]
mod tests {
    use super::*;

    fn translated(text: &str) -> Subscription {
        Subscription::translate(text, Edition::First).unwrap()
    }

    #[test]
    fn the_stack_is_the_deepest_of_all_entries() {
        for (text, most) in [
            ("Op == 42", 2),
            ("require (Op)", 1),
            ("1 == 1 && 2 == 2", 3),
            ("1 == 1 && (2 == 2 && 3 == 3)", 4),
            ("begins-with (a, \"b\", \"c\", \"d\")", 4),
            ("1 + (2 + (3 + 4)) == 5", 4),
        ] {
            assert_eq!(translated(text).stack(), most, "{text}");
        }
    }

    #[test]
    fn the_deepest_stack_is_32() {
        let text = |n: usize| format!("{}0{} == 0", "1 + (".repeat(n), ")".repeat(n));
        let deep = |n: usize| Subscription::translate(text(n), Edition::First).map(|s| s.stack());
        assert_eq!(deep(24), Ok(25));
        let nested =
            |n: usize| vec!["1 == 1 && (1 == 1 || "; n].concat() + "1 == 1" + &")".repeat(n);
        assert_eq!(
            Subscription::translate(nested(15), Edition::First).map(|s| s.stack()),
            Ok(32)
        );
        assert!(Subscription::translate(nested(16), Edition::First).is_err());
    }

    #[test]
    fn skips_say_where_they_land() {
        let subscription = translated("Op == 1 && 1 == 2");
        let entry = subscription.entry(3).unwrap();
        assert_eq!(
            described(&entry, &subscription),
            "  3  skip if false, to the end (4 passed over)"
        );
        let subscription = translated("1 == 2 && 1 == 3 || 1 == 4");
        let entry = subscription.entry(3).unwrap();
        assert_eq!(
            described(&entry, &subscription),
            "  3  skip if false, to entry 8 (4 passed over)"
        );
    }
}

//! Dispatch's subscription: cabs whose whole number fits one of two patterns. A notice without a Cab
//! field is bottom and is not delivered; a pattern whose set is not closed is refused.
mod notice;
use notice::{notice, show, translate};
use virentolex::Refusal;

fn main() -> Result<(), Refusal> {
    let Some(subscription) = translate("wildcard (Cab, \"T-4?\", \"V*\")") else {
        return Ok(());
    };
    let notices = [
        notice(&[("Cab", "T-41")]),
        notice(&[("Cab", "T-412")]),
        notice(&[("Cab", "V-7")]),
        notice(&[("Driver", "417")]),
    ];
    for n in &notices {
        let delivered = match subscription.run(n)?.is_delivered() {
            true => "delivered",
            false => "not delivered",
        };
        println!("{}: {delivered}", show(n));
    }
    translate("wildcard (Cab, \"T-[4\")");
    Ok(())
}

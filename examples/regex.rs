//! Head office's subscription: users of whose name some stretch fits a regular expression. A notice without a
//! User field is bottom and is not delivered. The second subscription takes the whole name in any case, by its
//! anchors and `fold-case`; the third has a group that is not closed and is refused.
mod notice;
use notice::{notice, show, translate};
use virentolex::Refusal;

fn main() -> Result<(), Refusal> {
    let notices = [
        notice(&[("User", "Segall")]),
        notice(&[("User", "Bill segal")]),
        notice(&[("User", "SEGAL")]),
        notice(&[("User", "Sega")]),
        notice(&[("Driver", "417")]),
    ];
    let texts = [
        "regex (User, \"[Ss]egall?\")",
        "regex (fold-case (User), \"^segall?$\")",
        "regex (User, \"[Ss]egal(l\")",
    ];
    for subscription in texts.iter().filter_map(|text| translate(text)) {
        for n in &notices {
            let delivered = match subscription.run(n)?.is_delivered() {
                true => "delivered",
                false => "not delivered",
            };
            println!("  {}: {delivered}", show(n));
        }
    }
    Ok(())
}

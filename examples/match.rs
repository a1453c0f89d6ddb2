//! Translates a subscription and matches notices: those of two staff numbers, and one of a console
//! that sends no Staff field. A missing name is bottom, not unequal, so that notice is not delivered.
//! Which field Staff is, if any, is asked beside it.
mod notice;
use notice::{notice, show, translate};
use virentolex::{Notice, raw};

/// Which field has the name, and how many names were looked at to tell.
fn find(notice: &Notice, name: &str) -> String {
    let f = raw::find(notice.as_bytes(), name.as_bytes());
    match f.index {
        None => format!("no field {name}, {} looked at", f.looked),
        Some(k) => format!("{name} is field {k}, {} looked at", f.looked),
    }
}

fn main() {
    let Some(subscription) = translate("Staff != \"417\"") else {
        return;
    };
    let notices = [
        notice(&[("Staff", "417"), ("Console", "counting room")]),
        notice(&[("Staff", "502"), ("Console", "counting room")]),
        notice(&[("Console", "yard")]),
    ];
    for n in &notices {
        let staff = find(n, "Staff");
        match subscription.run(n) {
            Err(refusal) => println!("{}: {refusal}; {staff}", show(n)),
            Ok(outcome) => {
                let delivered = if outcome.is_delivered() {
                    "delivered"
                } else {
                    "not delivered"
                };
                println!("{}: {}, {delivered}; {staff}", show(n), outcome.verdict);
            }
        }
    }
}

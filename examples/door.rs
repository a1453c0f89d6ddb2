//! A yard door speaks UBF(A). Its texts are read into notices and matched; each notice is written back,
//! in the one fixed form; and so is a notice for the door.
mod notice;
use notice::{notice, show, translate};
use virentolex::{Notice, Refusal, Subscription};

/// The notice as a UBF(A) text.
fn write_back(notice: &Notice) -> Result<(), Refusal> {
    let text = notice.to_ubf()?;
    println!("  number 0: {}", String::from_utf8_lossy(&text));
    Ok(())
}

/// Reads a door's text and, if it is a notice, matches it and writes it back.
fn receive(text: &str, subscription: &Subscription) -> Result<(), Refusal> {
    let notice = match Notice::from_ubf(text) {
        Ok(notice) => notice,
        Err(refusal) => {
            println!("{text}: number {}", refusal.number());
            return Ok(());
        }
    };
    let delivered = match subscription.run(&notice)?.is_delivered() {
        true => "delivered",
        false => "not delivered",
    };
    let length = notice.as_bytes().len();
    println!("{text}: number 0, a notice of {length} bytes, {delivered}");
    write_back(&notice)
}

fn main() -> Result<(), Refusal> {
    let Some(subscription) = translate("Cab == \"T-41\" && Open == 1") else {
        return Ok(());
    };
    let texts = [
        "{ \"Open\" 1 %door 2% \"Cab\" \"T-41\" \"Since\" 1760000000000`int64` }$",
        "{\"Cab\"\"T-41\"\"Open\"00\"Seal\"4~a~$}~}$",
        "{\"Cab\"\"T-41\"\"Open\"'yes'}$",
        "{\"Cab\"\"T-41\"",
    ];
    for text in texts {
        receive(text, &subscription)?;
    }
    let reply = notice(&[("Say", "wait for \"T-42\""), ("Door", "2")]);
    println!("{}", show(&reply));
    write_back(&reply)
}

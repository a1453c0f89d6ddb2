//! A notice from one of the first consoles: its fields are out of order, one is there twice, one is too short for its
//! kind, and the last is cut off. It is refused as it came, mended, and matched. A well-formed notice comes out the
//! same.
mod notice;
use notice::{notice, show, translate};
use virentolex::{Mended, Notice, Subscription};

/// The bytes as they came, their header first, which is not believed.
const CAME: [&[u8]; 6] = [
    b"\xff\0\0\0\x01\0\x09\0",
    b"\x0b\0\x04\0\x05Staff502",
    b"\x0e\0\x04\0\x07Consoleyard",
    b"\x0b\0\x04\0\x05Staff417",
    b"\x08\0\x01\0\x04Door\x02",
    b"\x0a\0\x04\0\x03CabT-",
];

/// Runs the subscription on bytes that may be no notice.
fn matched(subscription: &Subscription, bytes: &[u8]) -> String {
    match subscription.run(bytes) {
        Ok(outcome) if outcome.is_delivered() => "delivered".to_string(),
        Ok(_) => "not delivered".to_string(),
        Err(refusal) => {
            let place = refusal.place().unwrap_or(0);
            format!("refused {} at {place}", refusal.number())
        }
    }
}

/// Mends bytes, and shows the list; the notice, if they are not refused.
fn mend(bytes: &[u8]) -> Option<Notice> {
    let mended = match Mended::mend(bytes) {
        Ok(mended) => mended,
        Err(refusal) => {
            let number = refusal.number();
            println!("{} bytes mended: refused {number}", bytes.len());
            return None;
        }
    };
    println!(
        "{} bytes mended: a notice of {} bytes, {} fields listed",
        bytes.len(),
        mended.notice().as_bytes().len(),
        mended.fates().count()
    );
    for listed in mended.fates() {
        println!("  at {}: {}", listed.offset, listed.fate);
    }
    Some(mended.into_notice())
}

fn main() {
    let Some(subscription) = translate("Console == \"yard\" && Staff != \"417\"") else {
        return;
    };
    let came = CAME.concat();
    println!("as it came: {}", matched(&subscription, &came));
    let Some(mended) = mend(&came) else {
        return;
    };
    let told = matched(&subscription, mended.as_bytes());
    println!("{}: {told}", show(&mended));
    let right = notice(&[("Console", "yard"), ("Staff", "502")]);
    let Some(mended) = mend(right.as_bytes()) else {
        return;
    };
    let same = ["other bytes", "the same bytes"][usize::from(mended == right)];
    println!("{}: {same}", show(&mended));
    mend(&came[..7]);
}

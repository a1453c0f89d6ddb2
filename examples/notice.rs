//! Notices of string fields, for the examples.
use virentolex::{Edition, Notice, Subscription};

/// A notice of string fields.
pub fn notice(fields: &[(&str, &str)]) -> Notice {
    let begun = Notice::builder();
    let built = fields
        .iter()
        .fold(begun, |n, (name, value)| n.field(name, *value));
    built.build().expect("the fields are right")
}

/// The fields of a notice, in its order, which is that of their names.
pub fn show(notice: &Notice) -> String {
    let text = |bytes| String::from_utf8_lossy(bytes).into_owned();
    let shown = notice.fields().map(|field| {
        let value = field
            .value
            .as_bytes()
            .map_or_else(|| field.value.to_string(), text);
        format!("{}={value}", field.name_str())
    });
    shown.collect::<Vec<String>>().join(" ")
}

/// A subscription by the first edition, since none of the examples that use this shifts, and how long its table is
/// said; none if it is refused.
pub fn translate(text: &str) -> Option<Subscription> {
    match Subscription::translate(text, Edition::First) {
        Ok(subscription) => {
            println!("{text}: a table of {} bytes", subscription.as_table().len());
            Some(subscription)
        }
        Err(refusal) => {
            let place = refusal.place().unwrap_or(0);
            println!("{text}: refused {} at {place}", refusal.number());
            None
        }
    }
}

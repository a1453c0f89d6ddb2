//! `notice find`: the field of a name in each notice.
use crate::args::Args;
use crate::notices::converted;
use crate::report::{line, Answer, Failure, Out, Status};
use std::os::unix::ffi::OsStringExt;
use virentolex::{NoticeRef, Value};

/// `notice find NAME NOTICE..`.
pub fn find(args: &mut Args, out: &mut Out) -> Answer {
    let name = args.word();
    let name = name.ok_or_else(|| Failure::Use("the name of a field comes first".into()))?;
    let name = name.into_vec();
    converted(args, out, |out, label, notice| {
        let (said, status) = match notice.find(&name) {
            Some(field) => (field.to_string(), Status::Yes),
            None => (absent(notice, &name), Status::No),
        };
        if !args.quiet {
            out.line(format_args!("{label}: {said}"))?;
        }
        Ok(status)
    })
}

/// That there is no such field, and whether one differs in capitals alone.
fn absent(notice: NoticeRef, name: &[u8]) -> String {
    let called = line(&String::from_utf8_lossy(name));
    match notice.other_case(name) {
        Some(other) => format!(
            "there is no field {called}, but one {}",
            Value::String(other)
        ),
        None => format!("there is no field {called}"),
    }
}

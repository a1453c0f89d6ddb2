//! `notice mend`: damaged notices made right, and what became of each of their fields.
mod pieces;

use crate::args::{Args, Word};
use crate::fault;
use crate::notices::Target;
use crate::reading::refused;
use crate::report::{self, complain, file_error, Answer, Failure, Out, Status};
use crate::source;
use crate::spell;
use pieces::Pieces;
use virentolex::{Fate, Listed, Mended, Notice, NoticeRef};

/// `notice mend FILE`.
pub fn mend(args: &mut Args, out: &mut Out) -> Answer {
    let [Word::Plain(file)] = args.words.as_slice() else {
        return Err(Failure::Use("mend takes one file, or `-`".into()));
    };
    let told = |e| file_error(file, &e);
    let mut pieces = Pieces::new(source::open(file).map_err(told)?);
    let name = report::line(&file.to_string_lossy());
    let mut place = Place::new(args);
    let mut status = Status::Yes;
    let mut number = 0;
    while let Some((start, bytes)) = pieces.next().map_err(told)? {
        number += 1;
        let label = match number {
            1 => name.clone(),
            _ => format!("{name}#{number} from byte {start}"),
        };
        match Mended::mend(&bytes) {
            Ok(mended) => {
                let head = match number {
                    1 => String::new(),
                    _ => format!("{label}\n"),
                };
                let lines = head + &listed(start, &bytes, &mended);
                place.write(out, &lines, mended.notice())?;
            }
            Err(refusal) => {
                status = Status::Refused;
                out.tell(&format!("{label}: {}", refused(refusal)))?;
            }
        }
    }
    place.close()?;
    Ok(status)
}

/// Where lists and notices go. A file is opened when there is a notice to be written.
struct Place<'a> {
    args: &'a Args,
    target: Option<Target>,
}

impl Place<'_> {
    fn new(args: &Args) -> Place<'_> {
        Place { args, target: None }
    }

    fn write(&mut self, out: &mut Out, lines: &str, notice: NoticeRef) -> Result<(), Failure> {
        let written = self.args.hex || self.args.output.is_some();
        if written && self.target.is_none() {
            self.target = Some(Target::open(self.args, out)?);
        }
        match self.args.output.as_ref().is_some_and(|o| o == "-") {
            true => complain(lines),
            false => out.line(format_args!("{lines}"))?,
        }
        match &mut self.target {
            Some(target) => target.write(out, notice.as_bytes()),
            None => Ok(()),
        }
    }

    fn close(self) -> Result<(), Failure> {
        self.target.map_or(Ok(()), Target::close)
    }
}

/// A line for each field of the notice that starts at a byte of its file, and one for the notice.
fn listed(start: usize, bytes: &[u8], mended: &Mended<Vec<u8>>) -> String {
    let notice = mended.notice();
    let lines = mended.fates().map(|l| line(start, bytes, l) + "\n");
    let fields = spell::count(notice.len() as u64, "field", "fields");
    let size = spell::thousands(notice.as_bytes().len() as u64);
    format!(
        "{}mended: {fields}, {size} bytes",
        lines.collect::<String>()
    )
}

/// The line of one field: where it is, what became of it, and the field, or what is wrong with it.
fn line(start: usize, bytes: &[u8], listed: Listed) -> String {
    let rest = bytes.get(listed.offset..).unwrap_or_default();
    let told = match listed.fate {
        Fate::Bad | Fate::Cut => fault::field(rest),
        Fate::Kept | Fate::Moved | Fate::Repeated => shown(rest),
    };
    format!("byte {}: {}, {told}", start + listed.offset, listed.fate)
}

/// The field that the bytes start with, which is right by itself.
fn shown(rest: &[u8]) -> String {
    let notice = alone(rest).map(|notice| notice.to_string());
    notice.map_or(String::new(), |text| text.trim_end().to_string())
}

/// The notice of that field alone, if it is right by itself.
fn alone(rest: &[u8]) -> Option<Notice> {
    let length = u16::from_le_bytes(*rest.first_chunk()?);
    let field = rest.get(..2 + usize::from(length))?;
    let all = (field.len() + 4) as u32;
    let notice = [&all.to_le_bytes(), &[1, 0, 1, 0][..], field].concat();
    Notice::from_bytes(notice).ok()
}

//! The kind of case `ubf`: UBF(A) texts read and notices written, each with buffers of several sizes;
//! each answer, every byte of the buffer and its guards; and what the library wrote, read by it again.

use crate::cases::{patterned, same, Case, Hex, Outcome, GUARD};
use crate::notices;
use crate::ubf_texts::{self, Text};
use crate::{ubf_edges, words};
use reference::notice::Writing;
use reference::ubf;

/// So many texts are read, and so many notices written, in one case.
const TEXTS: usize = 24;
const NOTICES: usize = 4;

/// More than any notice takes, and than most texts do.
const MUCH: usize = 20_000;

type Call = fn(&[u8], &mut [u8]) -> virentolex::raw::Converted;

/// The library's answer in the second implementation's form.
fn answered(library: virentolex::raw::Converted) -> Writing {
    Writing {
        number: library.number,
        place: library.place,
        length: library.length,
    }
}

impl Case<'_> {
    pub fn ubf(&mut self) -> Outcome {
        (0..TEXTS).try_for_each(|_| self.door_text())?;
        (0..NOTICES).try_for_each(|_| self.door_notice())
    }

    /// A text, read into buffers of each size.
    fn door_text(&mut self) -> Outcome {
        let Text { bytes, done } = ubf_texts::text(&mut self.random);
        let said = ubf::notice_said(&bytes, usize::MAX);
        let number = said.as_ref().err().copied().unwrap_or(0);
        self.tally.count("ubf done", format!("{done}: {number}"));
        self.count("ubf", ubf_edges::of_text(&bytes));
        let size = said.as_ref().map_or(0, Vec::len);
        for room in self.rooms(size) {
            self.door_reading(&bytes, room)?;
            self.count("ubf", ubf_edges::of_room("read", number, size, room));
        }
        match said {
            Ok(notice) => self.there_and_back(&notice),
            Err(_) => Ok(()),
        }
    }

    /// As much as the result takes, a byte less, none, and more; for a refusal none, some, and more than
    /// any notice takes.
    fn rooms(&mut self, size: usize) -> [usize; 4] {
        let more = self.random.between(1, 300);
        match size {
            0 => [0, more, reference::MOST_NOTICE, MUCH],
            _ => [size, size - 1, 0, size + more],
        }
    }

    fn door_reading(&mut self, text: &[u8], room: usize) -> Outcome {
        let reference =
            self.converted("ubf_read", virentolex::raw::ubf_read, ubf::read, text, room)?;
        self.tally.count("ubf read", reference.number);
        Ok(())
    }

    /// One call of either function; the whole buffer and its guards are compared.
    fn converted(
        &mut self,
        name: &str,
        call: Call,
        meant: fn(&[u8], &mut [u8]) -> Writing,
        input: &[u8],
        room: usize,
    ) -> Result<Writing, String> {
        let mut lent = patterned(room, self.random.below(256));
        let mut expected = lent.clone();
        let library = answered(call(input, &mut lent[GUARD..GUARD + room]));
        let reference = meant(input, &mut expected[GUARD..GUARD + room]);
        same(
            &format!("{name}, buffer of {room} bytes within guards of {GUARD}: number, place, length, bytes after"),
            &[("input", input)],
            (library, Hex(lent)),
            (reference, Hex(expected)),
        )?;
        Ok(reference)
    }

    /// A notice, written into buffers of each size.
    fn door_notice(&mut self) -> Outcome {
        let notice = self.notice_to_write();
        let text = ubf::text_of(&notice, usize::MAX);
        self.count("ubf", ubf_edges::of_notice(&notice));
        let number = text.as_ref().err().map_or(0, |(number, _)| *number);
        let size = text.as_ref().map_or(0, Vec::len);
        for room in self.rooms(size) {
            let reference = self.converted(
                "ubf_write",
                virentolex::raw::ubf_write,
                ubf::write,
                &notice,
                room,
            )?;
            self.tally.count("ubf write", reference.number);
            self.count("ubf", ubf_edges::of_room("write", number, size, room));
        }
        match text {
            Ok(_) => self.there_and_back(&notice),
            Err(_) => Ok(()),
        }
    }

    /// Any notice; of half of them the real64 fields are made int64.
    fn notice_to_write(&mut self) -> Vec<u8> {
        let mut notice = match self.random.below(4) {
            0 => return ubf_texts::notice(&mut self.random),
            1 => notices::notice(&mut self.random),
            _ => notices::well_formed(&mut self.random),
        };
        if self.random.once_in(3) {
            return notice;
        }
        for field in reference::notice::fields(&notice).unwrap_or_default() {
            if field.kind == 3 {
                notice[field.start + 2] = 2;
                let value = words::whole(&mut self.random).to_le_bytes();
                notice[field.value].copy_from_slice(&value);
            }
        }
        notice
    }

    /// "Writing and then reading gives the same notice", by the library alone.
    fn there_and_back(&mut self, notice: &[u8]) -> Outcome {
        let mut text = vec![0; virentolex::raw::UBF_TEXT_MAX];
        let written = virentolex::raw::ubf_write(notice, &mut text);
        text.truncate(written.length);
        let mut again = vec![0; notice.len()];
        let read = virentolex::raw::ubf_read(&text, &mut again);
        same(
            "written and then read: both numbers, length, notice",
            &[("notice", notice), ("text", &text)],
            (written.number, read.number, read.length, Hex(again)),
            (0, 0, notice.len(), Hex(notice.to_vec())),
        )
    }
}

#[cfg(test)]
mod tests {
    use super::*;
    use crate::random::Random;
    use crate::tally::Tally;

    fn with_case(run: impl Fn(&mut Case) -> Outcome) {
        let mut case = Case {
            random: Random::of_case(1, 1),
            tally: &mut Tally::default(),
            program: "",
        };
        assert_eq!(run(&mut case), Ok(()));
    }

    /// Any byte of a text that has everything, changed to any other, left out, or put in.
    #[test]
    fn every_byte_of_a_text() {
        let text = b" {%\\%%\"b\\\"\"-05`int64` \"a\"2~$}~\"c\"\"\\\\\"\"d\" 7 }$";
        with_case(|case| {
            for at in 0..text.len() {
                for byte in 0..=255 {
                    let mut changed = text.to_vec();
                    changed[at] = byte;
                    case.door_reading(&changed, 100)?;
                    changed[at] = text[at];
                    changed.insert(at, byte);
                    case.door_reading(&changed, 100)?;
                }
                let mut changed = text.to_vec();
                changed.remove(at);
                case.door_reading(&changed, 100)?;
                case.door_reading(&text[..at], 100)?;
            }
            Ok(())
        });
    }

    /// All texts of at most 5 bytes over the bytes that mean something.
    #[test]
    fn every_short_text() {
        let alphabet = b"{}\"\\'a1-~$`%>&#, ";
        with_case(|case| {
            for length in 0..=5u32 {
                for mut which in 0..alphabet.len().pow(length) {
                    let mut text = Vec::new();
                    for _ in 0..length {
                        text.push(alphabet[which % alphabet.len()]);
                        which /= alphabet.len();
                    }
                    case.door_reading(&text, 20)?;
                }
            }
            Ok(())
        });
    }

    /// The notice with the longest text: 52 int64 fields and 12 strings, all bytes of which are escaped.
    #[test]
    fn the_longest_text() {
        let name = |at: usize| {
            let mut name = vec![b'"'; 64];
            (0..6).for_each(|bit| name[bit] = if at >> bit & 1 == 1 { b'"' } else { b'\\' });
            name
        };
        let mut left = reference::MOST_NOTICE - 8 - 64 * 69 - 52 * 8;
        let mut fields: Vec<notices::Field> = (0..64)
            .map(|at| {
                let size = left.min(1024);
                let number = i64::MIN.to_le_bytes().to_vec();
                let (kind, value) = if at < 52 {
                    (2, number)
                } else {
                    (4, vec![b'\\'; size])
                };
                left -= if at < 52 { 0 } else { size };
                let name = name(at);
                notices::Field { name, kind, value }
            })
            .collect();
        fields.sort_by(|one, other| one.name.cmp(&other.name));
        let notice = notices::rendered(&fields);
        assert_eq!(notice.len(), reference::MOST_NOTICE);
        let text = ubf::text_of(&notice, usize::MAX).unwrap();
        assert_eq!(text.len(), virentolex::raw::UBF_TEXT_MAX);
        with_case(|case| case.there_and_back(&notice));
    }
}

//! The kind of case `mend` (document 02, request 14): damaged notices and other bytes, mended into buffers of several
//! sizes; each answer, every byte of both buffers and their guards; and what holds of the library's own answers: the
//! result is a notice, its fields are those that the list calls kept or moved, mended again it stays as it is, and so
//! does a well-formed notice.

use crate::cases::{patterned, same, Case, Hex, Outcome, GUARD};
use crate::mend_bytes;
use crate::mend_edges::{self, Needs};
use reference::Mending;
use virentolex::{Fate, Mended};

/// So many bytes are mended in one case.
const INPUTS: usize = 8;

impl Case<'_> {
    pub fn mend(&mut self) -> Outcome {
        (0..INPUTS).try_for_each(|_| {
            let bytes = mend_bytes::bytes(&mut self.random);
            self.mending(&bytes)
        })
    }

    /// The bytes in buffers of each size, and what holds of the answers.
    fn mending(&mut self, bytes: &[u8]) -> Outcome {
        self.count("mend", mend_edges::of_bytes(bytes));
        for (_, fate) in reference::mend::mended(bytes).list {
            self.tally.count("mend fate", format!("{fate:?}"));
        }
        let needs = Needs::of(bytes);
        for (list, notice) in self.rooms_to_mend(&needs) {
            self.count("mend", mend_edges::of_room(&needs, list, notice));
            self.mended(bytes, list, notice)?;
        }
        self.laws_of_mending(bytes)
    }

    /// As much as both results take, a byte less of each, more, and another pair.
    fn rooms_to_mend(&mut self, needs: &Needs) -> [(usize, usize); 5] {
        let (list, notice) = (needs.list, needs.notice);
        let more = (self.random.between(1, 90), self.random.between(1, 300));
        let less = (self.random.below(list + 1), self.random.below(notice));
        let any = self.random.pick(&[
            (0, 0),
            (less.0, notice),
            (list.saturating_sub(3), notice + more.1),
            (list, notice.min(7)),
            (list + more.0, less.1),
            (list.saturating_sub(1), notice - 1),
            (list, notice + more.1),
        ]);
        [
            (list, notice),
            (list.saturating_sub(1), notice),
            (list, notice - 1),
            (list + more.0, notice + more.1),
            any,
        ]
    }

    /// One call; both buffers and their guards are compared.
    fn mended(&mut self, bytes: &[u8], list: usize, notice: usize) -> Outcome {
        let salt = self.random.below(256);
        let mut lent = [patterned(list, salt), patterned(notice, salt + 1)];
        let mut meant = lent.clone();
        let [lists, notices] = &mut lent;
        let library = virentolex::raw::mend(
            bytes,
            &mut lists[GUARD..GUARD + list],
            &mut notices[GUARD..GUARD + notice],
        );
        let [lists, notices] = &mut meant;
        let reference = reference::mend(
            bytes,
            &mut lists[GUARD..GUARD + list],
            &mut notices[GUARD..GUARD + notice],
        );
        self.tally.count("mend number", reference.number);
        let library = Mending {
            number: library.number,
            place: library.place,
            length: library.length,
            fields: library.fields,
        };
        same(
            &format!("mend, buffers of {list} and {notice} bytes within guards of {GUARD}: answer, list and notice after"),
            &[("bytes", bytes)],
            (library, lent.map(Hex)),
            (reference, meant.map(Hex)),
        )
    }

    /// What holds of the library's answers, by the library alone.
    fn laws_of_mending(&mut self, bytes: &[u8]) -> Outcome {
        let mended = match Mended::mend(bytes) {
            Ok(mended) => mended,
            Err(refusal) => return refused_with_room(bytes, refusal.number()),
        };
        let notice = mended.notice().as_bytes();
        let inputs = [("bytes", bytes), ("mended", notice)];
        let checked = virentolex::raw::check_notice(notice).number;
        same("check of what was mended", &inputs, checked, 0)?;
        same(
            "mended: the fields of the notice; the reference is those that the list calls kept or moved",
            &inputs,
            Hex(notice[8..].to_vec()),
            Hex(staying(bytes, &mended)),
        )?;
        let again = stays_as_it_is(notice);
        same("mended twice: notice, fates", &inputs, again, Ok(()))?;
        self.tally.count("mend law", "mended twice");
        if virentolex::raw::check_notice(bytes).number == 0 {
            let same_one = stays_as_it_is(bytes);
            same("a well-formed notice mended", &inputs, same_one, Ok(()))?;
            self.tally.count("mend law", "well-formed");
        }
        Ok(())
    }
}

/// The refusal of bytes for which there was room.
fn refused_with_room(bytes: &[u8], number: u8) -> Outcome {
    let (mut list, mut notice) = (
        vec![0; virentolex::raw::LIST_MAX],
        vec![0; virentolex::raw::NOTICE_MAX],
    );
    let reference = reference::mend(bytes, &mut list, &mut notice).number;
    let inputs = [("bytes", bytes)];
    same(
        "mended in buffers of its own: number",
        &inputs,
        number,
        reference,
    )
}

/// The bytes of the fields that the library's list calls kept or moved, by their names.
fn staying(bytes: &[u8], mended: &Mended<Vec<u8>>) -> Vec<u8> {
    let stay = mended.fates().filter(|field| field.fate.stays());
    let mut parts: Vec<&[u8]> = stay
        .map(|field| {
            let length = u16::from_le_bytes([bytes[field.offset], bytes[field.offset + 1]]);
            &bytes[field.offset..field.offset + 2 + usize::from(length)]
        })
        .collect();
    parts.sort_by_key(|part| &part[5..5 + usize::from(part[4])]);
    parts.concat()
}

/// "comes out the same, with every field kept", by the library; what differs if it does not.
fn stays_as_it_is(notice: &[u8]) -> Result<(), String> {
    let mended = Mended::mend(notice).map_err(|refusal| refusal.to_string())?;
    let fates: Vec<Fate> = mended.fates().map(|field| field.fate).collect();
    let all = vec![Fate::Kept; usize::from(notice[6])];
    let bytes = mended.notice().as_bytes();
    match (bytes == notice, fates == all) {
        (true, true) => Ok(()),
        _ => Err(format!("{:?}, {fates:?}", Hex(bytes.to_vec()))),
    }
}

#[cfg(test)]
mod tests {
    use super::*;
    use crate::random::Random;
    use crate::tally::Tally;
    use reference::notice::field_bytes;

    fn with_case(run: impl Fn(&mut Case) -> Outcome) {
        let mut case = Case {
            random: Random::of_case(1, 1),
            tally: &mut Tally::default(),
            program: "",
        };
        assert_eq!(run(&mut case), Ok(()));
    }

    /// The bytes in buffers with room and in such as are short.
    fn tried(case: &mut Case, bytes: &[u8]) -> Outcome {
        let needs = Needs::of(bytes);
        case.mended(bytes, needs.list, needs.notice)?;
        case.mended(bytes, needs.list, needs.notice - 1)?;
        case.laws_of_mending(bytes)
    }

    /// Each order of some of these fields, right, bad and nearly whole.
    #[test]
    fn every_row_of_a_few_fields() {
        let mut parts = [&b"a"[..], b"ab", b"b"]
            .map(|name| field_bytes(name, 4, b""))
            .to_vec();
        parts.push(field_bytes(b"ab", 5, b"other"));
        parts.push(field_bytes(b"a", 6, b""));
        parts.push(vec![0, 0]);
        parts.push(vec![1, 0, 4]);
        parts.push(vec![5]);
        with_case(|case| {
            for count in 0..=5u32 {
                for mut which in 0..parts.len().pow(count) {
                    let mut bytes = vec![0xAA; 8];
                    for _ in 0..count {
                        bytes.extend(&parts[which % parts.len()]);
                        which /= parts.len();
                    }
                    tried(case, &bytes)?;
                }
            }
            Ok(())
        });
    }

    /// Any byte of fields in a row changed to any other, and the bytes cut off anywhere.
    #[test]
    fn every_byte_of_a_notice() {
        let fields = [
            field_bytes(b"Staff", 4, b"417"),
            field_bytes(b"Op", 1, b"four"),
            field_bytes(b"Staff", 4, b"502"),
            field_bytes(b"Cabin", 5, b""),
        ];
        let bytes = [&[1; 8][..], &fields.concat()].concat();
        with_case(|case| {
            for at in 0..bytes.len() {
                for byte in 0..=255 {
                    let mut changed = bytes.clone();
                    changed[at] = byte;
                    tried(case, &changed)?;
                }
                tried(case, &bytes[..at])?;
            }
            Ok(())
        });
    }

    /// Two fields whose names are alike in any number of bytes, each before the other.
    #[test]
    fn every_pair_of_names_alike() {
        let name = |length: usize, at: usize, byte: u8| {
            let mut name = vec![b'n'; length];
            name[at.min(length - 1)] = byte;
            name
        };
        with_case(|case| {
            for one in 1..=64 {
                for at in 0..one {
                    let others = [
                        name(one, at, b'm'),
                        name(one, at, b'~'),
                        name(at + 1, at, b'n'),
                    ];
                    for other in others {
                        let fields =
                            [name(one, at, b'n'), other].map(|name| field_bytes(&name, 4, b""));
                        let [one, other] = &fields;
                        tried(case, &[&[0; 8][..], one, other].concat())?;
                        tried(case, &[&[0; 8][..], other, one].concat())?;
                    }
                }
            }
            Ok(())
        });
    }
}

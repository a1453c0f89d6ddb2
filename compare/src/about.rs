//! The fields of the notice that a text or a table is run on, so that it names them.

use crate::notices::Field;
use crate::random::Random;
use crate::words;

pub struct About {
    fields: Vec<Field>,
}

impl About {
    /// No notice: names are those of `words`.
    pub fn nothing() -> About {
        About { fields: Vec::new() }
    }

    /// The fields of a notice that keeps the layout.
    pub fn of(notice: &[u8]) -> About {
        let fields = reference::notice::fields(notice).unwrap_or_default();
        let field = |field: reference::notice::Field| Field {
            name: notice[field.name].to_vec(),
            kind: field.kind,
            value: notice[field.value].to_vec(),
        };
        About {
            fields: fields.into_iter().map(field).collect(),
        }
    }

    /// Any field, the first and the last ones more often.
    pub fn field(&self, random: &mut Random) -> Option<&Field> {
        let count = self.fields.len();
        if count == 0 {
            return None;
        }
        let at = match random.below(4) {
            0 => count - 1,
            1 => random.pick(&[0, 57, 62, 63, count / 2, count.saturating_sub(2)]),
            _ => random.below(count),
        };
        self.fields.get(at.min(count - 1))
    }

    /// The name of a field of one of the kinds, or one that the notice has not; none if it is to be
    /// chosen elsewhere.
    pub fn name(&self, random: &mut Random, kinds: &[u16]) -> Option<Vec<u8>> {
        if self.fields.is_empty() || random.once_in(6) {
            return None;
        }
        if random.once_in(8) {
            return Some(self.missing(random));
        }
        let suits = |field: &&Field| kinds.contains(&field.kind);
        let found = (0..4).find_map(|_| self.field(random).filter(suits));
        found.map(|field| field.name.clone())
    }

    /// A name near those of the fields, which hardly ever is one of them: before the first, behind the
    /// last, the start of one, or one that starts with one.
    fn missing(&self, random: &mut Random) -> Vec<u8> {
        let mut name = self
            .field(random)
            .map_or(Vec::new(), |field| field.name.clone());
        match random.below(4) {
            0 => name = vec![b' '],
            1 => name = vec![b'~'; random.between(2, 64)],
            2 if name.len() > 1 => name.truncate(random.between(1, name.len() - 1)),
            _ if name.len() < 64 => name.push(random.pick(b" !a~")),
            _ => (),
        }
        name
    }
}

/// A name that texts and tables may use, of the notice or of `words`.
pub fn name(random: &mut Random, about: &About) -> Vec<u8> {
    about
        .name(random, &[1, 2, 3, 4, 5])
        .unwrap_or_else(|| words::name(random).to_vec())
}

#[cfg(test)]
mod tests {
    use super::*;
    use crate::notices::rendered;

    #[test]
    fn the_last_of_64_fields_is_named() {
        let field = |at: usize| Field {
            name: format!("f{at}").into_bytes(),
            kind: 1,
            value: vec![0; 4],
        };
        let fields: Vec<Field> = (10..74).map(field).collect();
        let about = About::of(&rendered(&fields));
        let mut random = Random::of_case(1, 1);
        let named: Vec<Vec<u8>> = (0..500).map(|_| name(&mut random, &about)).collect();
        for at in [0, 57, 62, 63] {
            assert!(named.contains(&fields[at].name), "{at}");
        }
        assert!(named.iter().any(|name| *name > fields[63].name));
        assert!(About::of(b"").name(&mut random, &[1]).is_none());
    }
}

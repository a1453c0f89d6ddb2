//! A decision that is kept in a file between calls (`quorum --state`), in the layout of docs/FORMATS.md.
use crate::keeping::Kept;
use crate::reading::refused;
use crate::report::Failure;
use crate::spell;
use std::ffi::OsString;
use virentolex::{Decision, Refusal, DECISION_HEAD, DECISION_MAX};

/// A decision in a buffer that is just as long.
pub type Opened = Decision<Vec<u8>>;

/// Where the places of the people start, and the bytes of one.
const PLACES: usize = 8;
const PLACE: usize = 65;

/// How many people the decision needs.
pub fn needed(decision: &Opened) -> usize {
    decision.as_bytes().get(6).map_or(0, |n| usize::from(*n))
}

/// The table that the decision keeps.
pub fn table(decision: &Opened) -> &[u8] {
    decision.as_bytes().get(DECISION_HEAD..).unwrap_or_default()
}

/// The Staff values, in the order in which they were counted.
pub fn people(decision: &Opened) -> impl Iterator<Item = &[u8]> {
    let places = decision.as_bytes().get(PLACES..).unwrap_or_default();
    let counted = places.chunks(PLACE).take(decision.tally().count.into());
    counted.filter_map(|place| place.get(1..=usize::from(*place.first()?)))
}

/// The file of a decision.
pub struct State {
    kept: Kept,
}

impl State {
    pub fn new(name: OsString) -> Result<State, Failure> {
        let kept = Kept::new(name, DECISION_MAX)?;
        Ok(State { kept })
    }

    /// The decision that is kept; if there is none the one that is opened, which then is.
    pub fn decision(&self, opened: Option<Opened>) -> Result<Opened, Failure> {
        match (self.kept.read()?, opened) {
            (Some(bytes), opened) => self.held(bytes, opened.as_ref()),
            (None, None) => {
                Err(self.failed("there is no such file; NEEDED and TEXT open a decision"))
            }
            (None, Some(opened)) => self.kept.change(|bytes| {
                let decision = match bytes {
                    Some(bytes) => self.held(bytes, Some(&opened))?,
                    None => opened,
                };
                Ok((decision.as_bytes().to_vec(), decision))
            }),
        }
    }

    /// Where the notice adds a person the decision is changed in the file first, and the answer is the decision as
    /// the file held it before, and as it holds it now; else there is none.
    pub fn count(
        &self,
        decision: &Opened,
        notice: &[u8],
    ) -> Result<Option<(Opened, Opened)>, Failure> {
        let mut tried = decision.clone();
        // whatever is refused adds nobody
        let _ = tried.show(notice);
        if tried.tally().count == decision.tally().count {
            return Ok(None);
        }
        self.kept.change(|bytes| {
            let bytes = bytes.ok_or_else(|| self.failed("it was removed"))?;
            let before = self.held(bytes, Some(decision))?;
            let mut after = before.clone();
            let _ = after.show(notice);
            Ok((after.as_bytes().to_vec(), Some((before, after))))
        })
    }

    /// The decision that the file's bytes are, for as many people and by the same table as another one.
    fn held(&self, bytes: Vec<u8>, same: Option<&Opened>) -> Result<Opened, Failure> {
        let length = bytes.first_chunk().map(|word| u32::from_le_bytes(*word));
        let whole = length.is_some_and(|n| n as usize + 4 == bytes.len());
        let decision = match whole {
            true => Decision::kept(bytes),
            false => Err(Refusal::Table),
        };
        let decision = decision.map_err(|refusal| {
            self.failed(&format!("{}; no decision is kept in it", refused(refusal)))
        })?;
        match same {
            Some(same) if needed(same) != needed(&decision) => {
                let people = spell::count(needed(&decision) as u64, "person", "people");
                let why = format!("its decision needs {people}, not {}", needed(same));
                Err(self.failed(&format!("{why}; open another one in another file")))
            }
            Some(same) if table(same) != table(&decision) => {
                let why =
                    "its decision is by another subscription; open another one in another file";
                Err(self.failed(why))
            }
            _ => Ok(decision),
        }
    }

    fn failed(&self, why: &str) -> Failure {
        Failure::Told(format!("{}: {why}", self.kept.called()))
    }
}

//! How many notices there were: the summary, and on a terminal a line that grows.
use crate::report::{Out, Status};
use crate::spell::{count, thousands};
use std::io::{self, IsTerminal, Write};
use std::time::{Duration, Instant};
use virentolex::Verdict;

/// The clock is read when these bits of the count are 0, and the line is written so often.
const BETWEEN: u64 = 4_095;
const PAUSE: Duration = Duration::from_millis(200);

/// The verdicts counted.
pub struct Tally {
    yes: u64,
    no: u64,
    bottom: u64,
    refused: u64,
    begun: Instant,
    told: Instant,
    on_terminal: bool,
    live: bool,
}

impl Tally {
    /// Nothing counted yet. A line that grows would stand among the verdicts if both went to a terminal.
    pub fn new(out: &Out, quiet: bool) -> Tally {
        let now = Instant::now();
        let on_terminal = io::stderr().is_terminal();
        Tally {
            yes: 0,
            no: 0,
            bottom: 0,
            refused: 0,
            begun: now,
            told: now,
            on_terminal,
            live: on_terminal && !quiet && !out.to_terminal,
        }
    }

    pub fn verdict(&mut self, verdict: Verdict) {
        match verdict {
            Verdict::True => self.yes += 1,
            Verdict::False => self.no += 1,
            Verdict::Bottom => self.bottom += 1,
        }
        self.grow();
    }

    /// A refusal, which is told of next.
    pub fn refusal(&mut self) {
        self.refused += 1;
        self.clear();
    }

    fn all(&self) -> u64 {
        self.yes + self.no + self.bottom + self.refused
    }

    fn grow(&mut self) {
        if self.live && self.all() & BETWEEN == 0 && self.told.elapsed() >= PAUSE {
            self.told = Instant::now();
            let all = count(self.all(), "notice", "notices");
            let _ = write!(io::stderr(), "\r{all}{}\x1b[K", self.pace());
        }
    }

    /// Takes the line that grows away.
    fn clear(&self) {
        if self.live {
            let _ = write!(io::stderr(), "\r\x1b[K");
        }
    }

    /// `, 2,100,000 a second`, if it took long enough to tell.
    fn pace(&self) -> String {
        let passed = self.begun.elapsed();
        match passed >= PAUSE {
            true => format!(
                ", {} a second",
                thousands((self.all() as f64 / passed.as_secs_f64()) as u64)
            ),
            false => String::new(),
        }
    }

    /// The whole of it, if there was more than one notice; on a terminal with the time.
    pub fn summary(&self, out: &mut Out) -> io::Result<()> {
        if self.all() < 2 {
            return Ok(());
        }
        self.clear();
        let pace = match self.on_terminal {
            true => self.pace(),
            false => String::new(),
        };
        out.tell(&format!("{}{pace}", self.words()))
    }

    /// `3 notices: 1 true, 1 false, 1 bottom`.
    fn words(&self) -> String {
        let parts: Vec<String> = [
            (self.yes, "true"),
            (self.no, "false"),
            (self.bottom, "bottom"),
            (self.refused, "refused"),
        ]
        .into_iter()
        .filter(|(n, _)| *n > 0)
        .map(|(n, word)| format!("{} {word}", thousands(n)))
        .collect();
        format!(
            "{}: {}",
            count(self.all(), "notice", "notices"),
            parts.join(", ")
        )
    }

    /// Yes if every notice was true.
    pub fn status(&self) -> Status {
        match (self.refused, self.no + self.bottom) {
            (0, 0) => Status::Yes,
            (0, _) => Status::No,
            _ => Status::Refused,
        }
    }
}

#[cfg(test)]
mod tests {
    use super::*;

    #[test]
    fn the_summary_and_the_status() {
        let mut tally = Tally::new(&Out::new(), false);
        tally.verdict(Verdict::True);
        assert_eq!(
            (tally.words().as_str(), tally.status()),
            ("1 notice: 1 true", Status::Yes)
        );
        tally.verdict(Verdict::Bottom);
        assert_eq!(tally.status(), Status::No);
        tally.verdict(Verdict::False);
        assert_eq!(tally.words(), "3 notices: 1 true, 1 false, 1 bottom");
        tally.refusal();
        assert_eq!(
            tally.words(),
            "4 notices: 1 true, 1 false, 1 bottom, 1 refused"
        );
        assert_eq!(tally.status(), Status::Refused);
    }
}

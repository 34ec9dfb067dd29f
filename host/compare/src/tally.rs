//! What a run has done.

use std::collections::BTreeMap;
use std::fmt;

use crate::answer::{Answer, Opened};
use crate::lines::{logged_out, RANGE};

#[derive(Default)]
pub struct Tally {
    accepted: usize,
    refused: BTreeMap<usize, usize>,
    requests: usize,
    answers: BTreeMap<String, usize>,
    closed: usize,
    copied: usize,
    brief: usize,
    masked: usize,
    garbage: usize,
}

impl Tally {
    /// Requests and saves that were compared.
    pub fn requests(&self) -> usize {
        self.requests
    }

    pub fn count_opening(&mut self, opened: Opened) {
        match opened {
            Ok(()) => self.accepted += 1,
            Err(fault) => *self.refused.entry(fault.number).or_default() += 1,
        }
    }

    pub fn count_request(&mut self, line: &[u8], answer: Answer) {
        match answer {
            Answer::Refused(number) => self.count(format!("refused {number}")),
            Answer::Session(number) if number % RANGE > 1 => self.count("session again".into()),
            Answer::Session(_) => self.count("session".into()),
            Answer::Length(length) => self.count_text("copy", length),
            Answer::Accepted(_) if logged_out(line).is_some() => self.count("logged out".into()),
            Answer::Accepted(_) => self.count("pushed".into()),
        }
    }

    /// Lines refused 14 whose number was that of a session once.
    pub fn count_closed(&mut self) {
        self.closed += 1;
    }

    /// Requests of which only the answers were compared.
    pub fn count_brief(&mut self) {
        self.brief += 1;
    }

    /// Requests that were compared on masks of any content.
    pub fn count_masked(&mut self) {
        self.masked += 1;
    }

    pub fn count_save(&mut self, answer: Answer) {
        match answer {
            Answer::Length(length) => self.count_text("saved", length),
            _ => self.count("save refused".into()),
        }
    }

    /// Calls on arrays of any content, where nothing is compared.
    pub fn count_garbage(&mut self) {
        self.garbage += 1;
    }

    fn count_text(&mut self, kind: &str, length: usize) {
        self.copied += length;
        self.count(kind.into());
    }

    fn count(&mut self, kind: String) {
        self.requests += 1;
        *self.answers.entry(kind).or_default() += 1;
    }
}

impl fmt::Display for Tally {
    fn fmt(&self, out: &mut fmt::Formatter) -> fmt::Result {
        let openings = self.accepted + self.refused.values().sum::<usize>();
        writeln!(out, "openings {openings}, accepted {}", self.accepted)?;
        for (number, count) in &self.refused {
            writeln!(out, "  refused {number}: {count}")?;
        }
        writeln!(out, "requests {}", self.requests)?;
        for (kind, count) in &self.answers {
            writeln!(out, "  {kind}: {count}")?;
        }
        writeln!(out, "closed numbers refused 14: {}", self.closed)?;
        writeln!(out, "bytes of copies and saved texts compared {}", self.copied)?;
        writeln!(out, "requests compared in their answers alone {}", self.brief)?;
        writeln!(out, "requests compared on masks of any content {}", self.masked)?;
        write!(out, "calls on arrays of any content {}", self.garbage)
    }
}

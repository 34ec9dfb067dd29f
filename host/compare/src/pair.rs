//! Both servers, asked the same.

use crate::answer::{opened, Answer};
use crate::garbage;
use crate::lines::{session_of, RANGE};
use crate::masks;
use crate::rng::Rng;
use crate::tally::Tally;
use crate::texts::Texts;
use crate::watched::{Checked, Watched};

/// A buffer that every copy and every saved text fits in.
pub const ROOMY: usize = 60_000;

/// What was asked, and what is wrong with the answers.
pub struct Difference {
    pub asked: String,
    pub found: String,
}

pub struct Pair {
    pub watched: Watched,
    second: second::Server,
    /// Whether the proved server's masks were spoiled. They then say who may
    /// read a field, and the policy says it to the second server alone.
    masks_spoiled: bool,
    pub tally: Tally,
    scratch: Vec<u8>,
}

impl Pair {
    pub fn new() -> Self {
        Pair {
            watched: Watched::new(),
            second: second::Server::new(),
            masks_spoiled: false,
            tally: Tally::default(),
            scratch: vec![0; ROOMY],
        }
    }

    /// Back to no users and no fields.
    pub fn renew(&mut self) {
        self.watched = Watched::new();
        self.second = second::Server::new();
    }

    /// Makes any masks of those of the proved server, until they are restored.
    pub fn spoil_masks(&mut self, rng: &mut Rng) {
        garbage::spoil_masks(rng, self.watched.memory_mut());
        self.masks_spoiled = true;
    }

    pub fn restore_masks(&mut self) {
        masks::write(&mut self.watched.memory_mut().fields, &self.second.readers());
        self.masks_spoiled = false;
    }

    /// Opens on both; says whether the opening is accepted.
    pub fn open(&mut self, texts: &Texts) -> Result<bool, Difference> {
        let accepted = self.compare_open(texts).map_err(|found| {
            let names = ["users", "environments", "policy", "record"];
            let parts =
                names.iter().zip(texts).map(|(name, text)| format!("{name} {}", shown(text)));
            Difference { asked: parts.collect::<Vec<_>>().join("\n"), found }
        })?;
        Ok(accepted)
    }

    pub fn request(
        &mut self,
        line: &[u8],
        buffer: &[u8],
        list: &[u32],
    ) -> Result<Answer, Difference> {
        self.compare_request(line, buffer, list).map_err(|found| {
            let lent = format!("buffer of {}, list of {}", buffer.len(), list.len());
            Difference { asked: format!("{}\n{lent}", shown(line)), found }
        })
    }

    /// Asks both, with nothing lent, and compares the answers alone.
    pub fn request_briefly(&mut self, line: &[u8]) -> Result<Answer, Difference> {
        let proved = Answer::from(self.watched.memory_mut().request(line, &mut [], &mut []));
        let second = Answer::from(self.second.request(line, &mut [], &mut []));
        same("answers", proved, second)
            .map_err(|found| Difference { asked: shown(line), found })?;
        self.tally.count_brief();
        Ok(proved)
    }

    pub fn save(&mut self, buffer: &[u8]) -> Result<Answer, Difference> {
        self.compare_save(buffer).map_err(|found| {
            let asked = format!("save, buffer of {}", buffer.len());
            Difference { asked, found }
        })
    }

    /// How long the text is that a line is answered with, if it is a copy.
    pub fn copy_length(&mut self, line: &[u8]) -> Option<usize> {
        if !line.starts_with(b"GET;") {
            return None;
        }
        let length = length(self.second.request(line, &mut self.scratch, &mut []))?;
        if self.masks_spoiled {
            return Some(self.copy_by_masks(line, length).len());
        }
        Some(length)
    }

    pub fn save_length(&mut self) -> Option<usize> {
        length(self.second.save(&mut self.scratch))
    }

    fn compare_open(&mut self, texts: &Texts) -> Checked<bool> {
        let proved = self.watched.open(texts)?;
        let [users, environments, policy, record] = texts;
        let second = opened(self.second.open(users, environments, policy, record));
        same("answers", proved, second)?;
        if proved.is_ok() {
            self.check_masks(&self.second.readers())?;
        }
        self.tally.count_opening(proved);
        Ok(proved.is_ok())
    }

    fn compare_request(&mut self, line: &[u8], buffer: &[u8], list: &[u32]) -> Checked<Answer> {
        let proved = self.watched.request(line, buffer, list)?;
        let (mut buffer, mut list) = (buffer.to_vec(), list.to_vec());
        let second = if self.masks_spoiled {
            self.answer_by_masks(line, &mut buffer, &mut list)
        } else {
            Answer::from(self.second.request(line, &mut buffer, &mut list))
        };
        same("answers", proved, second)?;
        same_items("buffer", self.watched.buffer(), &buffer)?;
        same_items("list", self.watched.list(), &list)?;
        if self.masks_spoiled {
            self.check_masks(&self.kept_masks(line))?;
            self.tally.count_masked();
        } else {
            self.check_masks(&self.second.readers())?;
        }
        self.tally.count_request(line, proved);
        Ok(proved)
    }

    fn check_masks(&self, expected: &[u32]) -> Checked<()> {
        same_items("mask", &masks::read(&self.watched.memory().fields), expected)
    }

    /// What the second server answers if the masks, as they were before the
    /// proved one was asked, say who may read a held field.
    fn answer_by_masks(&mut self, line: &[u8], buffer: &mut [u8], list: &mut [u32]) -> Answer {
        let mut receivers = list.to_vec();
        let answer = Answer::from(self.second.request(line, &mut self.scratch, &mut receivers));
        match answer {
            Answer::Length(length) => {
                let copy = self.copy_by_masks(line, length);
                let Some(front) = buffer.get_mut(..copy.len()) else {
                    return Answer::Refused(15);
                };
                front.copy_from_slice(&copy);
                Answer::Length(copy.len())
            }
            Answer::Accepted(_) => match masks::told(self.watched.former(), line) {
                Some(told) => {
                    list[..told.len()].copy_from_slice(&told);
                    Answer::Accepted(told.len())
                }
                None => {
                    list.copy_from_slice(&receivers);
                    answer
                }
            },
            _ => answer,
        }
    }

    /// The second server's copy for this line, which has so many bytes and lies
    /// in the scratch, with the fields that the masks show: they are its last
    /// line. A GET changes no mask.
    fn copy_by_masks(&self, line: &[u8], length: usize) -> Vec<u8> {
        let place = session_of(line).expect("a copy has a session") / RANGE;
        let masks = masks::read(&self.watched.memory().fields);
        let shown = self.second.saved_text(|field| masks::has(masks[field], place));
        let before = self.scratch[..length - 1].iter().rposition(|byte| *byte == b'\n');
        let head = before.map_or(0, |end| end + 1);
        [&self.scratch[..head], &shown, b"\n"].concat()
    }

    /// The masks before the last call; among them, if the line was a push of a
    /// new field, the mask that the policy gives it.
    fn kept_masks(&self, line: &[u8]) -> Vec<u32> {
        let (former, present) = (&self.watched.former().fields, &self.watched.memory().fields);
        let mut masks = masks::read(former);
        if let (None, Some(new)) = (masks::pushed_to(former, line), masks::pushed_to(present, line))
        {
            masks.insert(new, self.second.readers()[new]);
        }
        masks
    }

    fn compare_save(&mut self, buffer: &[u8]) -> Checked<Answer> {
        let proved = self.watched.save(buffer)?;
        let mut buffer = buffer.to_vec();
        let second = Answer::from(self.second.save(&mut buffer));
        same("answers", proved, second)?;
        same_items("buffer", self.watched.buffer(), &buffer)?;
        if let Answer::Length(length) = proved {
            self.watched.check_saved(&buffer[..length])?;
        }
        self.tally.count_save(proved);
        Ok(proved)
    }
}

fn length(reply: second::Reply) -> Option<usize> {
    match reply {
        second::Reply::Length(length) => Some(length),
        _ => None,
    }
}

fn same<T: PartialEq + std::fmt::Debug>(what: &str, proved: T, second: T) -> Checked<()> {
    if proved == second {
        return Ok(());
    }
    Err(format!("{what} differ: proved {proved:?}, second {second:?}"))
}

fn same_items<T: PartialEq + std::fmt::Debug>(
    what: &str,
    proved: &[T],
    second: &[T],
) -> Checked<()> {
    let mut pairs = proved.iter().zip(second);
    match pairs.position(|(ours, theirs)| ours != theirs) {
        Some(at) => same(&format!("{what}s at {at}"), &proved[at], &second[at]),
        None => same(&format!("lengths of the {what}s"), proved.len(), second.len()),
    }
}

pub fn shown(bytes: &[u8]) -> String {
    format!("({} bytes) \"{}\"", bytes.len(), bytes.escape_ascii())
}

//! A run: case after case, until a number of requests is reached, the time is
//! over, or a difference is found.

use std::time::{Duration, Instant};

use jesovanga::LIST;

use crate::answer::Answer;
use crate::damage::damage_texts;
use crate::garbage;
use crate::hall::{Hall, Path};
use crate::lines::{logged_out, session_of, Guide, Line};
use crate::pair::{shown, Difference, Pair, ROOMY};
use crate::rng::Rng;
use crate::tally::Tally;
use crate::texts::{texts, Texts};
use crate::watchdog::Watchdog;

/// The most logins of a user.
const LOGINS: usize = 65_535;

/// One case in so many uses up a user's logins, the first among them.
const USING_UP: usize = 100;

pub struct Run {
    rng: Rng,
    pair: Pair,
    /// The hall that was opened last, or one that only guides at first.
    hall: Hall,
    texts: Texts,
    sessions: Vec<usize>,
    closed: Vec<usize>,
    pushed: Vec<Path>,
    /// The next buffer and list of those that are lent in turn.
    buffer_turn: usize,
    list_turn: usize,
    cases: usize,
}

/// A difference, and the case that found it.
pub struct Failure {
    pub case: usize,
    pub difference: Difference,
}

impl Run {
    pub fn new(seed: u64) -> Self {
        let mut rng = Rng::new(seed);
        let hall = Hall::random(&mut rng);
        let texts = texts(&mut rng, &hall);
        Run {
            rng,
            pair: Pair::new(),
            hall,
            texts,
            sessions: Vec::new(),
            closed: Vec::new(),
            pushed: Vec::new(),
            buffer_turn: 0,
            list_turn: 0,
            cases: 0,
        }
    }

    pub fn tally(&self) -> &Tally {
        &self.pair.tally
    }

    pub fn cases(&self) -> usize {
        self.cases
    }

    /// Runs until there are so many requests; says whether the time sufficed.
    pub fn run(&mut self, requests: usize, time: Duration) -> Result<bool, Failure> {
        let start = Instant::now();
        let watchdog = Watchdog::new();
        while self.tally().requests() < requests {
            if start.elapsed() >= time {
                return Ok(false);
            }
            self.cases += 1;
            watchdog.enter(self.cases);
            let case = self.cases;
            self.case().map_err(|difference| Failure { case, difference })?;
        }
        Ok(true)
    }

    fn case(&mut self) -> Result<(), Difference> {
        match self.rng.below(12) {
            0 => {
                self.pair.renew();
                self.forget();
                self.requests(5)?;
            }
            1 => self.garbage()?,
            _ => (),
        }
        if self.cases % USING_UP == 1 {
            self.use_up_logins()?;
        } else {
            self.open_new()?;
        }
        self.log_in()?;
        let count = self.rng.between(20, 250);
        self.requests(count)?;
        if self.rng.one_in(2) {
            self.requests_on_masks()?;
        }
        for _ in 0..self.rng.between(0, 10) {
            self.open_damaged()?;
            self.requests(5)?;
        }
        self.save(ROOMY)
    }

    /// Opens another hall. The old one guides on if the new one is refused.
    fn open_new(&mut self) -> Result<bool, Difference> {
        let hall = Hall::random(&mut self.rng);
        let texts = texts(&mut self.rng, &hall);
        let accepted = self.pair.open(&texts)?;
        if accepted {
            self.forget();
            (self.hall, self.texts) = (hall, texts);
        }
        Ok(accepted)
    }

    /// Opens the hall's texts after some damage.
    fn open_damaged(&mut self) -> Result<(), Difference> {
        let mut texts = self.texts.clone();
        damage_texts(&mut self.rng, &mut texts);
        if self.pair.open(&texts)? {
            self.forget();
            self.log_in()?;
        }
        Ok(())
    }

    /// Opens a hall where a user goes in and out until none to three logins
    /// are left, in turn: too often for comparing every byte each time.
    fn use_up_logins(&mut self) -> Result<(), Difference> {
        while !self.open_new()? || self.hall.users.is_empty() {}
        let login = Guide::login_of(self.rng.pick(&self.hall.users));
        let left = self.cases / USING_UP % 4;
        for _ in left..LOGINS {
            let Answer::Session(number) = self.pair.request_briefly(&login)? else {
                break;
            };
            self.pair.request_briefly(format!("LOGOUT;{number}").as_bytes())?;
            self.closed = vec![number]; // one of them is enough to guide
        }
        self.request(login.into())
    }

    fn forget(&mut self) {
        self.sessions.clear();
        self.closed.clear();
        self.pushed.clear();
    }

    /// Some users of the hall log in, or all.
    fn log_in(&mut self) -> Result<(), Difference> {
        let every = *self.rng.pick(&[1, 1, 2, 4]);
        for place in 0..self.hall.users.len() {
            if self.rng.one_in(every) {
                let line = Guide::login_of(&self.hall.users[place]);
                self.request(line.into())?;
            }
        }
        Ok(())
    }

    fn requests(&mut self, count: usize) -> Result<(), Difference> {
        for _ in 0..count {
            if self.rng.one_in(25) {
                let length = self.pair.save_length();
                let length = self.buffer_length(length);
                self.save(length)?;
            } else {
                let line = self.line();
                self.request(line)?;
            }
        }
        Ok(())
    }

    fn line(&mut self) -> Line {
        let guide = Guide {
            hall: &self.hall,
            sessions: &self.sessions,
            closed: &self.closed,
            pushed: &self.pushed,
        };
        guide.line(&mut self.rng)
    }

    fn request(&mut self, line: Line) -> Result<(), Difference> {
        let length = self.pair.copy_length(&line.bytes);
        let buffer = self.buffer(length);
        let list = self.list();
        let answer = self.pair.request(&line.bytes, &buffer, &list)?;
        self.learn(line, answer);
        Ok(())
    }

    /// Keeps what an answer says of sessions and pushed paths.
    fn learn(&mut self, line: Line, answer: Answer) {
        match answer {
            Answer::Session(number) => self.sessions.push(number),
            Answer::Accepted(_) => match logged_out(&line.bytes) {
                Some(number) => self.close(number),
                None => self.pushed.extend(line.path),
            },
            Answer::Refused(14) if self.was_closed(&line) => self.pair.tally.count_closed(),
            _ => (),
        }
    }

    fn close(&mut self, number: usize) {
        self.sessions.retain(|session| *session != number);
        self.closed.push(number);
    }

    fn was_closed(&self, line: &Line) -> bool {
        session_of(&line.bytes).is_some_and(|number| self.closed.contains(&number))
    }

    fn save(&mut self, length: usize) -> Result<(), Difference> {
        let buffer = self.rng.bytes(length);
        self.pair.save(&buffer)?;
        Ok(())
    }

    fn buffer(&mut self, text: Option<usize>) -> Vec<u8> {
        let length = self.buffer_length(text);
        self.rng.bytes(length)
    }

    /// In turn from 0 to 300, or about as long as the text, or roomy.
    fn buffer_length(&mut self, text: Option<usize>) -> usize {
        match (self.rng.below(20), text) {
            (0..=9, Some(length)) => (length + self.rng.below(3)).saturating_sub(1),
            (10, _) => ROOMY,
            (11, _) => self.rng.below(ROOMY),
            _ => {
                self.buffer_turn = (self.buffer_turn + 1) % 301;
                self.buffer_turn
            }
        }
    }

    /// Long enough, or in turn from 0 to 40.
    fn list(&mut self) -> Vec<u32> {
        let length = if self.rng.one_in(6) {
            self.list_turn = (self.list_turn + 1) % 41;
            self.list_turn
        } else {
            LIST
        };
        (0..length).map(|_| self.rng.number() as u32).collect()
    }

    /// Requests on masks of any content, which are then made right again.
    fn requests_on_masks(&mut self) -> Result<(), Difference> {
        self.pair.spoil_masks(&mut self.rng);
        let count = self.rng.between(5, 60);
        self.requests(count)?;
        self.pair.restore_masks();
        Ok(())
    }

    /// Calls on arrays of any content, then openings until one is accepted,
    /// after which nothing is left of that content.
    fn garbage(&mut self) -> Result<(), Difference> {
        garbage::spoil(&mut self.rng, self.pair.watched.memory_mut());
        self.sessions = garbage::sessions(self.pair.watched.memory());
        for _ in 0..self.rng.between(5, 60) {
            self.garbage_call()?;
        }
        while !self.open_new()? {}
        Ok(())
    }

    fn garbage_call(&mut self) -> Result<(), Difference> {
        self.pair.tally.count_garbage();
        let buffer = self.buffer(None);
        if self.rng.one_in(10) {
            let saved = self.pair.watched.save(&buffer);
            let asked = || format!("save on garbage, buffer of {}", buffer.len());
            return saved.map(drop).map_err(|found| Difference { asked: asked(), found });
        }
        let (line, list) = (self.line(), self.list());
        let answered = self.pair.watched.request(&line.bytes, &buffer, &list);
        let asked = || format!("on garbage {}", shown(&line.bytes));
        answered.map(drop).map_err(|found| Difference { asked: asked(), found })
    }
}

//! What is measured: each task gives rounds for one of the servers.

use std::hint::black_box;

use jesovanga::{COPY, LIST};

use crate::halls::{after_logins, Hall, Line, MAX_LOGINS};
use crate::subject::{other, Subject};
use crate::timing::{Contest, Round};

/// The fewest requests of a round, so that it is not too short for the clock.
const ROUND: usize = 32;

/// How often a round asks all its lines where no state is used up.
const PASSES: usize = 4;

/// What is lent to a server.
struct Desk {
    buffer: Vec<u8>,
    list: [u32; LIST],
}

impl Desk {
    fn new() -> Self {
        Desk { buffer: vec![0; COPY], list: [0; LIST] }
    }

    fn ask<S: Subject>(&mut self, server: &mut S, lines: &[Line]) {
        for line in lines {
            black_box(server.ask(line, &mut self.buffer, &mut self.list));
        }
    }

    /// The number that a line is answered with, which is not to be refused.
    fn accepted<S: Subject>(&mut self, server: &mut S, line: &Line) -> usize {
        let answer = server.ask(line, &mut self.buffer, &mut self.list);
        assert!(answer >= 0, "{} is refused {}", line.escape_ascii(), -answer);
        answer as usize
    }

    fn ask_accepted<S: Subject>(&mut self, server: &mut S, lines: &[Line]) {
        for line in lines {
            self.accepted(server, line);
        }
    }
}

/// A server of the hall with all users logged in.
fn attended<S: Subject>(hall: &Hall) -> S {
    let mut server = S::opened(&hall.texts);
    Desk::new().ask_accepted(&mut server, &hall.logins);
    server
}

/// Lines that may be asked again and again.
fn repeated<S: Subject>(hall: &Hall, lines: &[Line]) -> impl FnMut() -> Round {
    let (mut server, mut desk) = (attended::<S>(hall), Desk::new());
    let lines = lines.to_vec();
    desk.ask_accepted(&mut server, &lines);
    move || {
        Round::timed(PASSES * lines.len(), || {
            for _ in 0..PASSES {
                desk.ask(&mut server, &lines);
            }
        })
    }
}

/// Lines that change a state for good: each time it is copied before. Neither
/// the copying is timed nor the lines that then bring the copy into the cache.
fn on_copies<S: Subject>(state: S, warming: &[Line], lines: &[Line]) -> impl FnMut() -> Round {
    let (warming, lines) = (warming.to_vec(), lines.to_vec());
    let copies = ROUND.div_ceil(lines.len());
    let mut desk = Desk::new();
    move || {
        let mut servers = vec![state.clone(); copies];
        servers.iter_mut().for_each(|server| desk.ask(server, &warming));
        Round::timed(copies * lines.len(), || {
            servers.iter_mut().for_each(|server| desk.ask(server, &lines));
        })
    }
}

/// The same act for both servers.
macro_rules! both {
    ($task:ident, $($argument:expr),*) => {
        Contest::new(
            $task::<jesovanga::Server>($($argument),*),
            $task::<other::Server>($($argument),*),
        )
    };
}

/// All users log in and out, over and over, each time with the next numbers; the
/// servers are renewed when their users have had all logins. Gives the time of
/// the logins and that of the logouts.
fn session_rounds<S: Subject>(hall: &Hall) -> impl FnMut() -> [Round; 2] {
    let (state, mut desk) = (S::opened(&hall.texts), Desk::new());
    let (logins, logouts) = (hall.logins.clone(), hall.logouts.clone());
    let copies = ROUND.div_ceil(logins.len());
    let mut trial = state.clone();
    for count in 1..=2 {
        desk.ask_accepted(&mut trial, &logins);
        desk.ask_accepted(&mut trial, &after_logins(&logouts, count));
    }
    let (mut servers, mut count) = (Vec::new(), MAX_LOGINS);
    move || {
        if count == MAX_LOGINS {
            (servers, count) = (vec![state.clone(); copies], 0);
        }
        count += 1;
        [&logins, &after_logins(&logouts, count)].map(|lines| {
            Round::timed(copies * lines.len(), || {
                servers.iter_mut().for_each(|server| desk.ask(server, lines));
            })
        })
    }
}

fn login_rounds<S: Subject>(hall: &Hall) -> impl FnMut() -> Round {
    let mut sessions = session_rounds::<S>(hall);
    move || {
        let [logins, _] = sessions();
        logins
    }
}

fn logout_rounds<S: Subject>(hall: &Hall) -> impl FnMut() -> Round {
    let mut sessions = session_rounds::<S>(hall);
    move || {
        let [_, logouts] = sessions();
        logouts
    }
}

fn new_push_rounds<S: Subject>(hall: &Hall) -> impl FnMut() -> Round {
    let state = attended::<S>(hall);
    Desk::new().ask_accepted(&mut state.clone(), &hall.new_pushes);
    on_copies(state, &hall.gets, &hall.new_pushes)
}

fn day_rounds<S: Subject>(hall: &Hall) -> impl FnMut() -> Round {
    on_copies(S::opened(&hall.texts), &[], &hall.day())
}

fn save_rounds<S: Subject>(hall: &Hall) -> impl FnMut() -> Round {
    let (server, mut desk) = (attended::<S>(hall), Desk::new());
    move || {
        Round::timed(PASSES, || {
            for _ in 0..PASSES {
                black_box(server.save(&mut desk.buffer));
            }
        })
    }
}

fn opening_rounds<S: Subject>(hall: &Hall) -> impl FnMut() -> Round {
    let mut server = S::opened(&hall.texts);
    let texts = hall.texts.clone();
    move || {
        Round::timed(PASSES, || {
            for _ in 0..PASSES {
                black_box(server.open(&texts));
            }
        })
    }
}

pub fn login(hall: &Hall) -> Contest {
    both!(login_rounds, hall)
}

pub fn logout(hall: &Hall) -> Contest {
    both!(logout_rounds, hall)
}

pub fn get(hall: &Hall) -> Contest {
    both!(repeated, hall, &hall.gets)
}

pub fn held_push(hall: &Hall) -> Contest {
    both!(repeated, hall, &hall.held_pushes)
}

pub fn new_push(hall: &Hall) -> Contest {
    both!(new_push_rounds, hall)
}

pub fn day(hall: &Hall) -> Contest {
    both!(day_rounds, hall)
}

pub fn save(hall: &Hall) -> Contest {
    both!(save_rounds, hall)
}

pub fn opening(hall: &Hall) -> Contest {
    both!(opening_rounds, hall)
}

/// Both answer a day in the hall alike, or there is nothing to measure.
pub fn check(hall: &Hall) {
    let mut proved = jesovanga::Server::opened(&hall.texts);
    let mut other = other::Server::opened(&hall.texts);
    let (mut ours, mut theirs) = (Desk::new(), Desk::new());
    for line in hall.day() {
        let answer = proved.ask(&line, &mut ours.buffer, &mut ours.list);
        let expected = other.ask(&line, &mut theirs.buffer, &mut theirs.list);
        assert_eq!(answer, expected, "{}", line.escape_ascii());
        assert!(ours.buffer == theirs.buffer && ours.list == theirs.list);
    }
}

/// The copies that are asked for in the hall.
pub fn copies(hall: &Hall) -> Vec<Vec<u8>> {
    let (mut server, mut desk) = (attended::<jesovanga::Server>(hall), Desk::new());
    let copy = |line| {
        let length = desk.accepted(&mut server, line);
        desk.buffer[..length].to_vec()
    };
    hall.gets.iter().map(copy).collect()
}

/// The sessions that each push to a held field reaches.
pub fn reached(hall: &Hall) -> Vec<Vec<u32>> {
    let (mut server, mut desk) = (attended::<jesovanga::Server>(hall), Desk::new());
    let sessions = |line| {
        let count = desk.accepted(&mut server, line);
        desk.list[..count].to_vec()
    };
    hall.held_pushes.iter().map(sessions).collect()
}

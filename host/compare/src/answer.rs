//! Answers of both servers, in one form.

use jesovanga::Fault;

#[derive(Clone, Copy, Debug, PartialEq, Eq)]
pub enum Answer {
    Refused(usize),
    Session(usize),
    Length(usize),
    Accepted(usize),
}

impl From<jesovanga::Reply> for Answer {
    fn from(reply: jesovanga::Reply) -> Self {
        match reply {
            jesovanga::Reply::Refused(number) => Answer::Refused(number),
            jesovanga::Reply::Session(number) => Answer::Session(number as usize),
            jesovanga::Reply::Length(length) => Answer::Length(length),
            jesovanga::Reply::Accepted(count) => Answer::Accepted(count),
        }
    }
}

impl From<second::Reply> for Answer {
    fn from(reply: second::Reply) -> Self {
        match reply {
            second::Reply::Refused(number) => Answer::Refused(number as usize),
            second::Reply::Session(number) => Answer::Session(number as usize),
            second::Reply::Length(length) => Answer::Length(length),
            second::Reply::Accepted(count) => Answer::Accepted(count),
        }
    }
}

pub type Opened = Result<(), Fault>;

/// What the second implementation says of an opening, in the form of the first.
pub fn opened(answer: Result<(), second::Fault>) -> Opened {
    answer.map_err(|fault| Fault {
        number: fault.number as usize,
        text: fault.text as usize,
        line: fault.line as usize,
    })
}

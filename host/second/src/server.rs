//! The server: its state, and how it answers requests and saves.

use std::collections::BTreeMap;

use crate::names::Name;
use crate::opening::{self, Fault, Opened, User};
use crate::paths::Path;
use crate::refusals::*;
use crate::requests::Request;
use crate::saved_text::write_fields;
use crate::values::Value;

/// How many numbers a list lent to a push has at least.
pub const LIST_LENGTH: usize = 32;

/// Session numbers of one user lie within one such range.
const PLACE_RANGE: u32 = 65_536;

/// The most logins of a user: with one more, numbers would run into the next
/// user's range.
const LOGIN_LIMIT: u16 = 65_535;

#[derive(Debug, Clone, PartialEq, Eq)]
pub enum Reply {
    Refused(u32),
    /// The number of the session that a login opened.
    Session(u32),
    /// How many bytes were written to the buffer.
    Length(usize),
    /// How many numbers were written to the list; none by a logout.
    Accepted(usize),
}

/// What changes about a user: logins, an open session, fields created.
#[derive(Clone, Debug, Default)]
struct Seat {
    logins: u16,
    open: bool,
    created: usize,
}

impl Seat {
    /// For a seat that has logins left.
    fn log_in(&mut self) {
        self.logins += 1;
        self.open = true;
    }

    fn session(&self, place: usize) -> u32 {
        place as u32 * PLACE_RANGE + u32::from(self.logins)
    }
}

#[derive(Clone, Debug, Default)]
pub struct Server {
    users: Vec<User>,
    /// One for each user, in the same order.
    seats: Vec<Seat>,
    fields: BTreeMap<Path, Value>,
}

impl Server {
    /// A server without users and fields.
    pub fn new() -> Server {
        Server::default()
    }

    /// Opens the four texts; a refused opening keeps the former state.
    pub fn open(
        &mut self,
        users: &[u8],
        environments: &[u8],
        policy: &[u8],
        record: &[u8],
    ) -> Result<(), Fault> {
        let Opened { users, fields } = opening::open([users, environments, policy, record])?;
        let seats = vec![Seat::default(); users.len()];
        *self = Server { users, seats, fields };
        Ok(())
    }

    /// Answers a request line. A refused one changes nothing.
    pub fn request(&mut self, line: &[u8], buffer: &mut [u8], list: &mut [u32]) -> Reply {
        let Some(request) = Request::parse(line) else {
            return Reply::Refused(BAD_REQUEST);
        };
        let answer = match request {
            Request::Login { user, key } => self.log_in(user, key),
            Request::Logout { session } => self.log_out(session),
            Request::Get { session } => self.copy(session, buffer),
            Request::Push { session, path, value } => self.push(session, path, value, list),
        };
        answer.unwrap_or_else(Reply::Refused)
    }

    /// Writes the whole record to the buffer.
    pub fn save(&self, buffer: &mut [u8]) -> Reply {
        hand_over(&self.saved_text(|_| true), buffer).unwrap_or_else(Reply::Refused)
    }

    /// The saved text of those of the fields whose places are shown.
    pub fn saved_text(&self, is_shown: impl Fn(usize) -> bool) -> Vec<u8> {
        let mut text = Vec::new();
        let shown = self.fields.iter().enumerate().filter(|(place, _)| is_shown(*place));
        write_fields(&mut text, shown.map(|(_, field)| field));
        text
    }

    /// Who may read each of the fields, in their order: the bits of the places
    /// of those users are set.
    pub fn readers(&self) -> Vec<u32> {
        self.fields.keys().map(|path| self.readers_of(path)).collect()
    }

    fn readers_of(&self, path: &[Name]) -> u32 {
        let users = self.users.iter().enumerate();
        let readers = users.filter(|(_, user)| user.rights.may_read(path));
        readers.fold(0, |mask, (place, _)| mask | 1 << place)
    }

    /// How many fields are held.
    pub fn fields(&self) -> usize {
        self.fields.len()
    }

    fn log_in(&mut self, name: Name, key: Name) -> Result<Reply, u32> {
        let mut users = self.users.iter();
        let place = users.position(|user| user.name == name && user.key == key);
        let place = place.ok_or(LOGIN_FAILED)?;
        let seat = &mut self.seats[place];
        if seat.open {
            return Err(HAS_SESSION);
        }
        if seat.logins == LOGIN_LIMIT {
            return Err(LOGINS_SPENT);
        }
        seat.log_in();
        Ok(Reply::Session(seat.session(place)))
    }

    /// Closes a session; the logins and the fields created stay counted.
    fn log_out(&mut self, session: u32) -> Result<Reply, u32> {
        let place = self.place_of(session)?;
        self.seats[place].open = false;
        Ok(Reply::Accepted(0))
    }

    fn copy(&self, session: u32, buffer: &mut [u8]) -> Result<Reply, u32> {
        let user = &self.users[self.place_of(session)?];
        let mut text = user.copy_head.clone();
        let readable = self.fields.iter();
        write_fields(&mut text, readable.filter(|(path, _)| user.rights.may_read(path)));
        text.push(b'\n');
        hand_over(&text, buffer)
    }

    fn push(
        &mut self,
        session: u32,
        path: Path,
        value: Value,
        list: &mut [u32],
    ) -> Result<Reply, u32> {
        if list.len() < LIST_LENGTH {
            return Err(LENT_TOO_SHORT);
        }
        let place = self.place_of(session)?;
        let user = &self.users[place];
        if !user.rights.may_write(&path) {
            return Err(MAY_NOT_WRITE);
        }
        let seat = &mut self.seats[place];
        match self.fields.get_mut(&path) {
            Some(held) => *held = value,
            None if seat.created >= user.allowance => return Err(ALLOWANCE_SPENT),
            None => {
                seat.created += 1;
                self.fields.insert(path.clone(), value);
            }
        }
        Ok(Reply::Accepted(self.list_receivers(place, &path, list)))
    }

    /// Lists the other open sessions whose user may read the path. The order
    /// of places is the order of session numbers.
    fn list_receivers(&self, sender: usize, path: &[Name], list: &mut [u32]) -> usize {
        let mut count = 0;
        for (place, (user, seat)) in self.users.iter().zip(&self.seats).enumerate() {
            if place != sender && seat.open && user.rights.may_read(path) {
                list[count] = seat.session(place);
                count += 1;
            }
        }
        count
    }

    /// The place of the user whose open session has this number.
    fn place_of(&self, session: u32) -> Result<usize, u32> {
        let place = (session / PLACE_RANGE) as usize;
        match self.seats.get(place) {
            Some(seat) if seat.open && seat.session(place) == session => Ok(place),
            _ => Err(NO_SESSION),
        }
    }
}

/// Copies a text to the front of a buffer that is long enough.
fn hand_over(text: &[u8], buffer: &mut [u8]) -> Result<Reply, u32> {
    let front = buffer.get_mut(..text.len()).ok_or(LENT_TOO_SHORT)?;
    front.copy_from_slice(text);
    Ok(Reply::Length(text.len()))
}

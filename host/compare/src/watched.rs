//! The proved server, with all that it is lent between guards. What has to
//! hold of a call whatever the arrays contain is checked here.

use jesovanga::{Fault, Memory, LIST, LOGINS};

use crate::answer::{Answer, Opened};
use crate::lent::{Lent, LentMemory};
use crate::lines::{logged_out, RANGE};
use crate::masks;
use crate::texts::Texts;

/// A result, or what is wrong with a call.
pub type Checked<T> = Result<T, String>;

/// How many numbers a login state has: logins, whether a session is open, fields
/// created.
pub const LOGIN: usize = 3;

pub struct Watched {
    lent: Box<LentMemory>,
    /// The arrays before the call.
    former: Box<Memory>,
    texts: [Lent<u8>; 4],
    line: Lent<u8>,
    buffer: Lent<u8>,
    list: Lent<u32>,
    /// Goes round from 0 to 7, one further with each call.
    shift: usize,
}

impl Watched {
    /// A server without users and fields.
    pub fn new() -> Self {
        Watched {
            lent: LentMemory::new(),
            former: Box::default(),
            texts: Default::default(),
            line: Lent::default(),
            buffer: Lent::default(),
            list: Lent::default(),
            shift: 0,
        }
    }

    pub fn memory(&self) -> &Memory {
        &self.lent.memory
    }

    pub fn memory_mut(&mut self) -> &mut Memory {
        &mut self.lent.memory
    }

    /// The arrays before the last call.
    pub fn former(&self) -> &Memory {
        &self.former
    }

    /// The buffer of the last call.
    pub fn buffer(&self) -> &[u8] {
        self.buffer.piece()
    }

    /// The list of the last request.
    pub fn list(&self) -> &[u32] {
        self.list.piece()
    }

    pub fn open(&mut self, texts: &Texts) -> Checked<Opened> {
        self.begin();
        for (lent, text) in self.texts.iter_mut().zip(texts) {
            lent.lay(text, self.shift);
        }
        let [users, environments, policy, record] = self.texts.each_ref().map(Lent::piece);
        let opened = self.lent.memory.open(users, environments, policy, record);
        self.check_open(texts, opened).map_err(|what| format!("{opened:?}, but {what}"))?;
        Ok(opened)
    }

    pub fn request(&mut self, line: &[u8], buffer: &[u8], list: &[u32]) -> Checked<Answer> {
        self.begin();
        self.line.lay(line, self.shift);
        self.buffer.lay(buffer, self.shift);
        self.list.lay(list, 0);
        let (buffer_lent, list_lent) = (self.buffer.piece_mut(), self.list.piece_mut());
        let reply = self.lent.memory.request(self.line.piece(), buffer_lent, list_lent);
        let answer = Answer::from(reply);
        self.check_request(line, buffer, list, answer)
            .map_err(|what| format!("{answer:?}, but {what}"))?;
        Ok(answer)
    }

    pub fn save(&mut self, buffer: &[u8]) -> Checked<Answer> {
        self.begin();
        self.buffer.lay(buffer, self.shift);
        let answer = Answer::from(self.lent.memory.save(self.buffer.piece_mut()));
        self.check_save(buffer, answer).map_err(|what| format!("{answer:?}, but {what}"))?;
        Ok(answer)
    }

    fn begin(&mut self) {
        (*self.former).clone_from(&self.lent.memory);
        self.shift = (self.shift + 1) % 8;
    }

    fn check_open(&self, texts: &Texts, opened: Opened) -> Checked<()> {
        ensure(self.lent.guards_hold(), "a guard of the arrays has changed")?;
        for (lent, text) in self.texts.iter().zip(texts) {
            ensure(lent.guards_hold(), "a guard of a text has changed")?;
            ensure(lent.piece() == text, "a text has changed")?;
        }
        let Err(Fault { number, text, line }) = opened else {
            return self.check_bytes(texts);
        };
        let known = (1..=10).contains(&number) && (1..=4).contains(&text);
        ensure(known && line <= texts[text - 1].len() + 1, "there is no such refusal")?;
        ensure(*self.former == self.lent.memory, "the arrays have changed")
    }

    /// The arrays are what the same texts make of zeros, whatever they held.
    fn check_bytes(&self, texts: &Texts) -> Checked<()> {
        let [users, environments, policy, record] = texts.each_ref().map(Vec::as_slice);
        let mut fresh = Box::<Memory>::default();
        let accepted = fresh.open(users, environments, policy, record).is_ok();
        ensure(accepted && *fresh == self.lent.memory, "the same texts make other arrays of zeros")
    }

    /// The fields' bytes but the masks are what the saved text, opened without
    /// tables, makes of zeros, whatever pushes made them.
    pub fn check_saved(&self, text: &[u8]) -> Checked<()> {
        let heads = ["user;role;key;allowance\n", "user;name;value\n", "role;access;path\n"];
        let [users, environments, policy] = heads.map(str::as_bytes);
        let mut fresh = Box::<Memory>::default();
        let accepted = fresh.open(users, environments, policy, text).is_ok();
        masks::write(&mut fresh.fields, &masks::read(&self.lent.memory.fields));
        let same = fresh.fields == self.lent.memory.fields;
        ensure(accepted && same, "the saved text makes other fields of zeros")
    }

    fn check_request(
        &self,
        line: &[u8],
        buffer: &[u8],
        list: &[u32],
        answer: Answer,
    ) -> Checked<()> {
        ensure(self.lent.guards_hold(), "a guard of the arrays has changed")?;
        ensure(self.line.guards_hold(), "a guard of the line has changed")?;
        ensure(self.buffer.guards_hold(), "a guard of the buffer has changed")?;
        ensure(self.list.guards_hold(), "a guard of the list has changed")?;
        ensure(self.line.piece() == line, "the line has changed")?;
        ensure(self.former.tables == self.lent.memory.tables, "the tables have changed")?;
        match answer {
            Answer::Refused(number) => {
                ensure((11..=18).contains(&number), "there is no such refusal")?;
                self.check_arrays_kept()?;
                self.check_buffer_kept(buffer, 0)?;
                self.check_list_kept(list, 0)
            }
            Answer::Session(number) => {
                self.check_login(number)?;
                self.check_buffer_kept(buffer, 0)?;
                self.check_list_kept(list, 0)
            }
            Answer::Length(length) => {
                self.check_arrays_kept()?;
                self.check_buffer_kept(buffer, length)?;
                self.check_list_kept(list, 0)
            }
            Answer::Accepted(count) => {
                match logged_out(line) {
                    Some(number) => self.check_logout(number, count)?,
                    None => self.check_push(list, count)?,
                }
                self.check_buffer_kept(buffer, 0)?;
                self.check_list_kept(list, count)
            }
        }
    }

    /// The user's logins are one more and the flag is 1; nothing else changes.
    fn check_login(&self, number: usize) -> Checked<()> {
        let mut logins = self.former.logins;
        let state = state_of(&mut logins, number)?;
        ensure(state[1] == 0, "a session was open")?;
        state[0] = state[0].checked_add(1).ok_or("no login was left")?;
        state[1] = 1;
        ensure(number % RANGE == usize::from(state[0]), "the number is not that of the login")?;
        ensure(logins == self.lent.memory.logins, "the login states are not those of a login")?;
        self.check_fields_kept()
    }

    /// The session's flag becomes 0, and nothing else changes.
    fn check_logout(&self, number: usize, count: usize) -> Checked<()> {
        ensure(count == 0, "a logout tells nobody")?;
        let mut logins = self.former.logins;
        let state = state_of(&mut logins, number)?;
        ensure(state[1] != 0, "no session was open")?;
        ensure(number % RANGE == usize::from(state[0]), "the number is not that of the session")?;
        state[1] = 0;
        ensure(logins == self.lent.memory.logins, "the login states are not those of a logout")?;
        self.check_fields_kept()
    }

    fn check_push(&self, list: &[u32], count: usize) -> Checked<()> {
        ensure(count <= LIST && LIST <= list.len(), "the list is too short")?;
        self.check_other_logins_kept()
    }

    fn check_save(&self, buffer: &[u8], answer: Answer) -> Checked<()> {
        ensure(self.lent.guards_hold(), "a guard of the arrays has changed")?;
        ensure(self.buffer.guards_hold(), "a guard of the buffer has changed")?;
        self.check_arrays_kept()?;
        match answer {
            Answer::Refused(15) => self.check_buffer_kept(buffer, 0),
            Answer::Length(length) => self.check_buffer_kept(buffer, length),
            _ => Err("no save answers so".into()),
        }
    }

    fn check_arrays_kept(&self) -> Checked<()> {
        ensure(*self.former == self.lent.memory, "the arrays have changed")
    }

    fn check_fields_kept(&self) -> Checked<()> {
        ensure(self.former.fields == self.lent.memory.fields, "the fields have changed")
    }

    /// At most one login state has changed.
    fn check_other_logins_kept(&self) -> Checked<()> {
        let former = self.former.logins.chunks(LOGIN);
        let pairs = former.zip(self.lent.memory.logins.chunks(LOGIN));
        let changed = pairs.filter(|(old, new)| old != new).count();
        ensure(changed <= 1, "another login state has changed")
    }

    fn check_buffer_kept(&self, buffer: &[u8], from: usize) -> Checked<()> {
        ensure(from <= buffer.len(), "the buffer is shorter")?;
        ensure(self.buffer()[from..] == buffer[from..], "the buffer's rest has changed")
    }

    fn check_list_kept(&self, list: &[u32], from: usize) -> Checked<()> {
        ensure(self.list()[from..] == list[from..], "the list's rest has changed")
    }
}

/// The login state of the user whom a session number belongs to.
fn state_of(logins: &mut [u16; LOGINS], number: usize) -> Checked<&mut [u16]> {
    let state = logins.chunks_mut(LOGIN).nth(number / RANGE);
    state.ok_or_else(|| "there is no such user".into())
}

fn ensure(holds: bool, otherwise: &str) -> Checked<()> {
    if holds {
        Ok(())
    } else {
        Err(otherwise.into())
    }
}

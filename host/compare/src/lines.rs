//! Request lines for a hall.

use crate::damage::damage_bytes;
use crate::hall::{Hall, Path, Rule, User};
use crate::rng::Rng;
use crate::texts::field_path;
use crate::words;

/// Session numbers of one user lie within one such range.
pub const RANGE: usize = 65_536;

/// What is known when a line is made: a guide, which need not be right.
pub struct Guide<'a> {
    pub hall: &'a Hall,
    /// Numbers of open sessions, and of those that were closed.
    pub sessions: &'a [usize],
    pub closed: &'a [usize],
    /// Paths that were pushed.
    pub pushed: &'a [Path],
}

/// A line, and the path that it pushes to, if it is a push.
pub struct Line {
    pub bytes: Vec<u8>,
    pub path: Option<Path>,
}

impl From<Vec<u8>> for Line {
    fn from(bytes: Vec<u8>) -> Self {
        Line { bytes, path: None }
    }
}

impl Guide<'_> {
    pub fn line(&self, rng: &mut Rng) -> Line {
        let left = self.left();
        if left.is_empty() || !rng.one_in(6) {
            return self.any_line(rng);
        }
        let user = *rng.pick(&left);
        Self::login_of(user).into()
    }

    fn any_line(&self, rng: &mut Rng) -> Line {
        match rng.below(100) {
            0..=8 => self.login(rng).into(),
            9..=14 => self.logout(rng).into(),
            15..=40 => self.get(rng).into(),
            41..=87 => self.push(rng),
            88..=94 => self.damaged(rng).into(),
            95..=96 => random_bytes(rng).into(),
            _ => self.of_any_length(rng).into(),
        }
    }

    /// A login of a user, with the right key.
    pub fn login_of(user: &User) -> Vec<u8> {
        [b"LOGIN;", &user.name[..], b";", &user.key].concat()
    }

    fn login(&self, rng: &mut Rng) -> Vec<u8> {
        if self.hall.users.is_empty() || rng.one_in(6) {
            let (name, key) = (words::name(rng), words::name(rng));
            return [b"LOGIN;", &name[..], b";", &key].concat();
        }
        let user = rng.pick(&self.hall.users);
        match rng.below(4) {
            0 => {
                let key = rng.pick(&self.hall.names);
                [b"LOGIN;", &user.name[..], b";", key].concat()
            }
            1 => {
                let other = rng.pick(&self.hall.users);
                [b"LOGIN;", &user.name[..], b";", &other.key].concat()
            }
            _ => Self::login_of(user),
        }
    }

    /// Users who have left and are not back.
    fn left(&self) -> Vec<&User> {
        let has = |numbers: &[usize], place| numbers.iter().any(|number| number / RANGE == place);
        let users = self.hall.users.iter().enumerate();
        let left =
            users.filter(|(place, _)| has(self.closed, *place) && !has(self.sessions, *place));
        left.map(|(_, user)| user).collect()
    }

    /// Often with a closed number, so that not too many users are out.
    fn logout(&self, rng: &mut Rng) -> Vec<u8> {
        let again = !self.closed.is_empty() && rng.one_in(3);
        let session = if again { *rng.pick(self.closed) } else { self.session(rng) };
        format!("LOGOUT;{session}").into()
    }

    fn get(&self, rng: &mut Rng) -> Vec<u8> {
        format!("GET;{}", self.session(rng)).into()
    }

    fn push(&self, rng: &mut Rng) -> Line {
        let mut session = self.session(rng);
        for _ in 0..3 {
            if self.writing_rules(session).next().is_none() {
                session = self.session(rng);
            }
        }
        let path = self.push_path(rng, session);
        let value = if rng.one_in(12) { words::bad_value(rng) } else { words::value(rng) };
        let head = format!("PUSH;{session};");
        let bytes = [head.as_bytes(), &field_path(&path), b";", &value].concat();
        Line { bytes, path: Some(path) }
    }

    /// Mostly the number of an open session, now and then a closed one.
    fn session(&self, rng: &mut Rng) -> usize {
        if !self.closed.is_empty() && rng.one_in(16) {
            return *rng.pick(self.closed);
        }
        if !self.sessions.is_empty() && !rng.one_in(8) {
            return *rng.pick(self.sessions);
        }
        let place = rng.between(0, 33);
        match rng.below(10) {
            0..=2 => place * RANGE + 1,
            3 => place * RANGE,
            4 => place * RANGE + 2,
            5 => rng.below(200),
            6 => *rng.pick(&[0xFFFF_FFFF, 0x1_0000_0000, 0x1_0000_0001, 0xFFFF, 32 * RANGE]),
            7 => self.to_come(rng),
            8 => self.one_bit_off(rng),
            _ => rng.below(1 << 33),
        }
    }

    /// A number behind one that was given: that of a login to come, mostly.
    fn to_come(&self, rng: &mut Rng) -> usize {
        let given = if rng.one_in(2) { self.sessions } else { self.closed };
        match given {
            [] => rng.between(1, 3),
            _ => rng.pick(given) + rng.between(1, 3),
        }
    }

    /// The number of an open session but for one bit: every bit of it counts.
    fn one_bit_off(&self, rng: &mut Rng) -> usize {
        let bit = 1 << rng.below(32);
        match self.sessions {
            [] => bit,
            open => rng.pick(open) ^ bit,
        }
    }

    fn push_path(&self, rng: &mut Rng, session: usize) -> Path {
        let hall = self.hall;
        match rng.below(20) {
            0..=2 if !hall.fields.is_empty() => rng.pick(&hall.fields).path.clone(),
            3..=6 if !self.pushed.is_empty() => rng.pick(self.pushed).clone(),
            7..=16 => self.writable_path(rng, session),
            17 => (0..rng.between(5, 7)).map(|_| words::name_of(rng, 16)).collect(),
            18 => self.neighbour(rng),
            _ => hall.any_path(rng),
        }
    }

    /// Mostly a path that the user of this session may write.
    fn writable_path(&self, rng: &mut Rng, session: usize) -> Path {
        let Some(user) = self.hall.users.get(session / RANGE) else {
            return self.hall.any_path(rng);
        };
        let rules: Vec<&Rule> = if rng.one_in(8) {
            self.hall.rules.iter().collect()
        } else {
            self.writing_rules(session).collect()
        };
        match &rules[..] {
            [] => self.hall.any_path(rng),
            rules => {
                let rule = *rng.pick(rules);
                self.hall.matching_path(rng, rule, user)
            }
        }
    }

    /// The WRITE lines for the user of this session.
    fn writing_rules(&self, session: usize) -> impl Iterator<Item = &Rule> {
        let user = self.hall.users.get(session / RANGE);
        let rules = self.hall.rules.iter().filter(|rule| rule.writes);
        rules.filter(move |rule| {
            user.is_some_and(|user| rule.role == user.role || rule.role == b"*")
        })
    }

    /// A path that is a field's but for a key more or less or another one.
    fn neighbour(&self, rng: &mut Rng) -> Path {
        if self.hall.fields.is_empty() {
            return self.hall.any_path(rng);
        }
        let mut path = rng.pick(&self.hall.fields).path.clone();
        let at = rng.below(path.len() + 1);
        match rng.below(4) {
            0 => path.insert(at, rng.pick(&self.hall.names).clone()),
            1 if at < path.len() => path[at] = rng.pick(&self.hall.names).clone(),
            2 if at < path.len() => path[at].extend_from_slice(b" "),
            _ => {
                path.pop();
            }
        }
        path
    }

    fn damaged(&self, rng: &mut Rng) -> Vec<u8> {
        let mut bytes = match rng.below(4) {
            0 => self.login(rng),
            1 => self.logout(rng),
            2 => self.get(rng),
            _ => self.push(rng).bytes,
        };
        damage_bytes(rng, &mut bytes);
        bytes
    }

    /// A line filled up or cut to any length from 0 to 300.
    fn of_any_length(&self, rng: &mut Rng) -> Vec<u8> {
        let mut bytes = match rng.below(5) {
            0 => self.login(rng),
            1 => self.logout(rng),
            2 => self.get(rng),
            _ => self.push(rng).bytes,
        };
        let length = match rng.below(4) {
            0 => rng.between(254, 258),
            _ => rng.between(0, 300),
        };
        let filling = *rng.pick(b"0 1;a\"");
        bytes.resize(length, filling);
        bytes
    }
}

/// The session number that an accepted logout closes; for other lines none.
pub fn logged_out(line: &[u8]) -> Option<usize> {
    number(line.strip_prefix(b"LOGOUT;")?)
}

/// The session number of a line that was taken apart and is no login.
pub fn session_of(line: &[u8]) -> Option<usize> {
    number(line.split(|&byte| byte == b';').nth(1)?)
}

fn number(text: &[u8]) -> Option<usize> {
    std::str::from_utf8(text).ok()?.parse().ok()
}

fn random_bytes(rng: &mut Rng) -> Vec<u8> {
    let words: [&[u8]; 6] = [b"", b"LOGIN;", b"LOGOUT;", b"GET;", b"PUSH;", b"PUSH;1;$['a'];"];
    let length = rng.between(0, 300);
    let random = rng.bytes(length);
    [rng.pick(&words), &random[..]].concat()
}

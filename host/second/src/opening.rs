//! Opening the four texts: users, environments, policy and record.

use std::collections::BTreeMap;

use crate::names::{parse_decimal, Name};
use crate::paths::{Path, PolicyPath};
use crate::record_text::parse_record;
use crate::refusals::*;
use crate::rights::{Access, Rights, Rule, Setting};
use crate::tables::read_table;
use crate::values::Value;

/// The longest text that is read.
pub const TEXT_LIMIT: usize = 65_536;

const USER_LIMIT: usize = 32;
const SETTING_LIMIT: usize = 16;
const POLICY_LIMIT: usize = 64;
const FIELD_LIMIT: usize = 256;

const USERS: u32 = 1;
const ENVIRONMENTS: u32 = 2;
const POLICY: u32 = 3;
const RECORD: u32 = 4;

/// Why an opening is refused: the refusal's number, the text (1 to 4) and the
/// line, which is 0 where no line is named.
#[derive(Clone, Copy, Debug, PartialEq, Eq)]
pub struct Fault {
    pub number: u32,
    pub text: u32,
    pub line: u32,
}

/// A user with all that follows from the tables.
#[derive(Clone, Debug)]
pub struct User {
    pub name: Name,
    role: Name,
    pub key: Name,
    pub allowance: usize,
    pub rights: Rights,
    /// The part of a copy that stands before the fields.
    pub copy_head: Vec<u8>,
}

pub struct Opened {
    pub users: Vec<User>,
    pub fields: BTreeMap<Path, Value>,
}

pub fn open(texts: [&[u8]; 4]) -> Result<Opened, Fault> {
    check_lengths(texts)?;
    let [users, environments, policy, record] = texts;
    let mut users = read_users(users)?;
    read_environments(environments, &mut users)?;
    let policy = read_policy(policy)?;
    for user in &mut users {
        user.take_policy(&policy);
    }
    let allowances = users.iter().map(|user| user.allowance).sum();
    let fields = read_record(record, allowances, &policy)?;
    Ok(Opened { users, fields })
}

fn check_lengths(texts: [&[u8]; 4]) -> Result<(), Fault> {
    match (USERS..).zip(texts).find(|(_, text)| text.len() > TEXT_LIMIT) {
        Some((text, _)) => Err(Fault { number: TEXT_TOO_LONG, text, line: 0 }),
        None => Ok(()),
    }
}

impl User {
    /// Reads a line of the users table; the other tables add the rest.
    fn parse([name, role, key, allowance]: [&[u8]; 4]) -> Option<User> {
        Some(User {
            name: Name::parse(name)?,
            role: Name::parse(role).filter(|role| !role.is_star())?,
            key: Name::parse(key)?,
            allowance: parse_decimal(allowance, FIELD_LIMIT as u32)? as usize,
            rights: Rights::default(),
            copy_head: Vec::new(),
        })
    }

    fn take_policy(&mut self, policy: &[Rule]) {
        let own_rules = policy.iter().filter(|rule| rule.is_for(self.role));
        self.rights.rules = own_rules.cloned().collect();
        self.copy_head = self.write_copy_head();
    }

    fn write_copy_head(&self) -> Vec<u8> {
        let mut out = b"role;access;path\n".to_vec();
        for rule in &self.rights.rules {
            let spelling = rule.path.spelling();
            write_line(&mut out, &[self.role.as_bytes(), rule.access.word(), &spelling]);
        }
        out.extend_from_slice(b"name;value\n");
        for setting in &self.rights.environment {
            write_line(&mut out, &[setting.name.as_bytes(), setting.value.as_bytes()]);
        }
        out
    }
}

fn write_line(out: &mut Vec<u8>, values: &[&[u8]]) {
    out.extend(values.join(&b';'));
    out.push(b'\n');
}

fn read_users(text: &[u8]) -> Result<Vec<User>, Fault> {
    let mut users: Vec<User> = Vec::new();
    let columns = ["user", "role", "key", "allowance"];
    read_table(USERS, text, columns, |values| {
        let user = User::parse(values).ok_or(BAD_LINE)?;
        if users.iter().any(|earlier| earlier.name == user.name) {
            return Err(REPEATED);
        }
        push_within(&mut users, user, USER_LIMIT)
    })?;
    Ok(users)
}

fn read_environments(text: &[u8], users: &mut [User]) -> Result<(), Fault> {
    let columns = ["user", "name", "value"];
    read_table(ENVIRONMENTS, text, columns, |values| {
        let (name, setting) = parse_setting(values).ok_or(BAD_LINE)?;
        let user = users.iter_mut().find(|user| user.name == name).ok_or(NO_SUCH_USER)?;
        let environment = &mut user.rights.environment;
        if environment.contains(&setting) {
            return Err(REPEATED);
        }
        push_within(environment, setting, SETTING_LIMIT)
    })
}

fn parse_setting([user, name, value]: [&[u8]; 3]) -> Option<(Name, Setting)> {
    let user = Name::parse(user)?;
    let name = Name::parse_plain(name)?;
    let value = Name::parse(value)?;
    Some((user, Setting { name, value }))
}

fn read_policy(text: &[u8]) -> Result<Vec<Rule>, Fault> {
    let mut policy = Vec::new();
    let columns = ["role", "access", "path"];
    read_table(POLICY, text, columns, |[role, access, path]| {
        let role = Name::parse(role).ok_or(BAD_LINE)?;
        let access = Access::parse(access).ok_or(BAD_LINE)?;
        let path = PolicyPath::parse(path).ok_or(BAD_PATH)?;
        push_within(&mut policy, Rule { role, access, path }, POLICY_LIMIT)
    })?;
    match first_tangled(&policy) {
        Some(place) => Err(Fault { number: TANGLED, text: POLICY, line: place as u32 + 2 }),
        None => Ok(policy),
    }
}

/// The place of the first WRITE line that tangles with an earlier one.
fn first_tangled(policy: &[Rule]) -> Option<usize> {
    policy.iter().enumerate().position(|(place, rule)| {
        rule.is_write() && write_paths(&policy[..place]).any(|earlier| earlier.tangles(&rule.path))
    })
}

fn write_paths(policy: &[Rule]) -> impl Iterator<Item = &PolicyPath> {
    policy.iter().filter(|rule| rule.is_write()).map(|rule| &rule.path)
}

fn read_record(
    text: &[u8],
    allowances: usize,
    policy: &[Rule],
) -> Result<BTreeMap<Path, Value>, Fault> {
    let refuse = |number| Err(Fault { number, text: RECORD, line: 0 });
    let Some(record) = parse_record(text) else {
        return refuse(BAD_RECORD);
    };
    if record.repeats_a_key {
        return refuse(REPEATED);
    }
    if record.fields.len() + allowances > FIELD_LIMIT {
        return refuse(TOO_MANY_FIELDS);
    }
    let tangled = |keys: &Path| write_paths(policy).any(|path| path.tangles_with_field(keys));
    if record.fields.iter().any(|(keys, _)| tangled(keys)) {
        return refuse(TANGLED);
    }
    Ok(record.fields.into_iter().collect())
}

/// Adds a line to a list that is not full.
fn push_within<T>(list: &mut Vec<T>, item: T, limit: usize) -> Result<(), u32> {
    if list.len() == limit {
        return Err(TOO_MANY_LINES);
    }
    list.push(item);
    Ok(())
}

//! The four texts of a hall.

use crate::hall::{Hall, Step};
use crate::rng::Rng;
use crate::words::Name;

/// Users, environments, policy and record.
pub type Texts = [Vec<u8>; 4];

pub fn texts(rng: &mut Rng, hall: &Hall) -> Texts {
    [users(rng, hall), environments(rng, hall), policy(rng, hall), record(rng, hall)]
}

/// A field's path as a request names it.
pub fn field_path(path: &[Name]) -> Vec<u8> {
    let mut out = b"$".to_vec();
    for key in path {
        out.extend([b"['", &key[..], b"']"].concat());
    }
    out
}

fn users(rng: &mut Rng, hall: &Hall) -> Vec<u8> {
    let lines = hall.users.iter().map(|user| {
        [user.name.clone(), user.role.clone(), user.key.clone(), user.allowance.clone()]
    });
    table(rng, ["user", "role", "key", "allowance"], lines)
}

fn environments(rng: &mut Rng, hall: &Hall) -> Vec<u8> {
    let lines = hall
        .settings
        .iter()
        .map(|setting| [setting.user.clone(), setting.name.clone(), setting.value.clone()]);
    table(rng, ["user", "name", "value"], lines)
}

fn policy(rng: &mut Rng, hall: &Hall) -> Vec<u8> {
    let lines: Vec<[Vec<u8>; 3]> = hall
        .rules
        .iter()
        .map(|rule| {
            let access = if rule.writes { "WRITE" } else { "READ" };
            [rule.role.clone(), access.into(), policy_path(rng, &rule.steps)]
        })
        .collect();
    table(rng, ["role", "access", "path"], lines.into_iter())
}

/// A table with its columns in any order.
fn table<const N: usize>(
    rng: &mut Rng,
    columns: [&str; N],
    lines: impl Iterator<Item = [Vec<u8>; N]>,
) -> Vec<u8> {
    let mut order: [usize; N] = std::array::from_fn(|place| place);
    if rng.one_in(2) {
        rng.shuffle(&mut order);
    }
    let mut out = Vec::new();
    for values in std::iter::once(columns.map(Vec::from)).chain(lines) {
        out.extend(order.map(|place| &values[place][..]).join(&b';'));
        out.push(b'\n');
    }
    out
}

/// A policy path in any of its spellings.
fn policy_path(rng: &mut Rng, steps: &[Step]) -> Vec<u8> {
    let mut out = b"$".to_vec();
    for step in steps {
        match step {
            Step::Any => out.extend_from_slice(if rng.one_in(2) { b".*" } else { b"[*]" }),
            Step::First(name) => out.extend([b"[=~", &name[..], b"]"].concat()),
            Step::Each(name) => out.extend([b"[in~", &name[..], b"]"].concat()),
            Step::Names(names) => out.extend(listed(rng, names)),
        }
    }
    out
}

fn listed(rng: &mut Rng, names: &[Name]) -> Vec<u8> {
    match names {
        [name] if has_short_form(name) && rng.one_in(2) => [b".", &name[..]].concat(),
        _ => {
            let quoted: Vec<Vec<u8>> = names.iter().map(|name| quoted(rng, name)).collect();
            [b"[", &quoted.join(&b',')[..], b"]"].concat()
        }
    }
}

fn quoted(rng: &mut Rng, name: &[u8]) -> Vec<u8> {
    let quote: &[u8] = if rng.one_in(2) { b"'" } else { b"\"" };
    [quote, name, quote].concat()
}

fn has_short_form(name: &[u8]) -> bool {
    let letters = name.iter().all(|byte| byte.is_ascii_alphanumeric() || *byte == b'_');
    letters && name.first().is_some_and(|first| !first.is_ascii_digit())
}

fn record(rng: &mut Rng, hall: &Hall) -> Vec<u8> {
    let mut fields: Vec<Member> =
        hall.fields.iter().map(|field| (&field.path[..], &field.value[..])).collect();
    if rng.one_in(2) {
        rng.shuffle(&mut fields);
    }
    let blanks = if rng.one_in(2) { 0 } else { rng.between(2, 12) };
    let mut writer = RecordWriter { rng, out: Vec::new(), blanks, oddity: hall.oddity };
    writer.blank();
    writer.object(&fields);
    writer.blank();
    writer.out
}

/// A field of an object: the keys below it, and the value.
type Member<'a> = (&'a [Name], &'a [u8]);

struct RecordWriter<'a> {
    rng: &'a mut Rng,
    out: Vec<u8>,
    /// A blank stands in one of so many places; 0 is none.
    blanks: usize,
    oddity: usize,
}

impl RecordWriter<'_> {
    fn blank(&mut self) {
        while self.blanks > 0 && self.rng.one_in(self.blanks) {
            let blank = *self.rng.pick(b" \t\n\r");
            self.out.push(blank);
        }
    }

    fn token(&mut self, token: &[u8]) {
        self.out.extend_from_slice(token);
        self.blank();
    }

    fn odd(&mut self) -> bool {
        self.oddity > 0 && self.rng.one_in(self.oddity)
    }

    fn object(&mut self, members: &[Member]) {
        self.token(b"{");
        let mut rest = members.to_vec();
        let mut written = 0;
        while let Some(key) = rest.first().and_then(|(path, _)| path.first()) {
            let under = |member: &&Member| member.0.first() == Some(key);
            let below: Vec<Member> =
                rest.iter().filter(under).map(|(path, value)| (&path[1..], *value)).collect();
            if written > 0 || self.odd() {
                self.token(b",");
            }
            self.member(key, &below);
            if self.odd() {
                self.token(b",");
                self.member(key, &below);
            }
            written += 1;
            rest.retain(|member| !under(&member));
        }
        if self.odd() {
            self.token(b",");
        }
        self.token(b"}");
    }

    fn member(&mut self, key: &[u8], below: &[Member]) {
        self.token(&[b"\"", key, b"\""].concat());
        self.token(b":");
        match below {
            [([], value), ..] => self.token(value),
            _ if self.odd() => self.object(&[]),
            _ => self.object(below),
        }
    }
}

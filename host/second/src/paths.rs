//! Paths of fields and paths of the policy.

use crate::cursor::Cursor;
use crate::names::{is_name_byte, is_plain_byte, Name};
use crate::rights::Setting;

pub const PATH_LIMIT: usize = 6;
const NAMES_PER_STEP: usize = 4;
const SPELLING_LIMIT: usize = 121;

/// The keys that lead to a field.
pub type Path = Vec<Name>;

/// Reads a field's path, spelled as a normalized path: `$['e7']['note']`.
pub fn parse_field_path(text: &[u8]) -> Option<Path> {
    parse_steps(text, |cursor| {
        cursor.expect(b"['")?;
        let key = Name::parse(cursor.take_while(is_name_byte))?;
        cursor.expect(b"']")?;
        Some(key)
    })
}

/// Reads `$` and 1 to 6 steps.
fn parse_steps<T>(text: &[u8], read: impl Fn(&mut Cursor) -> Option<T>) -> Option<Vec<T>> {
    let mut cursor = Cursor::new(text);
    cursor.expect(b"$")?;
    let mut steps = Vec::with_capacity(PATH_LIMIT);
    while !cursor.at_end() && steps.len() < PATH_LIMIT {
        steps.push(read(&mut cursor)?);
    }
    (cursor.at_end() && !steps.is_empty()).then_some(steps)
}

/// Which values of a user's own list a step admits.
#[derive(Clone, Copy, Debug, PartialEq, Eq)]
enum Own {
    First,
    Each,
}

#[derive(Clone, Debug, PartialEq, Eq)]
enum Step {
    Any,
    Names(Vec<Name>),
    Own(Own, Name),
}

impl Step {
    fn read(cursor: &mut Cursor) -> Option<Step> {
        if cursor.eat(b".*") {
            return Some(Step::Any);
        }
        if cursor.eat(b".") {
            return read_shorthand(cursor).map(|name| Step::Names(vec![name]));
        }
        cursor.expect(b"[")?;
        let step = if cursor.eat(b"*") {
            Step::Any
        } else if cursor.eat(b"=~") {
            Step::Own(Own::First, read_plain(cursor)?)
        } else if cursor.eat(b"in~") {
            Step::Own(Own::Each, read_plain(cursor)?)
        } else {
            Step::Names(read_quoted_names(cursor)?)
        };
        cursor.expect(b"]")?;
        Some(step)
    }

    /// Writes the standard spelling.
    fn write(&self, out: &mut Vec<u8>) {
        out.push(b'[');
        match self {
            Step::Any => out.push(b'*'),
            Step::Own(own, name) => {
                out.extend_from_slice(match own {
                    Own::First => b"=~",
                    Own::Each => b"in~",
                });
                out.extend_from_slice(name.as_bytes());
            }
            Step::Names(names) => {
                for (place, name) in names.iter().enumerate() {
                    out.extend_from_slice(if place == 0 { b"'" } else { b",'" });
                    out.extend_from_slice(name.as_bytes());
                    out.push(b'\'');
                }
            }
        }
        out.push(b']');
    }

    fn admits(&self, key: Name, environment: &[Setting]) -> bool {
        match self {
            Step::Any => true,
            Step::Names(names) => names.contains(&key),
            Step::Own(own, name) => {
                let mut listed = environment.iter().filter(|setting| setting.name == *name);
                match own {
                    Own::First => listed.next().is_some_and(|setting| setting.value == key),
                    Own::Each => listed.any(|setting| setting.value == key),
                }
            }
        }
    }

    fn overlaps(&self, other: &Step) -> bool {
        match (self, other) {
            (Step::Names(ours), Step::Names(theirs)) => {
                ours.iter().any(|name| theirs.contains(name))
            }
            _ => true,
        }
    }

    fn overlaps_key(&self, key: &Name) -> bool {
        match self {
            Step::Names(names) => names.contains(key),
            _ => true,
        }
    }
}

fn read_shorthand(cursor: &mut Cursor) -> Option<Name> {
    let text = cursor.take_while(|byte| byte.is_ascii_alphanumeric() || byte == b'_');
    let starts_well = !text.first()?.is_ascii_digit();
    starts_well.then(|| Name::parse(text)).flatten()
}

fn read_plain(cursor: &mut Cursor) -> Option<Name> {
    Name::parse(cursor.take_while(is_plain_byte))
}

fn read_quoted_names(cursor: &mut Cursor) -> Option<Vec<Name>> {
    let mut names = Vec::new();
    loop {
        let quote: &[u8] = if cursor.peek()? == b'"' { b"\"" } else { b"'" };
        cursor.expect(quote)?;
        names.push(Name::parse(cursor.take_while(is_name_byte))?);
        cursor.expect(quote)?;
        if !cursor.eat(b",") {
            return Some(names);
        }
        if names.len() == NAMES_PER_STEP {
            return None;
        }
    }
}

#[derive(Clone, Debug, PartialEq, Eq)]
pub struct PolicyPath {
    steps: Vec<Step>,
}

impl PolicyPath {
    pub fn parse(text: &[u8]) -> Option<PolicyPath> {
        let path = PolicyPath { steps: parse_steps(text, Step::read)? };
        (path.spelling().len() <= SPELLING_LIMIT).then_some(path)
    }

    /// Whether the path leads to the field for a user with this environment.
    pub fn matches(&self, keys: &[Name], environment: &[Setting]) -> bool {
        let mut pairs = self.steps.iter().zip(keys);
        self.steps.len() == keys.len() && pairs.all(|(step, key)| step.admits(*key, environment))
    }

    /// The standard spelling.
    pub fn spelling(&self) -> Vec<u8> {
        let mut out = vec![b'$'];
        for step in &self.steps {
            step.write(&mut out);
        }
        out
    }

    pub fn tangles(&self, other: &PolicyPath) -> bool {
        tangle(&self.steps, &other.steps, Step::overlaps)
    }

    pub fn tangles_with_field(&self, keys: &[Name]) -> bool {
        tangle(&self.steps, keys, Step::overlaps_key)
    }
}

/// One path is shorter, and each of its steps overlaps the other's step there.
fn tangle<T>(steps: &[Step], others: &[T], overlaps: impl Fn(&Step, &T) -> bool) -> bool {
    let mut pairs = steps.iter().zip(others);
    steps.len() != others.len() && pairs.all(|(step, other)| overlaps(step, other))
}

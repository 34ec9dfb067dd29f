//! Taking a request line apart.

use crate::names::{parse_decimal, Name};
use crate::paths::{parse_field_path, Path};
use crate::values::Value;

/// The longest request line.
pub const LINE_LIMIT: usize = 256;

#[derive(Debug, PartialEq, Eq)]
pub enum Request {
    Login { user: Name, key: Name },
    Logout { session: u32 },
    Get { session: u32 },
    Push { session: u32, path: Path, value: Value },
}

impl Request {
    pub fn parse(line: &[u8]) -> Option<Request> {
        if line.len() > LINE_LIMIT {
            return None;
        }
        let (word, rest) = cut(line)?;
        match word {
            b"LOGIN" => {
                let (user, key) = cut(rest)?;
                let user = Name::parse(user)?;
                let key = Name::parse(key)?;
                Some(Request::Login { user, key })
            }
            b"LOGOUT" => {
                let session = parse_session(rest)?;
                Some(Request::Logout { session })
            }
            b"GET" => {
                let session = parse_session(rest)?;
                Some(Request::Get { session })
            }
            b"PUSH" => {
                let (session, rest) = cut(rest)?;
                let (path, value) = cut(rest)?;
                let session = parse_session(session)?;
                let path = parse_field_path(path)?;
                let value = Value::parse(value)?;
                Some(Request::Push { session, path, value })
            }
            _ => None,
        }
    }
}

fn parse_session(text: &[u8]) -> Option<u32> {
    parse_decimal(text, u32::MAX)
}

/// What stands before and behind the first `;`.
pub fn cut(text: &[u8]) -> Option<(&[u8], &[u8])> {
    let place = text.iter().position(|&byte| byte == b';')?;
    Some((&text[..place], &text[place + 1..]))
}

//! The values a field can hold.

use std::io::Write;

use crate::cursor::Cursor;

const STRING_LIMIT: usize = 32;

#[derive(Clone, Debug, PartialEq, Eq)]
pub enum Value {
    Bool(bool),
    Number(i32),
    Text(String),
}

impl Value {
    /// Reads a text that is one value and nothing else.
    pub fn parse(text: &[u8]) -> Option<Value> {
        let mut cursor = Cursor::new(text);
        let value = Value::read(&mut cursor)?;
        cursor.at_end().then_some(value)
    }

    pub fn read(cursor: &mut Cursor) -> Option<Value> {
        match cursor.peek()? {
            b'"' => read_string(cursor).map(Value::Text),
            b't' => cursor.expect(b"true").map(|()| Value::Bool(true)),
            b'f' => cursor.expect(b"false").map(|()| Value::Bool(false)),
            _ => read_number(cursor).map(Value::Number),
        }
    }

    pub fn write(&self, out: &mut Vec<u8>) {
        match self {
            Value::Bool(true) => out.extend_from_slice(b"true"),
            Value::Bool(false) => out.extend_from_slice(b"false"),
            Value::Number(number) => {
                write!(out, "{number}").expect("a vector takes every byte");
            }
            Value::Text(text) => {
                out.push(b'"');
                out.extend_from_slice(text.as_bytes());
                out.push(b'"');
            }
        }
    }
}

fn read_string(cursor: &mut Cursor) -> Option<String> {
    cursor.expect(b"\"")?;
    let bytes = cursor.take_while(is_string_byte);
    cursor.expect(b"\"")?;
    if bytes.len() > STRING_LIMIT {
        return None;
    }
    String::from_utf8(bytes.to_vec()).ok()
}

fn is_string_byte(byte: u8) -> bool {
    matches!(byte, b' '..=b'~') && !matches!(byte, b'"' | b'\\')
}

fn read_number(cursor: &mut Cursor) -> Option<i32> {
    let token = cursor.take_while(|byte| byte == b'-' || byte.is_ascii_digit());
    // What is left open here, a second sign or the range, `parse` refuses.
    let well_formed = matches!(token, [b'0'] | [b'1'..=b'9', ..] | [b'-', b'1'..=b'9', ..]);
    if !well_formed {
        return None;
    }
    std::str::from_utf8(token).ok()?.parse().ok()
}

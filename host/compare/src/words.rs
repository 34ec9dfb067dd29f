//! Names and values, most of them well formed.

use crate::rng::Rng;

pub type Name = Vec<u8>;

/// The longest name, and the longest string.
pub const NAME: usize = 16;
pub const STRING: usize = 32;

const COMMON: [&str; 16] = [
    "e7",
    "e9",
    "cv",
    "name",
    "note",
    "1",
    "29",
    "3",
    "a",
    "b",
    "_x",
    "A1",
    "x-y",
    "my-engine",
    "shelf_B",
    "0",
];
const UNUSUAL: [&str; 18] = [
    "*",
    "$",
    " ",
    "a b",
    "[",
    "]",
    "].[",
    ",",
    ".",
    "~",
    "=~a",
    "in~a",
    "true",
    "-",
    "{",
    "}:",
    "#",
    "sixteen bytes ok",
];
const PLAIN: [&str; 8] = ["a", "my-engine", "e7", "1", "_", "-", "A1", "sixteen-bytes-ok"];
const BAD_NAMES: [&str; 8] =
    ["", "seventeen bytes..", "a'b", "a\"b", "a\\b", "a\tb", "caf\u{e9}", "a\u{7f}"];
const NUMBERS: [&str; 8] =
    ["0", "1", "-1", "10", "2147483647", "-2147483648", "-2147483647", "999999999"];
const BAD_VALUES: [&str; 30] = [
    "",
    "-",
    "-0",
    "00",
    "01",
    "-01",
    "1.0",
    "1e1",
    "+1",
    "--1",
    "1-",
    "0x1",
    "2147483648",
    "-2147483649",
    "99999999999",
    "4294967296",
    "null",
    "[]",
    "{}",
    "TRUE",
    "tru",
    "falsee",
    " 1",
    "1 ",
    "\"",
    "\"a",
    "a\"",
    "\"a\\nb\"",
    "\"a\tb\"",
    "\"\u{e9}\"",
];

/// A random name, well formed.
pub fn name(rng: &mut Rng) -> Name {
    match rng.below(8) {
        0..=3 => (*rng.pick(&COMMON)).into(),
        4 => (*rng.pick(&UNUSUAL)).into(),
        5 => name_of(rng, NAME),
        _ => {
            let length = rng.between(1, NAME);
            name_of(rng, length)
        }
    }
}

/// A random name of this length.
pub fn name_of(rng: &mut Rng, length: usize) -> Name {
    (0..length).map(|_| name_byte(rng)).collect()
}

/// A random plain name, out of a few.
pub fn plain(rng: &mut Rng) -> Name {
    (*rng.pick(&PLAIN)).into()
}

/// What is no name.
pub fn bad_name(rng: &mut Rng) -> Name {
    (*rng.pick(&BAD_NAMES)).into()
}

/// Different names, some of which begin others.
pub fn names(rng: &mut Rng, count: usize) -> Vec<Name> {
    let mut names: Vec<Name> = Vec::with_capacity(count);
    while names.len() < count {
        let next = match names.last() {
            Some(last) if last.len() < NAME && rng.one_in(4) => {
                [&last[..], &[name_byte(rng)]].concat()
            }
            _ => name(rng),
        };
        if !names.contains(&next) {
            names.push(next);
        }
    }
    names
}

/// The text of a value that a field can hold.
pub fn value(rng: &mut Rng) -> Vec<u8> {
    match rng.below(10) {
        0 => b"true".into(),
        1 => b"false".into(),
        2..=3 => (*rng.pick(&NUMBERS)).into(),
        4..=5 => (rng.number() as i32).to_string().into(),
        6 => string(rng, STRING),
        7 => string(rng, 0),
        _ => {
            let length = rng.between(0, STRING);
            string(rng, length)
        }
    }
}

/// The text of something else.
pub fn bad_value(rng: &mut Rng) -> Vec<u8> {
    match rng.below(6) {
        0 => string(rng, STRING + 1),
        1 => {
            let beyond = i64::from(i32::MAX) + 1 + rng.below(1 << 40) as i64;
            let sign = if rng.one_in(2) { 1 } else { -1 };
            (sign * (beyond + 1)).to_string().into()
        }
        _ => (*rng.pick(&BAD_VALUES)).into(),
    }
}

fn string(rng: &mut Rng, length: usize) -> Vec<u8> {
    let mut text = vec![b'"'];
    text.extend((0..length).map(|_| string_byte(rng)));
    text.push(b'"');
    text
}

fn name_byte(rng: &mut Rng) -> u8 {
    loop {
        let byte = string_byte(rng);
        if !matches!(byte, b'\'' | b';') {
            return byte;
        }
    }
}

fn string_byte(rng: &mut Rng) -> u8 {
    loop {
        let byte = rng.between(0x20, 0x7E) as u8;
        if !matches!(byte, b'"' | b'\\') {
            return byte;
        }
    }
}

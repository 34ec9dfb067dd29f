//! Texts and lines with something wrong.

use crate::rng::Rng;
use crate::texts::Texts;

/// Bytes that mean something in some text.
const TELLING: &[u8] = b";\n'\"[]{}$.*,:~=-_+ \\0159aRW\t\r\0\x7f\x80\xff";

/// The longest text that is read.
const TEXT: usize = 65_536;

/// Damages one of the texts, or several.
pub fn damage_texts(rng: &mut Rng, texts: &mut Texts) {
    for _ in 0..rng.between(1, 2) {
        let place = rng.below(4);
        match rng.below(40) {
            0 => stretch(rng, &mut texts[place], place),
            1..=8 => damage_lines(rng, &mut texts[place]),
            _ => damage_bytes(rng, &mut texts[place]),
        }
    }
}

/// Damages a few bytes.
pub fn damage_bytes(rng: &mut Rng, text: &mut Vec<u8>) {
    for _ in 0..rng.between(1, 2) {
        let at = rng.below(text.len() + 1);
        if at == text.len() {
            text.push(*rng.pick(TELLING));
            continue;
        }
        match rng.below(12) {
            0 => text[at] ^= 1 << rng.below(8),
            1 => text[at] = rng.byte(),
            2..=4 => text[at] = *rng.pick(TELLING),
            5..=6 => {
                text.remove(at);
            }
            7 => text.insert(at, text[at]),
            8..=9 => text.insert(at, *rng.pick(TELLING)),
            10 => text.truncate(at),
            _ => {
                let end = rng.between(at, text.len().min(at + 20));
                text.drain(at..end);
            }
        }
    }
}

/// Swaps, repeats or drops whole lines, or the last 0A.
fn damage_lines(rng: &mut Rng, text: &mut Vec<u8>) {
    let mut lines: Vec<Vec<u8>> =
        text.split_inclusive(|&byte| byte == b'\n').map(Vec::from).collect();
    if lines.is_empty() {
        return;
    }
    let (one, other) = (rng.below(lines.len()), rng.below(lines.len()));
    match rng.below(6) {
        0..=1 => lines.swap(one, other),
        2..=3 => lines.insert(other, lines[one].clone()),
        4 => {
            lines.remove(one);
        }
        _ => {
            if let Some(last) = lines.last_mut() {
                last.pop();
            }
        }
    }
    *text = lines.concat();
}

/// Makes a text as long as one may be, or one byte longer: a record by blanks
/// around it, a table by its last line over and over.
fn stretch(rng: &mut Rng, text: &mut Vec<u8>, place: usize) {
    let length = TEXT + rng.below(2);
    let missing = length.saturating_sub(text.len());
    if place == 3 {
        let before = rng.between(0, missing);
        text.splice(..0, std::iter::repeat_n(b' ', before));
        text.resize(length.max(text.len()), b'\n');
    } else {
        let last = text.split_inclusive(|&byte| byte == b'\n').next_back().unwrap_or(b";").to_vec();
        text.extend(last.iter().cycle().take(missing));
    }
}

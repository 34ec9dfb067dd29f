//! The readers masks in the bytes of the fields: who may read a field, a bit for
//! each user, by the user's place.

use std::ops::Range;

use jesovanga::{Memory, RECORD};

use crate::hall::{DEPTH, FIELDS};
use crate::lines::{session_of, RANGE};
use crate::watched::LOGIN;
use crate::words::{NAME, STRING};

/// A slot's bytes: a path, which is how many keys it has and a row for each, a
/// length and room for a name; the mask, its lowest byte first; a value's text,
/// which is a length and room for the longest string in quotes.
const KEY: usize = 1 + NAME;
const PATH: usize = 1 + DEPTH * KEY;
const MASK: usize = size_of::<u32>();
const VALUE: usize = 1 + STRING + 2;
const SLOT: usize = PATH + MASK + VALUE;

const _: () = assert!(RECORD == FIELDS * SLOT);

/// The slots that hold a field: those before the first that has no keys.
fn slots(fields: &[u8]) -> impl Iterator<Item = &[u8]> {
    fields.chunks(SLOT).take_while(|slot| slot[0] != 0)
}

/// Where a slot's mask lies.
fn mask_range(slot: usize) -> Range<usize> {
    let start = slot * SLOT + PATH;
    start..start + MASK
}

/// The masks of the fields, in their order.
pub fn read(fields: &[u8]) -> Vec<u32> {
    let mask = |slot| {
        let bytes = fields[mask_range(slot)].try_into();
        u32::from_le_bytes(bytes.expect("a mask has four bytes"))
    };
    (0..slots(fields).count()).map(mask).collect()
}

/// Puts masks into the first slots.
pub fn write(fields: &mut [u8], masks: &[u32]) {
    for (slot, mask) in masks.iter().enumerate() {
        fields[mask_range(slot)].copy_from_slice(&mask.to_le_bytes());
    }
}

/// Whether a mask has the bit of the user at a place.
pub fn has(mask: u32, place: usize) -> bool {
    mask >> place & 1 == 1
}

/// Which field a line pushes to, if it does and the field is held.
pub fn pushed_to(fields: &[u8], line: &[u8]) -> Option<usize> {
    let path = path_bytes(line)?;
    slots(fields).position(|slot| slot[..PATH] == path)
}

/// The path of a push, as a slot has it.
fn path_bytes(line: &[u8]) -> Option<[u8; PATH]> {
    let line = std::str::from_utf8(line).ok()?;
    let path = line.strip_prefix("PUSH;")?.split(';').nth(1)?;
    let keys: Vec<&str> = path.strip_prefix("$['")?.strip_suffix("']")?.split("']['").collect();
    let mut bytes = [0; PATH];
    bytes[0] = u8::try_from(keys.len()).ok()?;
    for (row, key) in bytes[1..].chunks_mut(KEY).zip(keys) {
        row[0] = u8::try_from(key.len()).ok()?;
        row.get_mut(1..=key.len())?.copy_from_slice(key.as_bytes());
    }
    Some(bytes)
}

/// Whom a push to a held field reaches by its mask: of the open sessions but the
/// sender's, those whose bits are set. None if the line is no such push.
pub fn told(memory: &Memory, line: &[u8]) -> Option<Vec<u32>> {
    let mask = read(&memory.fields)[pushed_to(&memory.fields, line)?];
    let sender = session_of(line)? / RANGE;
    let states = memory.logins.chunks(LOGIN).enumerate();
    let reached = states
        .filter(|(place, state)| *place != sender && state[1] != 0 && has(mask, *place))
        .map(|(place, state)| (place * RANGE) as u32 + u32::from(state[0]));
    Some(reached.collect())
}

#[cfg(test)]
mod tests {
    use super::*;

    #[test]
    fn masks_are_read_as_they_were_written() {
        let mut fields = vec![0; RECORD];
        (fields[0], fields[SLOT]) = (2, 1);
        write(&mut fields, &[0x0102_0304, 7]);
        assert_eq!(fields[PATH..PATH + MASK], [4, 3, 2, 1]);
        assert_eq!(read(&fields), [0x0102_0304, 7]);
    }

    #[test]
    fn a_pushed_field_is_found() {
        let mut fields = vec![0; RECORD];
        (fields[0], fields[SLOT]) = (1, 2);
        fields[SLOT + 1..][..3].copy_from_slice(b"\x02e7");
        fields[SLOT + 1 + KEY..][..5].copy_from_slice(b"\x04note");
        assert_eq!(pushed_to(&fields, b"PUSH;1;$['e7']['note'];\"a;']['\""), Some(1));
        assert_eq!(pushed_to(&fields, b"PUSH;1;$['e7'];1"), None);
        assert_eq!(pushed_to(&fields, b"LOGOUT;1"), None);
    }
}

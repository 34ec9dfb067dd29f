//! Arrays of any content.

use jesovanga::Memory;

use crate::lines::RANGE;
use crate::masks;
use crate::rng::Rng;
use crate::watched::LOGIN;

/// Makes garbage of some or all of the arrays.
pub fn spoil(rng: &mut Rng, memory: &mut Memory) {
    if rng.one_in(3) {
        flip(rng, memory);
        return;
    }
    let mut logins = [0; 2 * jesovanga::LOGINS];
    for (place, number) in logins.chunks_mut(2).zip(memory.logins) {
        place.copy_from_slice(&number.to_le_bytes());
    }
    spoil_array(rng, &mut memory.tables);
    spoil_array(rng, &mut logins);
    spoil_array(rng, &mut memory.fields);
    for (number, bytes) in memory.logins.iter_mut().zip(logins.chunks(2)) {
        *number = u16::from_le_bytes([bytes[0], bytes[1]]);
    }
}

/// Flips some bytes of an array, wherever they are.
fn flip(rng: &mut Rng, memory: &mut Memory) {
    for _ in 0..rng.between(1, 200) {
        match rng.below(8) {
            0 => *pick_mut(rng, &mut memory.logins) ^= 1 << rng.below(u16::BITS as usize),
            1..=4 => *pick_mut(rng, &mut memory.tables) ^= 1 << rng.below(u8::BITS as usize),
            _ => *pick_mut(rng, &mut memory.fields) ^= 1 << rng.below(u8::BITS as usize),
        }
    }
}

/// Makes any masks of those of the fields. Every other byte is kept, so that the
/// rest of the state is what it was.
pub fn spoil_masks(rng: &mut Rng, memory: &mut Memory) {
    let mut masks = masks::read(&memory.fields);
    for mask in &mut masks {
        *mask = match rng.below(4) {
            0 => *mask ^ 1 << rng.below(u32::BITS as usize),
            1 => 0,
            2 => u32::MAX,
            _ => rng.number() as u32,
        };
    }
    masks::write(&mut memory.fields, &masks);
}

fn spoil_array(rng: &mut Rng, array: &mut [u8]) {
    match rng.below(8) {
        0..=2 => rng.fill(array),
        3..=4 => array.fill(0xFF),
        5 => array.iter_mut().for_each(|byte| *byte = rng.below(20) as u8),
        _ => (),
    }
}

fn pick_mut<'a, T>(rng: &mut Rng, items: &'a mut [T]) -> &'a mut T {
    &mut items[rng.below(items.len())]
}

/// The session numbers that the arrays hold.
pub fn sessions(memory: &Memory) -> Vec<usize> {
    let states = memory.logins.chunks(LOGIN).enumerate();
    states.map(|(place, state)| place * RANGE + usize::from(state[0])).collect()
}

//! How the cost of a GET and of a PUSH grows.

use crate::halls::{Hall, FIELDS, POLICY_LINES};
use crate::tasks;
use crate::timing::measure;

/// The sizes that are measured, the last that of a full hall.
const FIELD_SIZES: [usize; 5] = [16, 32, 64, 128, FIELDS];
const POLICY_SIZES: [usize; 5] = [4, 8, 16, 32, POLICY_LINES];

/// What grows, and what it costs.
pub struct Growth {
    /// What the sizes count.
    pub size: &'static str,
    /// What stays as it is.
    pub at: String,
    pub costs: Vec<Cost>,
}

/// Microseconds, of the proved server and of the other one.
pub struct Cost {
    pub size: usize,
    /// The bytes of a copy, on the average of those who ask.
    pub copy: usize,
    pub get: [f64; 2],
    pub push: [f64; 2],
}

pub fn by_fields() -> Growth {
    let halls = FIELD_SIZES.map(|fields| Hall::sized(POLICY_LINES, fields, 0));
    let at = format!("at {POLICY_LINES} policy lines");
    Growth { size: "fields", at, costs: costs(FIELD_SIZES, halls) }
}

pub fn by_policy() -> Growth {
    let halls = POLICY_SIZES.map(|lines| Hall::sized(lines, FIELDS, 0));
    let at = format!("at {FIELDS} fields");
    Growth { size: "policy lines", at, costs: costs(POLICY_SIZES, halls) }
}

/// What lines cost that give nothing to those who ask: all but four are for a role
/// of others, so that copies stay equal. `docs/PERFORMANCE.md` explains the cost.
pub fn by_others_policy() -> Growth {
    let halls = POLICY_SIZES.map(Hall::with_keepers);
    check_equal(&halls);
    let at = format!("at {FIELDS} fields and equal copies");
    Growth { size: "policy lines", at, costs: costs(POLICY_SIZES, halls) }
}

/// In all halls the copies are the same, byte for byte, and the pushes reach the
/// same sessions.
fn check_equal(halls: &[Hall]) {
    for pair in halls.windows(2) {
        assert!(tasks::copies(&pair[0]) == tasks::copies(&pair[1]), "copies differ");
        assert!(tasks::reached(&pair[0]) == tasks::reached(&pair[1]), "receivers differ");
    }
}

fn costs<const N: usize>(sizes: [usize; N], halls: [Hall; N]) -> Vec<Cost> {
    halls.iter().for_each(tasks::check);
    let gets = measure(halls.each_ref().map(tasks::get));
    let pushes = measure(halls.each_ref().map(tasks::held_push));
    let cost = |place: usize| Cost {
        size: sizes[place],
        copy: mean_length(&tasks::copies(&halls[place])),
        get: gets[place].micros(),
        push: pushes[place].micros(),
    };
    (0..N).map(cost).collect()
}

fn mean_length(copies: &[Vec<u8>]) -> usize {
    copies.iter().map(Vec::len).sum::<usize>() / copies.len()
}

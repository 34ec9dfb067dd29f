//! Tables: a line of column names, then lines of values, separated by `;`.

use crate::opening::Fault;
use crate::refusals::{BAD_HEAD, BAD_LINE};

/// Reads table number `text_number` and gives the values of each line, in the
/// order of `columns`, to `take_line`, which answers with a refusal or not.
pub fn read_table<const N: usize>(
    text_number: u32,
    text: &[u8],
    columns: [&str; N],
    mut take_line: impl FnMut([&[u8]; N]) -> Result<(), u32>,
) -> Result<(), Fault> {
    let fault = |number, line| Fault { number, text: text_number, line };
    let mut lines = text.split_inclusive(|&byte| byte == b'\n');
    let order =
        lines.next().and_then(|head| column_order(head, columns)).ok_or(fault(BAD_HEAD, 0))?;
    for (line_number, line) in (2..).zip(lines) {
        split_line(line)
            .ok_or(BAD_LINE)
            .and_then(|values: [&[u8]; N]| take_line(order.map(|place| values[place])))
            .map_err(|number| fault(number, line_number))?;
    }
    Ok(())
}

/// Where each column stands in the head.
fn column_order<const N: usize>(head: &[u8], columns: [&str; N]) -> Option<[usize; N]> {
    let titles: [&[u8]; N] = split_line(head)?;
    let mut order = [0; N];
    for (place, column) in order.iter_mut().zip(columns) {
        *place = titles.iter().position(|title| *title == column.as_bytes())?;
    }
    Some(order)
}

/// Cuts a line, which has to end with 0A, into exactly `N` values.
fn split_line<const N: usize>(line: &[u8]) -> Option<[&[u8]; N]> {
    let mut parts = line.strip_suffix(b"\n")?.split(|&byte| byte == b';');
    let mut values: [&[u8]; N] = [&[]; N];
    for value in &mut values {
        *value = parts.next()?;
    }
    parts.next().is_none().then_some(values)
}

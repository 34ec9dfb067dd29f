//! Writing fields as saved text: sorted, nested, without blanks.

use crate::names::Name;
use crate::paths::Path;
use crate::values::Value;

/// Writes fields that come in sorted order.
pub fn write_fields<'a>(out: &mut Vec<u8>, fields: impl Iterator<Item = (&'a Path, &'a Value)>) {
    out.push(b'{');
    let mut previous: &[Name] = &[];
    for (path, value) in fields {
        let shared = shared_keys(previous, path);
        if !previous.is_empty() {
            close_objects(out, previous.len() - shared - 1);
            out.push(b',');
        }
        for (depth, key) in path.iter().enumerate().skip(shared) {
            write_key(out, key);
            if depth + 1 < path.len() {
                out.push(b'{');
            }
        }
        value.write(out);
        previous = path;
    }
    close_objects(out, previous.len().max(1));
}

fn shared_keys(left: &[Name], right: &[Name]) -> usize {
    left.iter().zip(right).take_while(|(a, b)| a == b).count()
}

fn write_key(out: &mut Vec<u8>, key: &Name) {
    out.push(b'"');
    out.extend_from_slice(key.as_bytes());
    out.extend_from_slice(b"\":");
}

fn close_objects(out: &mut Vec<u8>, count: usize) {
    out.extend(std::iter::repeat_n(b'}', count));
}

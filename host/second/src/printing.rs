//! What the hall program prints for a request line.

use std::io::Write;

use crate::requests::cut;
use crate::server::{Reply, Server, LIST_LENGTH};

/// No copy is longer.
pub const COPY_LIMIT: usize = 51_069;

/// Answers a request line and adds to `out` what the program prints for it.
pub fn printed(server: &mut Server, line: &[u8], out: &mut Vec<u8>) {
    // Only a GET looks at the buffer, so other lines are spared its making.
    let mut buffer = if line.starts_with(b"GET;") { vec![0; COPY_LIMIT] } else { Vec::new() };
    let mut list = [0; LIST_LENGTH];
    match server.request(line, &mut buffer, &mut list) {
        Reply::Refused(number) => print_line(out, format_args!("NO;{number}")),
        Reply::Session(session) => print_line(out, format_args!("OK;{session}")),
        Reply::Length(length) => {
            print_line(out, format_args!("OK;{length}"));
            out.extend_from_slice(&buffer[..length]);
        }
        Reply::Accepted(count) => {
            print_line(out, format_args!("OK"));
            print_deliveries(out, line, &list[..count]);
        }
    }
}

/// Path and value are delivered as they were pushed.
fn print_deliveries(out: &mut Vec<u8>, line: &[u8], sessions: &[u32]) {
    let pushed = cut(line).and_then(|(_, rest)| cut(rest));
    let Some((_, path_and_value)) = pushed else {
        return;
    };
    for session in sessions {
        write!(out, "TO;{session};").expect("a vector takes every byte");
        out.extend_from_slice(path_and_value);
        out.push(b'\n');
    }
}

fn print_line(out: &mut Vec<u8>, text: std::fmt::Arguments) {
    writeln!(out, "{text}").expect("a vector takes every byte");
}

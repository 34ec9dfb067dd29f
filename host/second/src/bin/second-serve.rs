//! The hall program: opens the four files of the current folder, then answers
//! the request lines of standard input.

#![forbid(unsafe_code)]

use std::fs::File;
use std::io::{self, BufRead, BufReader, BufWriter, Read, Write};

use second::{printed, Server, LINE_LIMIT, TEXT_LIMIT};

/// What is read and written at once: as much as a pipe holds.
const BUFFER: usize = 65_536;

fn main() -> io::Result<()> {
    let mut input = BufReader::with_capacity(BUFFER, io::stdin().lock());
    let mut output = BufWriter::with_capacity(BUFFER, io::stdout().lock());
    let mut server = Server::new();
    let opened = server.open(
        &file("users.txt"),
        &file("environments.txt"),
        &file("policy.txt"),
        &file("record.json"),
    );
    if let Err(fault) = opened {
        writeln!(output, "NO;{};{};{}", fault.number, fault.text, fault.line)?;
        return output.flush();
    }
    let mut line = Vec::new();
    let mut answer = Vec::new();
    while next_line(&mut input, &mut line)? {
        answer.clear();
        printed(&mut server, &line, &mut answer);
        output.write_all(&answer)?;
        // Nothing is kept back while the program waits for a further line.
        if !input.buffer().contains(&b'\n') {
            output.flush()?;
        }
    }
    output.flush()
}

/// The bytes of a file, or none where it cannot be read. One byte more than
/// the limit is enough to see that a text is too long.
fn file(name: &str) -> Vec<u8> {
    let mut bytes = Vec::new();
    let read =
        File::open(name).and_then(|file| file.take(TEXT_LIMIT as u64 + 1).read_to_end(&mut bytes));
    match read {
        Ok(_) => bytes,
        Err(_) => Vec::new(),
    }
}

/// Reads the next line without its 0A; false at the end of the input. Of a
/// line that is too long only the beginning is kept, which is too long as well.
fn next_line(input: &mut impl BufRead, line: &mut Vec<u8>) -> io::Result<bool> {
    line.clear();
    let limit = LINE_LIMIT as u64 + 1;
    let count = input.by_ref().take(limit).read_until(b'\n', line)?;
    if line.last() == Some(&b'\n') {
        line.pop();
    } else if line.len() > LINE_LIMIT {
        input.skip_until(b'\n')?;
    }
    Ok(count > 0)
}

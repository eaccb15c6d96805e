//! Reads lines of hexadecimal digits, each the bytes of a link message, and answers each by one line: `ok` and the
//! message's canonical encoding; `nothex` where the line is no bytes, `refused` where they are no message, `unfit`
//! where an attribute would be too long, `empty-ports` where the message holds an empty list of ports. With the word
//! `state` it answers by the state encoding.
//!
//!     echo 00000000000000000000000000000000060003006c6f | cargo run --example lines

use linkwire::{CanonError, LinkMessage, state};
use std::fmt::Write as _;
use std::io::{self, BufRead, Write};

/// The bytes that the digits spell.
fn bytes_of(line: &[u8]) -> Option<Vec<u8>> {
    let digit = |it: &u8| char::from(*it).to_digit(16).map(|digit| digit as u8);
    if line.len() % 2 != 0 {
        return None;
    }
    line.chunks(2).map(|pair| Some(16 * digit(&pair[0])? + digit(&pair[1])?)).collect()
}

/// The canonical encoding, by way of the value.
fn written(bytes: &[u8]) -> Result<Vec<u8>, CanonError> {
    LinkMessage::parse(bytes).map_err(CanonError::Decode)?.to_vec()
}

/// What a line is answered, by this encoding.
fn answer(line: &[u8], encode: fn(&[u8]) -> Result<Vec<u8>, CanonError>) -> String {
    let bytes = match bytes_of(line) {
        Some(bytes) => bytes,
        None => return "nothex".to_string(),
    };
    match encode(&bytes) {
        Ok(encoding) => encoding.iter().fold("ok ".to_string(), |mut answer, byte| {
            write!(answer, "{byte:02x}").expect("a string takes all");
            answer
        }),
        Err(CanonError::DoesNotFit) => "unfit".to_string(),
        Err(CanonError::EmptyVfPorts) => "empty-ports".to_string(),
        Err(CanonError::Decode(_)) => "refused".to_string(),
    }
}

fn main() -> io::Result<()> {
    let encode = if std::env::args().nth(1).as_deref() == Some("state") { state } else { written };
    let (mut input, mut output) = (io::stdin().lock(), io::stdout().lock());
    let mut line = Vec::new();
    while input.read_until(b'\n', &mut line)? > 0 {
        let digits = line.strip_suffix(b"\n").unwrap_or(&line);
        writeln!(output, "{}", answer(digits, encode))?;
        line.clear();
    }
    Ok(())
}

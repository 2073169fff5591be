//! Prints 32-bit FNV-1a fingerprints, so that others can be compared with them. It shares no code
//! with anything else here.
//!
//!     fnv < NAMES
//!
//! Each line is a name, two hexadecimal digits a byte; an empty line is the empty name. For each
//! its fingerprint is printed in decimal, one a line. At any other line the program fails.

use std::io::{self, BufRead, BufWriter, Write};
use std::process::ExitCode;

fn main() -> ExitCode {
    let printed = print_all(io::stdin().lock(), BufWriter::new(io::stdout().lock()));
    match printed {
        Ok(()) => ExitCode::SUCCESS,
        Err(error) => {
            eprintln!("fnv: {error}");
            ExitCode::FAILURE
        }
    }
}

fn print_all(names: impl BufRead, mut fingerprints: impl Write) -> io::Result<()> {
    for line in names.lines() {
        let line = line?;
        let Some(name) = bytes(line.as_bytes()) else {
            return Err(io::Error::other(format!("no name: {line}")));
        };
        writeln!(fingerprints, "{}", fingerprint(&name))?;
    }
    fingerprints.flush()
}

fn bytes(digits: &[u8]) -> Option<Vec<u8>> {
    let digit = |digit: u8| char::from(digit).to_digit(16);
    let pairs = digits.chunks(2);
    let bytes = pairs.map(|pair| match *pair {
        [high, low] => Some((digit(high)? * 16 + digit(low)?) as u8),
        _ => None,
    });
    bytes.collect()
}

fn fingerprint(name: &[u8]) -> u64 {
    const OFFSET_BASIS: u64 = 0x811C_9DC5;
    const PRIME: u64 = 0x0100_0193;
    let mut hash = OFFSET_BASIS;
    for &byte in name {
        hash = (hash ^ u64::from(byte)) * PRIME % (1 << 32);
    }
    hash
}

#[cfg(test)]
mod tests {
    use super::*;

    fn printed(names: &str) -> io::Result<String> {
        let mut fingerprints = Vec::new();
        print_all(names.as_bytes(), &mut fingerprints)?;
        Ok(String::from_utf8_lossy(&fingerprints).into_owned())
    }

    #[test]
    fn published_fingerprints() {
        let printed = printed("\n61\n666f6F626172\n").expect("names");
        assert_eq!(printed, "2166136261\n3826002220\n3214735720\n");
    }

    #[test]
    fn other_lines_fail() {
        for line in ["6", "6g", "-", " 61", "61 ", "616"] {
            assert!(printed(line).is_err(), "{line}");
        }
    }
}

//! Compares the static library's fingerprints of 200,000 names with those that the program `fnv`
//! prints: published ones, all names of one byte, then names of 0 to 300 random bytes.
//!
//!     fingerprints PROGRAM

use std::io::{self, BufRead, BufReader, BufWriter, Write};
use std::process::{Child, Command, ExitCode, Stdio};
use std::{env, thread};

use kerdzhusi::fingerprint;
use sheets::Random;

const NAMES: usize = 200_000;
const LONGEST: usize = 300;
const PUBLISHED: [(&str, u32); 3] = [
    ("", 0x811c_9dc5),
    ("a", 0xe40c_292c),
    ("foobar", 0xbf9c_f968),
];

fn main() -> ExitCode {
    let Some(program) = env::args_os().nth(1) else {
        eprintln!("usage: fingerprints PROGRAM");
        return ExitCode::FAILURE;
    };
    let mut command = Command::new(&program);
    let child = command.stdin(Stdio::piped()).stdout(Stdio::piped()).spawn();
    match child.and_then(compare) {
        Ok(()) => ExitCode::SUCCESS,
        Err(error) => {
            eprintln!("{}: {error}", program.to_string_lossy());
            ExitCode::FAILURE
        }
    }
}

/// Sends all names and compares what comes back.
fn compare(mut child: Child) -> io::Result<()> {
    let (Some(input), Some(output)) = (child.stdin.take(), child.stdout.take()) else {
        return Err(io::Error::other("no pipes"));
    };
    let sent = thread::spawn(|| send(input));
    let mut lines = BufReader::new(output).lines();
    for name in names() {
        let line = lines.next().unwrap_or(Ok(String::new()))?;
        require(&name, fingerprint(&name), &line)?;
    }
    for (name, published) in PUBLISHED {
        let printed = fingerprint(name.as_bytes()).to_string();
        require(name.as_bytes(), published, &printed)?;
    }
    let sent = sent.join().unwrap_or(Err(io::Error::other("not all sent")));
    if lines.next().is_some() || !child.wait()?.success() {
        return Err(io::Error::other("it prints more, or fails"));
    }
    sent?;
    println!("fingerprints {NAMES}: no difference");
    Ok(())
}

fn require(name: &[u8], expected: u32, printed: &str) -> io::Result<()> {
    if printed == expected.to_string() {
        return Ok(());
    }
    let what = format!("name '{}': {expected} and '{printed}'", hex(name));
    Err(io::Error::other(what))
}

fn send(input: impl Write) -> io::Result<()> {
    let mut input = BufWriter::new(input);
    for name in names() {
        writeln!(input, "{}", hex(&name))?;
    }
    input.flush()
}

fn hex(name: &[u8]) -> String {
    const DIGITS: &[u8; 16] = b"0123456789abcdef";
    let digits = name.iter().flat_map(|byte| [byte >> 4, byte & 15]);
    digits
        .map(|digit| char::from(DIGITS[digit as usize]))
        .collect()
}

/// The same ones each time.
fn names() -> impl Iterator<Item = Vec<u8>> {
    let published = PUBLISHED.into_iter().map(|(name, _)| name.into());
    let of_one_byte = (0..=255).map(|byte| vec![byte]);
    let mut random = Random::new(17);
    let lengths = (0..=LONGEST).cycle();
    let others = lengths.map(move |length| (0..length).map(|_| random.number() as u8).collect());
    published.chain(of_one_byte).chain(others).take(NAMES)
}

//! Compares the program `listing` with the reference's listing on some hundred pairs of sheets:
//! ordinary, hostile, random and damaged ones, and files that are missing or too long.
//!
//!     listing PROGRAM
//!
//! After a difference `target/listing` holds the two files and both texts.

mod pairs;

use std::collections::BTreeMap;
use std::path::Path;
use std::process::{Command, ExitCode};
use std::{env, fs, io};

use pairs::{pairs, Pair};

/// The folder that the program is run in.
const PLACE: &str = "target/listing";
/// The refusals that a listing can have, each to be met; it brings a row and a scratch itself.
const REFUSALS: [u32; 12] = [1, 2, 3, 4, 5, 6, 7, 8, 9, 10, 11, 16];
/// The accepted pairs that are to be met.
const ACCEPTED: usize = 200;

fn main() -> ExitCode {
    let Some(program) = env::args_os().nth(1) else {
        eprintln!("usage: listing PROGRAM");
        return ExitCode::FAILURE;
    };
    match compare(Path::new(&program)) {
        Ok(true) => ExitCode::SUCCESS,
        Ok(false) => ExitCode::FAILURE,
        Err(error) => {
            eprintln!("{}: {error}", program.to_string_lossy());
            ExitCode::FAILURE
        }
    }
}

/// Lists all pairs; true if there is no difference and enough was met.
fn compare(program: &Path) -> io::Result<bool> {
    // It is run in another folder.
    let program = program.canonicalize()?;
    fs::create_dir_all(PLACE)?;
    let mut met = BTreeMap::new();
    let mut lines = 0;
    for pair in pairs() {
        let expected = expected(&pair);
        let printed = printed(&program, &pair)?;
        if printed != expected.as_bytes() {
            eprintln!("difference: {}; see {PLACE}", pair.name);
            fs::write(Path::new(PLACE).join("expected.txt"), expected)?;
            fs::write(Path::new(PLACE).join("printed.txt"), printed)?;
            return Ok(false);
        }
        lines += expected.lines().count();
        *met.entry(refusal(&expected)).or_insert(0) += 1;
    }
    let count: usize = met.values().sum();
    let accepted = met.get(&0).copied().unwrap_or(0);
    println!("listings {count} accepted {accepted} lines {lines}: no difference");
    let missing: Vec<_> = REFUSALS
        .iter()
        .filter(|number| !met.contains_key(number))
        .collect();
    if accepted < ACCEPTED || !missing.is_empty() {
        eprintln!("too few listings: accepted {accepted}, refusals not met {missing:?}");
        return Ok(false);
    }
    Ok(true)
}

fn expected(pair: &Pair) -> String {
    // A file that is not there counts as empty.
    let bytes = |file: &Option<Vec<u8>>| file.clone().unwrap_or_default();
    reference::listing(&bytes(&pair.library), &bytes(&pair.user))
}

fn printed(program: &Path, pair: &Pair) -> io::Result<Vec<u8>> {
    put("library.sheet", &pair.library)?;
    put("user.sheet", &pair.user)?;
    let output = Command::new(program).current_dir(PLACE).output()?;
    Ok(output.stdout)
}

fn put(name: &str, file: &Option<Vec<u8>>) -> io::Result<()> {
    let path = Path::new(PLACE).join(name);
    match file {
        Some(bytes) => fs::write(path, bytes),
        None if path.exists() => fs::remove_file(path),
        None => Ok(()),
    }
}

/// The number of a refusal's line, 0 for any other text.
fn refusal(text: &str) -> u32 {
    let number = text
        .strip_prefix("refused ")
        .and_then(|rest| rest.split(' ').next());
    number.and_then(|number| number.parse().ok()).unwrap_or(0)
}

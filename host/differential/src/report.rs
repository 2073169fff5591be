//! Tells of a difference and keeps what is needed to look at it.

use std::fs;
use std::io;
use std::path::{Path, PathBuf};

use crate::desk::Difference;

pub fn report(seed: u64, history: u64, difference: &Difference) {
    let text = describe(seed, history, difference);
    let place = PathBuf::from(format!("target/difference/{seed}-{history}"));
    let kept = match keep(&place, &text, difference) {
        Ok(()) => format!("sheets and call are in {}", place.display()),
        Err(error) => format!("{}: {error}", place.display()),
    };
    // One write, so that two threads do not mix their lines.
    eprintln!("{text}{kept}");
}

fn describe(seed: u64, history: u64, difference: &Difference) -> String {
    let Difference { what, call, before } = difference;
    format!(
        "difference: seed {seed}, history {history}\n\
         call {call:?}: {what}\n\
         lengths: library {}, user {}, used {}, group {}, verdicts {}, scratch {}, output {}, \
         name {}, places {}\n\
         again: cargo run --release -p differential -- {seed} {history}\n",
        before.library.part().len(),
        before.user.part().len(),
        before.used,
        before.group.part().len(),
        before.verdicts.part().len(),
        before.scratch.part().len(),
        before.out.part().len(),
        before.name.part().len(),
        before.places.part().len(),
    )
}

fn keep(place: &Path, text: &str, difference: &Difference) -> io::Result<()> {
    let before = &difference.before;
    fs::create_dir_all(place)?;
    fs::write(place.join("call.txt"), text)?;
    fs::write(place.join("library.sheet"), before.library.part())?;
    fs::write(place.join("user.sheet"), before.user_sheet())?;
    fs::write(place.join("user.buffer"), before.user.part())?;
    fs::write(place.join("group.bytes"), before.group.part())?;
    fs::write(place.join("verdicts.bytes"), before.verdicts.part())?;
    fs::write(place.join("scratch.bytes"), before.scratch.part())?;
    fs::write(place.join("output.bytes"), before.out.part())?;
    fs::write(place.join("name.bytes"), before.name.part())?;
    let places = before
        .places
        .part()
        .iter()
        .flat_map(|place| place.to_le_bytes());
    fs::write(place.join("places.numbers"), places.collect::<Vec<_>>())
}

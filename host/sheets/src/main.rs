//! Writes each family's two sheets below a directory.

use std::path::Path;
use std::process::ExitCode;
use std::{env, fs, io};

use sheets::{families, Family};

fn main() -> ExitCode {
    let Some(directory) = env::args_os().nth(1) else {
        eprintln!("usage: sheets DIRECTORY");
        return ExitCode::FAILURE;
    };
    for family in families() {
        if let Err(error) = write(Path::new(&directory), &family) {
            eprintln!("{}: {error}", family.name);
            return ExitCode::FAILURE;
        }
        let (name, classes, records) = (family.name, family.classes, family.records);
        let bytes = family.bytes();
        println!("{name} classes {classes} records {records} bytes {bytes}");
    }
    ExitCode::SUCCESS
}

fn write(directory: &Path, family: &Family) -> io::Result<()> {
    let place = directory.join(family.name);
    fs::create_dir_all(&place)?;
    fs::write(place.join("library.sheet"), &family.library)?;
    fs::write(place.join("user.sheet"), &family.user)
}

//! Times the static library beside the reference and prints a Markdown table.
//!
//!     benchmark                      all families and operations
//!     benchmark --count WHAT FAMILY  one judging for an instruction counter, and the bytes of the
//!                                    two sheets; WHAT is judge, reference or none

mod measure;
mod operations;

use std::env;
use std::process::ExitCode;

use calls::{most_needed, Verifier, KERDZHUSI, REFERENCE};
use kerdzhusi::{SCRATCH_BYTES, VERDICT_BYTES};
use measure::{compare, Times, Workload, BURST, BURSTS, SAMPLES};
use sheets::build::CLASS_LIMIT;
use sheets::{families, Family};

fn main() -> ExitCode {
    let words: Vec<String> = env::args().skip(1).collect();
    let words: Vec<&str> = words.iter().map(String::as_str).collect();
    match words[..] {
        [] => table(),
        ["--count", what, family] if count(what, family) => {}
        _ => {
            eprintln!("usage: benchmark [--count judge|reference|none FAMILY]");
            return ExitCode::FAILURE;
        }
    }
    ExitCode::SUCCESS
}

/// Judges a family once, or only gets ready to; false for an unknown word. A refusal is not what
/// is to be counted, so it ends the program.
fn count(what: &str, name: &str) -> bool {
    let Some(family) = families().into_iter().find(|family| family.name == name) else {
        return false;
    };
    let judge = match what {
        "judge" => KERDZHUSI.judge,
        "reference" => REFERENCE.judge,
        "none" => |_: &[u8], _: &[u8], _: usize, _: &mut [u8], _: &mut [u8]| true,
        _ => return false,
    };
    let mut verdicts = vec![0; CLASS_LIMIT * VERDICT_BYTES];
    let mut scratch = vec![0; SCRATCH_BYTES];
    let used = family.user.len();
    let accepted = judge(
        &family.library,
        &family.user,
        used,
        &mut verdicts,
        &mut scratch,
    );
    assert!(accepted, "{name} is refused");
    println!("{}", family.bytes());
    true
}

fn table() {
    println!(
        "Medians of {SAMPLES} samples, each the quickest of {BURSTS} bursts of {} µs or more, the \
         verifiers in turn. Before each call the scratch is zero and the verdicts are there.\n",
        BURST.as_micros()
    );
    println!("| family | operation | kerdzhusi µs | reference µs | ratio | times full |");
    println!("|:--|:--|--:|--:|--:|--:|");
    let mut full = None;
    for family in families() {
        let beside = full.filter(|_| family.hostile);
        let judged = time_judge(&family, beside);
        if family.name == "full" {
            full = Some(judged);
        }
        time_others(&family, beside);
    }
}

/// Gives back the library's time. That of the full sheets' judging stands beside it, if given.
fn time_judge(family: &Family, full: Option<f64>) -> f64 {
    let times = measure(|verifier| operations::judge(verifier, family));
    print_row(family, "judge", times, full);
    times.ours
}

fn time_others(family: &Family, full: Option<f64>) {
    let times = measure(|verifier| operations::add(verifier, family));
    print_row(family, "add", times, None);
    let (class, dependents) = most_needed(family);
    let times = measure(|verifier| operations::replace(verifier, family, class));
    let operation = format!("replace, dependents {dependents}");
    print_row(family, &operation, times, None);
    let times = measure(|verifier| operations::withdraw(verifier, family));
    print_row(family, "withdraw", times, None);
    let times = measure(|verifier| operations::canonical(verifier, family));
    print_row(family, "canonical", times, full);
    let times = measure(|verifier| operations::index(verifier, family));
    print_row(family, "index", times, full);
    let times = measure(|verifier| operations::lookup(verifier, family));
    print_row(family, "lookup", times, full);
    let times = measure(|verifier| operations::name(verifier, family));
    print_row(family, "name", times, None);
    let times = measure(|verifier| operations::marks(verifier, family));
    print_row(family, "marks", times, None);
}

fn measure<'a>(calls: impl Fn(&'static Verifier) -> Box<Workload<'a>>) -> Times {
    compare(&mut *calls(&KERDZHUSI), &mut *calls(&REFERENCE))
}

fn print_row(family: &Family, operation: &str, times: Times, full: Option<f64>) {
    let Times {
        ours,
        theirs,
        ratio,
    } = times;
    let name = family.name;
    let times_full = full.map_or(String::new(), |full| format!("{:.2}", ours / full));
    println!("| {name} | {operation} | {ours:.2} | {theirs:.2} | {ratio:.2} | {times_full} |");
}

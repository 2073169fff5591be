//! An independent verifier of class sheets, written from documents 01 and 02 over byte slices.

mod canonical;
mod captures;
mod class_set;
mod dependents;
mod index;
mod markers;
mod names;
mod pair;
mod record;
mod rules;

use std::fmt::{self, Write};

pub use index::fingerprint;

use class_set::ClassSet;
use pair::Pair;
use record::{kind, whole_record, CLASS, CLASS_NAME};
use rules::{judge_classes, Verdict};

/// The most bytes of a sheet.
pub const SHEET_LIMIT: usize = 32_768;
/// The bytes of scratch that `judge`, `add` and `replace` ask for, and zero.
pub const SCRATCH_BYTES: usize = 65_536;
/// The bytes of a verdict: rule, record number, class in which the fault sits (document 02, C-16).
pub const VERDICT_BYTES: usize = 3;
/// The places that `index` and `lookup` fill (document 02, C-17).
pub const INDEX_PLACES: usize = 512;

/// Why a call was turned away: the documents' number, the sheet (0 library, 1 user) and the byte
/// where the record begins.
#[derive(Clone, Copy, Debug, PartialEq, Eq)]
pub struct Refusal {
    pub number: u8,
    pub sheet: u8,
    pub byte: usize,
}

impl Refusal {
    fn new(number: u8, sheet: u8, byte: usize) -> Refusal {
        Refusal {
            number,
            sheet,
            byte,
        }
    }

    /// A refusal that points at no record.
    fn plain(number: u8) -> Refusal {
        Refusal::new(number, 0, 0)
    }
}

impl fmt::Display for Refusal {
    fn fmt(&self, f: &mut fmt::Formatter) -> fmt::Result {
        let Refusal {
            number,
            sheet,
            byte,
        } = self;
        write!(f, "refused {number} sheet {sheet} byte {byte}")
    }
}

/// User classes, and those whose verdict is not clean.
#[derive(Clone, Copy, Debug, PartialEq, Eq)]
pub struct Counts {
    pub classes: usize,
    pub faulted: usize,
}

/// Judges all user classes. The row gets three bytes a user class.
pub fn judge(
    library: &[u8],
    user: &[u8],
    used: usize,
    verdicts: &mut [u8],
    scratch: &mut [u8],
) -> Result<Counts, Refusal> {
    let pair = check(library, user, used)?;
    require_room(&pair, verdicts, scratch)?;
    let mut faulted = 0;
    judge_classes(&pair, |class, verdict| {
        faulted += (verdict.rule != 0) as usize;
        write_verdict(verdicts, class - pair.library_classes, verdict);
    });
    clear(scratch);
    Ok(Counts {
        classes: pair.user_classes(),
        faulted,
    })
}

/// Adds a class after the present ones and gives back its number.
pub fn add(
    library: &[u8],
    user: &mut [u8],
    used: &mut usize,
    group: &[u8],
    verdicts: &mut [u8],
    scratch: &mut [u8],
) -> Result<usize, Refusal> {
    let class = check(library, user, *used)?.classes.len();
    let edit = Edit {
        from: *used,
        to: *used,
        group,
    };
    let sheet = edit.new_sheet(user, *used)?;
    let pair = Pair::check(library, &sheet)?;
    require_room(&pair, verdicts, scratch)?;
    let mut changed = ClassSet::EMPTY;
    changed.insert(class);
    rewrite(&pair, changed, verdicts);
    store(&sheet, user, used);
    clear(scratch);
    Ok(class)
}

/// Puts a group in the place of a user class and gives back how many classes depend on it, itself
/// counted.
pub fn replace(
    library: &[u8],
    user: &mut [u8],
    used: &mut usize,
    class: usize,
    group: &[u8],
    verdicts: &mut [u8],
    scratch: &mut [u8],
) -> Result<usize, Refusal> {
    let edit = {
        let pair = check(library, user, *used)?;
        require(class < pair.classes.len() && pair.is_user(class), 13)?;
        Edit {
            from: pair.classes[class].start,
            to: pair.classes[class].end,
            group,
        }
    };
    let sheet = edit.new_sheet(user, *used)?;
    let pair = Pair::check(library, &sheet)?;
    require_room(&pair, verdicts, scratch)?;
    let changed = dependents::dependents(&pair, class);
    rewrite(&pair, changed, verdicts);
    store(&sheet, user, used);
    clear(scratch);
    Ok(changed.count())
}

/// Takes the last user class out and gives back its number (document 02, C-12).
pub fn withdraw(
    library: &[u8],
    user: &mut [u8],
    used: &mut usize,
    verdicts: &mut [u8],
) -> Result<usize, Refusal> {
    let pair = check(library, user, *used)?;
    require(pair.user_classes() > 0, 13)?;
    let last = pair.classes.len() - 1;
    require(!dependents::named_by_another(&pair, last), 17)?;
    require_lines(&pair, verdicts)?;
    write_verdict(verdicts, last - pair.library_classes, Verdict::CLEAN);
    let start = pair.classes[last].start;
    user[start..*used].fill(0);
    *used = start;
    Ok(last)
}

/// Writes the user sheet in canonical form and gives back its length (document 02, C-15).
pub fn canonical(
    library: &[u8],
    user: &[u8],
    used: usize,
    out: &mut [u8],
) -> Result<usize, Refusal> {
    let pair = check(library, user, used)?;
    let sheet = canonical::canonical(&pair);
    require(sheet.len() <= out.len(), 15)?;
    out[..sheet.len()].copy_from_slice(&sheet);
    Ok(sheet.len())
}

/// Fills the first places of a row anew with the classes of both sheets by name, and gives back how
/// many there are (document 02, C-17).
pub fn index(
    library: &[u8],
    user: &[u8],
    used: usize,
    places: &mut [u16],
) -> Result<usize, Refusal> {
    let pair = check(library, user, used)?;
    index::fill(&pair, first_places(places)?);
    Ok(pair.classes.len())
}

/// Gives back the class with a name, the row filled as by `index` (document 02, C-17).
pub fn lookup(
    library: &[u8],
    user: &[u8],
    used: usize,
    name: &[u8],
    places: &mut [u16],
) -> Result<usize, Refusal> {
    let pair = check(library, user, used)?;
    let places = first_places(places)?;
    let class = index::class_named(&pair, name).ok_or(Refusal::plain(13))?;
    index::fill(&pair, places);
    Ok(class)
}

/// The overlay markers of a class.
pub fn marks(library: &[u8], user: &[u8], used: usize, class: usize) -> Result<u8, Refusal> {
    let pair = check(library, user, used)?;
    require_number(&pair, class)?;
    Ok(pair.overlay[class])
}

/// Where a class's name stands: sheet, first byte, length.
pub fn name(
    library: &[u8],
    user: &[u8],
    used: usize,
    class: usize,
) -> Result<(u8, usize, usize), Refusal> {
    let pair = check(library, user, used)?;
    require_number(&pair, class)?;
    let (sheet, start) = (pair.sheet_of(class), pair.classes[class].start);
    Ok((sheet, start + CLASS_NAME, pair.name(class).len()))
}

/// The listing of two whole sheets.
pub fn listing(library: &[u8], user: &[u8]) -> String {
    match try_listing(library, user) {
        Ok(text) => text,
        Err(refusal) => format!("{refusal}\n"),
    }
}

fn try_listing(library: &[u8], user: &[u8]) -> Result<String, Refusal> {
    let pair = check(library, user, user.len())?;
    let mut lines = String::new();
    let mut faulted = 0;
    judge_classes(&pair, |number, verdict| {
        let Verdict {
            rule,
            record,
            class,
        } = verdict;
        faulted += (rule != 0) as usize;
        let name = String::from_utf8_lossy(pair.name(number));
        let _ = writeln!(lines, "{number} {name} {rule} {record} {class}");
    });
    let classes = pair.user_classes();
    Ok(format!("classes {classes} faulted {faulted}\n{lines}"))
}

/// Refusals 1 to 11 and 16.
fn check<'a>(library: &'a [u8], user: &'a [u8], used: usize) -> Result<Pair<'a>, Refusal> {
    if library.len() > SHEET_LIMIT {
        return Err(Refusal::new(1, 0, 0));
    }
    if used > user.len() || used > SHEET_LIMIT {
        return Err(Refusal::new(1, 1, 0));
    }
    Pair::check(library, &user[..used])
}

/// Refusal 12: a verdict for each user class, and the whole scratch.
fn require_room(pair: &Pair, verdicts: &[u8], scratch: &[u8]) -> Result<(), Refusal> {
    require_lines(pair, verdicts)?;
    require(scratch.len() >= SCRATCH_BYTES, 12)
}

/// Refusal 12 where no scratch is asked for. Bytes too few for a verdict count for nothing.
fn require_lines(pair: &Pair, verdicts: &[u8]) -> Result<(), Refusal> {
    require(verdicts.len() / VERDICT_BYTES >= pair.user_classes(), 12)
}

/// The places of a row that are filled; refusal 12 where it has fewer.
fn first_places(places: &mut [u16]) -> Result<&mut [u16], Refusal> {
    places.get_mut(..INDEX_PLACES).ok_or(Refusal::plain(12))
}

/// Refusal 13 for a number not in use.
fn require_number(pair: &Pair, class: usize) -> Result<(), Refusal> {
    require(class < pair.classes.len(), 13)
}

/// A refusal that points at no record, unless the condition holds.
fn require(holds: bool, number: u8) -> Result<(), Refusal> {
    if holds {
        Ok(())
    } else {
        Err(Refusal::plain(number))
    }
}

/// A group that takes the place of some bytes of the user sheet.
struct Edit<'a> {
    from: usize,
    to: usize,
    group: &'a [u8],
}

impl Edit<'_> {
    /// The sheet that results; refusals 14 and 15.
    fn new_sheet(&self, user: &[u8], used: usize) -> Result<Vec<u8>, Refusal> {
        require(is_group(self.group), 14)?;
        let kept = used - (self.to - self.from);
        let room = user.len().min(SHEET_LIMIT);
        require(self.group.len() <= room - kept.min(room), 15)?;
        Ok([&user[..self.from], self.group, &user[self.to..used]].concat())
    }
}

/// Is this whole records with one CLASS, its first?
fn is_group(bytes: &[u8]) -> bool {
    let mut at = 0;
    while at < bytes.len() {
        match whole_record(&bytes[at..]) {
            Some(record) if (kind(record) == CLASS) == (at == 0) => at += record.len(),
            _ => return false,
        }
    }
    at != 0
}

/// Writes the new sheet into the buffer and zeroes the bytes that it frees.
fn store(sheet: &[u8], user: &mut [u8], used: &mut usize) {
    let new = sheet.len();
    user[..new].copy_from_slice(sheet);
    if new < *used {
        user[new..*used].fill(0);
    }
    *used = new;
}

/// Writes the verdicts of the changed classes.
fn rewrite(pair: &Pair, changed: ClassSet, verdicts: &mut [u8]) {
    judge_classes(pair, |class, verdict| {
        if changed.contains(class) {
            write_verdict(verdicts, class - pair.library_classes, verdict);
        }
    });
}

fn write_verdict(verdicts: &mut [u8], line: usize, verdict: Verdict) {
    let Verdict {
        rule,
        record,
        class,
    } = verdict;
    let at = line * VERDICT_BYTES;
    verdicts[at..at + VERDICT_BYTES].copy_from_slice(&[rule, record, class]);
}

fn clear(scratch: &mut [u8]) {
    scratch[..SCRATCH_BYTES].fill(0);
}

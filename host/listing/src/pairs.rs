//! The pairs of files that are listed.

use sheets::build::{object_only, short_name, Class, Sheet, GROUP_LIMIT, INT, SHEET_LIMIT};
use sheets::{damage, families, varied_pair};

const VARIED: u64 = 400;
/// Damaged copies of each family.
const DAMAGED: u64 = 4;

/// What stands in `library.sheet` and in `user.sheet`, if the files are there.
pub struct Pair {
    pub name: String,
    pub library: Option<Vec<u8>>,
    pub user: Option<Vec<u8>>,
}

impl Pair {
    fn new(name: impl Into<String>, library: Vec<u8>, user: Vec<u8>) -> Pair {
        Pair {
            name: name.into(),
            library: Some(library),
            user: Some(user),
        }
    }
}

pub fn pairs() -> Vec<Pair> {
    let mut pairs = small_pairs();
    pairs.extend(odd_files());
    for family in families() {
        pairs.extend((0..DAMAGED).map(|seed| {
            let (mut library, mut user) = (family.library.clone(), family.user.clone());
            let hurt = if seed == 0 { &mut library } else { &mut user };
            *hurt = damage(seed, hurt);
            Pair::new(format!("{} damaged {seed}", family.name), library, user)
        }));
        pairs.push(Pair::new(family.name, family.library, family.user));
    }
    pairs.extend((0..VARIED).map(|seed| {
        let (library, user) = varied_pair(seed);
        Pair::new(format!("varied {seed}"), library, user)
    }));
    pairs
}

fn library() -> Vec<u8> {
    object_only().into_bytes()
}

/// One class, the longest group and one record more, the longest sheet.
fn small_pairs() -> Vec<Pair> {
    let mut one = Sheet::new();
    one.class(Class::below(0), b"A");
    let mut longest = one.clone();
    while longest.records_in_group() < GROUP_LIMIT {
        longest.field(0, INT, b"f");
    }
    let mut too_long = longest.clone();
    too_long.field(0, INT, b"f");
    longest.class(Class::below(0), b"B");
    let mut filled = Sheet::new();
    while filled.room() > 0 {
        filled.class(Class::below(0), &short_name(filled.classes()));
        while filled.room() > 0 && filled.records_in_group() < GROUP_LIMIT {
            filled.constant(filled.room());
        }
    }
    let pair = |name, user: Sheet| Pair::new(name, library(), user.into_bytes());
    vec![
        pair("one class", one),
        pair("a group of 255 records", longest),
        pair("a group of 256 records", too_long),
        pair("a full sheet", filled),
    ]
}

/// Files that are empty, too long or not there.
fn odd_files() -> Vec<Pair> {
    let long = vec![0; SHEET_LIMIT + 1];
    let mut pairs = vec![
        Pair::new("no bytes", library(), Vec::new()),
        Pair::new("a long user file", library(), long.clone()),
        Pair::new("a long library file", long, library()),
    ];
    for (name, library, user) in [
        ("no user file", Some(library()), None),
        ("no library file", None, Some(library())),
        ("no files", None, None),
    ] {
        let name = name.into();
        pairs.push(Pair {
            name,
            library,
            user,
        });
    }
    pairs
}

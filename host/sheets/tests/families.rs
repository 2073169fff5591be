//! Each family is accepted, in order, within the limits, and judged in a moment.

use std::time::{Duration, Instant};

use reference::{
    canonical, index, judge, Counts, INDEX_PLACES, SCRATCH_BYTES, SHEET_LIMIT, VERDICT_BYTES,
};
use sheets::{class_name, families, full, groups, is_in_order, records, typical, Family};

struct Buffers {
    verdicts: Vec<u8>,
    scratch: Vec<u8>,
}

impl Buffers {
    fn new() -> Buffers {
        Buffers {
            verdicts: vec![0xEE; 256 * VERDICT_BYTES],
            scratch: vec![0xEE; SCRATCH_BYTES],
        }
    }

    fn judge(&mut self, family: &Family) -> Counts {
        let (library, user) = (&family.library, &family.user);
        let answer = judge(
            library,
            user,
            user.len(),
            &mut self.verdicts,
            &mut self.scratch,
        );
        answer.unwrap_or_else(|refusal| panic!("{}: {refusal}", family.name))
    }

    fn verdicts_of(mut self, family: &Family) -> Vec<[u8; VERDICT_BYTES]> {
        let classes = self.judge(family).classes;
        let verdicts = self.verdicts.chunks(VERDICT_BYTES).take(classes);
        verdicts
            .map(|verdict| [verdict[0], verdict[1], verdict[2]])
            .collect()
    }
}

fn family(name: &str) -> Family {
    let mut families = families().into_iter();
    let found = families.find(|family| family.name == name);
    found.expect("a family of this name")
}

#[test]
fn every_family_is_accepted_and_within_the_limits() {
    for family in families() {
        let name = family.name;
        assert!(family.library.len() <= SHEET_LIMIT, "{name}");
        assert!(family.user.len() <= SHEET_LIMIT, "{name}");
        assert!(family.classes <= 256, "{name}");
        let counts = Buffers::new().judge(&family);
        assert!(counts.classes > 0 && counts.classes < family.classes);
    }
}

#[test]
fn every_family_is_in_order() {
    for family in families() {
        assert!(is_in_order(&family.library), "{}", family.name);
        assert!(is_in_order(&family.user), "{}", family.name);
    }
}

#[test]
fn hostile_families_nearly_fill_the_user_sheet() {
    for family in families().iter().filter(|family| family.hostile) {
        assert!(family.user.len() >= 31_500, "{}", family.name);
    }
}

#[test]
fn typical_is_small_and_mostly_clean() {
    let family = typical();
    assert_eq!(family.classes, 60);
    assert!((570..=630).contains(&family.records), "{}", family.records);
    let counts = Buffers::new().judge(&family);
    assert!(counts.faulted * 10 <= counts.classes, "{counts:?}");
}

#[test]
fn full_is_full_and_mostly_clean() {
    let family = full();
    assert_eq!(family.classes, 256);
    assert_eq!(family.user.len(), SHEET_LIMIT);
    let counts = Buffers::new().judge(&family);
    assert!(counts.faulted > 0, "{counts:?}");
    assert!(counts.faulted * 10 <= counts.classes, "{counts:?}");
}

/// All classes inherit one faulted field, and nothing before it breaks a rule.
#[test]
fn faulted_families_come_to_one_field() {
    let expected = [
        ("faulted_chains", [10, 254, 2]),
        ("faulted_rings", [9, 1, 1]),
    ];
    for (name, fault) in expected {
        let verdicts = Buffers::new().verdicts_of(&family(name));
        assert!(verdicts.len() >= 254, "{name}");
        assert!(verdicts.iter().all(|verdict| *verdict == fault), "{name}");
    }
}

/// Whatever is used on the way, each class of the path captures the first variable of all.
#[test]
fn captured_far_all_capture_the_first_variable() {
    let mut met = 0;
    for family in families() {
        if !family.name.starts_with("captured_far") {
            continue;
        }
        let verdicts = Buffers::new().verdicts_of(&family);
        let clean = verdicts.iter().filter(|verdict| verdict[0] == 0).count();
        let (owners, path) = verdicts.split_at(clean);
        assert!(owners.iter().all(|verdict| *verdict == [0; 3]));
        assert!(path.iter().all(|verdict| *verdict == [7, 1, 1]));
        assert!([128, 254].contains(&path.len()), "{}", family.name);
        met += 1;
    }
    assert_eq!(met, 6);
}

/// No group has room for another pair, and no pair stays where it is.
#[test]
fn spread_pairs_turn_round() {
    let Family { library, user, .. } = family("spread_pairs");
    let mut turned = Vec::new();
    for group in groups(&user) {
        let mut rows: Vec<_> = records(group).collect();
        assert_eq!(rows.len(), 255);
        rows[1..].reverse();
        turned.extend(rows.concat());
    }
    let mut out = vec![0xEE; user.len()];
    let answer = canonical(&library, &user, user.len(), &mut out);
    assert_eq!((answer, out), (Ok(user.len()), turned));
}

/// The name of each class.
fn names(family: &Family) -> Vec<&[u8]> {
    let groups = [groups(&family.library), groups(&family.user)].concat();
    groups.into_iter().map(class_name).collect()
}

/// From the last place on, going round, each class stands right after the one before it.
#[test]
fn names_of_one_home_stand_in_one_run() {
    for name in ["one_home", "equal_prefixes_one_home"] {
        let Family { library, user, .. } = family(name);
        let mut places = [0; INDEX_PLACES];
        let answer = index(&library, &user, user.len(), &mut places);
        assert_eq!(answer, Ok(256), "{name}");
        places.rotate_right(1);
        assert!(places[..256].iter().copied().eq(0..256), "{name}");
        assert!(places[256..].iter().all(|&class| class == 65_535));
    }
}

#[test]
fn equal_prefixes_leave_three_bytes() {
    for family_name in ["equal_prefixes", "equal_prefixes_one_home"] {
        let family = family(family_name);
        let names = names(&family);
        assert!(names.iter().all(|name| name.len() == 100));
        assert!(names.iter().all(|name| name[..97] == names[0][..97]));
    }
    let family = family("one_home");
    assert!(names(&family).iter().all(|name| name.len() == 3));
}

#[test]
fn timing() {
    println!();
    for family in families() {
        let mut buffers = Buffers::new();
        let counts = buffers.judge(&family);
        let best = (0..200)
            .map(|_| timed(|| buffers.judge(&family)))
            .min()
            .unwrap_or_default();
        println!(
            "{:28} {:9.2} us  classes {:3} records {:5} bytes {:5} faulted {:3}",
            family.name,
            best.as_secs_f64() * 1e6,
            family.classes,
            family.records,
            family.bytes(),
            counts.faulted,
        );
    }
}

fn timed<T>(work: impl FnOnce() -> T) -> Duration {
    let start = Instant::now();
    std::hint::black_box(work());
    start.elapsed()
}

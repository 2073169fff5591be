//! Canonical forms beside what document 02, C-15, says of them, written down as plainly as it
//! reads.

use std::collections::HashSet;

use reference::{canonical, judge, SCRATCH_BYTES, VERDICT_BYTES};
use sheets::build::{CLASS_LIMIT, GROUP_LIMIT, SHEET_LIMIT};
use sheets::kinds::*;
use sheets::{
    damage, edited_group, families, groups, is_in_order, kind, number, random_pair, records,
    shuffled_sets, varied_pair, Random,
};

type Pair = (Vec<u8>, Vec<u8>);

const PAIRS: u64 = 20_000;
/// No class and no index of a small pair is as high.
const END: usize = 24;

/// The canonical form that the reference writes, nothing for a refused pair.
fn form(library: &[u8], user: &[u8]) -> Option<Vec<u8>> {
    let mut out = vec![0xEE; user.len() + 5];
    let length = canonical(library, user, user.len(), &mut out).ok()?;
    let past = out.split_off(length);
    assert!(past.iter().all(|&byte| byte == 0xEE));
    Some(out)
}

/// The rule of each verdict, and the class in which the fault sits: all but the record.
fn rules(library: &[u8], user: &[u8]) -> Vec<(u8, u8)> {
    let mut verdicts = [0; CLASS_LIMIT * VERDICT_BYTES];
    let mut scratch = vec![0; SCRATCH_BYTES];
    let answer = judge(library, user, user.len(), &mut verdicts, &mut scratch);
    let classes = answer.expect("accepted").classes;
    let lines = verdicts.chunks(VERDICT_BYTES).take(classes);
    lines.map(|line| (line[0], line[2])).collect()
}

/// The accepted ones of many pairs, and their canonical forms.
fn accepted(draw: fn(u64) -> Pair) -> impl Iterator<Item = (Pair, Vec<u8>)> {
    (0..PAIRS).map(draw).filter_map(|pair| {
        let form = form(&pair.0, &pair.1)?;
        Some((pair, form))
    })
}

fn of_kind(group: &[u8], wanted: usize) -> Vec<&[u8]> {
    let rows = records(group).filter(|record| kind(record) == wanted);
    rows.collect()
}

/// A body's numbers: a class, or a class and an index.
fn numbers(record: &[u8]) -> Vec<usize> {
    let places = (4..record.len()).step_by(2);
    places.map(|at| number(record, at)).collect()
}

/// The record with these numbers.
fn find<'a>(rows: &[&'a [u8]], wanted: &[usize]) -> Option<&'a [u8]> {
    rows.iter().copied().find(|row| numbers(row) == wanted)
}

/// "In each group IMPLEMENTS, USES, BUILDS and REFERS ascend by their body's numbers without
/// repeats, while FIELDs and LOCALs keep their order."
fn plain_form(user: &[u8]) -> Vec<u8> {
    let mut sheet = Vec::new();
    for group in groups(user) {
        for kind in CLASS..=REFERS {
            let rows = of_kind(group, kind);
            let classes = 0..END;
            let rows: Vec<&[u8]> = match kind {
                IMPLEMENTS | BUILDS => classes.filter_map(|class| find(&rows, &[class])).collect(),
                USES | REFERS => {
                    let pairs = classes.flat_map(|class| (0..END).map(move |index| [class, index]));
                    pairs.filter_map(|pair| find(&rows, &pair)).collect()
                }
                _ => rows,
            };
            sheet.extend(rows.concat());
        }
    }
    sheet
}

/// "Meaning is, group by group, the CLASS record, the ordered FIELDs and LOCALs, and the four
/// sets."
fn mean_the_same(one: &[u8], other: &[u8]) -> bool {
    let (one, other) = (groups(one), groups(other));
    one.len() == other.len() && one.iter().zip(other).all(|(one, other)| same(one, other))
}

fn same(one: &[u8], other: &[u8]) -> bool {
    let set =
        |group, kind| -> HashSet<_> { of_kind(group, kind).into_iter().map(numbers).collect() };
    let rows = [CLASS, FIELD, LOCAL].map(|kind| of_kind(one, kind) == of_kind(other, kind));
    let sets = [IMPLEMENTS, USES, BUILDS, REFERS].map(|kind| set(one, kind) == set(other, kind));
    rows.into_iter().chain(sets).all(|equal| equal)
}

/// What the request says of one sheet.
#[test]
fn random_pairs_get_the_form_of_the_definition() {
    let (mut unchanged, mut reordered, mut shorter) = (0, 0, 0);
    for ((library, user), sheet) in accepted(random_pair) {
        assert_eq!(sheet, plain_form(&user));
        assert!(mean_the_same(&user, &sheet));
        assert_eq!(form(&library, &sheet).as_ref(), Some(&sheet));
        assert_eq!(rules(&library, &sheet), rules(&library, &user));
        unchanged += (sheet == user) as usize;
        shorter += (sheet.len() < user.len()) as usize;
        reordered += (sheet.len() == user.len() && sheet != user) as usize;
    }
    let counts = [unchanged, reordered, shorter];
    assert!(counts.iter().all(|&count| count > 1_000), "{counts:?}");
}

/// Another accepted sheet beside the same library, or mostly.
fn another(random: &mut Random, user: &[u8], classes: usize) -> Vec<u8> {
    let mut groups: Vec<_> = groups(user).iter().map(|group| group.to_vec()).collect();
    if groups.is_empty() {
        return Vec::new();
    }
    let at = random.below(groups.len());
    match random.below(4) {
        0 => return shuffled_sets(random, user),
        1 => groups[at] = damage(random.number(), &groups[at]),
        2 => drop(groups.pop()),
        _ => groups[at] = edited_group(random, &groups[at], classes),
    }
    groups.concat()
}

/// "Two sheets over one library mean the same precisely when the tidied bytes are equal", and then
/// every class breaks the same rule in both, and the fault sits in the same class.
#[test]
fn forms_are_equal_exactly_where_sheets_mean_the_same() {
    let mut random = Random::new(15);
    // By meaning, and by whether the bytes are the same.
    let mut met = [[0; 2]; 2];
    for ((library, user), sheet) in accepted(random_pair) {
        let classes = groups(&library).len() + groups(&user).len();
        let other = another(&mut random, &user, classes);
        let Some(other_sheet) = form(&library, &other) else {
            continue;
        };
        let equal = mean_the_same(&user, &other);
        assert_eq!(sheet == other_sheet, equal);
        if equal {
            assert_eq!(rules(&library, &user), rules(&library, &other));
        }
        met[equal as usize][(user == other) as usize] += 1;
    }
    let [[different, none], [in_other_bytes, _]] = met;
    assert_eq!(none, 0);
    assert!(different > 1_000 && in_other_bytes > 1_000, "{met:?}");
}

#[test]
fn shuffled_sets_mean_the_same_and_some_reach_each_limit() {
    let mut random = Random::new(16);
    let (mut changed, mut longest_group, mut longest) = (0, 0, 0);
    for ((library, user), sheet) in accepted(varied_pair) {
        let copy = shuffled_sets(&mut random, &user);
        assert!(is_in_order(&copy));
        assert!(mean_the_same(&user, &copy));
        assert_eq!(form(&library, &copy), Some(sheet));
        changed += (copy != user) as usize;
        if copy.len() > user.len() {
            let lengths = groups(&copy)
                .into_iter()
                .map(|group| records(group).count());
            longest_group = longest_group.max(lengths.max().unwrap_or(0));
            longest = longest.max(copy.len());
        }
    }
    assert!(changed > 5_000, "{changed}");
    assert_eq!(longest_group, GROUP_LIMIT);
    assert!(longest > SHEET_LIMIT - 6, "{longest}");
}

#[test]
fn families_mean_what_their_forms_and_shuffled_sets_mean() {
    let mut random = Random::new(17);
    for family in families() {
        let (library, user) = (&family.library, &family.user);
        let sheet = form(library, user).expect("accepted");
        assert!(mean_the_same(user, &sheet), "{}", family.name);
        let copy = shuffled_sets(&mut random, user);
        assert!(form(library, &copy) == Some(sheet), "{}", family.name);
        assert_eq!(
            rules(library, user),
            rules(library, &copy),
            "{}",
            family.name
        );
    }
}

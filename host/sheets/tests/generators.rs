//! What the generators draw is varied enough, and good enough, to be worth comparing.

use reference::{add, judge, replace, SCRATCH_BYTES, VERDICT_BYTES};
use sheets::build::{CLASS_LIMIT, GROUP_LIMIT, SHEET_LIMIT};
use sheets::{
    edited_group, fitting_group, groups, is_in_order, random_group, random_pair, records,
    varied_pair, Random,
};

const PAIRS: u64 = 10_000;
/// The bytes of a row that is long enough for any sheets.
const ROW: usize = CLASS_LIMIT * VERDICT_BYTES;

/// The number of the refusal, 0 for an accepted pair.
fn judged((library, user): &(Vec<u8>, Vec<u8>)) -> u8 {
    let mut scratch = vec![0; SCRATCH_BYTES];
    let answer = judge(library, user, user.len(), &mut [0; ROW], &mut scratch);
    answer.map_or_else(|refusal| refusal.number, |_| 0)
}

/// The accepted ones among many varied pairs.
fn accepted_pairs() -> impl Iterator<Item = (Vec<u8>, Vec<u8>)> {
    (0..PAIRS).map(varied_pair).filter(|pair| judged(pair) == 0)
}

/// Groups drawn for an accepted pair.
struct Drawn {
    library: Vec<u8>,
    user: Vec<u8>,
    /// For the class after the last.
    added: Vec<u8>,
    /// For this class: one drawn anew, and the present one with changes.
    class: usize,
    fitting: Vec<u8>,
    edited: Vec<u8>,
}

fn drawn_groups() -> impl Iterator<Item = Drawn> {
    let mut random = Random::new(7);
    accepted_pairs().filter_map(move |(library, user)| {
        let (first, users) = (groups(&library).len(), groups(&user).len());
        let small = user.len() < 2_000 && first + users < CLASS_LIMIT;
        if users == 0 || !small {
            return None;
        }
        let class = first + random.below(users);
        let old = groups(&user)[class - first];
        Some(Drawn {
            added: fitting_group(&mut random, &library, &user, first + users),
            fitting: fitting_group(&mut random, &library, &user, class),
            edited: edited_group(&mut random, old, first + users),
            class,
            library,
            user,
        })
    })
}

fn assert_few(count: usize, all: usize) {
    let in_100 = 100 * count / all;
    assert!((1..6).contains(&in_100), "{count} of {all}");
}

#[test]
fn more_than_half_of_the_varied_pairs_are_accepted_and_some_reach_each_limit() {
    let (mut accepted, mut classes, mut longest_group, mut longest) = (0, 0, 0, 0);
    for (library, user) in accepted_pairs() {
        accepted += 1;
        let present = [groups(&library), groups(&user)].concat();
        classes = classes.max(present.len());
        let lengths = present.iter().map(|group| records(group).count());
        longest_group = longest_group.max(lengths.max().unwrap_or(0));
        longest = longest.max(user.len());
    }
    assert!(accepted > PAIRS / 2, "{accepted}");
    let limits = (CLASS_LIMIT, GROUP_LIMIT, SHEET_LIMIT);
    assert_eq!((classes, longest_group, longest), limits);
}

#[test]
fn groups_end_to_end_are_the_sheet() {
    for (library, user) in accepted_pairs() {
        assert_eq!(groups(&library).concat(), library);
        assert_eq!(groups(&user).concat(), user);
    }
}

#[test]
fn few_pairs_are_out_of_order() {
    for draw in [random_pair, varied_pair] {
        let refused = (0..PAIRS).filter(|&seed| judged(&draw(seed)) == 16);
        assert_few(refused.count(), PAIRS as usize);
    }
}

#[test]
fn few_groups_are_out_of_order() {
    let drawn: Vec<_> = drawn_groups().collect();
    let out_of_order = |group: fn(&Drawn) -> &Vec<u8>| {
        let groups = drawn.iter().map(group);
        groups.filter(|group| !is_in_order(group)).count()
    };
    assert_few(out_of_order(|drawn| &drawn.added), drawn.len());
    assert_few(out_of_order(|drawn| &drawn.fitting), drawn.len());
    assert_few(out_of_order(|drawn| &drawn.edited), drawn.len());
    let random = (0..PAIRS).map(|seed| random_group(seed, 5, 10, 8));
    let random = random.filter(|group| !is_in_order(group));
    assert_few(random.count(), PAIRS as usize);
}

#[test]
fn most_groups_fit() {
    let (mut calls, mut added, mut fitted, mut edited) = (0, 0, 0, 0);
    for drawn in drawn_groups() {
        let (library, user, class) = (&drawn.library, &drawn.user, drawn.class);
        calls += 1;
        added += is_added(library, user, &drawn.added) as usize;
        fitted += is_replaced(library, user, class, &drawn.fitting) as usize;
        edited += is_replaced(library, user, class, &drawn.edited) as usize;
    }
    let least = calls * 6 / 10;
    let counts = format!("{added}, {fitted}, {edited} of {calls}");
    assert!(
        added > least && fitted > least && edited > least,
        "{counts}"
    );
}

/// The sheet in a buffer with room for more.
fn buffer(user: &[u8]) -> (Vec<u8>, usize) {
    ([user, &[0; 3_000]].concat(), user.len())
}

fn is_added(library: &[u8], user: &[u8], group: &[u8]) -> bool {
    let (mut user, mut used) = buffer(user);
    let mut scratch = vec![0; SCRATCH_BYTES];
    let row = &mut [0; ROW];
    add(library, &mut user, &mut used, group, row, &mut scratch).is_ok()
}

fn is_replaced(library: &[u8], user: &[u8], class: usize, group: &[u8]) -> bool {
    let (mut user, mut used) = buffer(user);
    let mut scratch = vec![0; SCRATCH_BYTES];
    let row = &mut [0; ROW];
    replace(
        library,
        &mut user,
        &mut used,
        class,
        group,
        row,
        &mut scratch,
    )
    .is_ok()
}

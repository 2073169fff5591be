//! The index of class names beside what document 02, C-17, says of it, written down as plainly as
//! it reads: a relation between places and classes, without entering.

use reference::{fingerprint, index, lookup, Refusal, INDEX_PLACES};
use sheets::{class_name, families, groups, random_pair, varied_pair};

type Pair = (Vec<u8>, Vec<u8>);

const PAIRS: u64 = 20_000;
const EMPTY: u16 = 65_535;
const ABSENT: Result<usize, Refusal> = Err(Refusal {
    number: 13,
    sheet: 0,
    byte: 0,
});

/// An accepted pair and its index.
struct Indexed<'a> {
    pair: &'a Pair,
    /// The classes' names.
    names: Vec<&'a [u8]>,
    places: [u16; INDEX_PLACES],
}

impl<'a> Indexed<'a> {
    fn of(pair: &'a Pair) -> Option<Indexed<'a>> {
        let (library, user) = pair;
        let mut places = [4242; INDEX_PLACES];
        let entered = index(library, user, user.len(), &mut places).ok()?;
        let groups = [groups(library), groups(user)].concat();
        let names: Vec<_> = groups.into_iter().map(class_name).collect();
        assert_eq!(entered, names.len());
        Some(Indexed {
            pair,
            names,
            places,
        })
    }

    /// The places from a name's home on, going round, each once.
    fn run(&self, name: &[u8]) -> impl Iterator<Item = u16> + '_ {
        let home = fingerprint(name) as usize;
        (home..home + INDEX_PLACES).map(|place| self.places[place % INDEX_PLACES])
    }

    /// "Each at its fingerprint's remainder by 512 or the next free place after it": every place
    /// from its home up to its own is taken by a class that came before.
    fn stands(&self, class: u16) -> bool {
        let mut before = self
            .run(self.names[class as usize])
            .take_while(|&other| other != class);
        before.all(|other| other < class) && self.count(|place| place == class) == 1
    }

    fn count(&self, is: impl Fn(u16) -> bool) -> usize {
        self.places.iter().filter(|&&place| is(place)).count()
    }

    /// Through the index: along the run, none at an empty place.
    fn found(&self, name: &[u8]) -> Result<usize, Refusal> {
        let taken = self.run(name).take_while(|&class| class != EMPTY);
        let mut classes = taken.map(usize::from);
        classes
            .find(|&class| self.names[class] == name)
            .ok_or(ABSENT.unwrap_err())
    }

    fn looked_up(&self, name: &[u8]) -> Result<usize, Refusal> {
        let (library, user) = self.pair;
        let mut places = [4242; INDEX_PLACES];
        let answer = lookup(library, user, user.len(), name, &mut places);
        let expected = match answer {
            Ok(_) => self.places,
            Err(_) => [4242; INDEX_PLACES],
        };
        assert_eq!(places, expected);
        answer
    }
}

fn pairs() -> impl Iterator<Item = Pair> {
    let small = (0..PAIRS).map(random_pair);
    let varied = (0..PAIRS / 10).map(varied_pair);
    let families = families()
        .into_iter()
        .map(|family| (family.library, family.user));
    small.chain(varied).chain(families)
}

#[test]
fn each_class_stands_where_the_definition_has_it() {
    let (mut away, mut round) = (0, 0);
    for pair in pairs() {
        let Some(indexed) = Indexed::of(&pair) else {
            continue;
        };
        let classes = indexed.names.len();
        assert_eq!(
            indexed.count(|place| place == EMPTY),
            INDEX_PLACES - classes
        );
        assert!((0..classes as u16).all(|class| indexed.stands(class)));
        for (class, name) in (0..).zip(&indexed.names) {
            let home = fingerprint(name) as usize % INDEX_PLACES;
            let place = indexed.places.iter().position(|&other| other == class);
            away += (place != Some(home)) as usize;
            round += (place < Some(home)) as usize;
        }
    }
    assert!(away > 1_000 && round > 1_000, "{away}, {round}");
}

#[test]
fn the_way_through_the_index_finds_what_the_walk_finds() {
    let mut absent = 0;
    for pair in pairs() {
        let Some(indexed) = Indexed::of(&pair) else {
            continue;
        };
        for (class, name) in indexed.names.iter().enumerate() {
            assert_eq!(indexed.looked_up(name), Ok(class));
            assert_eq!(indexed.found(name), Ok(class));
        }
        let longest = indexed.names.iter().max_by_key(|name| name.len());
        let longest = longest.expect("a class");
        let longer = [longest, &b"!"[..]].concat();
        for name in [&[][..], &longest[1..], &longer] {
            let answer = indexed.looked_up(name);
            assert_eq!(answer, indexed.found(name));
            absent += (answer == ABSENT) as usize;
        }
    }
    assert!(absent > 10_000, "{absent}");
}

//! Hostile sheets whose classes build each other along a path and back, with something to capture.

use crate::build::*;

/// The classes 2 to `last`, so that neighbours lie far apart and steps go up and down in turn.
pub fn zigzag(last: usize) -> Vec<usize> {
    let mut path = Vec::new();
    let (mut low, mut high) = (2, last);
    while low <= high {
        path.push(high);
        if low < high {
            path.push(low);
        }
        low += 1;
        high -= 1;
    }
    path.reverse();
    path
}

/// Each class builds the next higher one.
pub fn rising(last: usize) -> Vec<usize> {
    (2..=last).collect()
}

/// Each class builds the next lower one.
pub fn falling(last: usize) -> Vec<usize> {
    (2..=last).rev().collect()
}

/// All classes lie in each other, 254 deep, and build each other along a path. Its last class
/// uses a variable of the outermost class and of some more; all other BUILDS lead back along
/// the path, so they close rings and shorten nothing.
pub fn nested_rings(path: Vec<usize>) -> Pair {
    const NESTED_OWNERS: usize = 60;
    let mut plan = Rings::new(&path, NESTED_OWNERS);
    plan.own_up_to(NESTED_OWNERS);
    let last = path[path.len() - 1];
    for owner in 1..=NESTED_OWNERS.min(last - 1) {
        plan.uses[last].push((owner, 0));
    }
    (object_only(), plan.write())
}

/// Half of the classes lie in each other and own a variable each; the others lie in the innermost.
const OWNERS: usize = 127;

/// The classes below the owners build each other along a path, and the last uses all variables.
pub fn ring_below_owners() -> Pair {
    let path = below_owners(zigzag);
    let mut plan = Rings::below_owners(&path, OWNERS);
    let last = path[path.len() - 1];
    plan.uses[last] = (1..=OWNERS).map(|owner| (owner, 0)).collect();
    (object_only(), plan.write())
}

/// A path through the others.
fn below_owners(direction: fn(usize) -> Vec<usize>) -> Vec<usize> {
    let path = direction(CHAIN - OWNERS + 1).into_iter();
    path.map(|class| class - 1 + OWNERS).collect()
}

/// Rings in which each class uses another variable of the outermost class, at the path's end the
/// first one: it has to come all the way back, past higher ones that are there before.
pub fn captured_far(path: Vec<usize>) -> Pair {
    let mut plan = Rings::new(&path, path.len());
    plan.use_of_first(&path);
    (object_only(), plan.write())
}

/// The same, and as long a way to a fault: each class is a subclass of the one before it, the
/// BUILDS that lead back stand in the lowest ones, and a field of the first breaks rule 9, which
/// asks no captured variable.
pub fn faulted_rings() -> Pair {
    let path = zigzag(CHAIN);
    let mut plan = Rings::with(&path, path.len(), from_lowest(&path));
    // The field takes the place of one variable.
    plan.use_of_first(&path[1..]);
    plan.is_faulted = true;
    (object_only(), plan.write())
}

/// The same below owners of one variable each, at the path's end that of the outermost one.
pub fn captured_far_owners(direction: fn(usize) -> Vec<usize>) -> Pair {
    let path = below_owners(direction);
    let mut plan = Rings::below_owners(&path, path.len());
    for (step, &class) in path.iter().rev().enumerate() {
        plan.uses[class].push((OWNERS.min(step + 1), 0));
    }
    (object_only(), plan.write())
}

/// BUILDS that lead back: a place of the path, and how many steps.
type Back = (usize, usize);

/// One step from each place, then two, and so on.
fn spread(path: &[usize]) -> Vec<Back> {
    let steps = 1..path.len();
    let backs = steps.flat_map(|back| (back..path.len()).map(move |from| (from, back)));
    backs.collect()
}

/// All from the place of the lowest class, then all from that of the next, and so on.
fn from_lowest(path: &[usize]) -> Vec<Back> {
    let mut places: Vec<usize> = (0..path.len()).collect();
    places.sort_by_key(|&place| path[place]);
    let backs = places.into_iter();
    let backs = backs.flat_map(|from| (1..=from).map(move |back| (from, back)));
    backs.collect()
}

/// BUILDS along a path and back.
struct Rings {
    encloser: fn(usize) -> usize,
    /// How many variables each class owns.
    locals: Vec<usize>,
    /// The variables that each class uses, by owner and index.
    uses: Vec<Vec<(usize, usize)>>,
    /// What each class builds.
    builds: Vec<Vec<usize>>,
    /// Is each class a subclass of the one before it, and broken by rule 9 in the first?
    is_faulted: bool,
}

impl Rings {
    /// All classes lie in each other. There is room for so many variables, each used once.
    fn new(path: &[usize], variables: usize) -> Rings {
        Rings::with(path, variables, spread(path))
    }

    /// The same with as many of these BUILDS as fit.
    fn with(path: &[usize], variables: usize, backs: Vec<Back>) -> Rings {
        let heads = CHAIN * (12 + SHORT) + variables * (9 + 8);
        let records = (SHEET_LIMIT - heads) / 6 - path.len();
        let forth = path.windows(2).map(|step| (step[0], step[1]));
        let backs = backs.into_iter().take(records);
        let back = backs.map(|(from, back)| (path[from], path[from - back]));
        let mut builds = vec![Vec::new(); CHAIN + 1];
        for (class, built) in forth.chain(back) {
            builds[class].push(built);
        }
        Rings {
            encloser: |class| class - 1,
            locals: vec![0; CHAIN + 1],
            uses: vec![Vec::new(); CHAIN + 1],
            builds,
            is_faulted: false,
        }
    }

    /// The path leads through the classes below the owners.
    fn below_owners(path: &[usize], variables: usize) -> Rings {
        let mut plan = Rings::new(path, variables);
        plan.encloser = |class| (class - 1).min(OWNERS);
        plan.own_up_to(OWNERS);
        plan
    }

    /// One variable for each class up to this one.
    fn own_up_to(&mut self, last: usize) {
        self.locals[1..=last].fill(1);
    }

    /// A variable of the first class for each class of the path, the first one for the last class.
    fn use_of_first(&mut self, path: &[usize]) {
        self.locals[1] = path.len();
        for (index, &class) in path.iter().rev().enumerate() {
            self.uses[class].push((1, index));
        }
    }

    fn head(&self, class: usize) -> Class {
        let head = if self.is_faulted {
            Class::below(class - 1).own(SELFLESS)
        } else {
            Class::below(0).own(POWERLESS | DEEP_SELFLESS)
        };
        let head = head.flags(BY_VALUE);
        match class {
            1 => head,
            _ => head.inside((self.encloser)(class)),
        }
    }

    fn write(&self) -> Sheet {
        let mut user = Sheet::new();
        for class in 1..=CHAIN {
            user.class(self.head(class), &short_name(class));
            if self.is_faulted && class == 1 {
                user.field(FINAL | TRANSIENT, INT, b"f");
            }
            for _ in 0..self.locals[class] {
                user.local(object(0), b"v");
            }
            for &(owner, index) in &self.uses[class] {
                user.uses(owner, index);
            }
            for &built in &self.builds[class] {
                user.builds(built);
            }
        }
        user
    }
}

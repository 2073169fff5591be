//! Captured variables: the first one of each class whose type lacks a marker.

use crate::class_set::{reaching, ClassSet};
use crate::markers::*;
use crate::pair::{Item, Pair, MOST_CLASSES};

/// The markers that rules ask of captured variables.
pub const ASKED: [Markers; 3] = [IMMUTABLE, POWERLESS, DEEP_SELFLESS];

#[derive(Clone, Copy)]
pub struct Variable {
    pub owner: u8,
    pub local: Item,
}

/// For each class and each asked marker the first variable, by owner and index, that the class
/// captures and whose type lacks the marker.
pub type FirstCaptured = [[Option<Variable>; ASKED.len()]; MOST_CLASSES];

pub fn first_captured(pair: &Pair) -> FirstCaptured {
    let mut first = [[None; ASKED.len()]; MOST_CLASSES];
    let doubtful = doubtful_uses(pair);
    if doubtful.is_empty() {
        return first;
    }
    let steps = Steps::of(pair);
    for (number, marker) in ASKED.into_iter().enumerate() {
        let lacking = doubtful.iter().filter(|usage| usage.lacks & marker != 0);
        note_captures(&steps, &lacking.collect::<Vec<_>>(), |class, variable| {
            first[class][number] = Some(variable);
        });
    }
    first
}

/// A use of another class's variable, and the asked markers that its type lacks.
struct DoubtfulUse {
    user: u8,
    variable: Variable,
    lacks: Markers,
}

/// By owner and index of the variable: LOCALs stand in that order.
fn doubtful_uses(pair: &Pair) -> Vec<DoubtfulUse> {
    let asked = ASKED.iter().fold(NONE, |all, marker| all | marker);
    let others = pair.uses.iter().filter(|usage| usage.user != usage.owner);
    let uses = others.map(|usage| DoubtfulUse {
        user: usage.user,
        variable: Variable {
            owner: usage.owner,
            local: usage.local,
        },
        lacks: asked & !pair.local_type(usage.local).markers(&pair.overlay),
    });
    let mut doubtful: Vec<_> = uses.filter(|usage| usage.lacks != NONE).collect();
    doubtful.sort_by_key(|usage| usage.variable.local.at);
    doubtful
}

/// Tells of each class that captures one of the variables, and of the first one that it captures.
///
/// The enclosers of a class form a chain, and outer ones have lower numbers: where BUILDS inside a
/// later owner lead to a class that captures an earlier variable, the whole chain lies inside the
/// earlier owner too. So a class reached once needs no second visit, neither do those before it.
fn note_captures(steps: &Steps, uses: &[&DoubtfulUse], mut note: impl FnMut(usize, Variable)) {
    let mut known = ClassSet::EMPTY;
    for uses in uses.chunk_by(|one, next| one.variable.local.at == next.variable.local.at) {
        let mut users = ClassSet::EMPTY;
        uses.iter()
            .for_each(|usage| users.insert(usage.user as usize));
        let variable = uses[0].variable;
        let within = steps.inside[variable.owner as usize];
        let mut new = reaching(&steps.builders, users, within, known);
        known.add_all(new);
        while let Some(class) = new.pop() {
            note(class, variable);
        }
    }
}

/// What a search along BUILDS goes by.
struct Steps {
    /// The classes that build each class.
    builders: Vec<ClassSet>,
    /// The classes that lie strictly inside each class.
    inside: Vec<ClassSet>,
}

impl Steps {
    fn of(pair: &Pair) -> Steps {
        let mut steps = Steps {
            builders: vec![ClassSet::EMPTY; pair.classes.len()],
            inside: vec![ClassSet::EMPTY; pair.classes.len()],
        };
        for build in &pair.builds {
            steps.builders[build.built as usize].insert(build.builder as usize);
        }
        for class in (pair.library_classes..pair.classes.len()).rev() {
            steps.add_to_encloser(pair, class);
        }
        steps
    }

    /// Classes come last to first, so all that lies inside this one is known.
    fn add_to_encloser(&mut self, pair: &Pair, class: usize) {
        let encloser = pair.classes[class].encloser as usize;
        if encloser < self.inside.len() {
            let mut inside = self.inside[class];
            inside.insert(class);
            self.inside[encloser].add_all(inside);
        }
    }
}

//! In which place of the walk a fault sits (document 02, C-16).

use std::fmt;

use crate::kinds::LOCAL;
use crate::{kind, records};

/// Where the fault of a line sits.
#[derive(Clone, Copy, PartialEq, Eq, Hash, Debug)]
pub enum Site {
    /// At a record of the class itself; in the walk of rules 7 to 10 at a field.
    Own,
    /// At a field of a superclass.
    Superclass,
    /// At the encloser of the class itself.
    Encloser,
    /// At that of a superclass.
    InheritedEncloser,
    /// At a captured variable.
    Variable,
    Root,
    /// In rule 9's second part.
    SecondPart,
}

impl Site {
    pub const ALL: [Site; 7] = [
        Site::Own,
        Site::Superclass,
        Site::Encloser,
        Site::InheritedEncloser,
        Site::Variable,
        Site::Root,
        Site::SecondPart,
    ];

    /// The sites where a fault of a rule can sit. Document 01 has rules 7, 8 and 10 ask every
    /// slot's type, and the root; rule 9 asks field slots alone.
    pub fn of_rule(rule: u8) -> &'static [Site] {
        match rule {
            1..=6 => &[Site::Own],
            9 => &[Site::Own, Site::Superclass, Site::SecondPart],
            _ => &[
                Site::Own,
                Site::Superclass,
                Site::Encloser,
                Site::InheritedEncloser,
                Site::Variable,
                Site::Root,
            ],
        }
    }

    /// Of a class's line, which has a fault, given how many library classes there are and the
    /// groups of the user sheet.
    pub fn of(line: [u8; 3], class: usize, library: usize, users: &[&[u8]]) -> Site {
        let [rule, record, at] = line.map(usize::from);
        if at < library {
            return Site::Root;
        }
        let of_kind = records(users[at - library]).nth(record).map(kind);
        match rule {
            7.. if of_kind == Some(LOCAL) => Site::Variable,
            9 if (record, at) == (0, class) => Site::SecondPart,
            7.. if (record, at) == (0, class) => Site::Encloser,
            7.. if record == 0 => Site::InheritedEncloser,
            _ if at == class => Site::Own,
            _ => Site::Superclass,
        }
    }
}

impl fmt::Display for Site {
    fn fmt(&self, f: &mut fmt::Formatter) -> fmt::Result {
        f.pad(match self {
            Site::Own => "own class",
            Site::Superclass => "superclass",
            Site::Encloser => "encloser",
            Site::InheritedEncloser => "encloser above",
            Site::Variable => "variable",
            Site::Root => "root",
            Site::SecondPart => "second part",
        })
    }
}

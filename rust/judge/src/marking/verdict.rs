//! How a script differs from a sheet, decided in two ways: by trying all integers of a box, and by least bounds.

use crate::brute;
use crate::graph::Closure;
use crate::library::{EQUAL, LOOSE, TIGHT};
use crate::meaning::{terms, Rule};

/// Enumeration is quick enough for so many tries.
const MOST_TRIES: u128 = 600_000;

/// The rules of two papers as they are written. Those of the script name no hidden quantity.
pub struct Rules {
    pub n: usize,
    pub hidden: u32,
    pub sheet: Vec<Rule>,
    pub script: Vec<Rule>,
}

/// Both may be: then the verdict is loose.
#[derive(Clone, Copy, PartialEq, Eq, Debug)]
pub struct Difference {
    /// the script allows visible integers that no hidden ones complete
    pub wide: bool,
    /// it forbids visible integers that some hidden ones complete
    pub narrow: bool,
}

impl Difference {
    /// The verdict's number.
    pub fn number(&self) -> u32 {
        match (self.wide, self.narrow) {
            (true, _) => LOOSE,
            (false, true) => TIGHT,
            (false, false) => EQUAL,
        }
    }
}

impl Rules {
    /// Is enumeration quick enough?
    pub fn small(&self) -> bool {
        brute::tries(self.n, self.hidden, &self.sheet, &self.script) <= MOST_TRIES
    }

    /// Tries all visible integers, and all hidden ones to complete them.
    pub fn by_trying(&self) -> Difference {
        let Rules { n, hidden, sheet, script } = self;
        let found = |wanted| brute::choice(*n, *hidden, sheet, script, wanted).is_some();
        Difference {
            wide: found(|allowed, completed| allowed && !completed),
            narrow: found(|allowed, completed| completed && !allowed),
        }
    }

    /// Compares the least bounds of the terms of visible quantities. That these tell everything is the fact that hiding
    /// rests on, as `graph` says.
    pub fn by_paths(&self) -> Difference {
        let [sheet, script] = [&self.sheet, &self.script].map(|rules| Closure::of(self.n, rules));
        Difference { wide: self.exceeds(&script, &sheet), narrow: self.exceeds(&sheet, &script) }
    }

    /// The same with fractions in the place of integers, which no verdict may be: where this differs, it is integers
    /// that decide. What fractions can do halves can, and halves become integers when every bound is doubled.
    pub fn by_fractions(&self) -> Difference {
        let doubled =
            |rules: &[Rule]| rules.iter().map(|&Rule { term, bound }| Rule { term, bound: 2 * bound }).collect();
        let (sheet, script) = (doubled(&self.sheet), doubled(&self.script));
        Rules { n: self.n, hidden: self.hidden, sheet, script }.by_paths()
    }

    /// Do the first rules allow visible integers that the second do not? None stands for rules that no integers satisfy.
    pub fn exceeds(&self, first: &Option<Closure>, second: &Option<Closure>) -> bool {
        let (Some(first), Some(second)) = (first, second) else {
            return first.is_some() && second.is_none();
        };
        let mut visible = terms(self.n).into_iter().filter(|term| !term.names(self.hidden));
        visible.any(|term| above(first.least(&term), second.least(&term)))
    }
}

/// Is the first least bound larger? A term without a bound exceeds every bound.
fn above(first: Option<i128>, second: Option<i128>) -> bool {
    second.is_some_and(|second| first.is_none_or(|first| first > second))
}

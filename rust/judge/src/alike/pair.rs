//! A pair, and whether its sheets mean the same.

use super::ways::{self, Way};
use crate::brute;
use crate::graph::{self, Closure};
use crate::meaning::rules;
use crate::random::Random;
use crate::sheets::Sheet;

pub struct Pair {
    pub one: Sheet,
    pub other: Sheet,
    /// how the second was made of the first
    pub way: Way,
    /// Do they allow the same visible integers?
    pub same: bool,
    /// Is that decided by enumeration too?
    pub enumerated: bool,
}

impl Pair {
    /// A pair with an assignment for both sheets. Each third one begins with a small sheet.
    pub fn numbered(number: u64, random: &mut Random) -> Result<Pair, String> {
        loop {
            let one = match number % 3 {
                0 => Sheet::small(random),
                _ => Sheet::any(random),
            };
            let closure = Closure::of(one.n, &rules(one.n, &one.table));
            let made = closure.and_then(|closure| ways::made(&one, &closure, random).map(|made| (closure, made)));
            if let Some((of_one, (way, table))) = made {
                let other = Sheet { n: one.n, hidden: one.hidden, table };
                if let Some(of_other) = Closure::of(other.n, &rules(other.n, &other.table)) {
                    return Pair { one, other, way, same: false, enumerated: false }.decided(&of_one, &of_other);
                }
            }
        }
    }

    /// That two ways of deciding differ is a failure of the judge.
    fn decided(mut self, of_one: &Closure, of_other: &Closure) -> Result<Pair, String> {
        let Sheet { n, hidden, .. } = self.one;
        let [one, other] = [&self.one, &self.other].map(|sheet| rules(n, &sheet.table));
        self.same = graph::difference(n, hidden, of_one, of_other).is_none();
        self.enumerated = brute::fits(n, &one) && brute::fits(n, &other);
        if self.enumerated && brute::apart(n, hidden, &one, &other).is_none() != self.same {
            return Err(format!("the judges differ: enumeration and shortest paths on two sheets\n{self}"));
        }
        match self.way.keeps_meaning() == Some(!self.same) {
            true => Err(format!("the judges differ: the meaning of two sheets is not as they were made\n{self}")),
            false => Ok(self),
        }
    }
}

impl std::fmt::Display for Pair {
    fn fmt(&self, f: &mut std::fmt::Formatter) -> std::fmt::Result {
        write!(f, "{:?}\n{}{}", self.way, self.one, self.other)
    }
}

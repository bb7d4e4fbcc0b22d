//! Sheets of any size decided by shortest paths (Miné's octagons; the integer case after Bagnara, Hill and Zaffanella,
//! "An improved tight closure algorithm for integer octagonal constraints"). No quantity is eliminated here.
//!
//! Each literal is a node. A rule s + t <= c is two arcs: from -s to t and from -t to s, each saying that the second
//! node exceeds the first by at most c. A lone rule s <= c is the arc from -s to s of length 2c; a doubled one, s + s <= c,
//! is that arc of length c, as it is written.

use crate::meaning::{terms, Literal, Rule, Term, NO_RULE};

/// No path. Lengths stay far below: 64 arcs of at most 2^63 each.
const FAR: i128 = i128::MAX;

/// The least bound of every term over the integers that satisfy some rules.
///
/// It is canonical: two sets of rules with an assignment are met by the same integers exactly when their least bounds
/// are the same. So a sheet and its key are compared by one more fact: the projection of a tight closure to the visible
/// quantities is its restriction to their terms.
///
/// Half of that is plain: a term of visible quantities has the same least bound on some integers and on their projection.
/// The other half, that the projection is again what some rules of one or two quantities say, is the same fact that hiding
/// itself rests on. Were it false, keys and this comparison could be wrong together. So for keys only enumeration
/// (`brute`) is independent of it, and that reaches small sheets alone.
///
/// Whether any integers satisfy a sheet, which decides 5, is another matter: negative cycles and halving answer it for every
/// n, and nothing is projected.
pub struct Closure {
    nodes: usize,
    length: Vec<i128>,
}

impl Closure {
    /// None where no integers satisfy the rules.
    pub fn of(n: usize, rules: &[Rule]) -> Option<Closure> {
        let nodes = 2 * n;
        let length = vec![FAR; nodes * nodes];
        let mut closure = Closure { nodes, length };
        for rule in rules {
            closure.put(rule);
        }
        (0..nodes).for_each(|x| closure.lower(x, x, 0));
        if !closure.shortest() || !closure.halve() {
            return None;
        }
        closure.strengthen();
        Some(closure)
    }

    /// The least bound of a term, None where it has no bound.
    pub fn least(&self, term: &Term) -> Option<i128> {
        let s = node(term.first);
        let (found, share) = match term.second {
            Some(second) => (self.at(s ^ 1, node(second)), 1),
            None => (self.at(s ^ 1, s), 2),
        };
        (found != FAR).then_some(found / share)
    }

    /// The words of the tightest key with this hidden set, by its definition: each visible term has its least bound, if any.
    pub fn tightest(&self, hidden: u32) -> Vec<i64> {
        let word = |term: Term| match term.names(hidden) {
            true => NO_RULE,
            false => self.least(&term).map_or(NO_RULE, |least| least as i64),
        };
        terms(self.nodes / 2).into_iter().map(word).collect()
    }

    fn put(&mut self, rule: &Rule) {
        let (s, bound) = (node(rule.term.first), rule.bound as i128);
        match rule.term.second {
            Some(second) => {
                let t = node(second);
                self.lower(s ^ 1, t, bound);
                self.lower(t ^ 1, s, bound);
            }
            None => self.lower(s ^ 1, s, 2 * bound),
        }
    }

    /// Floyd and Warshall's shortest paths; false at a negative cycle. It has to stop at the first one, for after that
    /// the lengths may double at every node.
    fn shortest(&mut self) -> bool {
        for through in 0..self.nodes {
            for x in 0..self.nodes {
                let first = self.at(x, through);
                if first == FAR {
                    continue;
                }
                for y in 0..self.nodes {
                    let second = self.at(through, y);
                    if second != FAR {
                        self.lower(x, y, first + second);
                    }
                }
            }
            if (0..self.nodes).any(|x| self.at(x, x) < 0) {
                return false;
            }
        }
        true
    }

    /// Rounds what is said of twice a literal down to an even number; false where no integer is left for its quantity.
    fn halve(&mut self) -> bool {
        for x in 0..self.nodes {
            let twice = self.at(x ^ 1, x);
            if twice != FAR {
                self.lower(x ^ 1, x, twice - twice.rem_euclid(2));
            }
        }
        (0..self.nodes).all(|x| {
            let (upper, lower) = (self.at(x ^ 1, x), self.at(x, x ^ 1));
            upper == FAR || lower == FAR || upper + lower >= 0
        })
    }

    /// Bounds each sum of two literals by the sum of their own bounds. After this no bound can be lowered.
    fn strengthen(&mut self) {
        for x in 0..self.nodes {
            for y in 0..self.nodes {
                let (first, second) = (self.at(x, x ^ 1), self.at(y ^ 1, y));
                if first != FAR && second != FAR {
                    self.lower(x, y, first / 2 + second / 2);
                }
            }
        }
    }

    fn at(&self, from: usize, to: usize) -> i128 {
        self.length[from * self.nodes + to]
    }

    fn lower(&mut self, from: usize, to: usize, length: i128) {
        let held = &mut self.length[from * self.nodes + to];
        *held = length.min(*held);
    }
}

/// The first visible term that sheet and key bound differently, with the two least bounds.
pub fn difference(n: usize, hidden: u32, sheet: &Closure, key: &Closure) -> Option<(Term, Option<i128>, Option<i128>)> {
    let visible = terms(n).into_iter().filter(|term| !term.names(hidden));
    visible.map(|term| (term, sheet.least(&term), key.least(&term))).find(|(_, of_sheet, of_key)| of_sheet != of_key)
}

/// A node and its opposite differ in the last bit.
fn node(literal: Literal) -> usize {
    2 * (literal.quantity - 1) + usize::from(literal.sign < 0)
}

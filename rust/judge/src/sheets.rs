//! Random sheets: few rules and all, bounds small and at the limits, with an assignment, without one, and with one only
//! if halves were allowed.

use crate::meaning::{is_in, rules, size, terms, Term, LIMIT, MOST_QUANTITIES, NO_RULE};
use crate::random::Random;
use std::fmt;

pub struct Sheet {
    pub n: usize,
    pub hidden: u32,
    pub table: Vec<i64>,
}

/// How bounds are drawn.
enum Bounds {
    /// from -reach to reach
    Free { reach: i64 },
    /// at one of the limits or next to it
    AtLimits,
    /// the same for all terms
    Flat { bound: i64 },
    /// above what some point gives, by at most `slack`; the point's coordinates are given doubled
    Planted { doubled: Vec<i64>, slack: i64 },
}

impl Sheet {
    /// A sheet that `brute` can decide.
    pub fn small(random: &mut Random) -> Sheet {
        let n = random.pick(&[1, 2, 3, 3, 3, 4, 4]);
        let reach = random.within(0, if n == 4 { 2 } else { 4 });
        let bounds = match random.below(3) {
            0 => Bounds::Free { reach },
            _ => planted(n, reach / 2, reach / 2, random),
        };
        let mut sheet = Sheet::drawn(n, &bounds, random);
        // `brute` decides small bounds only; a sum of two planted integers is within reach, so they stay an assignment
        let held = sheet.table.iter_mut().filter(|bound| **bound != NO_RULE);
        held.for_each(|bound| *bound = (*bound).clamp(-reach, reach));
        sheet
    }

    /// A sheet of any size.
    pub fn any(random: &mut Random) -> Sheet {
        let n = random.within(1, MOST_QUANTITIES as i64) as usize;
        Sheet::of(n, random)
    }

    /// A sheet of n quantities.
    pub fn of(n: usize, random: &mut Random) -> Sheet {
        let range = random.pick(&[1, 10, 100_000, LIMIT / 2, LIMIT]);
        let slack = random.pick(&[0, 1, 2, 10, 1000, LIMIT / 10, LIMIT]);
        let bounds = match random.below(8) {
            0 => Bounds::Free { reach: random.pick(&[1, 5, 1000, LIMIT]) },
            1 => Bounds::AtLimits,
            2 => Bounds::Flat { bound: random.pick(&[-LIMIT, -1, 0, 1, LIMIT]) },
            _ => planted(n, range, slack, random),
        };
        let mut sheet = Sheet::drawn(n, &bounds, random);
        if random.chance(30) {
            sheet.nudge(random);
        }
        sheet
    }

    fn drawn(n: usize, bounds: &Bounds, random: &mut Random) -> Sheet {
        let all = size(n);
        let wanted = random.pick(&[0, n / 2 + 1, n, 2 * n, 4 * n, all / 4, all / 2, all]);
        let draw = |term: Term| match random.below(all) < wanted {
            true => bounds.draw(term, random),
            false => NO_RULE,
        };
        let table = terms(n).into_iter().map(draw).collect();
        let hidden = hidden_set(n, random);
        Sheet { n, hidden, table }
    }

    /// Lowers one bound a little: what is left of an assignment then hangs on this one rule.
    fn nudge(&mut self, random: &mut Random) {
        let held: Vec<usize> = (0..self.table.len()).filter(|&i| self.table[i] != NO_RULE).collect();
        if !held.is_empty() {
            let bound = &mut self.table[random.pick(&held)];
            *bound = (*bound - random.within(1, 3)).max(-LIMIT);
        }
    }
}

impl Bounds {
    fn draw(&self, term: Term, random: &mut Random) -> i64 {
        match self {
            Bounds::Free { reach } => random.within(-reach, *reach),
            Bounds::AtLimits => random.pick(&[-LIMIT, 1 - LIMIT, LIMIT - 1, LIMIT]),
            Bounds::Flat { bound } => *bound,
            Bounds::Planted { doubled, slack } => {
                // rounded up, so that a lone rule does not cut a half off
                let least = -(-term.value(doubled)).div_euclid(2) as i64;
                let more = random.within(0, *slack);
                let met = least + random.pick(&[0, more]);
                // a bound outside the limits would be refused, and a lower one would cut the point off
                match (-LIMIT..=LIMIT).contains(&met) {
                    true => met,
                    false => NO_RULE,
                }
            }
        }
    }
}

/// Bounds around a point of integers or, in one case of four, of halves: these leave sheets that rational numbers satisfy
/// and integers do not.
fn planted(n: usize, range: i64, slack: i64, random: &mut Random) -> Bounds {
    let odd = i64::from(random.chance(25));
    let doubled = (0..n).map(|_| 2 * random.within(-range, range) + odd).collect();
    Bounds::Planted { doubled, slack }
}

/// No quantity, all, one, those up to one, those from one on, few, half or most.
pub fn hidden_set(n: usize, random: &mut Random) -> u32 {
    let all = u32::MAX >> (MOST_QUANTITIES - n);
    let one = 1 << random.below(n);
    let (a, b) = (random.word() as u32, random.word() as u32);
    all & random.pick(&[0, all, one, one - 1, !(one - 1), a & b, a, a, a | b])
}

/// The sheet's text (document 01, 'Text').
impl fmt::Display for Sheet {
    fn fmt(&self, f: &mut fmt::Formatter) -> fmt::Result {
        let hidden = (1..=self.n).filter(|&q| is_in(self.hidden, q));
        let list: Vec<String> = hidden.map(|q| q.to_string()).collect();
        let rules = rules(self.n, &self.table);
        writeln!(f, "quantities={}\nhidden={}\nrules={}", self.n, list.join(","), rules.len())?;
        rules.iter().try_for_each(|rule| writeln!(f, "rule={rule}"))
    }
}

//! Damage to the lines of a text: faults on one, and lines that are dropped, doubled, exchanged or added.

use super::faults;
use super::paper::Paper;
use crate::meaning::is_in;
use crate::random::Random;

pub struct DamagedLines<'a> {
    /// before the damage
    pub paper: &'a Paper,
    pub lines: Vec<Vec<u8>>,
}

impl DamagedLines<'_> {
    /// Faults on a line come more than once, those on rule lines the most: there are many kinds of them.
    pub const WAYS: [fn(&mut Self, &mut Random); 16] = [
        Self::quantities,
        Self::quantities,
        Self::hidden,
        Self::hidden,
        Self::hidden,
        Self::rules,
        Self::rules,
        Self::rule,
        Self::rule,
        Self::rule,
        Self::rule,
        Self::rule,
        Self::drop,
        Self::double,
        Self::exchange,
        Self::add,
    ];

    fn quantities(&mut self, random: &mut Random) {
        self.lines[0] = faults::quantities(self.paper.n, random).into_bytes();
    }

    fn hidden(&mut self, random: &mut Random) {
        let paper = self.paper;
        let list = (1..=paper.n).filter(|&q| is_in(paper.hidden, q)).map(|q| q as u128).collect();
        self.lines[1] = faults::hidden(paper.n, list, random).into_bytes();
    }

    fn rules(&mut self, random: &mut Random) {
        self.lines[2] = faults::rules(self.paper.rules.len(), random).into_bytes();
    }

    /// A rule with faults in the place of a right one, or as the only one where there is none.
    fn rule(&mut self, random: &mut Random) {
        let line = faults::rule(self.paper.n, random).into_bytes();
        let count = self.paper.rules.len();
        if count > 0 {
            self.lines[3 + random.edge(count)] = line;
        } else {
            self.lines.truncate(2);
            self.lines.extend([b"rules=1".to_vec(), line]);
        }
    }

    fn drop(&mut self, random: &mut Random) {
        let at = random.edge(self.lines.len());
        self.lines.remove(at);
    }

    fn double(&mut self, random: &mut Random) {
        let at = random.edge(self.lines.len());
        self.lines.insert(at, self.lines[at].clone());
    }

    fn exchange(&mut self, random: &mut Random) {
        let (a, b) = (random.edge(self.lines.len()), random.below(self.lines.len()));
        self.lines.swap(a, b);
    }

    /// A line that is empty or nearly so.
    fn add(&mut self, random: &mut Random) {
        let at = random.edge(self.lines.len() + 1);
        self.lines.insert(at, random.pick(&[&b""[..], b" ", b"\r"]).to_vec());
    }
}

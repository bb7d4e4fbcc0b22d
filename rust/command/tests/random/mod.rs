//! Numbers, rules and texts from a seed (splitmix64), so that what fails can be run again. Each test uses what it needs of
//! this.
#![allow(dead_code)]

pub struct Random(pub u64);

impl Random {
    pub fn word(&mut self) -> u64 {
        self.0 = self.0.wrapping_add(0x9e37_79b9_7f4a_7c15);
        let mut z = self.0;
        z = (z ^ (z >> 30)).wrapping_mul(0xbf58_476d_1ce4_e5b9);
        z = (z ^ (z >> 27)).wrapping_mul(0x94d0_49bb_1331_11eb);
        z ^ (z >> 31)
    }

    /// A number below `end`, which is above 0.
    pub fn below(&mut self, end: usize) -> usize {
        (self.word() % end as u64) as usize
    }

    pub fn pick<T: Copy>(&mut self, from: &[T]) -> T {
        from[self.below(from.len())]
    }

    /// A rule of n quantities, none of which cancel, with a bound from -`most` to `most`.
    pub fn rule(&mut self, n: usize, most: i64) -> String {
        let (p, q) = (self.below(n) + 1, self.below(n) + 1);
        let (first, second) = (self.pick(&['+', '-']), self.pick(&['+', '-']));
        let bound = self.below(2 * most as usize + 1) as i64 - most;
        if p == q && first != second || self.below(3) == 0 {
            return format!("{first}{p}:{bound}");
        }
        format!("{first}{p}{second}{q}:{bound}")
    }

    /// A text that is accepted.
    pub fn text(&mut self) -> String {
        let n = self.pick(&[1, 2, 3, 12, 32]);
        let hidden: Vec<String> = (1..=n).filter(|_| self.below(4) == 0).map(|q| q.to_string()).collect();
        let rules: Vec<String> = (0..self.below(6)).map(|_| self.rule(n, 1_000_000_000)).collect();
        text(n, &hidden.join(","), &rules)
    }
}

/// The text of these rules.
pub fn text(n: usize, hidden: &str, rules: &[String]) -> String {
    let lines: String = rules.iter().map(|rule| format!("rule={rule}\n")).collect();
    format!("quantities={n}\nhidden={hidden}\nrules={}\n{lines}", rules.len())
}

//! What marking two tables is given, and the first refusal that is due.

use crate::lent::further;
use crate::library::{too_short, Reply, MISMATCH, PAST_LIMIT, SIZE};
use crate::marking::pairs::Tables;
use crate::meaning::{rules, script_limit, size, LIMIT, MOST_QUANTITIES};
use crate::random::Random;
use crate::sheets::Sheet;
use crate::text::paper::Paper;
use std::fmt;

/// Both tables with all their words, of workspace and values only how many are lent.
#[derive(Clone)]
pub struct Given {
    pub n: usize,
    pub hidden: u32,
    pub sheet: Vec<i64>,
    pub script: Vec<i64>,
    pub workspace: usize,
    pub values: usize,
}

/// A reply for which there is reason, and the reason in words.
pub struct Reason {
    pub reply: Reply,
    pub name: &'static str,
}

impl Given {
    /// A call that nothing refuses. At times more is lent than needed, and what stands behind a table is no part of it.
    pub fn sound(tables: &Tables, random: &mut Random) -> Given {
        let (n, hidden) = (tables.sheet.n, tables.sheet.hidden);
        let [sheet, script] = [&tables.sheet, &tables.script].map(|paper| {
            let behind = further(random);
            [&paper.table[..], &random.words(behind)].concat()
        });
        Given { n, hidden, sheet, script, workspace: 2 * size(n) + further(random), values: n + further(random) }
    }

    /// All that speaks against the call, in the order in which it is to be seen: the first decides. Of an n that is refused
    /// nothing more can be said.
    pub fn reasons(&self) -> Vec<Reason> {
        if !(1..=MOST_QUANTITIES).contains(&self.n) {
            return vec![Reason { reply: SIZE, name: "1 n" }];
        }
        let n = self.n;
        let past =
            |table: &[i64], limit: i64| rules(n, table).iter().any(|rule| rule.bound > limit || rule.bound < -limit);
        let hidden_named = rules(n, &self.script).iter().any(|rule| rule.term.names(self.hidden));
        let all = [
            (self.sheet.len() < size(n), SIZE, "1 sheet"),
            (self.script.len() < size(n), SIZE, "1 script"),
            (self.workspace < 2 * size(n), too_short(2 * size(n)), "6 workspace"),
            (self.values < n, too_short(n), "6 values"),
            (u64::from(self.hidden) >= 1 << n, PAST_LIMIT, "3 set"),
            (past(&self.sheet, LIMIT), PAST_LIMIT, "3 sheet"),
            (past(&self.script, script_limit(self.hidden)), PAST_LIMIT, "3 script"),
            (hidden_named, Reply { number: MISMATCH, value: 0 }, "7"),
        ];
        all.into_iter().filter(|(met, ..)| *met).map(|(_, reply, name)| Reason { reply, name }).collect()
    }

    /// The two papers of a call that is not refused.
    pub fn papers(&self) -> [Paper; 2] {
        let paper =
            |table: &[i64]| Paper::of(&Sheet { n: self.n, hidden: self.hidden, table: table[..size(self.n)].to_vec() });
        [paper(&self.sheet), paper(&self.script)]
    }
}

impl fmt::Display for Given {
    fn fmt(&self, f: &mut fmt::Formatter) -> fmt::Result {
        let Given { n, hidden, sheet, script, workspace, values } = self;
        writeln!(f, "n={n} hidden={hidden:#x}\nsheet={sheet:?}\nscript={script:?}")?;
        let (sheet, script) = (sheet.len(), script.len());
        writeln!(f, "words: sheet {sheet}, script {script}, workspace {workspace}, values {values}")
    }
}

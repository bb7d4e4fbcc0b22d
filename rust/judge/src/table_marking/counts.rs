//! What a run over pairs of tables has judged, for its one line of output, and whether every kind of call was among it.

use super::check::Owed;
use super::given::Given;
use crate::halves::{add_kinds, Tally};
use crate::meaning::{rules, script_limit};
use std::collections::BTreeMap;
use std::fmt;

#[derive(Default)]
pub struct Counts {
    pub examples: usize,
    /// sheets whose own key was handed in
    pub own_keys: usize,
    /// verdicts that were decided by enumeration too
    enumerated: usize,
    /// calls by their numbers; each is made twice
    numbers: BTreeMap<u32, usize>,
    kinds: BTreeMap<String, usize>,
}

/// What a run is to meet. A refusal alone, as `7`, has no other reason beside it; with `6 values before 3 script` there is
/// one that must not be seen.
const KINDS: [&str; 77] = [
    "1 n",
    "1 sheet",
    "1 sheet before 1 script",
    "1 sheet before 6 workspace",
    "1 sheet before 6 values",
    "1 sheet before 3 set",
    "1 sheet before 3 sheet",
    "1 sheet before 3 script",
    "1 sheet before 7",
    "1 script",
    "1 script before 6 workspace",
    "1 script before 6 values",
    "1 script before 3 set",
    "1 script before 3 sheet",
    "1 script before 3 script",
    "1 script before 7",
    "6 workspace",
    "6 workspace before 6 values",
    "6 workspace before 3 set",
    "6 workspace before 3 sheet",
    "6 workspace before 3 script",
    "6 workspace before 7",
    "6 values",
    "6 values before 3 set",
    "6 values before 3 sheet",
    "6 values before 3 script",
    "6 values before 7",
    "3 set",
    "3 set before 7",
    "3 sheet",
    "3 sheet before 7",
    "3 script",
    "3 script before 7",
    "7",
    "3 sheet, within a script's limit",
    "3 script, one past its limit",
    "equal, all hidden",
    "equal, enumerated",
    "equal, largest n",
    "equal, none hidden",
    "equal, not by fractions",
    "equal, own key at a script's limit",
    "equal, own key past a sheet's limit",
    "equal, script past a sheet's limit",
    "equal, sheet without an assignment",
    "equal, some hidden",
    "loose, all hidden",
    "loose, and narrow",
    "loose, before another rule that can be broken",
    "loose, behind a rule that holds",
    "loose, enumerated",
    "loose, hidden integers tried",
    "loose, largest n",
    "loose, no rule",
    "loose, none hidden",
    "loose, not by fractions",
    "loose, rule of one quantity",
    "loose, rule of two quantities",
    "loose, rule past the limits",
    "loose, script at its limit",
    "loose, script past a sheet's limit",
    "loose, some hidden",
    "tight, before another rule that can be broken",
    "tight, behind a rule that holds",
    "tight, enumerated",
    "tight, largest n",
    "tight, none hidden",
    "tight, not by fractions",
    "tight, rule of one quantity",
    "tight, rule of two quantities",
    "tight, rule past the limits",
    "tight, script at its limit",
    "tight, script past a sheet's limit",
    "tight, script without an assignment",
    "tight, some hidden",
    "wide and narrow, both with an assignment",
    "wide and narrow, script past a sheet's limit",
];

impl Counts {
    pub fn call(&mut self, given: &Given, owed: &Owed) {
        *self.numbers.entry(owed.reply().number).or_default() += 1;
        match owed {
            Owed::Verdict(due) => {
                self.enumerated += usize::from(due.enumerated);
                self.met(due.kinds.clone());
            }
            Owed::Refused(_) => self.met(refused(given)),
        }
    }

    pub fn met(&mut self, kinds: Vec<String>) {
        kinds.into_iter().for_each(|kind| *self.kinds.entry(kind).or_default() += 1);
    }

    /// Nothing is shown by a run in which some kind of call was never met.
    pub fn all_met(&self) -> Result<(), String> {
        match KINDS.iter().find(|&&kind| !self.kinds.contains_key(kind)) {
            Some(kind) => Err(format!("no call was of the kind '{kind}'")),
            None => Ok(()),
        }
    }
}

/// The first reason for a refusal alone, or before each of the others. Of a bound alone also how far it is past its limit.
fn refused(given: &Given) -> Vec<String> {
    let names: Vec<&str> = given.reasons().iter().map(|reason| reason.name).collect();
    let (n, limit) = (given.n, script_limit(given.hidden));
    match &names[..] {
        [alone @ "3 sheet"] if within(n, &given.sheet, limit) => {
            vec![alone.to_string(), format!("{alone}, within a script's limit")]
        }
        [alone @ "3 script"] if within(n, &given.script, limit + 1) => {
            vec![alone.to_string(), format!("{alone}, one past its limit")]
        }
        [alone] => vec![alone.to_string()],
        [first, others @ ..] => others.iter().map(|other| format!("{first} before {other}")).collect(),
        [] => vec![],
    }
}

fn within(n: usize, table: &[i64], limit: i64) -> bool {
    rules(n, table).iter().all(|rule| (-limit..=limit).contains(&rule.bound))
}

impl Tally for Counts {
    fn add(&mut self, other: &Counts) {
        self.examples += other.examples;
        self.own_keys += other.own_keys;
        self.enumerated += other.enumerated;
        add_kinds(&mut self.numbers, &other.numbers);
        add_kinds(&mut self.kinds, &other.kinds);
    }
}

impl fmt::Display for Counts {
    fn fmt(&self, f: &mut fmt::Formatter) -> fmt::Result {
        let Counts { examples, own_keys, enumerated, numbers, .. } = self;
        write!(f, "examples={examples} pairs-of-tables={} own-keys={own_keys}", numbers.values().sum::<usize>())?;
        write!(f, " enumerated={enumerated}")?;
        numbers.iter().try_for_each(|(number, count)| write!(f, " number-{number}={count}"))?;
        let fewest = KINDS.iter().map(|&kind| self.kinds.get(kind).copied().unwrap_or(0)).min();
        write!(f, " kinds={} fewest-of-a-kind={}", KINDS.len(), fewest.unwrap_or(0))
    }
}

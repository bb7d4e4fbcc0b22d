//! What a run over texts has judged, for its one line of output, and whether every kind of reply was among it.

use super::refusal::Refusal;
use crate::halves::{add_kinds, Tally};
use std::collections::BTreeMap;
use std::fmt;

#[derive(Default)]
pub struct Counts {
    pub examples: usize,
    /// readings of all short values and orders of lines
    pub short: usize,
    /// texts written back after they were read
    pub rewritten: usize,
    /// tables read back after they were written
    pub reread: usize,
    /// readings by their replies
    readings: [usize; 7],
    /// writings by their replies
    writings: [usize; 7],
    kinds: BTreeMap<String, usize>,
}

/// What a run is to meet. `rule 2+3` is a rule line that is malformed and has a number past its limit too, so that 2
/// has to come first; `write 3+6` a hidden quantity past n and an output that is too short.
const KINDS: [&str; 34] = [
    "read 0",
    "1",
    "quantities 2",
    "quantities 3",
    "quantities 2+3",
    "hidden 2",
    "hidden 3",
    "hidden 2+3",
    "rules 2",
    "rules 3",
    "rules 2+3",
    "rule 2",
    "rule 3",
    "rule 4",
    "rule 2+3",
    "rule 2+4",
    "rule 3+4",
    "rule 2+3+4",
    "2 missing",
    "2 unended",
    "2 behind",
    "6",
    "write 0",
    "write 0 least word",
    "write 0 over the size of a text",
    "write n 1",
    "write n 1+6",
    "write table 1",
    "write table 1+3",
    "write table 1+6",
    "write table 1+3+6",
    "write 3",
    "write 3+6",
    "write 6",
];

impl Counts {
    pub fn reading<T>(&mut self, due: &Result<T, Refusal>) {
        self.readings[number(due)] += 1;
        self.met(due.as_ref().map_or_else(|refusal| &refusal.kind[..], |_| "read 0"));
    }

    pub fn writing<T>(&mut self, due: &Result<T, Refusal>) {
        self.writings[number(due)] += 1;
        self.met(due.as_ref().map_or_else(|refusal| &refusal.kind[..], |_| "write 0"));
    }

    pub fn met(&mut self, kind: &str) {
        *self.kinds.entry(kind.into()).or_default() += 1;
    }

    /// Nothing is shown by a run in which some reply was never due.
    pub fn all_kinds_met(&self) -> Result<(), String> {
        match KINDS.iter().find(|&&kind| !self.kinds.contains_key(kind)) {
            Some(kind) => Err(format!("no call was of the kind '{kind}'")),
            None => Ok(()),
        }
    }
}

impl Tally for Counts {
    fn add(&mut self, other: &Counts) {
        self.examples += other.examples;
        self.short += other.short;
        self.rewritten += other.rewritten;
        self.reread += other.reread;
        (0..7).for_each(|reply| self.readings[reply] += other.readings[reply]);
        (0..7).for_each(|reply| self.writings[reply] += other.writings[reply]);
        add_kinds(&mut self.kinds, &other.kinds);
    }
}

fn number<T>(due: &Result<T, Refusal>) -> usize {
    due.as_ref().map_or_else(|refusal| refusal.reply.number as usize, |_| 0)
}

impl fmt::Display for Counts {
    fn fmt(&self, f: &mut fmt::Formatter) -> fmt::Result {
        let Counts { examples, short, rewritten, reread, .. } = self;
        write!(f, "examples={examples} short={short} rewritten={rewritten} reread={reread}")?;
        for (name, replies) in [("readings", &self.readings), ("writings", &self.writings)] {
            write!(f, " {name}={}", replies.iter().sum::<usize>())?;
            let mut met = replies.iter().enumerate().filter(|(_, &count)| count > 0);
            met.try_for_each(|(reply, count)| write!(f, " reply-{reply}={count}"))?;
        }
        let fewest = KINDS.iter().map(|&kind| self.kinds.get(kind).copied().unwrap_or(0)).min();
        write!(f, " kinds={} fewest-of-a-kind={}", KINDS.len(), fewest.unwrap_or(0))
    }
}

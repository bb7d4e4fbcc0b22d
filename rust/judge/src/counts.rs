//! What a run has judged, for its one line of output.

use std::fmt;

#[derive(Default)]
pub struct Counts {
    pub examples: usize,
    pub sheets: usize,
    pub keys: usize,
    /// tightest keys that are sheets too, and those with a bound that no sheet may have
    pub again: usize,
    pub far: usize,
    pub without: usize,
    pub enumerated: usize,
    /// sheets called again, in turn and at once
    pub repeated: usize,
    /// damaged calls by their replies
    pub damaged: [usize; 7],
}

impl fmt::Display for Counts {
    fn fmt(&self, f: &mut fmt::Formatter) -> fmt::Result {
        let Counts { examples, sheets, keys, again, far, without, enumerated, repeated, .. } = self;
        write!(f, "examples={examples} sheets={sheets} keys={keys} tightened-again={again} past-limits={far}")?;
        write!(f, " without-assignment={without}")?;
        write!(f, " enumerated={enumerated} repeated={repeated}")?;
        write!(f, " damaged-calls={}", self.damaged.iter().sum::<usize>())?;
        let mut replies = self.damaged.iter().enumerate().filter(|(_, &count)| count > 0);
        replies.try_for_each(|(reply, count)| write!(f, " reply-{reply}={count}"))
    }
}

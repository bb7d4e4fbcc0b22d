//! Sheets whose keys have bounds past a sheet's limit. Rules at the limit lead from a visible quantity over hidden ones to
//! another visible quantity, so that the key has the sum of all of them where nothing else is said.
//!
//! A hidden quantity is passed with one sign or with both. So k of them have at most 2k + 1 rules, and their sum reaches the
//! limit of a script with one or two hidden quantities; with more it stays below.

use crate::meaning::{is_in, Literal, LIMIT, MOST_QUANTITIES};
use crate::random::Random;
use crate::sheets::{hidden_set, Sheet};
use crate::text::written::{self, Written};

/// Mostly a sheet with an assignment.
pub fn sheet(random: &mut Random) -> Sheet {
    let any = random.within(2, MOST_QUANTITIES as i64) as usize;
    let n = random.pick(&[3, 3, 4, 4, 5, any, any, MOST_QUANTITIES]);
    let one = 1 << random.below(n);
    let hidden = match hidden_set(n, random) {
        0 => one,
        set => set,
    };
    let path = path(n, hidden, random);
    let bound = random.pick(&[LIMIT, LIMIT, LIMIT - 1, -LIMIT, 1 - LIMIT]);
    let rules: Vec<Written> = path.windows(2).map(|step| rule(step[0], step[1], bound)).collect();
    Sheet { n, hidden, table: written::table(n, &rules) }
}

/// One hidden literal or more in any order, none of them twice, between two visible ones. A path that begins and ends with one
/// quantity is left as it is: it bounds the quantity alone, or says nothing.
fn path(n: usize, hidden: u32, random: &mut Random) -> Vec<Literal> {
    let (mut passed, ends): (Vec<Literal>, Vec<Literal>) = (1..=n)
        .flat_map(|quantity| [1, -1].map(|sign| Literal { sign, quantity }))
        .partition(|x| is_in(hidden, x.quantity));
    random.shuffle(&mut passed);
    passed.truncate(1 + random.edge(passed.len()));
    if !ends.is_empty() {
        passed.insert(0, random.pick(&ends));
        passed.push(random.pick(&ends));
    }
    passed.dedup();
    passed
}

/// The second literal exceeds the first by at most the bound. Of one quantity, where the second is the opposite of the first,
/// the rule is that of the second alone.
fn rule(from: Literal, to: Literal, bound: i64) -> Written {
    let opposite = Literal { sign: -from.sign, quantity: from.quantity };
    Written { first: opposite, second: Some(to).filter(|&to| to != opposite), bound }
}

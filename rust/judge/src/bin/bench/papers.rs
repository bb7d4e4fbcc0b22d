//! The sheets that are timed, each with its scripts and questions: 4 to 32 quantities, every second one hidden, few rules or all.

use crate::{questions, scripts};
use judge::meaning::{size, terms, LIMIT, MOST_QUANTITIES, NO_RULE};
use judge::random::Random;
use judge::sheets::Sheet;

pub const QUANTITIES: [usize; 4] = [4, 8, 16, 32];

/// How many rules a sheet of n quantities has.
type Rules = fn(usize) -> usize;

pub const DENSITIES: [(&str, Rules); 2] = [("sparse", |n| 2 * n), ("dense", size)];

/// So many words have the tables of one n and one density together: there are fewer sheets the larger they are.
const WORDS: usize = 4 * size(MOST_QUANTITIES);

/// Every second quantity.
const HIDDEN: u32 = 0x5555_5555;

/// Far from every limit, also when a bound of the key, a sum of at most 2n bounds of the sheet, is changed for a script.
const REACH: i64 = LIMIT / 100;

/// A sheet, its text, the text of a script for each verdict, and the words of a list of questions.
pub struct Pair {
    pub sheet: Sheet,
    pub text: Vec<u8>,
    pub scripts: scripts::Texts,
    pub questions: Vec<i64>,
}

/// For each n and each density the sheets that are timed.
pub type Papers = [[Vec<Pair>; DENSITIES.len()]; QUANTITIES.len()];

/// Draws all papers, the same in every run.
pub fn all() -> Papers {
    QUANTITIES.map(|n| DENSITIES.map(|(_, rules)| drawn(n, rules(n))))
}

/// Sheets with so many rules. Those are left out whose key has no rule that counts, for they have no loose script.
fn drawn(n: usize, rules: usize) -> Vec<Pair> {
    let mut random = Random::new(1, n as u64);
    // of their own, so that the sheets are the same whatever is asked
    let mut asking = Random::new(2, n as u64);
    let sheets = std::iter::repeat_with(|| sheet(n, rules, &mut random));
    let pairs = sheets.filter_map(|sheet| {
        let text = sheet.to_string().into_bytes();
        let scripts = scripts::of(&sheet, &text)?;
        let questions = questions::of(&sheet, &mut asking);
        Some(Pair { sheet, text, scripts, questions })
    });
    pairs.take(WORDS / size(n)).collect()
}

/// Rules at random places around random integers, so that these are an assignment.
fn sheet(n: usize, rules: usize, random: &mut Random) -> Sheet {
    let slack = REACH / 5;
    let most = (REACH - slack) / 2;
    let values: Vec<i64> = (0..n).map(|_| random.within(-most, most)).collect();
    let terms = terms(n);
    let mut table = vec![NO_RULE; size(n)];
    let mut places: Vec<usize> = (0..size(n)).collect();
    for _ in 0..rules {
        let place = places.swap_remove(random.below(places.len()));
        table[place] = terms[place].value(&values) as i64 + random.within(0, slack);
    }
    Sheet { n, hidden: HIDDEN & (u32::MAX >> (MOST_QUANTITIES - n)), table }
}

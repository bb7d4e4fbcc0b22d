//! Random pairs of papers that fit each other, by the scripts that candidates might hand in: their tables, and texts of these.

use super::far;
use super::scripts;
use super::spelling;
use crate::meaning::{script_limit, terms, Literal, Term, LIMIT, MOST_QUANTITIES};
use crate::random::Random;
use crate::sheets::Sheet;
use crate::text::paper::Paper;

/// Two texts.
pub struct Pair {
    pub sheet: Paper,
    pub script: Paper,
}

/// Two tables of one n and one hidden set.
pub struct Tables {
    pub sheet: Sheet,
    pub script: Sheet,
}

impl Pair {
    /// The texts of the tables with this number.
    pub fn numbered(number: u64, random: &mut Random) -> Pair {
        Tables::numbered(number, random).spelled(random)
    }

    /// A pair that can mostly be enumerated.
    pub fn small(random: &mut Random) -> Pair {
        Tables::small(random).spelled(random)
    }
}

impl Tables {
    /// The pair with this number. Each third one is small enough for enumeration.
    pub fn numbered(number: u64, random: &mut Random) -> Tables {
        match number % 3 {
            0 => Tables::small(random),
            _ => Tables::any(random),
        }
    }

    fn small(random: &mut Random) -> Tables {
        Tables::of(Sheet::small(random), random)
    }

    /// At times of the largest size, or with a key whose bounds are past a sheet's limit.
    fn any(random: &mut Random) -> Tables {
        match random.below(10) {
            0 => Tables::of(Sheet::of(MOST_QUANTITIES, random), random),
            1 => Tables::far(random),
            _ => Tables::of(Sheet::any(random), random),
        }
    }

    /// Half of the scripts are the key itself.
    fn far(random: &mut Random) -> Tables {
        let sheet = far::sheet(random);
        let script = if random.chance(50) { scripts::key(&sheet) } else { scripts::of(&sheet, random) };
        Tables { sheet, script }
    }

    /// One sheet in twenty gets rules that two quantities can only meet by halves, be they hidden or not.
    fn of(mut sheet: Sheet, random: &mut Random) -> Tables {
        if sheet.n > 1 && random.chance(5) {
            let high = 2 + random.below(sheet.n - 1);
            need_halves(&mut sheet.table, 1 + random.below(high - 1), high);
        }
        let script = scripts::of(&sheet, random);
        Tables { sheet, script }
    }

    fn spelled(&self, random: &mut Random) -> Pair {
        Pair {
            sheet: spelling::paper(&self.sheet, LIMIT, random),
            script: spelling::paper(&self.script, script_limit(self.script.hidden), random),
        }
    }
}

/// Two quantities that are equal and have an odd sum: no integers are left, though halves are.
pub fn need_halves(table: &mut [i64], low: usize, high: usize) {
    // the four words of the two stand together: +p+q, +p-q, -p+q, -p-q
    let [first, second] = [low, high].map(|quantity| Literal { sign: 1, quantity });
    let term = Term { first, second: Some(second) };
    let place = terms(high).iter().position(|&at| at == term).expect("a term has a place");
    for (word, bound) in table[place..place + 4].iter_mut().zip([1, 0, 0, -1]) {
        *word = bound.min(*word);
    }
}

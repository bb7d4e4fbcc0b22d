//! A whole run over hiding steps: examples, then random steps on random sheets, each as it is and damaged, and steps that are
//! followed from no block to the end, on two threads at once.

use super::check;
use super::counts::Counts;
use super::damage::damaged;
use super::due::Owed;
use super::examples;
use super::given::Given;
use crate::halves::{self, Tally};
use crate::library::{Step, Stepper};
use crate::meaning::MOST_QUANTITIES;
use crate::random::Random;
use crate::sheets::{hidden_set, Sheet};

/// From so many steps on a run has to meet every kind of call.
const ENOUGH: u64 = 5_000;

/// How often a call is damaged.
const DAMAGED: usize = 2;

/// Up to so many quantities the steps of all of them are followed; of more, that of one quantity on some sheets.
const FEW: usize = 4;
const SHARE: u64 = 4;

/// What was judged, or the first failure with its input.
pub fn all(library: &dyn Stepper, seed: u64, count: u64) -> Result<Counts, String> {
    let mut counts = Counts::default();
    examples::all(library, &mut counts)?;
    let met = random(library, seed, count)?;
    if count >= ENOUGH {
        met.all_met()?;
    }
    counts.add(&met);
    Ok(counts)
}

/// Random steps.
pub fn random(library: &dyn Stepper, seed: u64, count: u64) -> Result<Counts, String> {
    halves::both(count, |number, counts| numbered(library, seed, number, counts))
}

/// The step with this number. Each third sheet is small enough for enumeration, and each third has few quantities.
fn numbered(library: &dyn Stepper, seed: u64, number: u64, counts: &mut Counts) -> Result<(), String> {
    let mut random = Random::new(seed, number);
    let mut sheet = match number % 3 {
        0 => Sheet::small(&mut random),
        1 => Sheet::of(1 + random.below(8), &mut random),
        _ => Sheet::any(&mut random),
    };
    let step = drawn(sheet.n, &mut random);
    let given = Given::sound(&sheet, step, &mut random);
    let failed = |e| format!("seed {seed}, step {number}: {e}");
    let owed = check::call(library, &given, &mut random, counts).map_err(failed)?;
    for _ in 0..DAMAGED {
        let given = damaged(given.clone(), &mut random);
        check::call(library, &given, &mut random, counts).map_err(failed)?;
    }
    if let Owed::Refused(_) = owed {
        return Ok(());
    }
    sheet.hidden = step.before;
    let followed = match sheet.n <= FEW {
        true => 1..=sheet.n,
        false if (number / 3).is_multiple_of(SHARE) => step.quantity..=step.quantity,
        false => return Ok(()),
    };
    for quantity in followed {
        check::step(library, &sheet, quantity, &mut random).map_err(failed)?;
        counts.followed += 1;
        counts.tables += sheet.n + 2;
    }
    Ok(())
}

/// A step on n quantities: its set may be any, or all others, or just those below the quantity, and its blocks are often those at
/// which something begins or ends.
fn drawn(n: usize, random: &mut Random) -> Step {
    let quantity = 1 + random.edge(n);
    let (all, own) = (u32::MAX >> (MOST_QUANTITIES - n), 1 << (quantity - 1));
    let (any, below) = (hidden_set(n, random), own - 1);
    let before = random.pick(&[any, any, any & !own, any & below, any & below, below, all & !own, 0, 0]);
    let blocks = [0, 1, n - 1, n, n + 1, quantity, quantity - 1, random.below(n + 2), random.below(n + 2)];
    Step { before, quantity, blocks: random.pick(&blocks) }
}

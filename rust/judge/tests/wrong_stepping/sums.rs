//! The words of a table in the middle of a step, and the mistakes in them.

use super::{Trap, Wrong};
use judge::graph::Closure;
use judge::library::Step;
use judge::meaning::{is_in, rules, size, terms, Literal, LIMIT, NO_RULE};
use judge::naive::{self, Sum};

impl Wrong {
    /// None where 5 is seen.
    pub fn stepped(&self, n: usize, step: Step, sheet: &[i64]) -> Option<Vec<i64>> {
        let Step { quantity, blocks, .. } = step;
        if self.unsatisfied(n, step, sheet) {
            return None;
        }
        if self.0 == Trap::SheetStays {
            return Some(sheet.to_vec());
        }
        let mut table = self.begun_with(n, step, sheet);
        let first = table.clone();
        for block in 1..=n {
            if self.done(n, quantity, blocks, block) {
                self.put(n, quantity, block, &first, &mut table);
            }
        }
        match self.0 {
            Trap::NextWritten if (1..n).contains(&blocks) => table[size(blocks)] = table[size(blocks)].min(LIMIT),
            Trap::PreviousWritten if (2..=n).contains(&blocks) => {
                let last = size(blocks - 1) - 1;
                table[last] = table[last].min(LIMIT);
            }
            _ => {}
        }
        self.clear(n, quantity, blocks, &mut table);
        Some(table)
    }

    fn unsatisfied(&self, n: usize, Step { before, quantity, blocks }: Step, sheet: &[i64]) -> bool {
        let none = Closure::of(n, &rules(n, sheet)).is_none();
        match self.0 {
            Trap::NeverFive => false,
            Trap::FiveWithBlocks => none && blocks > 0,
            Trap::FiveOfHidden => {
                let mut hidden = sheet.to_vec();
                !(1..=n).filter(|&q| is_in(before, q)).chain([quantity]).all(|q| naive::hide(n, q, &mut hidden))
            }
            _ => none,
        }
    }

    /// The table with which the step begins.
    fn begun_with(&self, n: usize, Step { before, quantity, .. }: Step, sheet: &[i64]) -> Vec<i64> {
        let own = 1 << (quantity - 1);
        let set = match self.0 {
            Trap::BeforeIgnored => 0,
            Trap::FirstOfBefore => before & before.wrapping_neg(),
            Trap::OwnBefore => before | own,
            Trap::LowerBefore => before & (own - 1),
            Trap::BitsMoved => before << 1,
            _ => before,
        };
        let mut table = sheet.to_vec();
        for q in (1..=n).filter(|&q| is_in(set, q)) {
            match self.0 {
                Trap::BeforeDropped => clear(n, q, &mut table, |_| true),
                _ => _ = naive::hide(n, q, &mut table),
            }
        }
        table
    }

    /// Is this block one of those that are done?
    fn done(&self, n: usize, quantity: usize, blocks: usize, block: usize) -> bool {
        match self.0 {
            Trap::AllAtOnce => blocks > 0,
            Trap::OneFewer => block < blocks,
            Trap::OneMore => block <= blocks + 1,
            Trap::FromLast => block + blocks > n,
            // the two blocks of each pair are exchanged
            Trap::LaterFirst => (if block.is_multiple_of(2) { block - 1 } else { (block + 1).min(n) }) <= blocks,
            Trap::LastAlone => block == blocks || blocks > n,
            Trap::PassedOver(passed) => block <= blocks && (block != passed || blocks > n),
            Trap::OwnNotCounted => block <= blocks + usize::from(quantity <= blocks),
            _ => block <= blocks,
        }
    }

    /// Puts the sums of one block in.
    fn put(&self, n: usize, quantity: usize, block: usize, first: &[i64], table: &mut [i64]) {
        let mut all = naive::sums(quantity, &rules(n, first));
        if self.0 == Trap::SumsOfSums {
            let others = (1..=n).filter(|&q| q != quantity);
            let mut found = rules(n, table);
            found.retain(|rule| !rule.term.names(1 << (quantity - 1)));
            all.extend(others.flat_map(|q| naive::sums(q, &found)));
        }
        if self.0 == Trap::SameSigns {
            let lone = Literal { sign: 1, quantity };
            let held = first[naive::place(lone)];
            all.extend(
                (held != NO_RULE)
                    .then_some(Sum { rest: [Some(Literal { sign: 1, quantity: block }), None], bound: held }),
            );
        }
        for sum in all {
            let goes = match self.0 {
                Trap::LowerBlock => sum.rest.iter().flatten().map(|left| left.quantity).min().unwrap_or(0),
                _ => sum.block(),
            };
            let bare = self.0 == Trap::BarePut && block == 1 && sum.place_and_bound().is_none();
            let Some((place, bound)) = self.placed(&sum).or(bare.then_some((0, sum.bound))) else { continue };
            if goes != block && !bare || self.left_out(&sum, place, bound) {
                continue;
            }
            table[place] = match self.0 {
                Trap::Overwrites => bound,
                Trap::OnlyWhereNone if first[place] != NO_RULE => first[place],
                _ => table[place].min(bound),
            };
        }
    }

    fn placed(&self, sum: &Sum) -> Option<(usize, i64)> {
        let (place, halved) = sum.place_and_bound()?;
        let doubled = sum.rest[0] == sum.rest[1];
        Some(match self.0 {
            Trap::HalvesUp if doubled => (place, -(-sum.bound).div_euclid(2)),
            Trap::HalvesTowardZero if doubled => (place, sum.bound / 2),
            Trap::NotHalved if doubled => (place, sum.bound),
            _ => (place, halved),
        })
    }

    fn left_out(&self, sum: &Sum, place: usize, bound: i64) -> bool {
        match self.0 {
            Trap::LoneForgotten => sum.rest.contains(&None),
            Trap::DoubledForgotten => sum.rest[0] == sum.rest[1],
            Trap::LoneTermsAlone => place >= size(sum.block() - 1) + 2,
            Trap::WithinLimit => !(-LIMIT..=LIMIT).contains(&bound),
            _ => false,
        }
    }

    /// Takes the rules that name the quantity away, where that is due.
    fn clear(&self, n: usize, quantity: usize, blocks: usize, table: &mut [i64]) {
        let ended = match self.0 {
            Trap::ClearedWithLast => blocks >= n,
            Trap::ClearedByBlock | Trap::ClearedAtOnce => blocks > 0,
            Trap::NeverCleared => false,
            _ => blocks > n,
        };
        if !ended {
            return;
        }
        let own = size(quantity - 1)..size(quantity);
        clear(n, quantity, table, |place| match self.0 {
            Trap::ClearedByBlock => place < size(blocks.min(n)),
            Trap::LoneKept => place >= own.start + 2 || place < own.start,
            Trap::OwnBlockCleared => own.contains(&place),
            _ => true,
        });
    }
}

/// Makes the places that name q and are such no rule.
fn clear(n: usize, q: usize, table: &mut [i64], such: impl Fn(usize) -> bool) {
    for (place, term) in terms(n).iter().enumerate() {
        if term.quantities().any(|named| named == q) && such(place) {
            table[place] = NO_RULE;
        }
    }
}

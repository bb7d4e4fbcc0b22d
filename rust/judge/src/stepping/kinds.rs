//! The kinds of calls, of which a run has to meet all: what stood in the way of others, and what the blocks that are done had to
//! put in.

use super::due::Tables;
use super::given::Given;
use crate::library::Step;
use crate::meaning::{is_in, largest_bound, rules, LIMIT, MOST_QUANTITIES, NO_RULE};
use crate::naive::{self, Sum};

/// What a run is to meet. A refusal alone, as `6`, has no other reason beside it; with `6 before 5` there is one that must not be
/// seen. The reasons for a 3 have no order among themselves.
pub const KINDS: [&str; 63] = [
    "1 n",
    "1 table",
    "1 table before 6",
    "1 table before 3 set",
    "1 table before 3 table",
    "1 table before 3 quantity",
    "1 table before 3 blocks",
    "6",
    "6 before 3 set",
    "6 before 3 table",
    "6 before 3 quantity",
    "6 before 3 blocks",
    "6 before 5",
    "3 set",
    "3 set before 5",
    "3 table",
    "3 table before 5",
    "3 quantity",
    "3 quantity before 5",
    "3 quantity 0",
    "3 quantity one past n",
    "3 quantity that is one in 32 bits",
    "3 blocks",
    "3 blocks before 5",
    "3 blocks one past the end",
    "3 blocks that are few in 32 bits",
    "5",
    "5 enumerated",
    "5 with no block done",
    "5 that hiding these quantities does not show",
    "of one quantity in all",
    "of the largest n",
    "no block done",
    "one block done",
    "some blocks done",
    "all blocks but the last done",
    "all blocks done",
    "at the end",
    "its own block the last that is done",
    "its own block the next",
    "nothing hidden before",
    "several hidden before",
    "all others hidden before",
    "higher than all before",
    "lower than some before",
    "hidden before already",
    "no sum at all",
    "sums for later blocks alone",
    "sums for blocks that are done and for later ones",
    "a sum for the next block",
    "a block between those with sums that has none",
    "a sum where there was no rule",
    "a sum below a rule",
    "a sum above a rule",
    "a sum at a rule's own bound",
    "a sum above another sum",
    "a sum with a lone rule",
    "a sum of two lone rules",
    "a sum whose rest cancels",
    "a doubled sum",
    "a doubled sum that is odd",
    "a doubled sum that is odd and below 0",
    "a sum past a sheet's limit",
];

/// The first reason for a refusal alone, or before each of the others that come after it, and what stands behind some of them.
pub fn of_refused(given: &Given, enumerated: bool) -> Vec<String> {
    let names: Vec<&str> = given.reasons().iter().map(|reason| reason.name).collect();
    let Step { before, quantity, blocks } = given.step;
    let mut kinds: Vec<String> = match &names[..] {
        [alone] => vec![alone.to_string()],
        [first, others @ ..] => others.iter().map(|other| format!("{first} before {other}")).collect(),
        [] => vec![],
    };
    let met = match names[..] {
        ["3 quantity"] => vec![
            (quantity == 0, "3 quantity 0"),
            (quantity == given.n + 1, "3 quantity one past n"),
            ((1..=given.n as u32).contains(&(quantity as u32)), "3 quantity that is one in 32 bits"),
        ],
        ["3 blocks"] => vec![
            (blocks == given.n + 2, "3 blocks one past the end"),
            (blocks as u32 <= given.n as u32 + 1, "3 blocks that are few in 32 bits"),
        ],
        ["5"] => {
            let mut hidden = given.sheet().table;
            let mut own = (1..=given.n).filter(|&q| is_in(before, q)).chain([quantity]);
            let unseen = own.all(|q| naive::hide(given.n, q, &mut hidden));
            vec![
                (enumerated, "5 enumerated"),
                (blocks == 0, "5 with no block done"),
                (unseen, "5 that hiding these quantities does not show"),
            ]
        }
        _ => vec![],
    };
    kinds.extend(met.iter().filter(|(met, _)| *met).map(|(_, kind)| kind.to_string()));
    kinds
}

/// Of a step that is begun, and of its sums.
pub fn of_done(given: &Given, tables: &Tables) -> Vec<String> {
    let (n, Step { before, quantity, blocks }) = (given.n, given.step);
    let own = 1 << (quantity - 1);
    let all = naive::sums(quantity, &rules(n, &tables.begun_with));
    // bare sums go nowhere
    let put: Vec<(&Sum, usize, i64)> =
        all.iter().filter_map(|sum| sum.place_and_bound().map(|(place, bound)| (sum, place, bound))).collect();
    let goes = |block: usize| put.iter().any(|(sum, ..)| sum.block() == block);
    let [earlier, later] = [(1..=blocks.min(n)).any(goes), (blocks + 1..=n).any(goes)];
    let done: Vec<_> = put.iter().filter(|(sum, ..)| sum.block() <= blocks).collect();
    let was = |place: usize| tables.begun_with[place];
    let doubled = |sum: &Sum| sum.rest[0].is_some() && sum.rest[0] == sum.rest[1];
    let odd = |sum: &Sum| doubled(sum) && sum.bound.rem_euclid(2) == 1;
    let some =
        |such: &dyn Fn(&Sum, usize, i64) -> bool| done.iter().any(|(sum, place, bound)| such(sum, *place, *bound));
    let bare =
        |such: &dyn Fn(&Sum) -> bool| blocks > 0 && all.iter().any(|sum| sum.place_and_bound().is_none() && such(sum));
    let between =
        |block: usize| block != quantity && !goes(block) && (1..block).any(goes) && (block + 1..=blocks).any(goes);
    let others = u32::MAX >> (MOST_QUANTITIES - n) & !own;
    let kinds = [
        (n == 1, "of one quantity in all"),
        (n == MOST_QUANTITIES, "of the largest n"),
        (blocks == 0, "no block done"),
        (blocks == 1, "one block done"),
        (1 < blocks && blocks + 1 < n, "some blocks done"),
        (blocks + 1 == n, "all blocks but the last done"),
        (blocks == n, "all blocks done"),
        (blocks == n + 1, "at the end"),
        (blocks == quantity, "its own block the last that is done"),
        (blocks + 1 == quantity, "its own block the next"),
        (before == 0, "nothing hidden before"),
        (before.count_ones() > 1, "several hidden before"),
        (n > 2 && before == others, "all others hidden before"),
        (before != 0 && before < own, "higher than all before"),
        (before & !own & !(own - 1) != 0 && before & own == 0, "lower than some before"),
        (before & own != 0, "hidden before already"),
        (all.is_empty(), "no sum at all"),
        (!earlier && later, "sums for later blocks alone"),
        (earlier && later, "sums for blocks that are done and for later ones"),
        (goes(blocks + 1), "a sum for the next block"),
        ((1..blocks.min(n)).any(between), "a block between those with sums that has none"),
        (some(&|_, place, _| was(place) == NO_RULE), "a sum where there was no rule"),
        (some(&|_, place, bound| was(place) != NO_RULE && bound < was(place)), "a sum below a rule"),
        (some(&|_, place, bound| was(place) != NO_RULE && bound > was(place)), "a sum above a rule"),
        (some(&|_, place, bound| bound == was(place)), "a sum at a rule's own bound"),
        (
            some(&|_, place, bound| bound > tables.words[place] && tables.words[place] < was(place)),
            "a sum above another sum",
        ),
        (some(&|sum, _, _| sum.rest.contains(&None)), "a sum with a lone rule"),
        (bare(&|sum| sum.rest == [None, None]), "a sum of two lone rules"),
        (bare(&|sum| sum.rest != [None, None]), "a sum whose rest cancels"),
        (some(&|sum, _, _| doubled(sum)), "a doubled sum"),
        (some(&|sum, _, _| odd(sum)), "a doubled sum that is odd"),
        (some(&|sum, _, bound| odd(sum) && bound < 0), "a doubled sum that is odd and below 0"),
        (largest_bound(&rules(n, &tables.words)) > LIMIT as u64, "a sum past a sheet's limit"),
    ];
    kinds.into_iter().filter(|(met, _)| *met).map(|(_, kind)| kind.to_string()).collect()
}

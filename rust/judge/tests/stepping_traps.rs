//! Is the judge of hiding steps worth believing? It accepts sums put in block by block, and refuses each of the traps.

mod wrong_stepping;

use judge::stepping::run;
use wrong_stepping::{Trap, Wrong};

const STEPS: u64 = 1_000;

/// Each trap with what the judge says of the first failure: that it stumbles over something else is not enough.
const TRAPS: [(Trap, &str); 70] = [
    // the order of blocks
    (Trap::SheetStays, "place 205: word -402502561 at the end, due 9223372036854775807"),
    (Trap::AllAtOnce, "place 926 is changed with block 1"),
    (Trap::OneFewer, "place 926: word 9223372036854775807 after block 22, 540724413 at the end"),
    (Trap::OneMore, "place 926 is changed with block 21"),
    (Trap::FromLast, "place 926 is changed with block 10"),
    (Trap::LaterFirst, "place 926 is changed with block 21"),
    (Trap::LastAlone, "place 926 is changed with block 23"),
    (Trap::PassedOver(1), "place 0: word 775, due -1"),
    (Trap::PassedOver(2), "place 3: word 0, due -1"),
    (Trap::OwnNotCounted, "place 926 is changed with block 21"),
    (Trap::LoneTermsAlone, "the key with the quantity: place 926: word 9223372036854775807, due 540724413"),
    (Trap::LowerBlock, "place 926 is changed with block 11"),
    (Trap::NextWritten, "place 2 is changed with block 1"),
    (Trap::PreviousWritten, "place 1 is changed with block 2"),
    // the sums
    (Trap::SumsOfSums, "the key with the quantity: place 18: word 220914214, due 9223372036854775807"),
    (Trap::LoneForgotten, "place 9: word 9223372036854775807, due -1"),
    (Trap::BarePut, "the key with the quantity: place 0: word 126976095, due 9223372036854775807"),
    (Trap::HalvesUp, "place 18: word 141, due 140"),
    (Trap::HalvesTowardZero, "the key with the quantity: place 2: word 0, due -1"),
    (Trap::NotHalved, "place 3: word -2, due -1"),
    (Trap::DoubledForgotten, "place 1: word 692, due 498"),
    (Trap::Overwrites, "place 4: word 1, due 0"),
    (Trap::OnlyWhereNone, "place 3: word 0, due -1"),
    (Trap::WithinLimit, "the key with the quantity: place 13: word 9223372036854775807, due 1999999998"),
    (Trap::SameSigns, "place 2: word 0, due 9223372036854775807"),
    // places that name the quantity
    (Trap::ClearedWithLast, "place 205 is changed with block 31"),
    (Trap::ClearedByBlock, "place 205: word 9223372036854775807, which was -402502561"),
    (Trap::ClearedAtOnce, "place 205 is changed with block 1"),
    (Trap::NeverCleared, "place 205: word -402502561 at the end, due 9223372036854775807"),
    (Trap::LoneKept, "place 2: word 87398723 at the end, due 9223372036854775807"),
    (Trap::OwnBlockCleared, "place 205: word -402502561 at the end, due 9223372036854775807"),
    // the set before
    (Trap::BeforeIgnored, "place 37: word 1000000000, due 9223372036854775807"),
    (Trap::BeforeDropped, "place 1: word 9223372036854775807, due 237752958"),
    (Trap::FirstOfBefore, "place 37: word 1000000000, due 9223372036854775807"),
    (Trap::OwnBefore, "place 205: word 9223372036854775807, due -402502561"),
    (Trap::LowerBefore, "place 37: word 1000000000, due 9223372036854775807"),
    (Trap::BitsMoved, "place 1: word 9223372036854775807, due 237752958"),
    // refusals
    (Trap::NeverFive, "reply 0 with value 0, due 5 with value 0"),
    (Trap::FiveOfHidden, "reply 0 with value 0, due 5 with value 0"),
    (Trap::FiveWithBlocks, "reply 0 with value 0, due 5 with value 0"),
    (Trap::BlocksMoved(1), "reply 0 with value 0, due 3 with value 0"),
    (Trap::BlocksMoved(-1), "reply 3 with value 0, due 0 with value 0"),
    (Trap::NarrowBlocks, "reply 0 with value 0, due 3 with value 0"),
    (Trap::QuantityZero, "reply 0 with value 0, due 3 with value 0"),
    (Trap::QuantityMoved(1), "reply 5 with value 0, due 3 with value 0"),
    (Trap::QuantityMoved(-1), "reply 3 with value 0, due 5 with value 0"),
    (Trap::NarrowQuantity, "reply 5 with value 0, due 3 with value 0"),
    (Trap::RefusesBefore, "reply 3 with value 0, due 5 with value 0"),
    (Trap::SetUnchecked, "reply 0 with value 0, due 3 with value 0"),
    (Trap::TableUnchecked, "reply 0 with value 0, due 3 with value 0"),
    (Trap::TableBehind, "reply 3 with value 0, due 5 with value 0"),
    (Trap::LimitBeforeLength, "reply 3 with value 0, due 6 with value 50"),
    (Trap::LimitFirst, "reply 3 with value 0, due 1 with value 0"),
    (Trap::AssignmentFirst, "reply 5 with value 0, due 3 with value 0"),
    (Trap::WorkspaceOfMarking, "reply 6 with value 36, due 5 with value 0"),
    (Trap::Accepts(0), "reply 0 with value 0, due 1 with value 0"),
    (Trap::Accepts(33), "reply 0 with value 0, due 1 with value 0"),
    (Trap::ValueBeside(0), "reply 0 with value 1, due 0 with value 0"),
    (Trap::ValueBeside(1), "reply 1 with value 1, due 1 with value 0"),
    (Trap::ValueBeside(3), "reply 3 with value 1, due 3 with value 0"),
    (Trap::ValueBeside(5), "reply 5 with value 1, due 5 with value 0"),
    // memory
    (Trap::TableLost(1), "table: a word changed that is not of its first 0"),
    (Trap::TableLost(3), "table: a word changed that is not of its first 0"),
    (Trap::TableLost(5), "table: a word changed that is not of its first 0"),
    (Trap::TableLost(6), "table: a word changed that is not of its first 0"),
    (Trap::WorkspaceLost(1), "workspace: a word changed that is not of its first 0"),
    (Trap::WorkspaceLost(3), "workspace: a word changed that is not of its first 0"),
    (Trap::WorkspaceLost(6), "workspace: a word changed that is not of its first 0"),
    (Trap::WritesPastTable, "table: a word changed that is not of its first 1922"),
    (Trap::WritesPastWorkspace, "workspace: a word changed that is not of its first 1922"),
];

#[test]
fn sums_put_in_block_by_block_are_accepted() {
    run::all(&Wrong(Trap::Nothing), 1, STEPS).unwrap_or_else(|failure| panic!("{failure}"));
}

#[test]
fn a_run_that_meets_nothing_fails() {
    let counts = run::random(&Wrong(Trap::Nothing), 1, 0).unwrap_or_else(|failure| panic!("{failure}"));
    assert_eq!(counts.all_met(), Err("no step was of the kind '1 n'".into()));
}

#[test]
fn each_trap_is_seen() {
    for (trap, said) in TRAPS {
        assert_eq!(seen(trap), said, "{trap:?}");
    }
}

/// What the judge says of the first failure, behind the step's number and before what is given.
fn seen(trap: Trap) -> String {
    let failure = run::random(&Wrong(trap), 1, STEPS).err().unwrap_or_else(|| panic!("{trap:?} goes unseen"));
    let (line, _) = failure.split_once("\nn=").unwrap_or_else(|| panic!("{failure}"));
    let (_, said) = line.split_once(": ").unwrap_or_else(|| panic!("{failure}"));
    said.to_string()
}

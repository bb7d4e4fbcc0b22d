//! The traps of a hiding step, one at a time.

/// The mistake that a library makes.
#[derive(Clone, Copy, PartialEq, Debug)]
pub enum Trap {
    Nothing,

    // the order of blocks
    /// the sheet's table is left as it is
    SheetStays,
    /// all sums are put in, whatever the number of blocks
    AllAtOnce,
    /// one block too few is done
    OneFewer,
    /// one too many
    OneMore,
    /// the last block is done first
    FromLast,
    /// of each two blocks the later is done before the earlier
    LaterFirst,
    /// only the last of the blocks is done
    LastAlone,
    /// this block is passed over until the end
    PassedOver(usize),
    /// the quantity's own block is not counted
    OwnNotCounted,
    /// blocks end after their lone terms
    LoneTermsAlone,
    /// a sum belongs to the block of its lower quantity
    LowerBlock,
    /// the first place of the next block is written
    NextWritten,
    /// the last place of the block before is written
    PreviousWritten,

    // the sums
    /// rules and sums that do not name the quantity are added as well
    SumsOfSums,
    /// lone rules are not added
    LoneForgotten,
    /// bare sums are put in at the first place
    BarePut,
    /// a doubled sum is rounded up
    HalvesUp,
    /// it is rounded toward 0
    HalvesTowardZero,
    /// it is not halved
    NotHalved,
    /// doubled sums are left out
    DoubledForgotten,
    /// the sum takes the place of a rule with a smaller bound
    Overwrites,
    /// a sum goes in only where there is no rule
    OnlyWhereNone,
    /// sums past a sheet's limit are left out
    WithinLimit,
    /// a lone rule with +quantity counts for the other quantities as well
    SameSigns,

    // places that name the quantity
    /// they are cleared with the last block
    ClearedWithLast,
    /// each block clears its own
    ClearedByBlock,
    /// they are cleared at once
    ClearedAtOnce,
    /// they are not cleared at the end
    NeverCleared,
    /// the lone rules stay at the end
    LoneKept,
    /// only the quantity's own block is cleared
    OwnBlockCleared,

    // the set before
    /// nothing is hidden before
    BeforeIgnored,
    /// the rules that name the set are dropped and not added
    BeforeDropped,
    /// only the lowest quantity of the set is hidden
    FirstOfBefore,
    /// the quantity is hidden before as well
    OwnBefore,
    /// only quantities below the one of the step are hidden before
    LowerBefore,
    /// the set's bits begin at quantity 2
    BitsMoved,

    // refusals
    /// a sheet without an assignment has tables all the same
    NeverFive,
    /// 5 is seen by hiding these quantities alone
    FiveOfHidden,
    /// 5 is looked for where a block is done only
    FiveWithBlocks,
    /// so many more blocks are let through
    BlocksMoved(isize),
    /// of the number of blocks only the lower 32 bits count
    NarrowBlocks,
    /// quantity 0 is let through
    QuantityZero,
    /// so many more quantities are let through
    QuantityMoved(isize),
    /// of the quantity only the lower 32 bits count
    NarrowQuantity,
    /// a quantity of the set before is refused
    RefusesBefore,
    /// bits past n are let through
    SetUnchecked,
    /// the table's bounds are not checked
    TableUnchecked,
    /// the limit is tested on words behind the table too
    TableBehind,
    /// 3 before 6
    LimitBeforeLength,
    /// 3 before 1
    LimitFirst,
    /// 5 before 3
    AssignmentFirst,
    /// the length of a workspace for marking is needed
    WorkspaceOfMarking,
    /// this n is accepted where there is room
    Accepts(usize),
    /// 1 stands beside this number, with which the value is 0
    ValueBeside(u32),

    // memory
    /// the table is changed though this is the reply
    TableLost(u32),
    /// the workspace is changed though this is the reply
    WorkspaceLost(u32),
    /// one word past the table's 2n² is written
    WritesPastTable,
    /// one word past the workspace's 2n² is written
    WritesPastWorkspace,
}

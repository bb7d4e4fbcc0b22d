//! The traps, one at a time.

/// The mistake that a library makes.
#[derive(Clone, Copy, PartialEq, Debug)]
pub enum Trap {
    Nothing,

    // hiding
    /// -1 halved is 0
    RoundsTowardZero,
    /// one-quantity rules are forgotten when pairing
    ForgetsLoneRules,
    /// the hidden quantity's lone rules stay
    KeepsLoneRules,
    /// 'no assignment' is decided on the hidden quantities only
    DecidesOnHiddenOnly,
    /// the first hidden quantity is removed, the others are merely blanked
    HidesFirstOnly,
    /// the key has no rules
    EmptyKey,
    /// the key is the sheet
    SheetAsKey,
    /// 5 before any pair is added
    AlwaysFive,
    /// no sheet is without an assignment
    NeverFive,
    /// hiding goes from the last quantity to the first: the same meaning, other words
    HidesDownward,

    // the tightest key
    /// the plain key is handed out
    PlainForTight,
    /// hidden quantities are tightened with the others and stay
    TightensHidden,
    /// two lone bounds are not added
    NeverStrengthens,
    /// lone bounds are added before anything is paired
    StrengthensFirst,
    /// lone bounds are added, and nothing is paired
    StrengthensOnly,
    /// the last visible quantity is not paired
    PairsAllButLast,
    /// the rules of a quantity are emptied once they are paired
    EmptiesPaired,
    /// a bound past this magnitude is left out
    LeavesOut(i64),
    /// a rule that another two of its quantities' lone rules give is left out
    LeavesOutLone,
    /// a bound past the limit is brought to the limit
    BringsToLimit,
    /// the first bound is one above the least
    OneAbove,
    /// the first bound is one below the least
    OneBelow,
    /// a visible term without a bound has a rule nevertheless
    BoundsAll,

    // refusals
    /// the limit is tested before the lengths
    LimitFirst,
    /// the limit is not tested on the last word
    LimitSkipsLast,
    /// the bounds that are within the limits
    Limits {
        least: i64,
        most: i64,
    },
    /// the least of all words is let through, for its magnitude wraps to itself
    LeastWordPasses,
    /// a hidden quantity past n is let through
    HiddenUntested,
    /// this n is accepted where 2n² words are lent, 2n² being what is left of it in 64 bits
    Accepts(usize),
    /// of n only the lower 32 bits count
    NarrowsN,
    /// the assignment's length is given though the workspace is short too
    AssignmentBeforeWorkspace,
    /// the length of the table lent is given for the workspace, not the length needed
    TableLengthAsNeeded,
    /// 1 stands beside this number, with which the value is 0
    ValueBeside(u32),

    // memory
    /// the table is changed though this is the reply
    TableLost(u32),
    /// the workspace is changed though this is the reply
    WorkspaceLost(u32),
    /// values are changed though this is the reply
    ValuesLost(u32),
    /// one word past the table's own is written
    WritesPastTable,
    /// one word past the workspace is written
    WritesPastWorkspace,
    /// one word past the n-th value is written
    WritesPastValues,

    // integers
    /// an assignment of zeros
    Zeros,
    /// a quantity that no rule names gets this integer
    PutsFree(i64),

    // state
    /// each second time other integers are found, if there are any
    OtherIntegersNextTime,
    /// the words of a call are lost while another is under way
    MixesCalls,
    /// a call is refused while another is under way
    RefusesSecondCaller,
}

//! The traps of questions to one sheet, one at a time.

/// The mistake that a library makes.
#[derive(Clone, Copy, PartialEq, Debug)]
pub enum Trap {
    Nothing,

    // the answer to a question
    /// this on every question
    Always(bool),
    /// a bound has to be above the least one
    Below,
    /// one below the least bound is enough
    OneBelow,
    /// the sheet's own word is taken, and not the tightest table's
    OwnWord,
    /// these quantities are hidden
    Hides(u32),
    /// a least bound past the limit is brought to it
    WordWithinLimit,
    /// where a term has no bound the answer is yes
    UnboundedIsYes,
    /// a doubled term's bound is rounded up
    HalvesUp,
    /// it is rounded toward 0
    HalvesTowardZero,
    /// it is not halved
    NotHalved,
    /// every bound is halved
    HalvesAll,
    /// a doubled term is answered no
    DoubledIsNo,
    /// only the first quantity counts
    SecondIgnored,
    /// only the second one does, where there is one
    FirstIgnored,
    /// where the higher quantity stands first, the two change places and their signs do not
    SignsStay,
    /// where the higher quantity stands first, the answer is no
    HigherFirstIsNo,

    // the list
    /// the last question has bit 0
    FromLast,
    /// the first question has bit 63
    FromTop,
    /// it has bit 1
    FromOne,
    /// all questions have the first one's answer
    FirstForAll,
    /// the 64th question has no bit
    LastBitLost,
    /// bits above 31 are lost
    NarrowAnswers,
    /// bits of no question are set
    BitsAbove,
    /// bits that were set stay set
    OldBits,

    // refusals
    /// a sheet without an assignment implies everything
    NeverFive,
    /// this is the most questions
    Most(usize),
    /// no question is answered by no bits
    NoneIsDone,
    /// of the number of questions only the lower 8 bits count
    NarrowCount,
    /// a list that does not end with a whole question is refused with 8
    WholeOnly,
    /// one or two words at the end are a question
    PartIsQuestion,
    /// words behind the last question are looked at
    LooksBehind,
    /// the last question is not checked
    LastUnchecked,
    /// only the first question is checked
    FirstChecked,
    /// each question is checked by itself, the first that is at fault decides
    FirstAtFault,
    /// the largest magnitude of a bound is larger by so much
    BoundMoved(i64),
    /// a doubled term's bound is checked when it is halved
    HalvedChecked,
    /// as many quantities more may be named
    QuantityMoved(i64),
    /// of a negative quantity only the sign is checked
    MinusUnchecked,
    /// of the second quantity nothing is checked
    SecondUnchecked,
    /// of a quantity only the lower 32 bits count
    NarrowQuantity,
    /// a first quantity of 0 is let through
    NoFirst,
    /// a second quantity of 0 is refused
    NeedsSecond,
    /// a question that cancels is answered
    PassesCancelled,
    /// a doubled term cancels
    DoubledCancels,
    /// the table's bounds are not checked
    TableUnchecked,
    /// the limit is tested on words behind the table too
    TableBehind,
    /// 8 before 1
    ListFirst,
    /// 6 before 8
    LengthBeforeList,
    /// 3 before 6
    LimitBeforeLength,
    /// 4 before 3
    CancelledFirst,
    /// 5 before 3
    AssignmentFirst,
    /// 5 before 4
    AssignmentBeforeCancelled,
    /// the length of a workspace for marking is needed
    WorkspaceOfMarking,
    /// the length of the list is given beside 6
    ListAsNeeded,
    /// this n is accepted where there is room
    Accepts(usize),
    /// 1 stands beside this number, with which the value is 0
    ValueBeside(u32),

    // memory
    /// the answers are cleared though this is the reply
    AnswersLost(u32),
    /// the workspace is changed though this is the reply
    WorkspaceLost(u32),
    /// one word past the workspace's 2n² is written
    WritesPastWorkspace,
    /// the workspace is left as it was
    WorkspaceLeft,
    /// the workspace holds the sheet
    WorkspaceIsSheet,
}

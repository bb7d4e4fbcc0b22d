//! The traps of bank reading, one at a time.

/// The mistake that a library makes.
#[derive(Clone, Copy, PartialEq, Debug)]
pub enum Trap {
    Nothing,

    // how a rule is spelled
    /// a doubled term is taken for its half
    DoubledAccepted,
    /// a doubled term is refused only where it is not after the rule before
    DoubledByPlace,
    /// only -q-q is seen as doubled
    DoubledPlus,
    /// the higher quantity may come first
    HigherFirstAccepted,
    /// it may come first where the two have different signs
    HigherFirstBySigns,
    /// quantities are compared with their signs
    SignsCompared,
    /// they are compared as numerals, so that 10 is below 9
    NumeralsCompared,
    /// the first rule may be spelled in any way
    FirstInAnyForm,

    // the order of rules
    /// any order
    AnyOrder,
    /// a rule is compared with the first one and not with the one before
    AfterFirst,
    /// a rule is compared with the one before that before it
    AfterLastButOne,
    /// the same place may come again
    EqualAccepted,
    /// it may with the same bound
    EqualBoundAccepted,
    /// it may with a bound that is not smaller
    IdleAccepted,
    /// it may with a smaller bound
    SmallerAccepted,
    /// the opposite order
    Backward,
    /// the lower quantity decides, then the higher one, then the place
    ByQuantities,
    /// only the higher quantity decides
    ByHigher,
    /// each rule has a higher quantity of its own
    BlocksOnce,
    /// the bytes of the terms decide
    ByBytes,
    /// rules of one quantity come behind those of two
    LoneLast,
    /// - comes before +
    MinusFirst,
    /// -p+q comes before +p-q
    LowerSignLast,
    /// of places only 8 bits count
    NarrowPlaces,
    /// only every second rule is compared
    EverySecond,
    /// the last rule is not compared
    LastUnchecked,
    /// a first rule at the first place is refused
    FirstPlaceRefused,
    /// the place behind that of the rule before is refused
    NeighbourRefused,
    /// only that place is not refused
    NeighbourAlone,
    /// the last place of one call counts for the next call
    PlaceKept,

    // refusals
    /// ordinary reading
    Ordinary,
    /// every text is read, as what it says or not at all
    AcceptsAll,
    /// 9 at the first rule of every text
    RefusesAll,
    /// 9 comes before this number on one line
    Before(u32),
    /// 9 is looked for where ordinary reading finds nothing else
    AfterAll,
    /// 9 comes after this refusal
    After(&'static str),
    /// 9 at a later line comes before what an earlier one is refused with
    Earliest,
    /// the last rule that is out of order is named
    LastOut,
    /// 9 is told as this number
    Told(u32),
    /// 9 names a line so many behind
    LineMoved(isize),
    /// 9 names the rule's number and not its line
    RuleNumber,
    /// 9 names no line
    NoLine,
    /// bounds may be as large as a script's
    ScriptLimit,
    /// a table that is too short gives 1
    ShortIsSize,
    /// with 6 stands the length for 32 quantities
    RoomForAll,
    /// 1 stands beside this number, with which the value is another
    ValueBeside(u32),
    /// 1 where another thread calls at the same time
    RefusesSecondCaller,

    // memory
    /// with 9 the rules before are put in already
    FilledUntil,
    /// with 9 the table is emptied
    Emptied,
    /// the table is changed though this is the reply
    TableLost(u32),
    /// n is changed though this is the reply
    QuantitiesLost(u32),
    /// the hidden set is changed though this is the reply
    HiddenLost(u32),
    /// places without a rule are not written
    LeavesPlaces,
    /// one word past the table's own is written
    WritesPastTable,
    /// n is not written
    LeavesQuantities,
    /// the hidden set is not written
    LeavesHidden,
    /// the last rule is not put in
    LastLost,
}

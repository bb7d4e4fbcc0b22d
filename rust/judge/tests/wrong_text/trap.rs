//! The traps of the calls on texts, one at a time.

/// The mistake that a library makes.
#[derive(Clone, Copy, PartialEq, Debug)]
pub enum Trap {
    Nothing,

    // what a text is taken for
    /// these bytes are read as if they were those
    Takes(&'static str, &'static str),
    /// numerals with leading zeros are read without them
    LeadingZeros,
    /// a last line without its end is read as if it had one
    EndsLastLine,
    /// hidden quantities are sorted, and those named twice taken once
    SortsList,
    /// numbers of the hidden list that fit no 64-bit word are all the same
    CapsList,
    /// of numbers only so many bits count
    Wraps(u32),

    // refusals of a reading
    /// 2 at line 1 of every text
    RefusesAll,
    /// 3 comes before 2 on one line
    LimitBeforeForm,
    /// 4 comes before 3 on one line
    CancelsBeforeLimit,
    /// 4 comes before 2 on one line
    CancelsBeforeForm,
    /// lines are counted from 0
    LinesFromZero,
    /// this kind of refusal names the line before
    LineBefore(&'static str),
    /// quantities up to 32 are accepted whatever n is
    LimitsByMost,
    /// the number of a second quantity is not compared with n
    SecondUnlimited,
    /// a quantity that cancels itself is no rule at all
    PassesCancelling,
    /// bytes behind the last rule are not looked at
    PassesBehind,
    /// so many bytes are too many for a text
    MostBytes(usize),
    /// a table that is too short is seen before the rules
    TableFirst,
    /// a table that is too short gives 1
    ShortIsSize,
    /// with 6 stands the length that is lent
    LentWords,
    /// with 6 stands the length for 32 quantities
    RoomForAll,

    // what a reading leaves
    /// a doubled term keeps its bound
    NotHalved,
    /// -1 halved is 0
    HalvedTowardZero,
    /// the limit of a doubled term's bound is on its half
    LimitOnHalf,
    /// of two bounds the larger one stays
    KeepsLarger,
    /// of two bounds the later one stays
    KeepsLater,
    /// where the higher quantity comes first the signs stay where they are
    SignsStay,
    /// places without a rule are not written
    LeavesPlaces,
    /// the last hidden quantity is lost at 32
    LosesLastHidden,
    /// n is not written
    LeavesQuantities,
    /// the table is changed though this is the reply
    TableLost(u32),
    /// n is changed though this is the reply
    QuantitiesLost(u32),
    /// the hidden set is changed though this is the reply
    HiddenLost(u32),
    /// one word past the table's own is written
    WritesPastTable,

    // what is written
    /// this is printed in the place of that
    Prints(&'static str, &'static str),
    /// the higher quantity stands first
    HigherFirst,
    /// rules stand in the opposite order
    RulesBackward,
    /// hidden quantities stand in the opposite order
    ListBackward,
    /// the rule of the first place is left out
    SkipsFirstPlace,
    /// the rule of the last place is left out
    SkipsLastPlace,
    /// N is the number of places
    CountsPlaces,
    /// N is one too large
    CountsOneMore,
    /// bounds outside the sheet's limit are left out
    SkipsPastLimit,

    // refusals of a writing
    /// words outside the sheet's limit are refused with 3
    RefusesPastLimit,
    /// texts that are too long to be read are refused with 1
    RefusesLongText,
    /// 3 comes before 1
    HiddenBeforeSize,
    /// 6 comes before 3
    ShortBeforeHidden,
    /// a hidden quantity past n is not seen
    PassesHidden,
    /// the hidden set is shifted by n of its 32 bits, that is by 0 at 32
    ShiftsByBits,
    /// this n is accepted
    Accepts(usize),
    /// of n only the lower 32 bits count
    NarrowsN,
    /// a table that is too short is read as if it had no more rules
    PassesShortTable,
    /// an output of just the length needed is too short
    NeedsOneMore,
    /// with 6 stands the length that is lent
    LentBytes,

    // what a writing leaves
    /// the output is changed though this is the reply
    OutputLost(u32),
    /// with 6 as much is written as there is room for
    WritesPart,
    /// one byte past the text is written
    WritesPastText,
    /// no length is given
    NoLength,

    // of both calls
    /// 1 stands beside this number, with which the value is 0
    ValueBeside(u32),
    /// a call is refused while another is under way
    RefusesSecondCaller,
}

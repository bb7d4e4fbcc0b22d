//! The traps of marking with reasons, one at a time.

/// The mistake that a marker makes.
#[derive(Clone, Copy, PartialEq, Debug)]
pub enum Trap {
    Nothing,

    // the paper
    /// sheet and script are exchanged
    PapersExchanged,
    /// 7 is the script's
    SevenOfScript,
    /// 6 is the sheet's
    SixOfSheet,
    /// no paper is written with a verdict
    NoPaperWithVerdict,

    // the value
    /// always 0
    ValueDropped,
    /// nothing is written with a verdict
    NoValueWithVerdict,
    /// lines are counted from 0
    LinesFromZero,
    /// 7 has the line of the first rule
    LineOfSeven,
    /// the length needed is 2n
    LengthTwice,
    /// the length lent in the place of the one needed
    LengthLent,
    /// the length is what is missing
    LengthMissing,

    // n
    /// never written
    NoN,
    /// not written where the script is equal
    NoNWhenEqual,
    /// written with 6 and 7 too
    NWhenRefused,
    /// the words lent in the place of n
    NLent,

    // the rule
    /// each sign is the other one
    SignsExchanged,
    /// the higher quantity stands first
    HigherFirst,
    /// the bound is the least that follows from the sheet, and not the key's
    LeastBound,
    /// the rule is one of the tightest key
    OfTightKey,
    /// of the rules that can be broken the last is named
    LastBroken,
    /// the first rule of the list is named, can it be broken or not
    FirstListed,
    /// a bound past the sheet's limits is brought to the limit
    WithinLimits,
    /// a lone term is doubled, and its bound
    Doubled,
    /// where there is no rule the bound is a table's word for none
    NoRuleWord,
    /// where there is no rule nothing is written
    NoRuleUnwritten,
    /// the words of no rule are written where the script is equal
    RuleWhenEqual,
    /// and where the call is refused
    RuleWhenRefused,

    // the integers
    /// zeros are written where the script is equal
    ValuesWhenEqual,
    /// zeros are written where the call is refused
    ValuesWhenRefused,
    /// the word behind the last integer is written too
    ValuesPastN,
    /// the last integer of a tight verdict is not written
    LastUnwritten,
    /// the hidden integers of a loose verdict are 1
    HiddenOne,
    /// the hidden integers of a tight verdict are 0
    HiddenZero,
    /// all of a loose verdict are 0
    Zeros,
    /// every second call has others, which show the verdict too
    Others,

    // the order of refusals
    /// the words are counted before the script is read
    SixBeforeScript,
    /// and after the papers are compared
    SixAfterSeven,
    /// too few words are no matter where none is written
    SixWhereWritten,
    /// too few words are no matter
    NoSix,
    /// the words are counted by the script's n
    SixByScript,
    /// the words for the largest sheet are asked for
    SixByLargest,
}

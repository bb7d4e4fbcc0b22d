//! The traps of the programs, one at a time.

/// The mistake that a program makes.
#[derive(Clone, Copy, PartialEq, Debug)]
pub enum Trap {
    Nothing,

    // the rule of a verdict
    /// the first rule of the list is named, can it be broken or not
    FirstListed,
    /// of the rules that can be broken the last is named
    LastBroken,
    /// for loose a rule of the sheet is named, one that can be broken, where there is such a rule of visible quantities
    RuleOfSheet,
    /// the rule of a loose verdict is one of the tightest key
    RuleOfTightKey,
    /// the higher quantity stands first
    HigherFirst,
    /// a bound past the sheet's limits is brought to the limit
    WithinLimits,
    /// where there is no rule there is no line for one
    NoEmptyRule,

    // the integers of a verdict
    /// they break another rule than the one that is named
    OtherBroken,
    /// the opposite of t <= c is taken for -t <= -c
    OppositeAtBound,
    /// the hidden integers of a loose verdict are 1
    HiddenOne,
    /// the hidden integers of a tight verdict are 0
    HiddenZero,
    /// only the visible integers are printed
    VisibleOnly,
    /// a minus is left out
    NoMinus,

    // refusals
    /// lines are counted from 0
    LinesFromZero,
    /// every refusal is the script's
    AlwaysScript,
    /// 7 is the script's
    ScriptForBoth,
    /// no paper is named
    NoPaper,

    // what *key* prints
    /// the sheet's rules that name no hidden quantity
    VisibleRules,
    /// the sheet as it is
    NothingHidden,
    /// the plain key
    PlainKey,
    /// a refusal without a line, where that is 0
    NoLineZero,

    // of both programs
    /// the last line has no end
    NoLastEnd,
}

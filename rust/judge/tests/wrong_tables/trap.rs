//! The traps of marking two tables, one at a time.

/// The mistake that a library makes.
#[derive(Clone, Copy, PartialEq, Debug)]
pub enum Trap {
    Nothing,

    // the verdict
    /// this number on every script that is accepted
    Always(u32),
    /// loose and tight are exchanged
    Exchanged,
    /// the script is compared with the sheet's rules of visible quantities, and not with the key
    VisibleRules,
    /// a sheet without an assignment is refused with 5
    NoSheetFive,

    // limits
    /// a script's words may be as large as a sheet's
    ScriptAsSheet,
    /// a sheet's words may be as large as a script's
    SheetAsScript,
    /// the script's limit is doubled for every quantity, hidden or not
    LimitByN,
    /// the script's limit is doubled once where something is hidden
    LimitDoubledOnce,
    /// it is larger by so much
    LimitMoved(i64),
    /// the limit is not tested on the script's last word
    LimitSkipsLast,
    /// the limit is tested on the words behind the script's table too
    LimitTestsBehind,
    /// a hidden quantity past n is let through
    HiddenUntested,
    /// a rule of the script that names a hidden quantity is passed over
    PassesNamed,

    // the order of refusals
    /// 7 before 3
    SevenFirst,
    /// 3 before 6
    LimitBeforeLength,
    /// the values before the workspace
    ValuesFirst,
    /// the workspace of a key is enough
    WorkspaceOfKey,
    /// the length that a key needs is given beside 6
    LengthOfKey,
    /// only the sheet's table is counted
    ScriptUncounted,
    /// this n is accepted where there is room
    Accepts(usize),
    /// 1 stands beside this number, with which the value is 0
    ValueBeside(u32),

    // the rule
    /// never written
    RuleUnwritten,
    /// first and second quantity are exchanged
    RuleExchanged,
    /// the bound stands first
    BoundFirst,
    /// a bound past a sheet's limit is brought to it
    RuleWithinLimit,
    /// where there is no rule the bound is a table's word for none
    NoRuleWord,
    /// written where the script is equal
    RuleWhenEqual,
    /// written where the call is refused with this number
    RuleWhenRefused(u32),

    // memory
    /// zeros are written to the values though this is the number
    ValuesLost(u32),
    /// the word behind the last integer is written too
    ValuesPastN,
    /// the hidden integers of a loose verdict are 1
    HiddenOne,
    /// all integers of a tight verdict are 0
    Zeros,
    /// every call has others, which show the verdict too
    Others,
    /// the workspace is changed though this is the number
    WorkspaceLost(u32),
    /// the word behind the workspace's 4n² is written too
    WritesPastWorkspace,
}

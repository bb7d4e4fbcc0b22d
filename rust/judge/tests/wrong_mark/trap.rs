//! The traps of marking two texts, one at a time.

/// The mistake that a marker makes.
#[derive(Clone, Copy, PartialEq, Debug)]
pub enum Trap {
    Nothing,

    // the verdict as a number
    /// this verdict on every script that is accepted
    Always(u32),
    /// a script that is both too wide and too narrow is tight
    TightFirst,
    /// loose and tight are exchanged
    Exchanged,

    // what a script is compared with
    /// the sheet's rules in the place of the key's, hidden quantities being free
    SheetForKey,
    /// the sheet's rules that name no hidden quantity
    VisibleRules,
    /// a key from which only the first hidden quantity is removed, the others are merely blanked
    HidesFirstOnly,
    /// the key's words, and not what they mean
    Words,
    /// terms of one quantity alone
    LoneTerms,
    /// quantity 32 is never hidden
    LastShown,
    /// a key without the rules whose bounds are past a sheet's limit
    KeyWithinLimit,

    // how it is compared
    /// the opposite of t <= c is -t <= -c: a rule that is just met is taken for broken
    OppositeAtBound,
    /// the opposite of t <= c is -t <= -c - 2: a rule that is broken by one is taken for met
    OppositePastBound,
    /// the same two mistakes with the script's rules
    TightAtBound,
    TightPastBound,
    /// fractions in the place of integers
    Fractions,
    /// the same on tables in which doubled terms are halved
    FractionsOfTables,

    // doubled terms and repeated places
    /// -1 halved is 0
    HalvedTowardZero,
    /// a doubled term keeps its bound
    NotHalved,
    /// of two bounds the later one stays
    KeepsLater,

    // papers without an assignment
    /// this number for every sheet without an assignment
    NoSheet(u32),
    /// this number for every script without an assignment
    NoScript(u32),
    /// equal where all quantities are hidden
    EqualWhenHidden,

    // refusals
    /// the script is checked before the sheet
    ScriptFirst,
    /// of two refusals the smaller number is given
    SmallerFirst,
    /// the script's header is compared before its lines are read
    HeaderFirst,
    /// a sheet without an assignment is marked before the papers are compared
    VerdictFirst,
    /// a script with another n passes
    PassesN,
    /// a script with another hidden list passes
    PassesHidden,
    /// a rule that names a hidden quantity passes
    PassesRule,
    /// a doubled rule that names a hidden quantity passes
    PassesDoubledRule,

    // how large a bound may be
    /// a sheet's bounds may be as large as a script's
    SheetAsScript,
    /// a script's may be as large as a sheet's
    ScriptAsSheet,
    /// the script's limit goes by the sheet's hidden list
    LimitBySheet,
    /// it is doubled for every quantity, hidden or not
    LimitByN,
    /// it is doubled once where something is hidden
    LimitDoubledOnce,
    /// it is doubled as often as the last hidden quantity says
    LimitByLast,
    /// it is a number of 32 bits
    LimitIn32Bits,
    /// it is larger by so much
    LimitMoved(i64),
    /// a doubled term is halved before its bound is held against the limit
    LimitHalved,
    /// negative bounds have the sheet's limit
    NegativeAsSheet,

    // state
    /// the verdict of the call before where the sheet is as long as it was
    Remembers,
    /// a call is refused while another is under way
    RefusesSecondCaller,
}

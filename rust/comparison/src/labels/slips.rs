//! What programs do wrong that judge by labels, and that the suites are to catch.

use crate::slips::slips;

slips! {
    // in what a left label asks of a right one
    ExistentialsAskNothing,
    UniversalsAskNothing,
    /// An existential restriction of everything asks nothing.
    TopAsksNothing,
    /// A universal restriction of nothing asks nothing.
    BottomAsksNothing,
    /// Restrictions ask where the left label has them and where it lacks them.
    AllAsk,
    /// Restrictions past the sixth part ask nothing.
    LowPartsAsk,

    // in what it asks for the way back
    NothingBack,
    NoExistentialsBack,
    NoUniversalsBack,
    /// By the roles of the way ahead.
    NotInverted,
    /// The low half of a role set and the high one are exchanged.
    InvertedByHalves,
    NoLabelHasTop,
    EachLabelHasBottom,

    // in the labels that have and lack what is asked
    /// Parts past the sixth do not count.
    LowPartsAlone,
    LastWordLeftOut,

    // in the role inclusions
    WithoutInclusions,
    /// The inverse of a role set need not meet them.
    InverseNotTested,
    /// It must in the initial set too.
    InverseTestedAtFirst,

    // in witnesses
    NoneForExistentials,
    NoneForUniversals,
    OnAnyRoleSet,
    /// Only on one of the first sixteen.
    OnFirstRoleSets,
    OfAnyFiller,
    /// The way back does not count.
    OneWay,
    NoSweep,
    OneSweep,
    TwoSweeps,

    // in the size of the initial set
    BothWaysAtFirst,
    OfLiveLabels,
    OfAllLabels,
    /// A part asked for and asked away counts twice.
    ClashesCounted,

    // in what is left
    AllOnLeft,
    AllOnRight,
    WrittenOneWay,
    LastRoleSetLeftOut,
    WordsNotCleared,
    SurvivorsAsOpened,
    MetAsOpened,
    WordsPastCleared,
    ClearedWhereShort,
}

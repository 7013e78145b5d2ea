//! What programs do wrong that draw plants, and that the suites are to catch.

use crate::slips::slips;

slips! {
    // in the layers and what joins them
    TwoLayers,
    FourLayers,
    /// The last layer is not joined to the first.
    NoWayRound,
    /// Each layer is joined to itself.
    WithinLayers,
    NoInverses,
    /// The way back has the roles of the way ahead.
    NotInverted,
    /// The roles of the survivor that is joined, for those of the one that joins it.
    RolesOfJoined,
    /// The low half of a role set for the roles, the high one for their inverses.
    RolesInHalves,
    LastRoleLeftOut,
    /// Joined where the left labels are the same, the right ones, or any.
    LeftWithLeft,
    RightWithRight,
    AnyLabels,

    // in the individuals
    LeftLabels,
    WithRestrictions,
    WithoutFresh,
    FirstLeftOut,
    LastLeftOut,
    FallingOrder,
    /// The individuals of a survivor one after another.
    LayersByTurns,

    // in the records
    ByToBeforeFrom,
    ByRoleBeforeTo,
    /// To the layer ahead and then back, or back and then ahead, where the other comes
    /// first.
    AheadFirstInMiddle,
    BackFirstInFirst,
    BackFirstInLast,
    /// After each individual its connections.
    ConnectionsAmong,
    Twice,
    NamesHighFirst,
    NamesLowAlone,
    NumbersHighFirst,
    NumbersLowAlone,

    // in the refusals
    Draws342,
    Refuses341,
    /// 21 for no room at all before 26 and 27.
    NoRoomFirst,
    /// 21 for an output that is just long enough.
    ExactIsShort,
    UnmetIsEmpty,
    /// 21 with the length as its place, 27 with the number of survivors.
    LengthForPlace,
    SurvivorsForPlace,
    /// 10 for no words at all before the refusals of the sheet.
    NoWordsFirst,

    // in what is left
    OnlyOpened,
    WithoutInclusions,
    UnjudgedWhereUnmet,
    UnjudgedWhereMany,
    UnjudgedWhereShort,
    ClearedWhereMany,
    ClearedWhereFewWords,
    SpareBitsKept,
    WordsPastCleared,
    WrittenBeforeTest,
    IndividualsBeforeTest,
    OutClearedWhereMany,
    BytesPastCleared,
}

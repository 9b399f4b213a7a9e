//! What a run has to meet in each call; a run that never met one of these fails.

use model::{Call, Event, Event::*, Field};

/// The rules of the steps.
const RULES: [Event; 26] = [
    InputRequest,
    ConstantRequest,
    AddFold,
    AddZeroFirst,
    AddZeroSecond,
    AddCancelFirst,
    AddCancelSecond,
    AddNegFirst,
    AddNegSecond,
    AddPlain,
    SubFold,
    SubZero,
    SubSame,
    SubAddFirst,
    SubAddSecond,
    SubSub,
    SubNeg,
    SubPlain,
    MulFold,
    MulZeroFirst,
    MulZeroSecond,
    MulOneFirst,
    MulOneSecond,
    MulPlain,
    NegFold,
    NegPlain,
];

/// What interning and handing on can come to.
const INTERNING: [Event; 5] = [BothNeg, Swapped, Appended, Found, HandedFar];

/// The choices between forms.
const CHOICES: [Event; 11] = [
    NoColumns,
    ZeroColumn,
    EqualColumn,
    RepeatedColumn,
    SeveralPeriods,
    ElevenTerms,
    StaysBehind,
    OffsetTaken,
    OffsetTied,
    TiedClasses,
    SixteenLongest,
];

/// The corners of lowering.
const LOWERING: [Event; 9] = [
    MinusOneClass,
    FoundOfSeveral,
    LandsOnLimit,
    OneOver,
    ResultExact,
    ResultShort,
    PeriodLongest,
    PeriodMost,
    ZkPresent,
];

/// The rewrites and what becomes of rounds.
const ROUNDS: [Event; 23] = [
    FactorAdd00,
    FactorAdd01,
    FactorAdd10,
    FactorAdd11,
    FactorSub00,
    FactorSub01,
    FactorSub10,
    FactorSub11,
    RotateAdd00,
    RotateAdd01,
    RotateAdd10,
    RotateAdd11,
    RotateMul00,
    RotateMul01,
    RotateMul10,
    RotateMul11,
    LaterPlace,
    UnreachableRewrite,
    Discarded,
    ShorterUnfired,
    TwoRounds,
    ManyRounds,
    LongRound,
];

/// Roots at one place, and what refusing roots comes behind and before.
const ROOTS: [Event; 6] =
    [RootsTogether, ListFirst, RecordFirst, OperandFirst, RootsFirst, StoresBehind];

/// What a drawing can have, and how long its text store can be.
const DRAWING: [Event; 20] = [
    DrawnInput,
    DrawnConstant,
    DrawnAdd,
    DrawnSub,
    DrawnMul,
    DrawnNeg,
    DrawnTwice,
    DrawnOne,
    DrawnMost,
    FirstZero,
    FirstOne,
    FirstHalf,
    FirstPastHalf,
    FirstMinusOne,
    SecondZero,
    TextExact,
    TextOneMore,
    TextManyMore,
    TextOneShort,
    TextEmpty,
];

/// What a drawing can have where an element has a second coordinate.
const SECOND: [Event; 4] = [SecondOne, SecondHalf, SecondPastHalf, SecondMinusOne];

/// What refuses a list whose text store is too short as well.
const BEFORE_TEXT: [Event; 8] = [
    CountFirst,
    StoreFirst,
    TagFirst,
    WordFirst,
    LateFirst,
    RootFirst,
    RootCountFirst,
    NoFieldFirst,
];

/// What an emitted list and its layout can have, and how long its result store can be.
const EMITTING: [Event; 32] = [
    LayoutNone,
    LayoutOne,
    LayoutTwo,
    LayoutMost,
    LayoutOver,
    LayoutWraps,
    KeyTwice,
    LeafBehind,
    UnreachedOperation,
    UnreachedConstant,
    RepeatedConstant,
    ZeroAlone,
    ZeroAdded,
    ZeroAgain,
    ZeroBeforeNeg,
    ZeroAfterNeg,
    NoConstants,
    EvenConstants,
    OddConstants,
    Pads0,
    Pads1,
    Pads2,
    Pads3,
    Pads4,
    Pads5,
    Pads6,
    Pads7,
    EmittedMost,
    ResultExact,
    ResultBehind,
    ResultShort,
    UnreachableInput,
];

/// The roots that Emit refuses, and what each of its refusals can come before.
const UNEMITTED: [Event; 12] = [
    LeafRoot,
    EarlierRoot,
    LastTwice,
    SeveralRoots,
    ListBeforeLayout,
    KeysFirst,
    LayoutShortFirst,
    BadKeyFirst,
    MissingFirst,
    NoneFirst,
    NotLastFirst,
    OddFirst,
];

/// What refusing a field's number can come before.
const NO_FIELD: [Event; 2] = [FieldAlone, FieldFirst];

/// The events that a run of this call over this field has to meet.
pub fn events(call: Call, field: Field) -> Vec<Event> {
    let events = match call {
        Call::Step => {
            let corners = [FoundOfSeveral, FullKnown, FullNew, ShortStore];
            [&RULES[..], &INTERNING, &corners].concat()
        }
        Call::Build => [&RULES[..], &INTERNING, &ROOTS, &[RootsMeet]].concat(),
        Call::Compact => [&[NothingDropped, SomeDropped, DuplicatesKept][..], &ROOTS].concat(),
        Call::Normalize => {
            [&ROUNDS[..], &ROOTS, &[RootsMeet, LaterRootForbids, LaterRootHolds]].concat()
        }
        Call::Evaluate => [&[RepeatedKey, UnreachableInput][..], &ROOTS].concat(),
        Call::Prepare => CHOICES.to_vec(),
        Call::Lower => [&CHOICES[..], &LOWERING].concat(),
        Call::Draw => {
            let second = if field.bounds[1] > 1 { &SECOND[..] } else { &[] };
            [&DRAWING[..], second, &BEFORE_TEXT, &ROOTS].concat()
        }
        Call::Emit => {
            let second = if field.bounds[1] > 1 { &[SecondsApart][..] } else { &[] };
            [&EMITTING[..], second, &UNEMITTED, &ROOTS].concat()
        }
    };
    [&events[..], &NO_FIELD].concat()
}

/// Whether columns of length 2^`bits` can take this form.
pub fn possible(bits: usize, form: usize) -> bool {
    bits > 0 || form < 2
}

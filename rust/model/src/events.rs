//! What a run has to have met: rules, rewrites, choices and corners.

macro_rules! events {
    ($($name:ident = $text:literal,)*) => {
        /// A rule applied, a rewrite made, a choice taken or a corner reached.
        #[derive(Clone, Copy, Debug, PartialEq, Eq)]
        pub enum Event {
            $($name,)*
        }

        impl Event {
            pub const ALL: &[Event] = &[$(Event::$name,)*];

            /// The event in words.
            pub fn text(self) -> &'static str {
                match self {
                    $(Event::$name => $text,)*
                }
            }
        }
    };
}

events! {
    InputRequest = "input",
    ConstantRequest = "constant",
    AddFold = "add: both constant",
    AddZeroFirst = "add: a zero",
    AddZeroSecond = "add: b zero",
    AddCancelFirst = "add: a is Sub(l,b)",
    AddCancelSecond = "add: b is Sub(l,a)",
    AddNegFirst = "add: only a is Neg",
    AddNegSecond = "add: only b is Neg",
    AddPlain = "add: plain",
    SubFold = "sub: both constant",
    SubZero = "sub: b zero",
    SubSame = "sub: same place",
    SubAddFirst = "sub: a is Add(b,r)",
    SubAddSecond = "sub: a is Add(l,b)",
    SubSub = "sub: b is Sub(a,r)",
    SubNeg = "sub: b is Neg",
    SubPlain = "sub: plain",
    MulFold = "mul: both constant",
    MulZeroFirst = "mul: a zero",
    MulZeroSecond = "mul: b zero",
    MulOneFirst = "mul: a one",
    MulOneSecond = "mul: b one",
    MulPlain = "mul: plain",
    NegFold = "neg: constant",
    NegPlain = "neg: plain",
    BothNeg = "add of two Negs",
    Swapped = "operands put in order",
    Appended = "record appended",
    Found = "equal record used",
    FoundOfSeveral = "greatest of several equal",
    HandedFar = "handed on 1,000 times",
    FullKnown = "known input on a full list",
    FullNew = "7 for a full list",
    ShortStore = "7 for a short list store",
    FactorAdd00 = "factor, add: first, first",
    FactorAdd01 = "factor, add: first, second",
    FactorAdd10 = "factor, add: second, first",
    FactorAdd11 = "factor, add: second, second",
    FactorSub00 = "factor, sub: first, first",
    FactorSub01 = "factor, sub: first, second",
    FactorSub10 = "factor, sub: second, first",
    FactorSub11 = "factor, sub: second, second",
    RotateAdd00 = "rotation, add: first inner, x",
    RotateAdd01 = "rotation, add: first inner, y",
    RotateAdd10 = "rotation, add: second inner, x",
    RotateAdd11 = "rotation, add: second inner, y",
    RotateMul00 = "rotation, mul: first inner, x",
    RotateMul01 = "rotation, mul: first inner, y",
    RotateMul10 = "rotation, mul: second inner, x",
    RotateMul11 = "rotation, mul: second inner, y",
    LaterPlace = "greatest equal place not before",
    UnreachableRewrite = "rewrite on an unreachable record",
    Discarded = "fired round discarded",
    ShorterUnfired = "shorter round without a rewrite",
    TwoRounds = "two or more rounds kept",
    ManyRounds = "300 or more rounds kept",
    LongRound = "round past 4,096 records",
    NothingDropped = "compaction drops nothing",
    SomeDropped = "compaction drops records",
    DuplicatesKept = "compaction keeps duplicates",
    RepeatedKey = "key with several entries",
    UnreachableInput = "12 at an unreachable input",
    NoColumns = "no columns",
    ZeroColumn = "column of zeros",
    EqualColumn = "column of equal entries",
    RepeatedColumn = "repeated column",
    SeveralPeriods = "several periods",
    ElevenTerms = "eleven terms of seven twiddles",
    StaysBehind = "standalone beside basis",
    OffsetTaken = "dominant value as offset",
    OffsetTied = "offset no cheaper",
    TiedClasses = "tied dominant classes",
    MinusOneClass = "class of minus one before another",
    SixteenLongest = "16 columns of 128",
    PeriodLongest = "period equal to the longest column",
    PeriodMost = "longest period",
    ZkPresent = "ZK present already",
    LandsOnLimit = "4,096 records result",
    OneOver = "4,097 records result",
    ResultExact = "result store exactly enough",
    ResultShort = "result store one word short",
    RootsTogether = "roots at one place",
    RootsMeet = "roots brought to one place",
    LaterRootForbids = "factor that only a later root forbids",
    LaterRootHolds = "rotation that only a later root forbids",
    ListFirst = "1 or 2 before 46",
    RecordFirst = "3 or 4 before 46",
    OperandFirst = "5 before 46",
    RootsFirst = "46 before 6",
    StoresBehind = "46 or 6 before the stores",
    DrawnInput = "input drawn",
    DrawnConstant = "constant drawn",
    DrawnAdd = "add drawn",
    DrawnSub = "sub drawn",
    DrawnMul = "mul drawn",
    DrawnNeg = "neg drawn",
    DrawnTwice = "two equal operands drawn",
    DrawnOne = "drawing of one record",
    DrawnMost = "drawing of 4,096 records",
    FirstZero = "c0 of 0 drawn",
    FirstOne = "c0 of 1 drawn",
    FirstHalf = "c0 of (m−1)/2 drawn",
    FirstPastHalf = "c0 of (m+1)/2 drawn",
    FirstMinusOne = "c0 of m−1 drawn",
    SecondZero = "c1 of 0 drawn",
    SecondOne = "c1 of 1 drawn",
    SecondHalf = "c1 of (m−1)/2 drawn",
    SecondPastHalf = "c1 of (m+1)/2 drawn",
    SecondMinusOne = "c1 of m−1 drawn",
    TextExact = "text store exactly enough",
    TextOneMore = "text store of one byte more",
    TextManyMore = "text store of 1,000 bytes or more behind",
    TextOneShort = "41 for a text store one byte short",
    TextEmpty = "41 for an empty text store",
    CountFirst = "1 before 41",
    StoreFirst = "2 before 41",
    TagFirst = "3 before 41",
    WordFirst = "4 before 41",
    LateFirst = "5 before 41",
    RootFirst = "6 before 41",
    RootCountFirst = "46 before 41",
    NoFieldFirst = "49 before 41",
    LayoutNone = "layout of no keys",
    LayoutOne = "44 for a layout of one key",
    LayoutTwo = "layout of two keys",
    LayoutMost = "layout of 4,096 keys",
    LayoutOver = "11 for 4,097 keys",
    LayoutWraps = "11 for 2^63 keys or more",
    KeyTwice = "key of an input at several places",
    LeafBehind = "leaf behind the last operation",
    UnreachedOperation = "operation that the root does not reach",
    UnreachedConstant = "constant that the root does not reach",
    RepeatedConstant = "constant repeated",
    SecondsApart = "constants that differ in c1 alone",
    ZeroAlone = "constant of zero without a negation",
    ZeroAdded = "zero added for a negation",
    ZeroAgain = "zero of an earlier negation",
    ZeroBeforeNeg = "constant of zero before a negation",
    ZeroAfterNeg = "constant of zero behind a negation",
    NoConstants = "no constants",
    EvenConstants = "constants of an even number",
    OddConstants = "constants padded",
    Pads0 = "0 pads",
    Pads1 = "1 pad",
    Pads2 = "2 pads",
    Pads3 = "3 pads",
    Pads4 = "4 pads",
    Pads5 = "5 pads",
    Pads6 = "6 pads",
    Pads7 = "7 pads",
    EmittedMost = "operations of 4,096 records",
    ResultBehind = "result store longer than its words",
    LeafRoot = "43 for a leaf",
    EarlierRoot = "43 for an operation before the last",
    LastTwice = "43 for the last operation named twice",
    SeveralRoots = "43 for other roots than one",
    ListBeforeLayout = "1 to 5 before the layout",
    KeysFirst = "11 before the layout's 2",
    LayoutShortFirst = "the layout's 2 before its 4",
    BadKeyFirst = "the layout's 4 before 12",
    MissingFirst = "12 before 42",
    NoneFirst = "42 before 43",
    NotLastFirst = "43 before 44",
    OddFirst = "44 before 2",
    FieldAlone = "49 with a good list or columns",
    FieldFirst = "49 before another refusal",
}

/// How often each event was met, and each form and edge at each column length.
#[derive(Clone)]
pub struct Tally {
    events: [u64; Event::ALL.len()],
    /// By the length's logarithm, then the form.
    pub forms: [[u64; 3]; 8],
    /// Savings of exactly 7P + 2, and of one more, by the length's logarithm.
    pub edges: [[u64; 2]; 8],
}

impl Default for Tally {
    fn default() -> Self {
        Self { events: [0; Event::ALL.len()], forms: [[0; 3]; 8], edges: [[0; 2]; 8] }
    }
}

impl Tally {
    /// One more of this event.
    pub fn count(&mut self, event: Event) {
        self.events[event as usize] += 1;
    }

    /// How often this event was met.
    pub fn of(&self, event: Event) -> u64 {
        self.events[event as usize]
    }
}

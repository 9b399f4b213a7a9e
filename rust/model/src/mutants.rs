//! Definitions made wrong on purpose, each of which a comparison has to tell from the right one.
//!
//! No list tells these from the right ones: b's second operand before its first for one factor
//! of a, the second operand of a rotation tried first as the inner one, rotation before factor, a
//! place that several roots name counted once in the fanout.

use crate::case::Call;
use crate::field::{Field, P};

macro_rules! mutants {
    ($($name:ident = $text:literal,)*) => {
        /// A wrong definition.
        #[derive(Clone, Copy, Debug, PartialEq, Eq)]
        pub enum Mutant {
            $($name,)*
        }

        impl Mutant {
            pub const ALL: &[Mutant] = &[$(Mutant::$name,)*];

            /// The mistake in words.
            pub fn text(self) -> &'static str {
                match self {
                    $(Mutant::$name => $text,)*
                }
            }
        }
    };
}

mutants! {
    LeastPlace = "a step takes the least equal place",
    NegationBeforeCancelling = "negation tested before cancelling",
    CancellingBeforeZero = "cancelling tested before zero",
    ZeroBeforeFolding = "zero tested before folding",
    OneBeforeFolding = "one tested before folding",
    NegationBeforeSame = "negation tested before the same place",
    NegativeFirst = "both negations handed on",
    Unordered = "operands left in the order asked",
    DoubleNegation = "neg of neg taken away",
    DuplicatesDropped = "compaction drops duplicates",
    NoRename = "compaction keeps the old roots",
    FirstRootMarked = "the first root's records kept alone",
    RootsReversed = "the roots answered from the last",
    LastRootForAll = "the last root answered for all",
    EqualOnce = "equal answers of neighbouring roots given once",
    Padded = "the last root's answer repeated up to eight",
    RoundsLast = "the rounds kept answered behind the roots",
    FirstRootTested = "the first root alone tested",
    NarrowRoots = "a root's low 32 bits tested",
    EightRefused = "eight roots refused",
    NineTaken = "the ninth root passed over",
    NoneTaken = "the first place taken for no roots",
    RootsByte = "the number of roots cut to a byte",
    RootsAtOnce = "the number of roots tested before the list",
    RootsEarly = "the number of roots tested before the records",
    RootsLate = "the number of roots tested after them",
    StoresFirst = "the roots tested behind the stores",
    FirstEntry = "the first entry of a key counts",
    LeastRotation = "a rotation takes the least equal place",
    AnyRotation = "a rotation takes a later record",
    SecondFactorFirst = "a's second factor tried first",
    FactorsByB = "b's factors in the outer search",
    SecondCandidateFirst = "y tried before x",
    SwappedDifference = "the factored difference turned round",
    NotShorter = "a round kept that is no shorter",
    WithoutRewrite = "a round kept without a rewrite",
    OneRound = "one round only",
    NoRootMention = "no root counted in the fanout",
    FirstRootMention = "the first root alone counted in the fanout",
    ReachableFanout = "fanout from reachable records only",
    CompactedReturn = "the last list returned compacted",
    UnreachableSkipped = "unreachable records not rewritten",
    FirstTied = "the first of tied classes",
    SavingsAtLeast = "savings that equal 7P+2 suffice",
    RepeatsCount = "repeated columns counted again",
    OffsetOnTie = "the offset wins ties",
    ZeroDominant = "zero may be the dominant value",
    AllGoOver = "a whole period goes over",
    EqualHasBasis = "a column of equal entries has a basis cost",
    SparseOnTie = "sparse wins ties",
    MinusOneFirst = "the classes of minus one first",
    SquaringsSpared = "a sparse column's last squaring spared",
    ZeroColumnBare = "a column of zeros without ZK",
    HighestFirst = "dense coefficients from the highest",
    LaterTwiddle = "twiddles of the next entry",
    FieldLate = "the field's number tested after the list or the columns",
    SixForSeven = "u squared is 6",
    ModulusTaken = "the modulus taken as a coordinate",
    SecondTaken = "a second coordinate taken in field 2",
    OtherModulus = "arithmetic modulo p in field 2",
    OtherGenerator = "another generator of each order",
    HalfOrder = "generators of half their order",
    OtherPeriod = "the other field's longest period",
    HalfNegative = "(m−1)/2 drawn as a negative number",
    PastHalfPositive = "(m+1)/2 drawn as it stands",
    SecondLeftOut = "the second coordinate of a residue left out",
    SecondEdgeFirst = "the second operand's edge before the first's",
    EqualEdgesOnce = "two equal operands drawn as one",
    EdgesTurned = "edges from the operands",
    EdgesAmong = "edges among the records",
    NoLastNewline = "the last line without its newline",
    ExactRefused = "41 for a text that just fits",
    TextCut = "a text cut to its store",
    TextFirst = "41 before the list check",
    TextBlanked = "a text store that is too short blanked",
    BehindLeft = "the bytes behind a text left",
    ConstantsApart = "constants not shared",
    FirstCoordinates = "constants equal by c0 alone",
    ConstantsOdd = "constants not padded",
    ReachedConstants = "constants of reachable records alone",
    NoZeroAdded = "no zero added for a negation",
    ZeroSubtracted = "a negation subtracts the zero",
    RootSquared = "each pad squares the root",
    BlocksOfFour = "operations padded to blocks of four",
    CountedUp = "node numbers counted up",
    FirstPlace = "the first place of a key counts",
    ReachedInputs = "12 for reachable inputs alone",
    EqualRootsOne = "equal roots taken for one",
    OddTaken = "a layout of odd length taken",
    LayoutShortEarly = "the layout's 2 before 11",
    BadKeyEarly = "the layout's 4 before its 2",
    MissingEarly = "12 before the layout's 4",
    NoneEarly = "42 before 12",
    NotLastEarly = "43 before 42",
    OddEarly = "44 before 43",
    ResultEarly = "2 before 44",
    FitRefused = "2 for words that just fit",
    ResultLeft = "the words behind an emission left",
}

/// The calls on a list.
const ON_LISTS: &[Call] = &[
    Call::Step,
    Call::Build,
    Call::Compact,
    Call::Normalize,
    Call::Evaluate,
    Call::Lower,
    Call::Draw,
    Call::Emit,
];

/// The calls with roots.
const ROOTED: &[Call] =
    &[Call::Build, Call::Compact, Call::Normalize, Call::Evaluate, Call::Draw, Call::Emit];

/// The calls that answer something of each root.
const OF_ROOTS: &[Call] = &[Call::Build, Call::Compact, Call::Normalize, Call::Evaluate];

/// The calls that compute in their field, or draw its elements.
const COMPUTING: &[Call] = &[
    Call::Step,
    Call::Build,
    Call::Normalize,
    Call::Evaluate,
    Call::Prepare,
    Call::Lower,
    Call::Draw,
];

impl Mutant {
    /// The calls whose answers show the mistake.
    pub fn calls(self) -> &'static [Call] {
        use Call::{Build, Compact, Draw, Emit, Evaluate, Lower, Normalize, Prepare, Step};
        use Mutant::*;
        match self {
            LeastPlace | CancellingBeforeZero | ZeroBeforeFolding | OneBeforeFolding => &[Step],
            NegationBeforeCancelling
            | NegationBeforeSame
            | NegativeFirst
            | Unordered
            | DoubleNegation => &[Step, Build],
            DuplicatesDropped | NoRename => &[Compact],
            FirstRootMarked => &[Compact, Normalize],
            RootsReversed | LastRootForAll | EqualOnce | Padded => OF_ROOTS,
            FirstRootTested | NarrowRoots | EightRefused | NineTaken | NoneTaken | RootsByte
            | RootsAtOnce | RootsEarly | RootsLate | StoresFirst => ROOTED,
            RoundsLast => &[Build, Compact, Normalize],
            FirstEntry => &[Evaluate],
            SixForSeven => &[Step, Build, Evaluate],
            FieldLate | ModulusTaken => &Call::ALL,
            SecondTaken => ON_LISTS,
            OtherModulus => COMPUTING,
            FirstTied | OffsetOnTie | MinusOneFirst | SquaringsSpared | ZeroColumnBare
            | HighestFirst | LaterTwiddle | OtherGenerator | HalfOrder | OtherPeriod => &[Lower],
            SavingsAtLeast | RepeatsCount | ZeroDominant | AllGoOver | EqualHasBasis
            | SparseOnTie => &[Prepare, Lower],
            LeastRotation | AnyRotation | SecondFactorFirst | FactorsByB | SecondCandidateFirst
            | SwappedDifference | NotShorter | WithoutRewrite | OneRound | UnreachableSkipped
            | NoRootMention | FirstRootMention | ReachableFanout | CompactedReturn => &[Normalize],
            HalfNegative | PastHalfPositive | SecondLeftOut | SecondEdgeFirst | EqualEdgesOnce
            | EdgesTurned | EdgesAmong | NoLastNewline | ExactRefused | TextCut | TextFirst
            | TextBlanked | BehindLeft => &[Draw],
            ConstantsApart | FirstCoordinates | ConstantsOdd | ReachedConstants | NoZeroAdded
            | ZeroSubtracted | RootSquared | BlocksOfFour | CountedUp | FirstPlace
            | ReachedInputs | EqualRootsOne | OddTaken | LayoutShortEarly | BadKeyEarly
            | MissingEarly | NoneEarly | NotLastEarly | OddEarly | ResultEarly | FitRefused
            | ResultLeft => &[Emit],
        }
    }

    /// Whether answers over this field show the mistake.
    pub fn shows_in(self, field: Field) -> bool {
        use Mutant::*;
        match self {
            SixForSeven | FirstCoordinates => field == Field::GOLDILOCKS,
            SecondTaken | OtherModulus | SecondLeftOut => field == Field::BABY_BEAR,
            _ => true,
        }
    }

    /// The field as it is with this mistake.
    pub(crate) fn field(self, right: Field) -> Field {
        use Mutant::*;
        let [c0, c1] = right.bounds;
        let other = Field::ALL.into_iter().find(|field| *field != right).unwrap_or(right);
        match self {
            SixForSeven => Field { u_squared: 6, ..right },
            ModulusTaken => Field { bounds: [c0 + 1, c1], ..right },
            SecondTaken => Field { bounds: [c0, c0], ..right },
            OtherModulus => Field { modulus: P, ..right },
            OtherGenerator => Field { root: right.power(right.root, 3), ..right },
            HalfOrder => Field { root: right.power(right.root, 2), ..right },
            OtherPeriod => Field { longest_period: other.longest_period, ..right },
            _ => right,
        }
    }
}

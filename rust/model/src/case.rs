//! One call with all that is lent to it, and what it comes to.

use std::fmt::Write;

use crate::refusal::MOST_ROOTS;

/// Tag, first word, second word; or key number, c0, c1.
pub type Record = [u64; 3];

/// The whole records of a store.
pub fn records(store: &[u64]) -> Vec<Record> {
    store.as_chunks::<3>().0.to_vec()
}

/// The words of these records.
pub fn words(list: &[Record]) -> Vec<u64> {
    list.as_flattened().to_vec()
}

/// The exported calls.
#[derive(Clone, Copy, Debug, PartialEq, Eq, Hash)]
pub enum Call {
    Step,
    Build,
    Compact,
    Normalize,
    Evaluate,
    Prepare,
    Lower,
    Draw,
    Emit,
}

/// What a store is counted in; a case holds a word for each byte.
#[derive(Clone, Copy, Debug, PartialEq, Eq)]
pub enum Unit {
    Word,
    Byte,
}

use Unit::{Byte, Word};

impl Unit {
    fn name(self) -> &'static str {
        match self {
            Word => "word",
            Byte => "byte",
        }
    }

    /// The most of a store that a short text shows.
    fn shown(self) -> usize {
        match self {
            Word => 60,
            Byte => 480,
        }
    }

    /// What a store begins with: words as numbers, bytes as a text.
    fn begun(self, words: &[u64]) -> String {
        match self {
            Word => words.iter().map(|word| format!(" {word}")).collect(),
            Byte if words.is_empty() => String::new(),
            Byte => {
                let bytes: Vec<u8> = words.iter().map(|&word| word as u8).collect();
                format!(" \"{}\"", bytes.escape_ascii())
            }
        }
    }
}

/// A lent store: its name, whether the call may write it, and what it is counted in.
pub struct Store(pub &'static str, pub bool, pub Unit);

/// What a call takes and answers, in the order of its signature.
pub struct Signature {
    pub name: &'static str,
    /// Its numbers: the field's, then the others.
    pub scalars: &'static [&'static str],
    pub stores: &'static [Store],
    /// How many words it answers.
    pub answer: usize,
    /// The refusals that it can give.
    pub refusals: &'static [u64],
}

const LIST: Store = Store("list", false, Word);
const ROOTS: Store = Store("roots", false, Word);
const RESULT: Store = Store("result", true, Word);
const WORK: Store = Store("work", true, Word);
const LENGTHS: Store = Store("lengths", false, Word);
const ENTRIES: Store = Store("entries", false, Word);

/// The numbers, the answer words and the refusals of a call that answers a list with its roots.
const ROOTED: &[&str] = &["field", "n"];
const ROOTED_ANSWER: usize = 3 + MOST_ROOTS;
const ROOTED_REFUSALS: &[u64] = &[1, 2, 3, 4, 5, 6, 46, 49];

/// The calls' signatures, in the order of `Call`.
static SIGNATURES: [Signature; 9] = [
    Signature {
        name: "step",
        scalars: &["field", "n", "tag", "first", "second"],
        stores: &[Store("list", true, Word)],
        answer: 4,
        refusals: &[1, 2, 3, 4, 5, 7, 49],
    },
    Signature {
        name: "build",
        scalars: ROOTED,
        stores: &[LIST, ROOTS, RESULT, Store("map", true, Word)],
        answer: ROOTED_ANSWER,
        refusals: ROOTED_REFUSALS,
    },
    Signature {
        name: "compact",
        scalars: ROOTED,
        stores: &[LIST, ROOTS, RESULT],
        answer: ROOTED_ANSWER,
        refusals: ROOTED_REFUSALS,
    },
    Signature {
        name: "normalize",
        scalars: ROOTED,
        stores: &[LIST, ROOTS, RESULT, WORK],
        answer: ROOTED_ANSWER,
        refusals: ROOTED_REFUSALS,
    },
    Signature {
        name: "evaluate",
        scalars: &["field", "n", "m"],
        stores: &[LIST, ROOTS, Store("assignment", false, Word)],
        answer: 1 + 2 * MOST_ROOTS,
        refusals: &[1, 2, 3, 4, 5, 6, 11, 12, 46, 49],
    },
    Signature {
        name: "prepare",
        scalars: &["field"],
        stores: &[LENGTHS, ENTRIES],
        answer: 18,
        refusals: &[2, 4, 13, 14, 49],
    },
    Signature {
        name: "lower",
        scalars: &["field", "n", "period"],
        stores: &[LIST, LENGTHS, ENTRIES, RESULT, WORK, Store("places", true, Word)],
        answer: 4,
        refusals: &[1, 2, 3, 4, 5, 7, 13, 14, 15, 49],
    },
    Signature {
        name: "draw",
        scalars: ROOTED,
        stores: &[LIST, ROOTS, Store("text", true, Byte)],
        answer: 4,
        refusals: &[1, 2, 3, 4, 5, 6, 41, 46, 49],
    },
    Signature {
        name: "emit",
        scalars: &["field", "n", "k"],
        stores: &[LIST, ROOTS, Store("layout", false, Word), RESULT],
        answer: 4,
        refusals: &[1, 2, 3, 4, 5, 6, 11, 12, 42, 43, 44, 46, 49],
    },
];

impl Call {
    pub const ALL: [Call; 9] = [
        Call::Step,
        Call::Build,
        Call::Compact,
        Call::Normalize,
        Call::Evaluate,
        Call::Prepare,
        Call::Lower,
        Call::Draw,
        Call::Emit,
    ];

    /// The call with this name.
    pub fn named(name: &str) -> Option<Call> {
        Self::ALL.into_iter().find(|call| call.signature().name == name)
    }

    pub fn signature(self) -> &'static Signature {
        &SIGNATURES[self as usize]
    }
}

/// A call, its numbers, that of its field first, and the words of its stores as lent.
#[derive(Clone, Debug, PartialEq, Eq)]
pub struct Case {
    pub call: Call,
    pub scalars: Vec<u64>,
    pub stores: Vec<Vec<u64>>,
}

impl Case {
    /// The number with this name, where the call takes one.
    pub fn number(&self, name: &str) -> Option<u64> {
        let mut names = self.call.signature().scalars.iter();
        names.position(|&scalar| scalar == name).map(|place| self.scalars[place])
    }

    /// The roots, where the call takes some.
    pub fn roots(&self) -> Option<&[u64]> {
        let mut stores = self.call.signature().stores.iter();
        stores.position(|store| store.0 == "roots").map(|place| &self.stores[place][..])
    }

    /// The stores that the call may write, as lent.
    pub fn writable(&self) -> Vec<Vec<u64>> {
        let signature = self.call.signature();
        let stores = signature.stores.iter().zip(&self.stores);
        stores.filter(|(store, _)| store.1).map(|(_, words)| words.clone()).collect()
    }
}

/// The answer words, and the words of each writable store after the call.
#[derive(Clone, Debug, PartialEq, Eq)]
pub struct Outcome {
    pub answer: Vec<u64>,
    pub after: Vec<Vec<u64>>,
}

impl Outcome {
    /// Whether the call accepted.
    pub fn accepted(&self) -> bool {
        self.answer[0] == 0
    }
}

/// The words up to where the rest are all equal.
fn explicit(words: &[u64]) -> usize {
    let Some(last) = words.last() else { return 0 };
    words.iter().rposition(|word| word != last).map_or(0, |place| place + 1)
}

/// A store on one line: its length, its words, and the word that fills the rest.
fn store_line(name: &str, unit: Unit, words: &[u64], whole: bool) -> String {
    let given = explicit(words);
    let shown = if whole { given } else { given.min(unit.shown()) };
    let mut line = format!("  {name} ({} {}s):", words.len(), unit.name());
    line.push_str(&unit.begun(&words[..shown]));
    match words.len() - given {
        _ if shown < given => line.push_str(" …"),
        0 => {}
        1 => {
            let _ = write!(line, " {}", words[given]);
        }
        rest => {
            let _ = write!(line, " {}×{rest}", words[given]);
        }
    }
    line + "\n"
}

impl Case {
    /// The call, its numbers and its stores; long stores cut unless `whole`.
    pub fn text(&self, whole: bool) -> String {
        let signature = self.call.signature();
        let mut text = format!("  call ace_{}", signature.name);
        for (name, value) in signature.scalars.iter().zip(&self.scalars) {
            let _ = write!(text, " {name}={value}");
        }
        text.push('\n');
        for (store, words) in signature.stores.iter().zip(&self.stores) {
            text.push_str(&store_line(store.0, store.2, words, whole));
        }
        text
    }

    /// Whether the short text leaves words out.
    pub fn is_long(&self) -> bool {
        let mut stores = self.call.signature().stores.iter().zip(&self.stores);
        stores.any(|(store, words)| explicit(words) > store.2.shown())
    }
}

impl Outcome {
    /// The answer, and each store that `other` leaves otherwise; long ones cut unless `whole`.
    pub fn text(&self, call: Call, other: &Outcome, whole: bool) -> String {
        let mut text = store_line("  answer", Word, &self.answer, true);
        let signature = call.signature();
        let names = signature.stores.iter().filter(|store| store.1);
        for ((store, words), others) in names.zip(&self.after).zip(&other.after) {
            let Some(place) = (0..words.len()).find(|&place| words[place] != others[place]) else {
                continue;
            };
            text.push_str(&store_line(&format!("  {} after", store.0), store.2, words, whole));
            let unit = store.2.name();
            let _ = writeln!(text, "    {} {unit} {place}: {}", store.0, words[place]);
        }
        text
    }
}

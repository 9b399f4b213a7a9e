//! The proved calls on ACE constraint lists, for Rust.
//!
//! Every call takes a [`Field`], lends its stores as slices of words, or of bytes for a text, and
//! answers its values or a [`Refusal`]. Nothing that is lent is tested here: what the calls say of
//! all inputs, refused ones among them, is proved where they are written. A list has `n` records of
//! three words: tag, first word, second word, and one to eight roots, places of its own that are
//! answered in their order.
//!
//! | tag | record   | words                                                          |
//! |-----|----------|----------------------------------------------------------------|
//! | 0   | input    | key number, 0                                                  |
//! | 1   | constant | c0, c1, each below the modulus; c1 is 0 in a field of residues |
//! | 2   | add      | two places, each before the record's own                       |
//! | 3   | sub      | two places                                                     |
//! | 4   | mul      | two places                                                     |
//! | 5   | neg      | a place, 0                                                     |
//!
//! After a call that accepts, the words of a result, map or place store behind the last one filled
//! are blank, a work store is blank throughout, and the bytes behind a text are 0. A refusal
//! changes no store, save that the 7 of `lower` leaves its work store blank.
//!
//! A program that uses the crate names it by its path in a clone of the repository:
//!
//! ```toml
//! [dependencies]
//! ace = { path = "../reefquince/rust/ace" }
//! ```
//!
//! It links `target/staticlib/libace.a` of that clone, which `tools/archive ace` writes, or the
//! `libace.a` in the folder that the variable `ACE_LIB` names; without one the build ends in an
//! error. The archive is for x86-64 Linux.
//!
//! A short list in a store that held something else: the words behind it are [`BLANK`].
//!
//! ```
//! let list = [
//!     0, 0, 0, // input 0
//!     0, 1, 0, // input 1
//!     0, 2, 0, // input 2
//!     4, 0, 1, // mul 0 1
//!     4, 0, 2, // mul 0 2
//!     2, 3, 4, // add 3 4
//! ];
//! let mut result = [7; 30];
//! let mut work = [7; 36];
//! let field = ace::Field::Goldilocks;
//! let normal = ace::normalize(field, &list, 6, &[5], &mut result, &mut work).unwrap();
//! assert_eq!((normal.count, normal.rounds), (5, 1));
//! assert_eq!(*normal.roots, [4]);
//! assert_eq!(result[..15], [0, 0, 0, 0, 1, 0, 0, 2, 0, 2, 1, 2, 4, 0, 3]);
//! assert_eq!(result[15..], [ace::BLANK; 15]);
//! assert_eq!(work, [ace::BLANK; 36]);
//!
//! let refused = ace::normalize(field, &list, 6, &[5, 6], &mut result, &mut work).unwrap_err();
//! assert_eq!(refused.to_string(), "refused 6 0: a root is outside the list");
//! ```

use std::fmt;
use std::ops::Deref;

pub mod words;

use words::MOST_ROOTS;

/// The word behind what a call has filled.
pub const BLANK: u64 = 0;

/// The field that a call computes in.
#[derive(Clone, Copy, Debug, PartialEq, Eq, Hash)]
pub enum Field {
    /// Elements c0 + c1·u modulo p = 2^64 − 2^32 + 1, with u² = 7.
    Goldilocks,
    /// Residues modulo q = 2^31 − 2^27 + 1, which have no second coordinate.
    BabyBear,
}

impl Field {
    pub const ALL: [Field; 2] = [Field::Goldilocks, Field::BabyBear];

    /// The number that the exported calls know it by.
    ///
    /// ```
    /// assert_eq!(ace::Field::ALL.map(ace::Field::number), [1, 2]);
    /// ```
    pub const fn number(self) -> u64 {
        match self {
            Field::Goldilocks => 1,
            Field::BabyBear => 2,
        }
    }

    /// The prime that coordinates and entries are below.
    pub const fn modulus(self) -> u64 {
        match self {
            Field::Goldilocks => 18_446_744_069_414_584_321,
            Field::BabyBear => 2_013_265_921,
        }
    }

    /// The longest shared period of columns.
    pub const fn longest_period(self) -> u64 {
        match self {
            Field::Goldilocks => 1 << 32,
            Field::BabyBear => 1 << 27,
        }
    }
}

/// The archive that this crate was built with, as its folder was named.
pub const ARCHIVE: &str = env!("ACE_ARCHIVE");

/// Whether the archive at its place is still the one that was linked.
pub fn archive_is_linked() -> bool {
    let linked = std::fs::read(concat!(env!("OUT_DIR"), "/libace.a"));
    linked.is_ok_and(|linked| std::fs::read(env!("ACE_PLACE")).is_ok_and(|now| now == linked))
}

/// A line for each refusal: its number, its reason.
const REASONS: &str = include_str!("../../../tools/refusals.txt");

/// Why a call said no.
#[derive(Clone, Copy, Debug, PartialEq, Eq)]
pub struct Refusal {
    /// The number of the reason.
    pub number: u64,
    /// The record, entry or column at fault for 3, 4, 5, 12 and 14, else 0.
    pub place: u64,
}

impl Refusal {
    /// The reason in words.
    pub fn reason(self) -> &'static str {
        let number = self.number.to_string();
        let mut lines = REASONS.lines().filter_map(|line| line.split_once(' '));
        lines.find(|line| line.0 == number).map_or("no reason of this library", |line| line.1)
    }
}

impl fmt::Display for Refusal {
    fn fmt(&self, f: &mut fmt::Formatter) -> fmt::Result {
        write!(f, "refused {} {}: {}", self.number, self.place, self.reason())
    }
}

impl std::error::Error for Refusal {}

/// The answer words of a call, or the refusal that they tell.
fn told<const N: usize>(call: impl FnOnce(&mut [u64; N])) -> Result<[u64; N], Refusal> {
    let mut answer = [u64::MAX; N];
    call(&mut answer);
    match answer[0] {
        0 => Ok(answer),
        number => Err(Refusal { number, place: answer[1] }),
    }
}

/// What one request came to.
#[derive(Clone, Copy, Debug, PartialEq, Eq)]
pub struct Stepped {
    /// The result's place.
    pub place: u64,
    /// The number of records now.
    pub n: u64,
}

/// One request on a list, which may be empty. Only an appended record is written.
///
/// Lends `list` of at least 3n words, and three more where the request appends a record.
///
/// ```
/// let mut list = [9; 6];
/// let stepped = ace::step(ace::Field::Goldilocks, &mut list, 0, 0, 1, 0);
/// assert_eq!(stepped, Ok(ace::Stepped { place: 0, n: 1 }));
/// assert_eq!(list, [0, 1, 0, 9, 9, 9]);
/// ```
///
/// A constant of two coordinates is none in `BabyBear`:
///
/// ```
/// let refused = ace::step(ace::Field::BabyBear, &mut [9; 3], 0, 1, 0, 1).unwrap_err();
/// assert_eq!((refused.number, refused.place), (4, 0));
/// ```
pub fn step(
    field: Field,
    list: &mut [u64],
    n: u64,
    tag: u64,
    first: u64,
    second: u64,
) -> Result<Stepped, Refusal> {
    let [_, place, n, _] =
        told(|answer| words::step(field.number(), list, n, tag, first, second, answer))?;
    Ok(Stepped { place, n })
}

/// What each root came to, in the roots' order: a slice of one to eight.
#[derive(Clone, Copy, PartialEq, Eq)]
pub struct PerRoot<T> {
    each: [T; MOST_ROOTS],
    count: usize,
}

impl<T> Deref for PerRoot<T> {
    type Target = [T];

    fn deref(&self) -> &[T] {
        &self.each[..self.count]
    }
}

impl<T: fmt::Debug> fmt::Debug for PerRoot<T> {
    fn fmt(&self, f: &mut fmt::Formatter) -> fmt::Result {
        (**self).fmt(f)
    }
}

/// How many records a list has now, and where its roots are.
#[derive(Clone, Copy, Debug, PartialEq, Eq)]
pub struct Rooted {
    /// The number of records.
    pub count: u64,
    /// The roots' places.
    pub roots: PerRoot<u64>,
}

/// A list built from requests; `map` holds each request's place.
///
/// Lends `result` of at least 3n words and `map` of at least n. Here the second sum is the first
/// one again, and so is the second root:
///
/// ```
/// let requests = [0, 0, 0, 0, 1, 0, 2, 0, 1, 2, 1, 0];
/// let (field, mut result, mut map) = (ace::Field::Goldilocks, [9; 12], [9; 4]);
/// let built = ace::build(field, &requests, 4, &[2, 3], &mut result, &mut map).unwrap();
/// assert_eq!(built.count, 3);
/// assert_eq!(*built.roots, [2, 2]);
/// assert_eq!(result, [0, 0, 0, 0, 1, 0, 2, 0, 1, 0, 0, 0]);
/// assert_eq!(map, [0, 1, 2, 2]);
/// ```
pub fn build(
    field: Field,
    list: &[u64],
    n: u64,
    roots: &[u64],
    result: &mut [u64],
    map: &mut [u64],
) -> Result<Rooted, Refusal> {
    let answer = told(|answer| words::build(field.number(), list, n, roots, result, map, answer))?;
    let Normalized { count, roots, .. } = listed(answer, roots);
    Ok(Rooted { count, roots })
}

/// The records that the roots reach.
///
/// Lends `result` of at least 3n words.
///
/// ```
/// let (field, mut result) = (ace::Field::Goldilocks, [9; 9]);
/// let list = [0, 0, 0, 0, 1, 0, 0, 2, 0];
/// let compacted = ace::compact(field, &list, 3, &[2, 0], &mut result).unwrap();
/// assert_eq!(compacted.count, 2);
/// assert_eq!(*compacted.roots, [1, 0]);
/// assert_eq!(result, [0, 0, 0, 0, 2, 0, 0, 0, 0]);
/// ```
pub fn compact(
    field: Field,
    list: &[u64],
    n: u64,
    roots: &[u64],
    result: &mut [u64],
) -> Result<Rooted, Refusal> {
    let answer = told(|answer| words::compact(field.number(), list, n, roots, result, answer))?;
    let Normalized { count, roots, .. } = listed(answer, roots);
    Ok(Rooted { count, roots })
}

/// What normalising came to.
#[derive(Clone, Copy, Debug, PartialEq, Eq)]
pub struct Normalized {
    /// The number of records.
    pub count: u64,
    /// The rounds kept.
    pub rounds: u64,
    /// The roots' places.
    pub roots: PerRoot<u64>,
}

/// What the words of an accepted list say, a place for each root given.
fn listed(answer: [u64; words::LIST], roots: &[u64]) -> Normalized {
    let [_, count, rounds, each @ ..] = answer;
    Normalized { count, rounds, roots: PerRoot { each, count: roots.len() } }
}

/// The normalised list.
///
/// Lends `result` of at least 3n words and `work` of at least 6n. What came back is normal:
///
/// ```
/// let list = [0, 0, 0, 0, 1, 0, 0, 2, 0, 4, 0, 1, 4, 0, 2, 2, 3, 4];
/// let (mut once, mut twice, mut work) = ([9; 18], [9; 18], [9; 36]);
/// let field = ace::Field::BabyBear;
/// let normal = ace::normalize(field, &list, 6, &[5, 0], &mut once, &mut work).unwrap();
/// assert_eq!((normal.count, normal.rounds), (5, 1));
/// assert_eq!(*normal.roots, [4, 0]);
/// let again = ace::normalize(field, &once, 5, &normal.roots, &mut twice, &mut work).unwrap();
/// assert_eq!((again.count, again.rounds, again.roots), (5, 0, normal.roots));
/// assert_eq!(twice, once);
/// ```
pub fn normalize(
    field: Field,
    list: &[u64],
    n: u64,
    roots: &[u64],
    result: &mut [u64],
    work: &mut [u64],
) -> Result<Normalized, Refusal> {
    let answer =
        told(|answer| words::normalize(field.number(), list, n, roots, result, work, answer))?;
    Ok(listed(answer, roots))
}

/// A field element c0 + c1·u; c1 is 0 in `BabyBear`.
#[derive(Clone, Copy, Debug, PartialEq, Eq)]
pub struct Value {
    pub c0: u64,
    pub c1: u64,
}

/// Each root's value under `m` entries of key number, c0, c1; a key's last entry counts.
///
/// Lends `assignment` of at least 3m words. u · u is 7, and −1 · −1 is 1:
///
/// ```
/// use ace::{Field, Value};
///
/// let square = [0, 0, 0, 4, 0, 0];
/// let values = ace::evaluate(Field::Goldilocks, &square, 2, &[1, 0], &[0, 0, 1], 1).unwrap();
/// assert_eq!(*values, [Value { c0: 7, c1: 0 }, Value { c0: 0, c1: 1 }]);
/// let minus_one = Field::BabyBear.modulus() - 1;
/// let values = ace::evaluate(Field::BabyBear, &square, 2, &[1], &[0, minus_one, 0], 1).unwrap();
/// assert_eq!(*values, [Value { c0: 1, c1: 0 }]);
/// ```
pub fn evaluate(
    field: Field,
    list: &[u64],
    n: u64,
    roots: &[u64],
    assignment: &[u64],
    m: u64,
) -> Result<PerRoot<Value>, Refusal> {
    let answer =
        told(|answer| words::evaluate(field.number(), list, n, roots, assignment, m, answer))?;
    let value = |root: usize| Value { c0: answer[1 + 2 * root], c1: answer[2 + 2 * root] };
    Ok(PerRoot { each: std::array::from_fn(value), count: roots.len() })
}

/// How a column is evaluated.
#[derive(Clone, Copy, Debug, PartialEq, Eq)]
pub enum Form {
    Sparse,
    Dense,
    Basis,
}

/// The form of each column.
///
/// Lends `lengths`, a word a column, and `entries`, column after column.
///
/// ```
/// let entries = [1, 0, 0, 0, 0, 0, 0, 0, 5];
/// let forms = ace::prepare(ace::Field::Goldilocks, &[8, 1], &entries).unwrap();
/// assert_eq!(forms, [ace::Form::Sparse, ace::Form::Dense]);
/// ```
pub fn prepare(field: Field, lengths: &[u64], entries: &[u64]) -> Result<Vec<Form>, Refusal> {
    let answer = told(|answer| words::prepare(field.number(), lengths, entries, answer))?;
    let form = |&word: &u64| match word {
        0 => Form::Sparse,
        1 => Form::Dense,
        _ => Form::Basis,
    };
    Ok(answer[2..].iter().take(answer[1] as usize).map(form).collect())
}

/// The list with the columns' nodes behind it; `places` holds the place of each column's node.
/// Answers the number of records.
///
/// Lends `work` of at least 12,288 words, `places` of at least a word a column, and a `result` with
/// room for what comes out. `period` is a power of two, at most [`Field::longest_period`].
///
/// ```
/// let (mut result, mut work, mut places) = ([9; 9], [9; 12_288], [9; 1]);
/// let field = ace::Field::Goldilocks;
/// let count = ace::lower(field, &[], 0, &[1], &[5], 1, &mut result, &mut work, &mut places);
/// assert_eq!((count, places), (Ok(3), [1]));
/// assert_eq!(result, [0, 11 << 48, 0, 1, 5, 0, 1, 0, 0]);
/// ```
#[allow(clippy::too_many_arguments)]
pub fn lower(
    field: Field,
    list: &[u64],
    n: u64,
    lengths: &[u64],
    entries: &[u64],
    period: u64,
    result: &mut [u64],
    work: &mut [u64],
    places: &mut [u64],
) -> Result<u64, Refusal> {
    let [_, count, ..] = told(|answer| {
        let field = field.number();
        words::lower(field, list, n, lengths, entries, period, result, work, places, answer)
    })?;
    Ok(count)
}

/// The list as a text of Graphviz DOT: a node for each record, then an edge for each operand, and 0
/// bytes to the end of `text`. Answers the text's length. The roots are tested, but not drawn.
///
/// Lends `text`, for which 14 bytes and 65 a record always do. A constant's coordinates are signed
/// numbers:
///
/// ```
/// let field = ace::Field::Goldilocks;
/// let list = [0, 5, 0, 1, field.modulus() - 1, 0, 4, 0, 1];
/// let mut text = [9; 14 + 65 * 3];
/// let length = ace::draw(field, &list, 3, &[2], &mut text).unwrap();
/// let drawing = "\
/// digraph g {
/// n0 [label=\"in 5\"];
/// n1 [label=\"const -1 0\"];
/// n2 [label=\"mul\"];
/// n2 -> n0;
/// n2 -> n1;
/// }
/// ";
/// assert_eq!(std::str::from_utf8(&text[..length]), Ok(drawing));
/// assert!(text[length..].iter().all(|&byte| byte == 0));
///
/// let refused = ace::draw(field, &list, 3, &[2], &mut text[..length - 1]).unwrap_err();
/// assert_eq!((refused.number, refused.place), (41, 0));
/// ```
pub fn draw(
    field: Field,
    list: &[u64],
    n: u64,
    roots: &[u64],
    text: &mut [u8],
) -> Result<usize, Refusal> {
    let [_, length, ..] = told(|answer| words::draw(field.number(), list, n, roots, text, answer))?;
    Ok(length as usize)
}

/// How many variables and operations a list is emitted as.
#[derive(Clone, Copy, Debug, PartialEq, Eq)]
pub struct Emitted {
    /// The layout's inputs and the constants, with what fills them up to an even number.
    pub num_vars: u64,
    /// The operations, with the squares behind them.
    pub num_ops: u64,
}

impl Emitted {
    /// The words that are written, over a layout of `k` keys: two a constant, three an operation.
    pub const fn words(self, k: u64) -> u64 {
        2 * (self.num_vars - k) + 3 * self.num_ops
    }
}

/// What an operation does with the values of its two nodes.
#[derive(Clone, Copy, Debug, PartialEq, Eq, Hash)]
pub enum Kind {
    Sub,
    Mul,
    Add,
}

impl Kind {
    /// The kind that an operation's first word says.
    ///
    /// ```
    /// use ace::Kind::{self, Add, Mul, Sub};
    ///
    /// assert_eq!([0, 1, 2, 3].map(Kind::of), [Some(Sub), Some(Mul), Some(Add), None]);
    /// ```
    pub const fn of(word: u64) -> Option<Kind> {
        match word {
            0 => Some(Kind::Sub),
            1 => Some(Kind::Mul),
            2 => Some(Kind::Add),
            _ => None,
        }
    }
}

/// The list as constants and operations, for a box whose inputs are the `k` keys of `layout`; a
/// key's last place there is its input's number.
///
/// `result` then holds two words a constant, in the order of their first use, then three an
/// operation: its kind, and the numbers of the two nodes that it reads. Nodes are counted down to 0:
/// the inputs, the constants, the operations. A neg is a sub from a constant of zero. A zero stands
/// behind an odd number of constants; behind the operations stand squares, each of the node before,
/// until twice the constants and the operations are a multiple of 8.
///
/// The one root is the last operation, and `k` is even. Lends `layout` of at least `k` words, and
/// `result`, for which 23 words and 3 a record always do. Here the key 7 is input 1, key 5 input 0:
///
/// ```
/// use ace::{Emitted, Field};
///
/// let list = [0, 7, 0, 1, 3, 0, 3, 0, 1, 5, 2, 0]; // in 7, const 3, sub 0 1, neg 2
/// let mut result = [9; 23 + 3 * 4];
/// let emitted = ace::emit(Field::Goldilocks, &list, 4, &[3], &[5, 7], 2, &mut result).unwrap();
/// assert_eq!(emitted, Emitted { num_vars: 4, num_ops: 4 });
/// let (written, behind) = result.split_at(emitted.words(2) as usize);
/// let constants = [3, 0, 0, 0]; // nodes 5 and 4, behind the inputs 7 and 6
/// let operations = [0, 6, 5, 0, 4, 3, 1, 2, 2, 1, 1, 1]; // nodes 3 and 2, squares 1 and 0
/// assert_eq!(written, [&constants[..], &operations].concat());
/// assert!(behind.iter().all(|&word| word == ace::BLANK));
///
/// let refused = ace::emit(Field::Goldilocks, &list, 4, &[2], &[5, 7], 2, &mut result);
/// assert_eq!(refused.unwrap_err().number, 43);
/// ```
pub fn emit(
    field: Field,
    list: &[u64],
    n: u64,
    roots: &[u64],
    layout: &[u64],
    k: u64,
    result: &mut [u64],
) -> Result<Emitted, Refusal> {
    let field = field.number();
    let [_, num_vars, num_ops, _] =
        told(|answer| words::emit(field, list, n, roots, layout, k, result, answer))?;
    Ok(Emitted { num_vars, num_ops })
}

//! A list as constants and operations for the box, and what the box does with them.

use std::collections::{HashMap, HashSet};

use crate::case::Record;
use crate::events::Event::{self, *};
use crate::field::{Field, Pair};
use crate::judge::Paper;
use crate::lists::reached;
use crate::mutants::Mutant;
use crate::refusal::{LIMIT, Refusal};
use crate::roots::coincide;

/// The kinds of operations, as their words have them.
const SUB: u64 = 0;
const MUL: u64 = 1;
const ADD: u64 = 2;

/// Twice the constants plus the operations is a multiple of this.
const BLOCK: usize = 8;

/// The fewest words of an emission: two constants and four operations.
pub(crate) const FEWEST: usize = 16;

/// A list emitted: the numbers answered, and the words of its constants and operations.
#[derive(Clone, Debug, PartialEq, Eq)]
pub struct Emission {
    pub num_vars: u64,
    pub num_ops: u64,
    pub words: Vec<u64>,
}

/// What an operation reads.
#[derive(Clone, Copy, Debug)]
enum Node {
    Input(usize),
    Constant(usize),
    Operation(usize),
}

/// The constants and operations of a list, with what each record is.
struct Emitter<'a> {
    paper: &'a mut Paper,
    constants: Vec<Pair>,
    operations: Vec<(u64, Node, Node)>,
    nodes: Vec<Node>,
}

impl Emitter<'_> {
    /// The constant of this element: the one that stands, or a new one.
    fn constant(&mut self, value: Pair) -> Node {
        let same = |known: &Pair| match self.paper.mutant {
            Some(Mutant::FirstCoordinates) => known[0] == value[0],
            Some(Mutant::ConstantsApart) => false,
            _ => *known == value,
        };
        let stands = self.constants.iter().position(same);
        Node::Constant(stands.unwrap_or_else(|| {
            self.constants.push(value);
            self.constants.len() - 1
        }))
    }

    /// The zero that a negation subtracts from.
    fn zero(&mut self) -> Node {
        match self.paper.mutant {
            Some(Mutant::NoZeroAdded) if !self.constants.is_empty() => {
                let stands = self.constants.iter().position(|&known| known == [0, 0]);
                Node::Constant(stands.unwrap_or(0))
            }
            _ => self.constant([0, 0]),
        }
    }

    /// An operation on two nodes.
    fn operation(&mut self, kind: u64, left: Node, right: Node) -> Node {
        self.operations.push((kind, left, right));
        Node::Operation(self.operations.len() - 1)
    }

    /// What a record is.
    fn take(&mut self, [tag, first, second]: Record, places: &HashMap<u64, usize>) {
        let at = |emitter: &Self, place: u64| emitter.nodes[place as usize];
        let node = match tag {
            0 => Node::Input(places[&first]),
            1 => self.constant([first, second]),
            5 => {
                let (zero, operand) = (self.zero(), at(self, first));
                match self.paper.is(Mutant::ZeroSubtracted) {
                    false => self.operation(SUB, zero, operand),
                    true => self.operation(SUB, operand, zero),
                }
            }
            _ => {
                let kind = [ADD, SUB, MUL][tag as usize - 2];
                self.operation(kind, at(self, first), at(self, second))
            }
        };
        self.nodes.push(node);
    }

    /// Zeros behind the constants to an even number, then squares behind the operations until
    /// twice the constants plus the operations fill blocks; answers the number of squares.
    fn pad(&mut self) -> usize {
        let odd = self.constants.len() % 2 == 1;
        if odd && !self.paper.is(Mutant::ConstantsOdd) {
            self.constants.push([0, 0]);
        }
        let block = if self.paper.is(Mutant::BlocksOfFour) { 4 } else { BLOCK };
        let last = self.operations.len() - 1;
        let mut before = last;
        while !(2 * self.constants.len() + self.operations.len()).is_multiple_of(block) {
            let square = Node::Operation(before);
            self.operation(MUL, square, square);
            before = if self.paper.is(Mutant::RootSquared) { last } else { before + 1 };
        }
        self.operations.len() - 1 - last
    }

    /// The numbers and words, for a layout of so many keys: nodes are counted down, inputs first,
    /// then constants, then operations.
    fn emission(&self, keys: usize) -> Emission {
        let variables = keys + self.constants.len();
        let nodes = variables + self.operations.len();
        let number = |node: Node| {
            let before = match node {
                Node::Input(place) => place,
                Node::Constant(place) => keys + place,
                Node::Operation(place) => variables + place,
            };
            let up = self.paper.is(Mutant::CountedUp);
            (if up { before } else { nodes - 1 - before }) as u64
        };
        let mut words = self.constants.as_flattened().to_vec();
        for &(kind, left, right) in &self.operations {
            words.extend([kind, number(left), number(right)]);
        }
        Emission { num_vars: variables as u64, num_ops: self.operations.len() as u64, words }
    }
}

/// Whether a record is an operation.
fn is_operation(record: &Record) -> bool {
    record[0] > 1
}

/// The place of the last operation.
pub(crate) fn last_operation(list: &[Record]) -> Option<u64> {
    list.iter().rposition(is_operation).map(|place| place as u64)
}

/// The place of each key of a layout: its last one, save by mistake.
fn places(paper: &mut Paper, list: &[Record], layout: &[u64]) -> HashMap<u64, usize> {
    let keys: HashSet<u64> = list.iter().filter(|record| record[0] == 0).map(|r| r[1]).collect();
    let mut places = HashMap::new();
    for (place, &key) in layout.iter().enumerate() {
        let earlier = places.insert(key, place);
        if let Some(earlier) = earlier {
            if keys.contains(&key) {
                paper.met(KeyTwice);
            }
            if paper.is(Mutant::FirstPlace) {
                places.insert(key, earlier);
            }
        }
    }
    places
}

/// The first input without a place; with a mistake, of the records that the root reaches.
fn missing(
    paper: &Paper,
    list: &[Record],
    roots: &[u64],
    places: &HashMap<u64, usize>,
) -> Option<usize> {
    let marks = reached(list, roots);
    let counts = |place: usize| marks[place] || !paper.is(Mutant::ReachedInputs);
    let lacks = |place: &usize| list[*place][0] == 0 && !places.contains_key(&list[*place][1]);
    (0..list.len()).find(|place| lacks(place) && counts(*place))
}

/// 43 unless the last operation of a list that has some is its one root.
fn root_fault(paper: &mut Paper, list: &[Record], roots: &[u64]) -> Option<u64> {
    let last = last_operation(list);
    if coincide(roots) {
        paper.met(RootsTogether);
    }
    let named = |root: &u64| Some(*root) == last;
    match roots {
        [root] if named(root) => None,
        [root, others @ ..] if paper.is(Mutant::EqualRootsOne) => {
            (!named(root) || others.iter().any(|other| other != root)).then_some(43)
        }
        _ => {
            paper.met(unlast(list, roots));
            Some(43)
        }
    }
}

/// Why the roots are not the last operation alone.
fn unlast(list: &[Record], roots: &[u64]) -> Event {
    match *roots {
        [root] if is_operation(&list[root as usize]) => EarlierRoot,
        [_] => LeafRoot,
        [one, other] if one == other && Some(one) == last_operation(list) => LastTwice,
        _ => SeveralRoots,
    }
}

/// What a list with these roots is emitted as over a layout, or what refuses it.
pub(crate) fn emit(
    paper: &mut Paper,
    list: &[Record],
    roots: &[u64],
    layout: &[u64],
) -> Result<Emission, Refusal> {
    let places = places(paper, list, layout);
    if let Some(place) = missing(paper, list, roots, &places) {
        return Err(Refusal::at(12, place));
    }
    let odd = (layout.len() % 2 == 1 && !paper.is(Mutant::OddTaken)).then_some(44);
    let unrooted = match last_operation(list) {
        None => Some(42),
        Some(_) => root_fault(paper, list, roots),
    };
    if let Some(number) = unrooted.or(odd) {
        return Err(Refusal::new(number));
    }
    note_list(paper, list, roots);
    let mut emitter = Emitter { paper, constants: vec![], operations: vec![], nodes: vec![] };
    let marks = reached(list, roots);
    for (place, &record) in list.iter().enumerate() {
        // A mistake takes no constant that the root does not reach.
        if record[0] == 1 && !marks[place] && emitter.paper.is(Mutant::ReachedConstants) {
            emitter.nodes.push(Node::Constant(0));
            continue;
        }
        emitter.take(record, &places);
    }
    let whole = emitter.constants.len().is_multiple_of(2);
    let pads = emitter.pad();
    let paper = &mut *emitter.paper;
    paper.met([Pads0, Pads1, Pads2, Pads3, Pads4, Pads5, Pads6, Pads7][pads]);
    paper.met(if whole { EvenConstants } else { OddConstants });
    Ok(emitter.emission(layout.len()))
}

/// Takes note of what an emitted list has.
fn note_list(paper: &mut Paper, list: &[Record], roots: &[u64]) {
    let marks = reached(list, roots);
    let (mut seen, mut firsts) = (HashSet::new(), HashSet::new());
    let (mut zero, mut negated) = (false, false);
    for (&record, reached) in list.iter().zip(marks) {
        let constant = record[0] == 1;
        let is_new = !constant || seen.insert(record);
        let corners = [
            (!is_new, RepeatedConstant),
            (constant && !reached, UnreachedConstant),
            (constant && is_new && !firsts.insert(record[1]), SecondsApart),
            (record == [1, 0, 0] && negated, ZeroAfterNeg),
            (record[0] == 5 && !negated && zero, ZeroBeforeNeg),
            (record[0] == 5 && !negated && !zero, ZeroAdded),
            (record[0] == 5 && negated, ZeroAgain),
            (is_operation(&record) && !reached, UnreachedOperation),
        ];
        corners.into_iter().filter(|corner| corner.0).for_each(|corner| paper.met(corner.1));
        zero |= record == [1, 0, 0];
        negated |= record[0] == 5;
    }
    if !list.last().is_some_and(is_operation) {
        paper.met(LeafBehind);
    }
    if zero && !negated {
        paper.met(ZeroAlone);
    }
    if seen.is_empty() && !negated {
        paper.met(NoConstants);
    }
    if list.len() as u64 == LIMIT {
        paper.met(EmittedMost);
    }
}

/// The value of each operation where the box runs these words over the values of a layout's
/// places: it takes the inputs and the constants, then the operations in order, each of which
/// writes its own node. What is wrong where the words are not those of the numbers, or an operation
/// reads a node that has no value yet.
pub fn run(field: Field, emission: &Emission, inputs: &[Pair]) -> Result<Vec<Pair>, String> {
    let [variables, count] = [emission.num_vars, emission.num_ops].map(|number| number as usize);
    let constants = variables.checked_sub(inputs.len()).ok_or("fewer variables than inputs")?;
    if emission.words.len() != 2 * constants + 3 * count {
        return Err(format!("{} words of {constants} and {count}", emission.words.len()));
    }
    let (taken, operations) = emission.words.split_at(2 * constants);
    // By the order in which nodes get their values; number 0 is the last.
    let mut values = inputs.to_vec();
    values.extend(taken.as_chunks::<2>().0);
    for &[kind, left, right] in operations.as_chunks::<3>().0 {
        let value = |number: u64| {
            let at = ((variables + count - 1) as u64).checked_sub(number);
            at.and_then(|at| values.get(at as usize).copied())
                .ok_or_else(|| format!("node {number} is read and has no value yet"))
        };
        let (left, right) = (value(left)?, value(right)?);
        values.push(match kind {
            SUB => field.pair_sub(left, right),
            MUL => field.pair_mul(left, right),
            ADD => field.pair_add(left, right),
            _ => return Err(format!("{kind} is no kind")),
        });
    }
    Ok(values.split_off(variables))
}

/// The words that a list is emitted in, whatever its layout is.
pub fn emitted_words(list: &[Record]) -> usize {
    let constants =
        list.iter().filter(|record| record[0] == 1).map(|record| [record[1], record[2]]);
    let mut constants: HashSet<Pair> = constants.collect();
    if list.iter().any(|record| record[0] == 5) {
        constants.insert([0, 0]);
    }
    let twice = 2 * constants.len().next_multiple_of(2);
    let operations = list.iter().filter(|record| is_operation(record)).count();
    3 * (twice + operations).next_multiple_of(BLOCK) - 2 * twice
}

#[cfg(test)]
mod tests {
    use super::*;

    /// What the papers emit of a list whose root is its last record.
    fn emitted(field: Field, list: &[Record], layout: &[u64]) -> Emission {
        emit(&mut Paper::over(field), list, &[list.len() as u64 - 1], layout).expect("operations")
    }

    #[test]
    fn words_by_hand() {
        // (x0 − 5) · −x1 over the keys 1, 0: constants 5 and 0, 3 operations, a pad.
        let list = [[0, 0, 0], [0, 1, 0], [1, 5, 0], [3, 0, 2], [5, 1, 0], [4, 3, 4]];
        for field in Field::ALL {
            let emission = emitted(field, &list, &[1, 0]);
            // Nodes: x1 7, x0 6, 5 5, 0 4, the difference 3, the negation 2, the product 1, its square 0.
            let words = vec![5, 0, 0, 0, SUB, 6, 5, SUB, 4, 7, MUL, 3, 2, MUL, 1, 1];
            assert_eq!(emission, Emission { num_vars: 4, num_ops: 4, words });
            let values = run(field, &emission, &[[3, 0], [7, 0]]).expect("a run");
            let product = field.sub(0, 6);
            assert_eq!(values, [[2, 0], [field.sub(0, 3), 0], [product, 0], [36, 0]]);
        }
    }

    #[test]
    fn a_word_too_many_an_unknown_kind_and_an_early_read_are_told() {
        let list = [[0, 0, 0], [0, 1, 0], [2, 0, 1]];
        let (field, inputs) = (Field::GOLDILOCKS, [[3, 0], [7, 0]]);
        let emission = emitted(field, &list, &[0, 1]);
        assert_eq!((emission.num_vars, emission.num_ops), (2, 8));
        assert!(run(field, &emission, &inputs).is_ok());
        for (word, wrong) in [(0, 3), (1, 7), (1, 10), (4, 6), (23, 0), (23, u64::MAX)] {
            let mut other = emission.clone();
            other.words[word] = wrong;
            assert!(run(field, &other, &inputs).is_err(), "word {word} is {wrong}");
        }
        let longer = Emission { words: [&emission.words[..], &[0]].concat(), ..emission.clone() };
        assert!(run(field, &longer, &inputs).is_err());
        assert!(run(field, &emission, &[[3, 0]; 3]).is_err());
    }

    #[test]
    fn no_emission_has_fewer_words() {
        let leaves = [[0, 0, 0], [1, 5, 0], [1, 6, 0]];
        for count in 0..3 {
            let list = [&leaves[..=count], &[[5, 0, 0]]].concat();
            assert!(emitted_words(&list) >= FEWEST);
            let list = [&leaves[..=count], &[[2, 0, 0]]].concat();
            assert!(emitted_words(&list) >= FEWEST);
        }
        assert_eq!(emitted_words(&[[0, 0, 0], [5, 0, 0]]), FEWEST);
    }

    /// n records: so many constants, or an input where there are none, then one operation repeated.
    fn repeated(n: u64, constants: u64, operation: Record) -> Vec<Record> {
        let input = (constants == 0).then_some([0, 0, 0]);
        let leaves = input.into_iter().chain((1..=constants).map(|c0| [1, c0, 0]));
        let mut list: Vec<Record> = leaves.collect();
        list.resize(n as usize, operation);
        list
    }

    #[test]
    fn no_emission_has_more_than_three_words_a_record_and_23() {
        // The most: two constants that are not 0, and negations.
        let most = |n: u64| {
            let leaves = [[1, 5, 0], [1, 6, 0]];
            let chain = (2..n).map(|place| [5, place - 1, 0]);
            emitted_words(&leaves.into_iter().chain(chain).collect::<Vec<_>>())
        };
        assert_eq!([3, 11, 4_091].map(|n| most(n) - 3 * n as usize), [23; 3]);
        // Every number of constants, with a zero of a negation and without.
        for (n, constants) in (2..64).flat_map(|n| (0..n).map(move |constants| (n, constants))) {
            let lists = [[5, 0, 0], [2, 0, 0]].map(|operation| repeated(n, constants, operation));
            assert!(lists.iter().all(|list| emitted_words(list) <= 3 * list.len() + 23));
        }
    }

    #[test]
    fn the_words_are_counted_without_a_layout() {
        let field = Field::GOLDILOCKS;
        let list = [[0, 9, 0], [1, 5, 0], [1, 5, 1], [5, 0, 0], [1, 0, 0], [5, 3, 0], [4, 1, 5]];
        assert_eq!(emitted(field, &list, &[9, 9]).words.len(), emitted_words(&list));
    }
}

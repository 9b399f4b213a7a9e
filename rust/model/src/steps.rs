//! Steps: what a request comes to, rule by rule in document 01's order, and interning.

use std::collections::HashMap;

use crate::case::Record;
use crate::events::Event::{self, *};
use crate::field::Pair;
use crate::judge::Paper;
use crate::mutants::Mutant;

/// What a rule says of a request.
enum Verdict {
    /// The record at this place.
    Place(u64),
    /// An equal record, or a new one.
    Intern(Record),
    /// Another add or sub.
    Hand(u64, u64, u64),
}

use Verdict::{Hand, Intern, Place};

/// A list that requests are put to, with the least and greatest place of each record.
pub(crate) struct Builder<'a> {
    pub(crate) paper: &'a mut Paper,
    pub(crate) list: Vec<Record>,
    places: HashMap<Record, [u64; 2]>,
}

impl<'a> Builder<'a> {
    /// A builder that goes on from a list.
    pub(crate) fn over(paper: &'a mut Paper, list: &[Record]) -> Self {
        Self { paper, list: list.to_vec(), places: ends(list) }
    }

    /// The place of what a request comes to.
    pub(crate) fn request(&mut self, [tag, first, second]: Record) -> u64 {
        match tag {
            0 => self.paper.met(InputRequest),
            1 => self.paper.met(ConstantRequest),
            _ => return self.follow(tag, first, second),
        }
        self.intern([tag, first, second])
    }

    /// The place of a constant.
    pub(crate) fn constant(&mut self, value: u64) -> u64 {
        self.request([1, value, 0])
    }

    /// The rules of an operation, handed on until one answers.
    fn follow(&mut self, mut tag: u64, mut a: u64, mut b: u64) -> u64 {
        for handed in 0.. {
            if handed == 1_000 {
                self.paper.met(HandedFar);
            }
            match self.decide(tag, a, b) {
                Place(place) => return place,
                Intern(record) => return self.intern(record),
                Hand(next, first, second) => (tag, a, b) = (next, first, second),
            }
        }
        unreachable!("the sum of the places falls")
    }

    /// What the first rule that applies says.
    fn decide(&mut self, tag: u64, a: u64, b: u64) -> Verdict {
        for rule in self.order(tag) {
            if let Some(verdict) = self.apply(rule, a, b) {
                self.paper.met(rule);
                return verdict;
            }
        }
        unreachable!("the plain rule always applies")
    }

    /// An operation's rules in their order.
    fn order(&self, tag: u64) -> Vec<Event> {
        let mut rules = match tag {
            2 => vec![
                AddFold,
                AddZeroFirst,
                AddZeroSecond,
                AddCancelFirst,
                AddCancelSecond,
                AddNegFirst,
                AddNegSecond,
                AddPlain,
            ],
            3 => {
                vec![SubFold, SubZero, SubSame, SubAddFirst, SubAddSecond, SubSub, SubNeg, SubPlain]
            }
            4 => vec![MulFold, MulZeroFirst, MulZeroSecond, MulOneFirst, MulOneSecond, MulPlain],
            _ => vec![NegFold, NegPlain],
        };
        match (self.paper.mutant, tag) {
            (Some(Mutant::NegationBeforeCancelling), 2) => rules[3..7].rotate_right(2),
            (Some(Mutant::NegationBeforeCancelling), 3) => rules[3..7].rotate_right(1),
            (Some(Mutant::NegationBeforeSame), 3) => rules[2..7].rotate_right(1),
            (Some(Mutant::CancellingBeforeZero), 2) => rules[1..5].rotate_right(2),
            (Some(Mutant::CancellingBeforeZero), 3) => rules[1..6].rotate_right(3),
            (Some(Mutant::ZeroBeforeFolding), 2) => rules[..3].rotate_left(1),
            (Some(Mutant::ZeroBeforeFolding), 3) => rules[..2].rotate_left(1),
            (Some(Mutant::OneBeforeFolding), 4) => rules[..5].rotate_right(2),
            _ => {}
        }
        rules
    }

    /// What one rule says of these operands, where it applies.
    fn apply(&mut self, rule: Event, a: u64, b: u64) -> Option<Verdict> {
        let field = self.paper.field;
        let constants = self.constant_at(a).zip(self.constant_at(b));
        match rule {
            AddFold => constants.map(|(x, y)| folded(field.pair_add(x, y))),
            SubFold => constants.map(|(x, y)| folded(field.pair_sub(x, y))),
            MulFold => constants.map(|(x, y)| folded(field.pair_mul(x, y))),
            NegFold => self.constant_at(a).map(|x| folded(field.pair_sub([0, 0], x))),
            AddPlain => {
                if self.at(a)[0] == 5 && self.at(b)[0] == 5 {
                    self.paper.met(BothNeg);
                }
                Some(self.ordered(2, a, b))
            }
            SubPlain => Some(Intern([3, a, b])),
            MulPlain => Some(self.ordered(4, a, b)),
            NegPlain => match self.at(a) {
                [5, inner, _] if self.paper.is(Mutant::DoubleNegation) => Some(Place(inner)),
                _ => Some(Intern([5, a, 0])),
            },
            _ => self.shortcut(rule, a, b),
        }
    }

    /// What a rule that neither folds nor is plain says.
    fn shortcut(&self, rule: Event, a: u64, b: u64) -> Option<Verdict> {
        let (one, other) = (self.at(a), self.at(b));
        let handed_both = self.paper.is(Mutant::NegativeFirst);
        let (applies, verdict) = match rule {
            AddZeroFirst => (one == [1, 0, 0], Place(b)),
            AddZeroSecond => (other == [1, 0, 0], Place(a)),
            AddCancelFirst => (one[0] == 3 && one[2] == b, Place(one[1])),
            AddCancelSecond => (other[0] == 3 && other[2] == a, Place(other[1])),
            AddNegFirst => (one[0] == 5 && (other[0] != 5 || handed_both), Hand(3, b, one[1])),
            AddNegSecond => (one[0] != 5 && other[0] == 5, Hand(3, a, other[1])),
            SubZero => (other == [1, 0, 0], Place(a)),
            SubSame => (a == b, Intern([1, 0, 0])),
            SubAddFirst => (one[0] == 2 && one[1] == b, Place(one[2])),
            SubAddSecond => (one[0] == 2 && one[2] == b, Place(one[1])),
            SubSub => (other[0] == 3 && other[1] == a, Place(other[2])),
            SubNeg => (other[0] == 5, Hand(2, a, other[1])),
            MulZeroFirst => (one == [1, 0, 0], Intern([1, 0, 0])),
            MulZeroSecond => (other == [1, 0, 0], Intern([1, 0, 0])),
            MulOneFirst => (one == [1, 1, 0], Place(b)),
            MulOneSecond => (other == [1, 1, 0], Place(a)),
            _ => unreachable!("no rule of a step"),
        };
        applies.then_some(verdict)
    }

    /// An add or mul, lower place first.
    fn ordered(&mut self, tag: u64, a: u64, b: u64) -> Verdict {
        if b < a {
            self.paper.met(Swapped);
            if !self.paper.is(Mutant::Unordered) {
                return Intern([tag, b, a]);
            }
        }
        Intern([tag, a, b])
    }

    /// The place of an equal record, the greatest, or of a new one.
    fn intern(&mut self, record: Record) -> u64 {
        if let Some(&[least, greatest]) = self.places.get(&record) {
            self.paper.met(if least == greatest { Found } else { FoundOfSeveral });
            return if self.paper.is(Mutant::LeastPlace) { least } else { greatest };
        }
        self.paper.met(Appended);
        let place = self.list.len() as u64;
        self.list.push(record);
        self.places.insert(record, [place, place]);
        place
    }

    fn at(&self, place: u64) -> Record {
        self.list[place as usize]
    }

    fn constant_at(&self, place: u64) -> Option<Pair> {
        match self.at(place) {
            [1, c0, c1] => Some([c0, c1]),
            _ => None,
        }
    }
}

/// The constant that a folding rule interns.
fn folded([c0, c1]: Pair) -> Verdict {
    Intern([1, c0, c1])
}

/// The least and the greatest place of each record of a list.
pub(crate) fn ends(list: &[Record]) -> HashMap<Record, [u64; 2]> {
    let mut places: HashMap<Record, [u64; 2]> = HashMap::with_capacity(list.len());
    for (place, &record) in list.iter().enumerate() {
        let place = place as u64;
        places.entry(record).and_modify(|ends| ends[1] = place).or_insert([place, place]);
    }
    places
}

/// A request with its operands, earlier requests, at the places that they got.
fn renamed([tag, first, second]: Record, places: &[u64]) -> Record {
    match tag {
        0 | 1 => [tag, first, second],
        5 => [tag, places[first as usize], 0],
        _ => [tag, places[first as usize], places[second as usize]],
    }
}

/// The list after one request on it, and the result's place.
pub(crate) fn step(paper: &mut Paper, list: &[Record], request: Record) -> (Vec<Record>, u64) {
    let mut builder = Builder::over(paper, list);
    let place = builder.request(request);
    (builder.list, place)
}

/// The list built from requests, and each request's place.
pub(crate) fn build(paper: &mut Paper, requests: &[Record]) -> (Vec<Record>, Vec<u64>) {
    let mut builder = Builder::over(paper, &[]);
    let mut places = Vec::with_capacity(requests.len());
    for &request in requests {
        places.push(builder.request(renamed(request, &places)));
    }
    (builder.list, places)
}

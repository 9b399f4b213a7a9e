//! Rounds: fanout, the common factor, rotation onto an existing record, and which rounds are kept.

use std::collections::HashMap;

use crate::case::Record;
use crate::events::Event::{self, *};
use crate::judge::Paper;
use crate::lists::{compact, operands, reached};
use crate::mutants::Mutant;
use crate::refusal::LIMIT;
use crate::steps::{Builder, ends};

/// The factor rewrites by a's operand, then b's, under add and under sub.
const FACTORS: [[[Event; 2]; 2]; 2] = [
    [[FactorAdd00, FactorAdd01], [FactorAdd10, FactorAdd11]],
    [[FactorSub00, FactorSub01], [FactorSub10, FactorSub11]],
];

/// The rotations by the inner operand, then its own operand, of add and of mul.
const ROTATIONS: [[[Event; 2]; 2]; 2] = [
    [[RotateAdd00, RotateAdd01], [RotateAdd10, RotateAdd11]],
    [[RotateMul00, RotateMul01], [RotateMul10, RotateMul11]],
];

/// The normalised list, its roots and the rounds kept.
pub(crate) fn normalize(
    paper: &mut Paper,
    list: &[Record],
    roots: &[u64],
) -> (Vec<Record>, Vec<u64>, u64) {
    let (mut list, mut roots, mut rounds) = (list.to_vec(), roots.to_vec(), 0);
    let most = if paper.is(Mutant::OneRound) { 1 } else { 2 * list.len() as u64 };
    while rounds < most {
        let (fired, replayed, replayed_roots) = replay(paper, &list, &roots);
        let (shorter, new_roots) = compact(paper, &replayed, &replayed_roots);
        if !keeps(paper, fired, shorter.len(), list.len()) {
            break;
        }
        (list, roots, rounds) = (shorter, new_roots, rounds + 1);
    }
    if paper.is(Mutant::CompactedReturn) {
        (list, roots) = compact(paper, &list, &roots);
    }
    if rounds >= 2 {
        paper.met(TwoRounds);
    }
    if rounds >= 300 {
        paper.met(ManyRounds);
    }
    (list, roots, rounds)
}

/// Whether a round is kept: a rewrite fired, and the compacted list is strictly shorter.
fn keeps(paper: &mut Paper, fired: bool, after: usize, before: usize) -> bool {
    if fired && after >= before {
        paper.met(Discarded);
    }
    if !fired && after < before {
        paper.met(ShorterUnfired);
    }
    let shorter = after < before || (paper.is(Mutant::NotShorter) && after == before);
    (fired || paper.is(Mutant::WithoutRewrite)) && shorter
}

/// How often each record is mentioned, by any record and as a root.
fn fanout(paper: &Paper, list: &[Record], roots: &[u64]) -> Vec<u64> {
    let marks = paper.is(Mutant::ReachableFanout).then(|| reached(list, roots));
    let mut mentions = vec![0; list.len()];
    for (place, &record) in list.iter().enumerate() {
        if marks.as_ref().is_some_and(|marks| !marks[place]) {
            continue;
        }
        for operand in operands(record) {
            mentions[operand as usize] += 1;
        }
    }
    let counted = match paper.mutant {
        Some(Mutant::NoRootMention) => 0,
        Some(Mutant::FirstRootMention) => 1,
        _ => roots.len(),
    };
    roots[..counted.min(roots.len())].iter().for_each(|&root| mentions[root as usize] += 1);
    mentions
}

/// One round's look at its list.
struct Round<'a> {
    list: &'a [Record],
    fanout: Vec<u64>,
    /// The fanout without the roots behind the first.
    first_fanout: Vec<u64>,
    places: HashMap<Record, [u64; 2]>,
}

/// What a record is rewritten to, in places of the round's list.
enum Rewrite {
    /// Factor, and the other operands.
    Factor(u64, u64, u64),
    /// The existing record, and what remains.
    Rotation(u64, u64),
}

/// The records replayed into an empty builder: whether a rewrite fired, the list, its roots.
fn replay(paper: &mut Paper, list: &[Record], roots: &[u64]) -> (bool, Vec<Record>, Vec<u64>) {
    let (all, first) = (fanout(paper, list, roots), fanout(paper, list, &roots[..1]));
    let round = Round { list, fanout: all, first_fanout: first, places: ends(list) };
    let reachable = reached(list, roots);
    let mut builder = Builder::over(paper, &[]);
    let mut mapped: Vec<u64> = Vec::with_capacity(list.len());
    let mut fired = false;
    for (place, &record) in list.iter().enumerate() {
        let skipped = !reachable[place] && builder.paper.is(Mutant::UnreachableSkipped);
        let rewrite = if skipped { None } else { round.rewrite(builder.paper, place as u64) };
        fired |= rewrite.is_some();
        if rewrite.is_some() && !reachable[place] {
            builder.paper.met(UnreachableRewrite);
        }
        mapped.push(put(&mut builder, record, rewrite, &mapped));
    }
    let replayed = builder.list;
    if replayed.len() as u64 > LIMIT {
        paper.met(LongRound);
    }
    (fired, replayed, roots.iter().map(|&root| mapped[root as usize]).collect())
}

/// The place of a record, or of what it is rewritten to, in the round's new list.
fn put(builder: &mut Builder, record: Record, rewrite: Option<Rewrite>, mapped: &[u64]) -> u64 {
    let at = |place: u64| mapped[place as usize];
    let [tag, first, second] = record;
    match rewrite {
        Some(Rewrite::Factor(factor, a, b)) => {
            let turned = tag == 3 && builder.paper.is(Mutant::SwappedDifference);
            let others = if turned { [tag, at(b), at(a)] } else { [tag, at(a), at(b)] };
            let inner = builder.request(others);
            builder.request([4, at(factor), inner])
        }
        Some(Rewrite::Rotation(existing, rest)) => builder.request([tag, at(existing), at(rest)]),
        None => match tag {
            0 | 1 => builder.request(record),
            5 => builder.request([5, at(first), 0]),
            _ => builder.request([tag, at(first), at(second)]),
        },
    }
}

impl Round<'_> {
    /// The rewrite of the record at this place, where one applies.
    fn rewrite(&self, paper: &mut Paper, place: u64) -> Option<Rewrite> {
        let [tag, a, b] = self.list[place as usize];
        match tag {
            2 => self.factor(paper, tag, a, b).or_else(|| self.rotation(paper, place)),
            3 => self.factor(paper, tag, a, b),
            4 => self.rotation(paper, place),
            _ => None,
        }
    }

    /// A factor that two muls of fanout 1 share.
    fn factor(&self, paper: &mut Paper, tag: u64, a: u64, b: u64) -> Option<Rewrite> {
        let (one, other) = (self.list[a as usize], self.list[b as usize]);
        if one[0] != 4 || other[0] != 4 {
            return None;
        }
        let tried = match paper.mutant {
            Some(Mutant::SecondFactorFirst) => [(1, 0), (1, 1), (0, 0), (0, 1)],
            Some(Mutant::FactorsByB) => [(0, 0), (1, 0), (0, 1), (1, 1)],
            _ => [(0, 0), (0, 1), (1, 0), (1, 1)],
        };
        let (i, j) = tried.into_iter().find(|&(i, j)| one[1 + i] == other[1 + j])?;
        let [single, single_at_first] = [&self.fanout, &self.first_fanout]
            .map(|fanout| fanout[a as usize] == 1 && fanout[b as usize] == 1);
        if !single {
            if single_at_first {
                paper.met(LaterRootForbids);
            }
            return None;
        }
        paper.met(FACTORS[tag as usize - 2][i][j]);
        Some(Rewrite::Factor(one[1 + i], one[2 - i], other[2 - j]))
    }

    /// A rotation onto an existing record, the first operand tried as the inner one.
    fn rotation(&self, paper: &mut Paper, place: u64) -> Option<Rewrite> {
        let [tag, a, b] = self.list[place as usize];
        for (side, inner, other) in [(0, a, b), (1, b, a)] {
            let [inner_tag, x, y] = self.list[inner as usize];
            let [single, single_at_first] =
                [&self.fanout, &self.first_fanout].map(|fanout| fanout[inner as usize] == 1);
            if inner_tag != tag || !(single || single_at_first) {
                continue;
            }
            let mut candidates = [(0, x, y), (1, y, x)];
            if paper.is(Mutant::SecondCandidateFirst) {
                candidates.reverse();
            }
            for (which, taken, rest) in candidates {
                match self.before(paper, tag, taken, other, place) {
                    Some(existing) if single => {
                        paper.met(ROTATIONS[usize::from(tag == 4)][side][which]);
                        return Some(Rewrite::Rotation(existing, rest));
                    }
                    Some(_) => paper.met(LaterRootHolds),
                    None => {}
                }
            }
        }
        None
    }

    /// The record of these operands, lower place first, if it stands before this place.
    fn before(&self, paper: &mut Paper, tag: u64, x: u64, y: u64, place: u64) -> Option<u64> {
        let &[least, greatest] = self.places.get(&[tag, x.min(y), x.max(y)])?;
        if least < place && greatest >= place {
            paper.met(LaterPlace);
        }
        let counted = if paper.is(Mutant::LeastRotation) { least } else { greatest };
        if paper.is(Mutant::AnyRotation) && least < place {
            return Some(least);
        }
        (counted < place).then_some(counted)
    }
}

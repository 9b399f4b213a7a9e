//! The calls that are timed, on both sides. Ours has to accept, and so does the whole work.

use std::hint::black_box;

use differential::{Rng, cases};
use model::Record;
use oracle::{BabyBear, Dag, Element, Layout, Nodes, QuadFelt};

use crate::measure::{Bench, Row, Side};

/// A field on every side: the Rust's elements, with what ours and the cases call it.
pub trait Sides: Element {
    const OURS: ace::Field;
    const CASES: model::Field;
}

impl Sides for QuadFelt {
    const OURS: ace::Field = ace::Field::Goldilocks;
    const CASES: model::Field = model::Field::GOLDILOCKS;
}

impl Sides for BabyBear {
    const OURS: ace::Field = ace::Field::BabyBear;
    const CASES: model::Field = model::Field::BABY_BEAR;
}

/// What ours says of a list that is timed.
const ACCEPTED: &str = "the call accepts what it is timed on";

/// Lists by what is done with them.
#[derive(Clone, Copy)]
pub enum Kind {
    Expression,
    Chain,
    Unchanged,
    /// Inputs that all have one hash.
    Colliding,
    /// Constants of random coordinates.
    Constants,
    /// Such a constant and an operation on it in turn.
    Alternating,
    /// Operations on few inputs.
    Operations,
}

/// A list of this kind with about n records.
fn list<E: Sides>(kind: Kind, n: usize) -> Vec<Record> {
    match kind {
        Kind::Expression => cases::expression(E::CASES, &mut Rng::new(n as u64), n),
        Kind::Chain => cases::chain(n as u64 / 3),
        Kind::Unchanged => cases::unchanged(n),
        Kind::Colliding => cases::colliding(n as u64),
        Kind::Constants => constants::<E>(n),
        Kind::Alternating => cases::alternating(E::CASES, &mut Rng::new(n as u64), n),
        Kind::Operations => cases::operations(&mut Rng::new(n as u64), n),
    }
}

/// n constants, of words at random.
fn constants<E: Sides>(n: usize) -> Vec<Record> {
    let mut rng = Rng::new(n as u64);
    let mut constant = |_| {
        let [c0, c1] = E::CASES.reduced([rng.word(), rng.word()]);
        [1, c0, c1]
    };
    (0..n).map(&mut constant).collect()
}

/// The last place of a list.
fn last(list: &[Record]) -> u64 {
    list.len() as u64 - 1
}

/// The place that seven eighths of a list are before.
fn seven_eighths(list: &[Record]) -> u64 {
    list.len() as u64 * 7 / 8
}

/// This root and seven places that it reaches, none far from the next: the eight reach no more.
fn eight(list: &[Record], root: u64) -> [u64; 8] {
    let marks = model::reached(list, &[root]);
    let reached: Vec<u64> = (0..=root).filter(|&place| marks[place as usize]).collect();
    [8, 7, 6, 5, 4, 3, 2, 1].map(|part| reached[(reached.len() - 1) * part / 8])
}

/// Ours on a list with these roots, normalising it.
fn normalizing<E: Sides>(list: &[Record], roots: &[u64]) -> Side<'static, ()> {
    let (words, n, roots) = (model::words(list), list.len(), roots.to_vec());
    let (mut result, mut work) = (vec![0; 3 * n], vec![0; 6 * n]);
    Side::calling(move || {
        let normal = ace::normalize(E::OURS, &words, n as u64, &roots, &mut result, &mut work);
        black_box(normal.expect(ACCEPTED));
    })
}

/// Ours on a list with these roots, building it.
fn building<E: Sides>(list: &[Record], roots: &[u64]) -> Side<'static, ()> {
    let (words, n, roots) = (model::words(list), list.len(), roots.to_vec());
    let (mut result, mut map) = (vec![0; 3 * n], vec![0; n]);
    Side::calling(move || {
        let built = ace::build(E::OURS, &words, n as u64, &roots, &mut result, &mut map);
        black_box(built.expect(ACCEPTED));
    })
}

/// Ours on a list with these roots, compacting it.
fn compacting<E: Sides>(list: &[Record], roots: &[u64]) -> Side<'static, ()> {
    let (words, n, roots) = (model::words(list), list.len(), roots.to_vec());
    let mut result = vec![0; 3 * n];
    Side::calling(move || {
        let compacted = ace::compact(E::OURS, &words, n as u64, &roots, &mut result);
        black_box(compacted.expect(ACCEPTED));
    })
}

/// An entry for each input of a list.
fn assignment<E: Sides>(list: &[Record]) -> Vec<Record> {
    let entry = |record: &Record| {
        let key = record[1];
        let [c0, c1] = E::CASES.reduced([3 * key + 1, key * key]);
        [key, c0, c1]
    };
    list.iter().filter(|record| record[0] == 0).map(entry).collect()
}

/// Ours on a list with these roots, evaluating them.
fn evaluating<E: Sides>(list: &[Record], roots: &[u64]) -> Side<'static, ()> {
    let (words, n, roots) = (model::words(list), list.len() as u64, roots.to_vec());
    let entries = assignment::<E>(list);
    let (assignment, m) = (model::words(&entries), entries.len() as u64);
    Side::calling(move || {
        let values = ace::evaluate(E::OURS, &words, n, &roots, &assignment, m);
        black_box(values.expect(ACCEPTED));
    })
}

pub fn normalize<E: Sides>(bench: &Bench, kind: Kind, n: usize) -> Row {
    let list = list::<E>(kind, n);
    let root = last(&list);
    let nodes = Nodes::<E>::new(&list);
    let rust = Side::new(
        || Some(nodes.dag(root)),
        |dag| {
            let normal = dag.take().map(Dag::normalize);
            *dag = black_box(normal);
        },
    );
    bench.alternate(normalizing::<E>(&list, &[root]), rust)
}

pub fn build<E: Sides>(bench: &Bench, kind: Kind, n: usize) -> Row {
    let list = list::<E>(kind, n);
    let nodes = Nodes::<E>::new(&list);
    let rust = Side::calling(|| {
        black_box(nodes.build());
    });
    bench.alternate(building::<E>(&list, &[last(&list)]), rust)
}

/// The root reaches seven eighths of the list.
pub fn compact<E: Sides>(bench: &Bench, n: usize) -> Row {
    let list = list::<E>(Kind::Unchanged, n);
    let root = seven_eighths(&list);
    let nodes = Nodes::<E>::new(&list);
    let rust = Side::new(|| nodes.dag(root), |dag| black_box(dag).compact());
    bench.alternate(compacting::<E>(&list, &[root]), rust)
}

pub fn evaluate<E: Sides>(bench: &Bench, n: usize) -> Row {
    let list = list::<E>(Kind::Expression, n);
    let root = last(&list);
    let (dag, layout) = (Dag::<E>::new(&list, root), Layout::new(&assignment::<E>(&list)));
    let rust = Side::calling(|| {
        black_box(dag.evaluate(&layout));
    });
    bench.alternate(evaluating::<E>(&list, &[root]), rust)
}

/// The Rust writes into a string that has room for the text.
pub fn draw<E: Sides>(bench: &Bench, kind: Kind, n: usize) -> Row {
    let list = list::<E>(kind, n);
    let (words, n, roots) = (model::words(&list), list.len() as u64, [last(&list)]);
    let nodes = Nodes::<E>::new(&list);
    let mut written = String::new();
    nodes.draw(&mut written);
    let mut text = vec![0; written.len()];
    let ours = Side::calling(|| {
        let length = ace::draw(E::OURS, &words, n, &roots, &mut text);
        black_box(length.expect(ACCEPTED));
    });
    let rust = Side::calling(|| {
        written.clear();
        nodes.draw(black_box(&mut written));
    });
    bench.alternate(ours, rust)
}

/// The layout has the inputs' keys in order, which the Rust takes for public values, and one more
/// where they are odd. Its stream has elements modulo p: a residue is its word and a zero there.
pub fn emit<E: Sides>(bench: &Bench, kind: Kind, n: usize) -> Row {
    let list = list::<E>(kind, n);
    let root = list.iter().rposition(|record| record[0] > 1).expect("an operation") as u64;
    let inputs = list.iter().filter(|record| record[0] == 0).count() as u64;
    let layout: Vec<u64> = (0..inputs.next_multiple_of(2)).collect();
    let (words, n, k) = (model::words(&list), list.len() as u64, layout.len() as u64);
    let mut result = vec![0; model::emitted_words(&list)];
    let ours = Side::calling(|| {
        let emitted = ace::emit(E::OURS, &words, n, &[root], &layout, k, &mut result);
        black_box(emitted.expect(ACCEPTED));
    });
    let dag = Dag::<E>::new(&list, root);
    let rust = Side::calling(|| {
        black_box(dag.emit(layout.len()));
    });
    bench.alternate(ours, rust)
}

/// A call with roots, the list that it is timed on, and the first of the roots.
pub struct Rooted {
    pub name: &'static str,
    kind: Kind,
    first: fn(&[Record]) -> u64,
    ours: fn(&[Record], &[u64]) -> Side<'static, ()>,
}

impl Rooted {
    /// The calls that answer something of each root, over a field.
    pub fn all<E: Sides>() -> [Self; 5] {
        let (expression, unchanged) = (Kind::Expression, Kind::Unchanged);
        let normalize = normalizing::<E>;
        [
            Self { name: "build", kind: expression, first: last, ours: building::<E> },
            Self { name: "compact", kind: unchanged, first: seven_eighths, ours: compacting::<E> },
            Self { name: "normalize", kind: expression, first: last, ours: normalize },
            Self { name: "normalize, unchanged", kind: unchanged, first: last, ours: normalize },
            Self { name: "evaluate", kind: expression, first: last, ours: evaluating::<E> },
        ]
    }

    /// Eight roots beside one on the same list of about n records, both ours.
    pub fn eight_beside_one<E: Sides>(&self, bench: &Bench, n: usize) -> Row {
        let list = list::<E>(self.kind, n);
        let root = (self.first)(&list);
        bench.alternate((self.ours)(&list, &eight(&list, root)), (self.ours)(&list, &[root]))
    }
}

/// Columns of 128 in each form, as many as fit.
pub fn columns<E: Sides>() -> [(&'static str, Vec<Vec<u64>>); 3] {
    let set = |count: u64, entry: &dyn Fn(u64, u64) -> u64| -> Vec<Vec<u64>> {
        (0..count).map(|which| (0..128).map(|place| entry(which, place)).collect()).collect()
    };
    let mixed = |which: u64, place: u64| Rng::new(which << 8 | place).below(E::CASES.modulus);
    let bit = |which: u64, place: u64| Rng::new(which << 8 | place).below(2);
    [
        ("sparse", set(16, &|which, place| if place == 8 * which { 5 } else { 0 })),
        ("dense", set(10, &mixed)),
        ("basis", set(16, &bit)),
    ]
}

pub fn lower<E: Sides>(bench: &Bench, columns: &[Vec<u64>]) -> Row {
    let lengths: Vec<u64> = columns.iter().map(|column| column.len() as u64).collect();
    let entries = columns.concat();
    let (mut result, mut work) = (vec![0; 12_288], vec![0; 12_288]);
    let mut places = vec![0; lengths.len()];
    let ours = Side::calling(|| {
        let (result, work) = (&mut result, &mut work);
        let count = ace::lower(E::OURS, &[], 0, &lengths, &entries, 128, result, work, &mut places);
        black_box(count.expect(ACCEPTED));
    });
    let rust = Side::new(
        || Nodes::<E>::new(&[]),
        |nodes| {
            black_box(nodes.clone().lowered(columns, 128));
        },
    );
    bench.alternate(ours, rust)
}

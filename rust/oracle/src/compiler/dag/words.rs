//! The calls of the Rust on records of three words.

use miden_crypto::field::{BabyBear, ExtensionField, Felt, QuadFelt, TwoAdicField};

use super::builder::DagBuilder;
use super::drawing;
use super::ir::{AceDag, DagId, NodeId, NodeKind, PeriodicColumn, PeriodicColumnData};
use super::normalize::{normalize_dag, one_round};
use super::periodic::build_periodic_nodes;
use crate::compiler::testing::eval_dag;
use crate::layout::{InputKey, InputLayout};

/// Tag, first word, second word.
pub type Record = [u64; 3];

/// The key that a number of document 01 stands for.
fn key(number: u64) -> InputKey {
    let field = |at: u32| (number >> (16 * at) & 0xffff) as usize;
    match number >> 48 {
        0 => InputKey::Public(field(0)),
        1 => InputKey::AuxRandAlpha,
        2 => InputKey::AuxRandBeta,
        3 => InputKey::MultiAirFoldCoeff(field(0)),
        4 => InputKey::Preprocessed { offset: field(0), index: field(1) },
        5 => InputKey::Main { offset: field(0), index: field(1) },
        6 => InputKey::AuxCoord { offset: field(0), index: field(1), coord: field(2) },
        7 => InputKey::AuxBusBoundary(field(0)),
        8 => InputKey::Reserved,
        9 => InputKey::Alpha,
        10 => InputKey::ZPowN,
        11 => InputKey::ZK,
        12 => InputKey::IsFirst,
        13 => InputKey::IsLast,
        14 => InputKey::IsTransition,
        15 => InputKey::IsFirstAir(field(0)),
        16 => InputKey::IsLastAir(field(0)),
        17 => InputKey::IsTransitionAir(field(0)),
        18 => InputKey::Weight0,
        19 => InputKey::F,
        20 => InputKey::S0,
        21 => InputKey::QuotientChunkCoord { offset: field(0), chunk: field(1), coord: field(2) },
        variant => panic!("no key has variant {variant}"),
    }
}

/// The number of a key.
pub(super) fn number(key: InputKey) -> u64 {
    let (variant, fields) = match key {
        InputKey::Public(i) => (0, [i, 0, 0]),
        InputKey::AuxRandAlpha => (1, [0; 3]),
        InputKey::AuxRandBeta => (2, [0; 3]),
        InputKey::MultiAirFoldCoeff(i) => (3, [i, 0, 0]),
        InputKey::Preprocessed { offset, index } => (4, [offset, index, 0]),
        InputKey::Main { offset, index } => (5, [offset, index, 0]),
        InputKey::AuxCoord { offset, index, coord } => (6, [offset, index, coord]),
        InputKey::AuxBusBoundary(i) => (7, [i, 0, 0]),
        InputKey::Reserved => (8, [0; 3]),
        InputKey::Alpha => (9, [0; 3]),
        InputKey::ZPowN => (10, [0; 3]),
        InputKey::ZK => (11, [0; 3]),
        InputKey::IsFirst => (12, [0; 3]),
        InputKey::IsLast => (13, [0; 3]),
        InputKey::IsTransition => (14, [0; 3]),
        InputKey::IsFirstAir(i) => (15, [i, 0, 0]),
        InputKey::IsLastAir(i) => (16, [i, 0, 0]),
        InputKey::IsTransitionAir(i) => (17, [i, 0, 0]),
        InputKey::Weight0 => (18, [0; 3]),
        InputKey::F => (19, [0; 3]),
        InputKey::S0 => (20, [0; 3]),
        InputKey::QuotientChunkCoord { offset, chunk, coord } => (21, [offset, chunk, coord]),
    };
    let [first, second, third] = fields.map(|field| field as u64);
    (variant << 48) + first + (second << 16) + (third << 32)
}

/// An element of a field of the calls, by the words of its coordinates.
pub trait Element: ExtensionField<Felt> + From<Self::Entry> {
    /// An entry of a column.
    type Entry: TwoAdicField;

    /// The prime that coordinates are below.
    const MODULUS: u64;

    /// The element of these coordinates.
    fn of(coordinates: [u64; 2]) -> Self;

    /// The coordinates of this element.
    fn words(self) -> [u64; 2];

    /// The entry of this word.
    fn entry(word: u64) -> Self::Entry;
}

impl Element for QuadFelt {
    type Entry = Felt;

    const MODULUS: u64 = Felt::MODULUS;

    fn of([c0, c1]: [u64; 2]) -> Self {
        Self::new(Felt::new(c0), Felt::new(c1))
    }

    fn words(self) -> [u64; 2] {
        [self.c0.word(), self.c1.word()]
    }

    fn entry(word: u64) -> Felt {
        Felt::new(word)
    }
}

impl Element for BabyBear {
    type Entry = Self;

    const MODULUS: u64 = Self::MODULUS;

    fn of([c0, c1]: [u64; 2]) -> Self {
        assert_eq!(c1, 0, "a residue has no second coordinate");
        Self::new(c0)
    }

    fn words(self) -> [u64; 2] {
        [self.word(), 0]
    }

    fn entry(word: u64) -> Self {
        Self::new(word)
    }
}

/// The node of a record in a list with this id.
fn node<E: Element>([tag, first, second]: Record, dag: DagId) -> NodeKind<E> {
    let place = |word: u64| NodeId::in_dag(word as usize, dag);
    match tag {
        0 => NodeKind::Input(key(first)),
        1 => NodeKind::Constant(E::of([first, second])),
        2 => NodeKind::Add(place(first), place(second)),
        3 => NodeKind::Sub(place(first), place(second)),
        4 => NodeKind::Mul(place(first), place(second)),
        5 => NodeKind::Neg(place(first)),
        _ => panic!("no record has tag {tag}"),
    }
}

/// The record of a node.
fn record<E: Element>(node: &NodeKind<E>) -> Record {
    let word = |place: &NodeId| place.index() as u64;
    match node {
        NodeKind::Input(key) => [0, number(*key), 0],
        NodeKind::Constant(value) => {
            let [c0, c1] = value.words();
            [1, c0, c1]
        }
        NodeKind::Add(a, b) => [2, word(a), word(b)],
        NodeKind::Sub(a, b) => [3, word(a), word(b)],
        NodeKind::Mul(a, b) => [4, word(a), word(b)],
        NodeKind::Neg(a) => [5, word(a), 0],
    }
}

/// The records of a list of nodes.
fn records<E: Element>(nodes: &[NodeKind<E>]) -> Vec<Record> {
    nodes.iter().map(record).collect()
}

/// The list as a DAG of its own.
fn dag<E: Element>(list: &[Record], root: u64) -> AceDag<E> {
    let id = DagId::fresh();
    let nodes = list.iter().map(|&words| node(words, id)).collect();
    AceDag::from_parts(id, nodes, NodeId::in_dag(root as usize, id))
}

/// One request to a builder.
fn request<E: Element>(builder: &mut DagBuilder<E>, node: NodeKind<E>) -> NodeId {
    match node {
        NodeKind::Input(key) => builder.input(key),
        NodeKind::Constant(value) => builder.constant(value),
        NodeKind::Add(a, b) => builder.add(a, b),
        NodeKind::Sub(a, b) => builder.sub(a, b),
        NodeKind::Mul(a, b) => builder.mul(a, b),
        NodeKind::Neg(a) => builder.neg(a),
    }
}

/// The list after one request on it, and the result's place.
pub fn step<E: Element>(list: &[Record], words: Record) -> (Vec<Record>, u64) {
    let dag = dag::<E>(list, 0);
    let wanted = node(words, dag.dag_id());
    let mut builder = DagBuilder::from_dag(dag);
    let place = request(&mut builder, wanted);
    (records(&builder.into_nodes()), place.index() as u64)
}

/// `step`, with the list handed over by `from_snapshot`.
pub fn step_from_snapshot<E: Element>(list: &[Record], words: Record) -> (Vec<Record>, u64) {
    let dag = dag::<E>(list, 0);
    let wanted = node(words, dag.dag_id());
    let mut builder = DagBuilder::from_snapshot(dag.into_snapshot());
    let place = request(&mut builder, wanted);
    (records(&builder.into_nodes()), place.index() as u64)
}

/// `step`, with the list handed over by `from_nodes`; a list of leaves alone takes a leaf only.
pub fn step_from_nodes<E: Element>(list: &[Record], words: Record) -> (Vec<Record>, u64) {
    let dag = dag::<E>(list, 0);
    let wanted = node(words, dag.dag_id());
    let mut builder = DagBuilder::from_nodes(dag.into_nodes());
    let place = request(&mut builder, wanted);
    (records(&builder.into_nodes()), place.index() as u64)
}

/// The requests of a list, one by one, into an empty builder.
fn replay<E: Element>(nodes: &[NodeKind<E>]) -> (DagBuilder<E>, Vec<NodeId>) {
    let mut builder = DagBuilder::new();
    let mut mapped: Vec<NodeId> = Vec::with_capacity(nodes.len());
    for node in nodes {
        let place = |id: NodeId| mapped[id.index()];
        let wanted = match *node {
            NodeKind::Add(a, b) => NodeKind::Add(place(a), place(b)),
            NodeKind::Sub(a, b) => NodeKind::Sub(place(a), place(b)),
            NodeKind::Mul(a, b) => NodeKind::Mul(place(a), place(b)),
            NodeKind::Neg(a) => NodeKind::Neg(place(a)),
            NodeKind::Input(key) => NodeKind::Input(key),
            NodeKind::Constant(value) => NodeKind::Constant(value),
        };
        mapped.push(request(&mut builder, wanted));
    }
    (builder, mapped)
}

/// The list built from these requests, and each request's place.
pub fn build<E: Element>(requests: &[Record]) -> (Vec<Record>, Vec<u64>) {
    let (builder, mapped) = replay(dag::<E>(requests, 0).nodes());
    let places = mapped.iter().map(|id| id.index() as u64).collect();
    (records(&builder.into_nodes()), places)
}

/// The compacted list and its root.
pub fn compact<E: Element>(list: &[Record], root: u64) -> (Vec<Record>, u64) {
    let mut dag = dag::<E>(list, root);
    dag.compact();
    (records(dag.nodes()), dag.root().index() as u64)
}

/// The normalised list, its root and the rounds kept, round by round.
pub fn normalize<E: Element>(list: &[Record], root: u64) -> (Vec<Record>, u64, u64) {
    let mut dag = dag::<E>(list, root);
    let mut rounds = 0;
    loop {
        let (next, kept) = one_round(dag);
        if !kept {
            return (records(next.nodes()), next.root().index() as u64, rounds);
        }
        rounds += 1;
        dag = next;
    }
}

/// The normalised list and its root, by `normalize_dag` itself.
pub fn normalize_whole<E: Element>(list: &[Record], root: u64) -> (Vec<Record>, u64) {
    let dag = normalize_dag(dag::<E>(list, root));
    (records(dag.nodes()), dag.root().index() as u64)
}

/// The root's value where every input has an entry; an entry is key number, c0, c1.
pub fn evaluate<E: Element>(list: &[Record], root: u64, assignment: &[Record]) -> Option<[u64; 2]> {
    let layout = Layout::new(assignment);
    Dag::<E>::new(list, root).evaluate(&layout).map(E::words)
}

/// The columns in their chosen forms.
fn periodic<E: Element>(columns: &[Vec<u64>]) -> PeriodicColumnData<E> {
    let entries = |column: &Vec<u64>| column.iter().map(|&word| E::entry(word)).collect();
    PeriodicColumnData::from_periodic_columns(columns.iter().map(entries).collect())
}

/// Each column's form: 0 sparse, 1 dense, 2 basis.
pub fn forms<E: Element>(columns: &[Vec<u64>]) -> Vec<u64> {
    let form = |column: &PeriodicColumn<E>| match column {
        PeriodicColumn::Sparse { .. } => 0,
        PeriodicColumn::Dense(_) => 1,
        PeriodicColumn::Basis { .. } => 2,
    };
    periodic(columns).columns().iter().map(form).collect()
}

/// The list with the columns' nodes appended, and the place of each column's node.
pub fn lower<E: Element>(
    list: &[Record],
    columns: &[Vec<u64>],
    period: u64,
) -> (Vec<Record>, Vec<u64>) {
    let (nodes, places) = Nodes::<E>::new(list).lower(columns, period);
    (records(&nodes), places)
}

/// The list's drawing.
pub fn draw<E: Element>(list: &[Record]) -> String {
    let mut text = String::new();
    Nodes::<E>::new(list).draw(&mut text);
    text
}

/// The nodes of a list, for measuring without the words.
#[derive(Clone)]
pub struct Nodes<E> {
    id: DagId,
    nodes: Vec<NodeKind<E>>,
}

impl<E: Element> Nodes<E> {
    /// The nodes of these records.
    pub fn new(list: &[Record]) -> Self {
        let id = DagId::fresh();
        Self { id, nodes: list.iter().map(|&words| node(words, id)).collect() }
    }

    /// A DAG over these nodes.
    pub fn dag(&self, root: u64) -> Dag<E> {
        let root = NodeId::in_dag(root as usize, self.id);
        Dag(AceDag::from_parts(self.id, self.nodes.clone(), root))
    }

    /// Writes the drawing of these nodes behind a text.
    pub fn draw(&self, text: &mut String) {
        drawing::write(text, &self.nodes).expect("a string takes all");
    }

    /// The number of nodes that these requests come to.
    pub fn build(&self) -> usize {
        replay(&self.nodes).0.into_nodes().len()
    }

    /// These nodes with the columns' nodes appended, and the columns' places.
    fn lower(self, columns: &[Vec<u64>], period: u64) -> (Vec<NodeKind<E>>, Vec<u64>) {
        let layout = InputLayout::of([InputKey::ZK].into_iter());
        let root = NodeId::in_dag(0, self.id);
        let mut builder = DagBuilder::from_dag(AceDag::from_parts(self.id, self.nodes, root));
        let data = periodic(columns);
        let places = build_periodic_nodes(&mut builder, &layout, &data, period as usize);
        let places = places.iter().map(|id| id.index() as u64).collect();
        (builder.into_nodes(), places)
    }

    /// The number of nodes after lowering these columns.
    pub fn lowered(self, columns: &[Vec<u64>], period: u64) -> usize {
        self.lower(columns, period).0.len()
    }
}

/// A list with its root, for measuring without the words.
pub struct Dag<E>(pub(in crate::compiler) AceDag<E>);

impl<E: Element> Dag<E> {
    /// The DAG of these records.
    pub fn new(list: &[Record], root: u64) -> Self {
        Self(dag(list, root))
    }

    /// The normalised DAG.
    pub fn normalize(self) -> Self {
        Self(normalize_dag(self.0))
    }

    /// Removes what the root doesn't reach.
    pub fn compact(&mut self) {
        self.0.compact();
    }

    /// The root's value, where every input has an entry.
    pub fn evaluate(&self, layout: &Layout<E>) -> Option<E> {
        eval_dag(&self.0, &layout.values, &layout.keys).ok()
    }

    /// The number of nodes.
    pub fn count(&self) -> usize {
        self.0.nodes().len()
    }
}

/// An assignment: a layout of its keys, and their values.
pub struct Layout<E> {
    keys: InputLayout,
    values: Vec<E>,
}

impl<E: Element> Layout<E> {
    /// The layout and the values of these entries.
    pub fn new(assignment: &[Record]) -> Self {
        Self {
            keys: InputLayout::of(assignment.iter().map(|entry| key(entry[0]))),
            values: assignment.iter().map(|&[_, c0, c1]| E::of([c0, c1])).collect(),
        }
    }
}

//! `dot` reads a thousand drawings of ours: the nodes of a graph are the list's records with their
//! labels, and its edges are their operands.
//!
//! It is a program of its own, and no test is counted: where there is no `dot`, a line on standard
//! error says so.

use std::fmt::Write as _;
use std::io::{Error, Write as _};
use std::process::{Command, ExitCode, Stdio};

use differential::{Rng, cases};
use model::{Call, Case, Field, KINDS, Record, check_list, words};

/// The drawings of each field.
const EACH: usize = 500;

/// The drawings that `dot` is given at once.
const AT_ONCE: usize = 50;

/// The most records that `dot` lays out as it would for a picture: of more it is asked for a layout
/// that takes no time.
const LAID_OUT: usize = 300;

/// A graph: each node's name and label, and each edge's ends, in order.
#[derive(Clone, Debug, Default, PartialEq, Eq)]
struct Graph {
    nodes: Vec<(String, String)>,
    edges: Vec<(String, String)>,
}

impl Graph {
    /// What a list is to be read as.
    fn of(field: Field, list: &[Record]) -> Self {
        let mut graph = Self::default();
        for (place, &[tag, first, second]) in list.iter().enumerate() {
            let operands = [first, second];
            let operands = &operands[..[0, 0, 2, 2, 2, 1][tag as usize]];
            graph.nodes.push((format!("n{place}"), label(field, [tag, first, second])));
            let edge = |operand: &u64| (format!("n{place}"), format!("n{operand}"));
            graph.edges.extend(operands.iter().map(edge));
        }
        graph.sorted()
    }

    fn sorted(mut self) -> Self {
        self.nodes.sort();
        self.edges.sort();
        self
    }
}

/// A record's label.
fn label(field: Field, [tag, first, second]: Record) -> String {
    let kind = KINDS[tag as usize];
    // The nearest to 0 of the numbers that are the coordinate modulo the prime.
    let signed = |coordinate: u64| {
        let same = [0, field.modulus].map(|less| i128::from(coordinate) - i128::from(less));
        same.into_iter().min_by_key(|number| number.abs()).expect("two numbers")
    };
    match tag {
        0 => format!("{kind} {first}"),
        1 => format!("{kind} {} {}", signed(first), signed(second)),
        _ => kind.to_string(),
    }
}

/// The drawing of a list by our call.
fn drawing(field: Field, list: &[Record]) -> Vec<u8> {
    let ours = ace::Field::ALL.into_iter().find(|ours| ours.number() == field.number);
    let (n, mut text) = (list.len() as u64, vec![b'#'; 14 + 65 * list.len()]);
    let length = ace::draw(ours.expect("a field"), &words(list), n, &[n - 1], &mut text);
    text.truncate(length.expect("the list is accepted"));
    text
}

/// What `dot` prints of these graphs with this layout, or what it says.
fn printed(layout: &str, graphs: &[u8]) -> Result<String, String> {
    let said = |error: Error| error.to_string();
    let mut command = Command::new("dot");
    command.args([layout, "-Tcanon"]).stdin(Stdio::piped());
    let mut child = command.stdout(Stdio::piped()).stderr(Stdio::piped()).spawn().map_err(said)?;
    let (mut stdin, graphs) = (child.stdin.take().expect("piped"), graphs.to_vec());
    let feeder = std::thread::spawn(move || stdin.write_all(&graphs));
    let output = child.wait_with_output().map_err(said)?;
    let _ = feeder.join();
    let complaint = String::from_utf8_lossy(&output.stderr);
    if !output.status.success() || !complaint.is_empty() {
        return Err(format!("{}: {complaint}", output.status));
    }
    String::from_utf8(output.stdout).map_err(|error| error.to_string())
}

/// The graph that a line of `dot` is about with what the line says: a node or an edge.
fn take(graphs: &mut Vec<Graph>, line: &str) {
    let line = line.trim().trim_end_matches(';');
    let Some(graph) = graphs.last_mut().filter(|_| !line.starts_with("digraph ")) else {
        return graphs.push(Graph::default());
    };
    if let Some((tail, head)) = line.split_once(" -> ") {
        graph.edges.push((tail.to_string(), head.to_string()));
    } else if let Some((name, label)) = line.split_once("\t[label=") {
        let label = label.trim_end_matches(']').trim_matches('"');
        graph.nodes.push((name.to_string(), label.to_string()));
    }
}

/// The graphs that `dot` reads.
fn read(layout: &str, graphs: &[u8]) -> Result<Vec<Graph>, String> {
    let mut found = Vec::new();
    printed(layout, graphs)?.lines().for_each(|line| take(&mut found, line));
    Ok(found.into_iter().map(Graph::sorted).collect())
}

/// The list of a case, where it is accepted.
fn accepted(field: Field, case: &Case) -> Option<Vec<Record>> {
    let n = case.number("n").expect("a call on a list");
    check_list(field, &case.stores[0], n, case.roots()).ok()
}

/// Lists of a field: one record, some of hundreds, one of as many as there may be, mostly few.
fn lists(field: Field) -> Vec<Vec<Record>> {
    let mut rng = Rng::new(field.number);
    let one = [[0, 7, 0], [1, field.modulus - 1, 0]].map(|record| vec![record]);
    let long = [150, 200, 250, 300, 500, 1_000, 4_096];
    let long = long.map(|n| cases::expression(field, &mut rng, n));
    let mut lists: Vec<Vec<Record>> = one.into_iter().chain(long).collect();
    while lists.len() < EACH {
        lists.extend(accepted(field, &cases::random(Call::Draw, field, &mut rng)));
    }
    lists
}

/// How many graphs were read, with how many nodes of each kind and how many edges.
#[derive(Default)]
struct Counts {
    graphs: usize,
    kinds: [usize; KINDS.len()],
    edges: usize,
}

impl Counts {
    /// Has `dot` read the drawings of these lists, and holds what it reads to them.
    fn read(&mut self, field: Field, layout: &str, lists: &[Vec<Record>]) {
        let drawings: Vec<u8> = lists.iter().flat_map(|list| drawing(field, list)).collect();
        let graphs = read(layout, &drawings).unwrap_or_else(|said| panic!("dot says {said}"));
        assert_eq!(graphs.len(), lists.len(), "as many graphs as drawings");
        for (graph, list) in graphs.iter().zip(lists) {
            assert_eq!(*graph, Graph::of(field, list), "{list:?}");
            list.iter().for_each(|record| self.kinds[record[0] as usize] += 1);
            self.edges += graph.edges.len();
        }
        self.graphs += graphs.len();
    }

    /// Reads every list of a field.
    fn read_all(&mut self, field: Field) {
        let all = lists(field);
        let (short, long): (Vec<_>, Vec<_>) =
            all.into_iter().partition(|list| list.len() <= LAID_OUT);
        short.chunks(AT_ONCE).for_each(|lists| self.read(field, "-Kdot", lists));
        long.chunks(AT_ONCE).for_each(|lists| self.read(field, "-Kosage", lists));
        assert!(self.kinds.iter().all(|&count| count > 0), "every kind is drawn");
    }

    /// What was read, in a line.
    fn text(&self, field: Field) -> String {
        let mut text = format!("dot reads {} drawings of field {}:", self.graphs, field.number);
        for (kind, count) in KINDS.iter().zip(self.kinds) {
            let _ = write!(text, " {count} {kind},");
        }
        text + &format!(" {} operands", self.edges)
    }
}

/// Holds `dot` to drawings that it must not take, or not take for the list's.
fn hold(field: Field) {
    let list = [[0, 5, 0], [1, field.modulus - 1, 0], [3, 0, 1]];
    let right = drawing(field, &list);
    assert!(read("-Kdot", &right[..right.len() - 2]).is_err(), "a drawing that is cut");
    assert!(read("-Kdot", &[b"digraph", &right[..]].concat()).is_err(), "a drawing with more");
    let graphs = [Graph::of(field, &list)];
    let read = |text: Vec<u8>| read("-Kdot", &text).expect("a drawing");
    assert_eq!(read(right), graphs);
    for record in [[3, 0, 0], [2, 0, 1], [5, 0, 0], [1, 1, 0]] {
        let other = drawing(field, &[list[0], list[1], record]);
        assert_ne!(read(other), graphs, "{record:?}");
    }
}

fn main() -> ExitCode {
    if let Err(error) = Command::new("dot").arg("-V").output() {
        // Written past the macros, so that nothing captures it.
        let line =
            format!("NOT RUN: no drawing is read by dot: {error} (tools/graphviz installs it)\n");
        let _ = std::io::stderr().write_all(line.as_bytes());
        return ExitCode::SUCCESS;
    }
    for field in Field::ALL {
        hold(field);
        let mut counts = Counts::default();
        counts.read_all(field);
        println!("{}", counts.text(field));
    }
    ExitCode::SUCCESS
}

//! A list as Graphviz DOT: a line for each record, then a line for each operand.

use crate::case::{Case, Record};
use crate::events::Event::{self, *};
use crate::field::Field;
use crate::house_file::KINDS;
use crate::judge::{Judge, Paper};
use crate::lists::operands;
use crate::mutants::Mutant;
use crate::refusal::{LIMIT, Refusal, check_list};

/// The fewest bytes of a drawing: that of input 0.
const SHORTEST: usize = 33;

/// The kinds drawn, by tag.
const DRAWN: [Event; 6] = [DrawnInput, DrawnConstant, DrawnAdd, DrawnSub, DrawnMul, DrawnNeg];

/// The coordinates at the edges, of c0 and of c1: 0, 1, the halves, −1.
const EDGES: [[Event; 5]; 2] = [
    [FirstZero, FirstOne, FirstHalf, FirstPastHalf, FirstMinusOne],
    [SecondZero, SecondOne, SecondHalf, SecondPastHalf, SecondMinusOne],
];

/// The list's drawing.
pub(crate) fn drawing(paper: &Paper, list: &[Record]) -> String {
    let (mut nodes, mut edges) = (String::new(), String::new());
    for (place, &record) in list.iter().enumerate() {
        nodes += &node_line(paper, place, record);
        let behind = if paper.is(Mutant::EdgesAmong) { &mut nodes } else { &mut edges };
        *behind += &edge_lines(paper, place, record);
    }
    let end = if paper.is(Mutant::NoLastNewline) { "}" } else { "}\n" };
    format!("digraph g {{\n{nodes}{edges}{end}")
}

/// A record's line.
fn node_line(paper: &Paper, place: usize, record: Record) -> String {
    format!("n{place} [label=\"{}\"];\n", label(paper, record))
}

/// A record's kind, and an input's key number or a constant's coordinates.
fn label(paper: &Paper, [tag, first, second]: Record) -> String {
    let kind = KINDS[tag as usize];
    match tag {
        0 => format!("{kind} {first}"),
        1 if paper.is(Mutant::SecondLeftOut) => format!("{kind} {}", signed(paper, first)),
        1 => format!("{kind} {} {}", signed(paper, first), signed(paper, second)),
        _ => kind.to_string(),
    }
}

/// A coordinate as a number from −(m − 1)/2 to (m − 1)/2, for the modulus m.
fn signed(paper: &Paper, coordinate: u64) -> i128 {
    let (own, modulus) = (i128::from(coordinate), i128::from(paper.field.modulus));
    let most = match paper.mutant {
        Some(Mutant::HalfNegative) => (modulus - 1) / 2 - 1,
        Some(Mutant::PastHalfPositive) => (modulus - 1) / 2 + 1,
        _ => (modulus - 1) / 2,
    };
    if own <= most { own } else { own - modulus }
}

/// The lines of a record's operands.
fn edge_lines(paper: &Paper, place: usize, record: Record) -> String {
    let mut operands = operands(record);
    if paper.is(Mutant::SecondEdgeFirst) {
        operands.reverse();
    }
    if paper.is(Mutant::EqualEdgesOnce) {
        operands.dedup();
    }
    let line = |operand: u64| match paper.is(Mutant::EdgesTurned) {
        false => format!("n{place} -> n{operand};\n"),
        true => format!("n{operand} -> n{place};\n"),
    };
    operands.into_iter().map(line).collect()
}

/// The drawing of the call's records, whatever its roots are.
pub(crate) fn of_records(
    case: &Case,
    field: Field,
    judge: &mut dyn Judge,
) -> Result<Vec<u8>, Refusal> {
    let n = case.number("n").expect("a call on a list");
    let list = check_list(field, &case.stores[0], n, None)?;
    Ok(judge.draw(&list).into_bytes())
}

/// The drawing, where it fits into so many bytes.
pub(crate) fn fitting(
    mut drawing: Vec<u8>,
    room: usize,
    judge: &dyn Judge,
) -> Result<Vec<u8>, Refusal> {
    if judge.has(Mutant::TextCut) {
        drawing.truncate(room);
    }
    let spare = usize::from(judge.has(Mutant::ExactRefused));
    if drawing.len() + spare > room { Err(Refusal::new(41)) } else { Ok(drawing) }
}

/// Whether a text store is too short for any drawing, which a mistake refuses before the list.
pub(crate) fn too_early(room: usize, judge: &dyn Judge) -> bool {
    room < SHORTEST && judge.has(Mutant::TextFirst)
}

/// Takes note of what an accepted drawing has, and of the bytes behind it.
pub(crate) fn note_drawn(list: &[Record], field: Field, behind: usize, judge: &mut dyn Judge) {
    let half = (field.modulus - 1) / 2;
    let edges = [0, 1, half, half + 1, field.modulus - 1];
    for &[tag, first, second] in list {
        judge.note(DRAWN[tag as usize]);
        match tag {
            1 => {
                let at = |coordinate| edges.iter().position(|&edge| edge == coordinate);
                at(first).into_iter().for_each(|edge| judge.note(EDGES[0][edge]));
                at(second).into_iter().for_each(|edge| judge.note(EDGES[1][edge]));
            }
            2..=4 if first == second => judge.note(DrawnTwice),
            _ => {}
        }
    }
    let count = list.len() as u64;
    let corners = [
        (count == 1, DrawnOne),
        (count == LIMIT, DrawnMost),
        (behind == 0, TextExact),
        (behind == 1, TextOneMore),
        (behind >= 1_000, TextManyMore),
    ];
    corners.into_iter().filter(|corner| corner.0).for_each(|corner| judge.note(corner.1));
}

/// Takes note of a refusal that came before 41, or of how short the text store of a 41 was.
pub(crate) fn note_refused(case: &Case, number: u64, judge: &mut dyn Judge) {
    let room = case.stores[2].len();
    let event = match number {
        41 if room == 0 => TextEmpty,
        41 => {
            let length = of_records(case, judge.field(), judge).map_or(0, |drawing| drawing.len());
            if room + 1 == length { TextOneShort } else { return }
        }
        _ if room >= SHORTEST => return,
        1 => CountFirst,
        2 => StoreFirst,
        3 => TagFirst,
        4 => WordFirst,
        5 => LateFirst,
        6 => RootFirst,
        46 => RootCountFirst,
        _ => NoFieldFirst,
    };
    judge.note(event);
}

#[cfg(test)]
mod tests {
    use super::*;

    /// The drawing of a list over this field.
    fn drawn(field: Field, list: &[Record]) -> String {
        drawing(&Paper::over(field), list)
    }

    /// What a constant's label has behind its kind.
    fn coordinates(field: Field, c0: u64, c1: u64) -> String {
        label(&Paper::over(field), [1, c0, c1])
    }

    #[test]
    fn every_kind_is_drawn() {
        let list = [[0, 5, 0], [1, 3, 0], [2, 0, 1], [3, 2, 0], [4, 3, 3], [5, 4, 0]];
        let lines = [
            "digraph g {",
            "n0 [label=\"in 5\"];",
            "n1 [label=\"const 3 0\"];",
            "n2 [label=\"add\"];",
            "n3 [label=\"sub\"];",
            "n4 [label=\"mul\"];",
            "n5 [label=\"neg\"];",
            "n2 -> n0;",
            "n2 -> n1;",
            "n3 -> n2;",
            "n3 -> n0;",
            "n4 -> n3;",
            "n4 -> n3;",
            "n5 -> n4;",
            "}",
            "",
        ];
        for field in Field::ALL {
            assert_eq!(drawn(field, &list), lines.join("\n"));
        }
    }

    #[test]
    fn coordinates_are_signed_numbers() {
        let field = Field::GOLDILOCKS;
        for (coordinate, text) in [
            (0, "0"),
            (1, "1"),
            (9_223_372_034_707_292_160, "9223372034707292160"),
            (9_223_372_034_707_292_161, "-9223372034707292160"),
            (18_446_744_069_414_584_320, "-1"),
        ] {
            assert_eq!(coordinates(field, coordinate, 0), format!("const {text} 0"));
            assert_eq!(coordinates(field, 1, coordinate), format!("const 1 {text}"));
            assert_eq!(coordinates(field, coordinate, coordinate), format!("const {text} {text}"));
        }
    }

    #[test]
    fn residues_are_signed_numbers_and_a_zero() {
        for (coordinate, text) in [
            (0, "const 0 0"),
            (1, "const 1 0"),
            (1_006_632_960, "const 1006632960 0"),
            (1_006_632_961, "const -1006632960 0"),
            (2_013_265_920, "const -1 0"),
        ] {
            assert_eq!(coordinates(Field::BABY_BEAR, coordinate, 0), text);
        }
    }

    #[test]
    fn no_drawing_is_shorter_than_that_of_input_0() {
        for field in Field::ALL {
            assert_eq!(drawn(field, &[[0, 0, 0]]).len(), SHORTEST);
            assert!(drawn(field, &[[1, 0, 0]]).len() > SHORTEST);
        }
    }

    #[test]
    fn a_record_takes_65_bytes_at_most() {
        let paper = Paper::over(Field::GOLDILOCKS);
        let past_half = paper.field.modulus / 2 + 1;
        let constant = [1, past_half, past_half];
        let longest = [[0, (21 << 48) + (1 << 48) - 1, 0], constant, [4, 4_094, 4_094]];
        let bytes = longest.map(|record| {
            node_line(&paper, 4_095, record).len() + edge_lines(&paper, 4_095, record).len()
        });
        assert_eq!(bytes, [37, 65, 53]);
        assert_eq!(drawn(paper.field, &[]).len(), 14);
    }
}

//! Nodes as Graphviz DOT. The Rust has no such call: this is a plain writer over its nodes.

use std::fmt::{Result, Write};

use super::ir::{NodeId, NodeKind};
use super::words::{Element, number};

/// A coordinate as a signed number: one above half the modulus is negative.
fn signed(coordinate: u64, modulus: u64) -> i64 {
    let above = if coordinate > modulus / 2 { modulus } else { 0 };
    coordinate.wrapping_sub(above) as i64
}

/// A node's line.
fn write_node<E: Element>(text: &mut impl Write, place: usize, node: &NodeKind<E>) -> Result {
    match node {
        NodeKind::Input(key) => writeln!(text, "n{place} [label=\"in {}\"];", number(*key)),
        NodeKind::Constant(value) => {
            let [c0, c1] = value.words().map(|coordinate| signed(coordinate, E::MODULUS));
            writeln!(text, "n{place} [label=\"const {c0} {c1}\"];")
        }
        NodeKind::Add(..) => writeln!(text, "n{place} [label=\"add\"];"),
        NodeKind::Sub(..) => writeln!(text, "n{place} [label=\"sub\"];"),
        NodeKind::Mul(..) => writeln!(text, "n{place} [label=\"mul\"];"),
        NodeKind::Neg(_) => writeln!(text, "n{place} [label=\"neg\"];"),
    }
}

/// The line of an operand of the node at this place.
fn write_edge(text: &mut impl Write, place: usize, operand: NodeId) -> Result {
    writeln!(text, "n{place} -> n{};", operand.index())
}

/// The lines of a node's operands.
fn write_edges<E>(text: &mut impl Write, place: usize, node: &NodeKind<E>) -> Result {
    match *node {
        NodeKind::Input(_) | NodeKind::Constant(_) => Ok(()),
        NodeKind::Add(a, b) | NodeKind::Sub(a, b) | NodeKind::Mul(a, b) => {
            write_edge(text, place, a)?;
            write_edge(text, place, b)
        }
        NodeKind::Neg(a) => write_edge(text, place, a),
    }
}

/// The drawing of these nodes.
pub(super) fn write<E: Element>(text: &mut impl Write, nodes: &[NodeKind<E>]) -> Result {
    text.write_str("digraph g {\n")?;
    nodes.iter().enumerate().try_for_each(|(place, node)| write_node(text, place, node))?;
    nodes.iter().enumerate().try_for_each(|(place, node)| write_edges(text, place, node))?;
    text.write_str("}\n")
}

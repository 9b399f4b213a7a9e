//! Drawings read back, by a reader that shares no code with what writes them.

use model::{Field, Record};

/// The kinds, by tag, and how many operands each has.
const KINDS: [(&str, usize); 6] =
    [("in", 0), ("const", 0), ("add", 2), ("sub", 2), ("mul", 2), ("neg", 1)];

/// The ends of an edge, by their numbers.
fn edge(line: &str) -> Option<(usize, u64)> {
    let (tail, head) = line.strip_prefix('n')?.strip_suffix(';')?.split_once(" -> n")?;
    Some((tail.parse().ok()?, head.parse().ok()?))
}

/// The record of a line, with no operands yet; of a signed number, what it is modulo the prime.
fn record(field: Field, place: usize, line: &str) -> Option<Record> {
    let label = line.strip_prefix(&format!("n{place} [label=\""))?.strip_suffix("\"];")?;
    let mut parts = label.split(' ');
    let kind = parts.next()?;
    let tag = KINDS.iter().position(|known| known.0 == kind)?;
    let modulus = i128::from(field.modulus);
    let number = |part: &str| part.parse().ok().map(|signed: i128| signed.rem_euclid(modulus));
    let mut words = parts.map(|part| match tag {
        0 => part.parse().ok(),
        _ => number(part).map(|number| number as u64),
    });
    let found = match tag {
        0 => [0, words.next()??, 0],
        1 => [1, words.next()??, words.next()??],
        _ => [tag as u64, 0, 0],
    };
    words.next().is_none().then_some(found)
}

/// The list that a drawing shows: a record for each line of one, with the operands that the edges
/// behind give it, in their order.
pub(crate) fn read(field: Field, text: &[u8]) -> Option<Vec<Record>> {
    let text = std::str::from_utf8(text).ok()?;
    let body = text.strip_prefix("digraph g {\n")?.strip_suffix("}\n")?;
    let nodes = body.lines().take_while(|line| line.contains('['));
    let list: Option<Vec<Record>> =
        nodes.enumerate().map(|(place, line)| record(field, place, line)).collect();
    let mut list = list?;
    let mut given = vec![0; list.len()];
    for line in body.lines().skip(list.len()) {
        let (tail, head) = edge(line)?;
        *list.get_mut(tail)?.get_mut(1 + given[tail])? = head;
        given[tail] += 1;
    }
    let whole =
        list.iter().zip(&given).all(|(record, given)| KINDS[record[0] as usize].1 == *given);
    whole.then_some(list)
}

#[cfg(test)]
mod tests {
    use super::*;

    const DRAWING: &str = "digraph g {\nn0 [label=\"in 5\"];\nn1 [label=\"const -1 2\"];\n\
                           n2 [label=\"sub\"];\nn3 [label=\"neg\"];\nn2 -> n1;\nn2 -> n0;\n\
                           n3 -> n2;\n}\n";

    #[test]
    fn what_is_drawn_is_read() {
        let field = Field::GOLDILOCKS;
        let list = [[0, 5, 0], [1, field.modulus - 1, 2], [3, 1, 0], [5, 2, 0]];
        assert_eq!(read(field, DRAWING.as_bytes()).as_deref(), Some(&list[..]));
    }

    #[test]
    fn no_drawing_is_read_of_another_text() {
        for (from, to) in [
            ("}\n", "}"),
            ("in 5", "in"),
            ("in 5", "in 5 0"),
            ("2\"]", "\"]"),
            ("sub", "sub 1"),
            ("sub", "or"),
            ("n1 [", "n4 ["),
            ("n2 -> n1;\n", ""),
            ("n3 -> n2;\n", "n3 -> n2;\nn3 -> n1;\n"),
            ("n3 -> n2;\n", "n4 -> n2;\n"),
            ("n3 -> n2;\n", "n3 -> n2;\nn3 -> n2;\nn3 -> n2;\n"),
            ("n2 -> n0;\nn3", "n2 -> n0; n3"),
        ] {
            let other = DRAWING.replacen(from, to, 1);
            assert_ne!(other, DRAWING);
            assert_eq!(read(Field::GOLDILOCKS, other.as_bytes()), None, "{other}");
        }
    }
}

//! Columns: costs, forms, and the nodes that a form is lowered to.

use crate::case::Record;
use crate::events::Event::*;
use crate::field::Field;
use crate::judge::Paper;
use crate::keys::ZK;
use crate::mutants::Mutant;
use crate::refusal::LIMIT;
use crate::steps::Builder;

const SPARSE: u64 = 0;
const DENSE: u64 = 1;
const BASIS: u64 = 2;

/// A coefficient and the entries that it belongs to.
#[derive(Clone, Debug, PartialEq, Eq)]
struct Class {
    coefficient: u64,
    entries: Vec<usize>,
}

/// log2 of a column's length.
fn log(column: &[u64]) -> u64 {
    column.len().ilog2() as u64
}

/// The number of nonzero entries.
fn nonzero(column: &[u64]) -> u64 {
    column.iter().filter(|&&entry| entry != 0).count() as u64
}

/// 3tL + max(t − 1, 0).
fn sparse_cost(column: &[u64]) -> u64 {
    let t = nonzero(column);
    3 * t * log(column) + t.saturating_sub(1)
}

/// 2(P − 1).
fn dense_cost(column: &[u64]) -> u64 {
    2 * (column.len() as u64 - 1)
}

/// Sparse if no entry is nonzero or sparse is cheaper.
fn is_sparse(paper: &Paper, column: &[u64]) -> bool {
    let (sparse, dense) = (sparse_cost(column), dense_cost(column));
    nonzero(column) == 0 || sparse < dense || (paper.is(Mutant::SparseOnTie) && sparse == dense)
}

/// The cost of a column on its own, its constants included.
fn standalone(paper: &Paper, column: &[u64]) -> u64 {
    if is_sparse(paper, column) {
        sparse_cost(column) + 2 * (nonzero(column) + log(column))
    } else {
        dense_cost(column) + 2 * column.len() as u64
    }
}

/// Entries of equal value together, by first entry.
fn classes(column: &[u64]) -> Vec<Class> {
    let mut classes: Vec<Class> = Vec::new();
    for (place, &value) in column.iter().enumerate() {
        match classes.iter_mut().find(|class| class.coefficient == value) {
            Some(class) => class.entries.push(place),
            None => classes.push(Class { coefficient: value, entries: vec![place] }),
        }
    }
    classes
}

/// The most frequent nonzero value; of tied ones, that whose first entry stands last.
fn dominant(paper: &mut Paper, classes: &[Class]) -> Option<u64> {
    let zero = paper.is(Mutant::ZeroDominant);
    let able: Vec<&Class> = classes.iter().filter(|class| zero || class.coefficient != 0).collect();
    let most = able.iter().map(|class| class.entries.len()).max()?;
    let mut tied = able.iter().filter(|class| class.entries.len() == most);
    let first = tied.next()?.coefficient;
    let last = tied.next_back().map(|class| class.coefficient);
    if last.is_some() {
        paper.met(TiedClasses);
    }
    Some(if paper.is(Mutant::FirstTied) { first } else { last.unwrap_or(first) })
}

/// Additions, scalings and constants of an offset and classes over the basis.
fn combination_cost(field: Field, offset: u64, classes: &[Class]) -> u64 {
    let elements: usize = classes.iter().map(|class| class.entries.len()).sum();
    let units = [1, field.minus_one()];
    let scaled = classes.iter().filter(|class| !units.contains(&class.coefficient));
    let offset_cost = if offset == 0 { 0 } else { 3 };
    (elements as u64).saturating_sub(1) + 3 * scaled.count() as u64 + offset_cost
}

/// The offset, zero or the dominant value, and the classes over it.
fn combination(paper: &mut Paper, column: &[u64]) -> (u64, Vec<Class>) {
    let field = paper.field;
    let all = classes(column);
    let direct: Vec<Class> = all.iter().filter(|class| class.coefficient != 0).cloned().collect();
    let Some(offset) = dominant(paper, &all) else { return (0, direct) };
    let complement: Vec<Class> = all
        .iter()
        .filter(|class| class.coefficient != offset)
        .map(|class| Class { coefficient: field.sub(class.coefficient, offset), ..class.clone() })
        .collect();
    let over = combination_cost(field, offset, &complement);
    let plain = combination_cost(field, 0, &direct);
    if over == plain {
        paper.met(OffsetTied);
    }
    if over < plain || (over == plain && paper.is(Mutant::OffsetOnTie)) {
        paper.met(OffsetTaken);
        (offset, complement)
    } else {
        (0, direct)
    }
}

/// The cost over the basis; a column of equal entries has none.
fn basis(paper: &mut Paper, column: &[u64]) -> Option<u64> {
    let equal = column.iter().all(|&entry| entry == column[0]);
    if equal && !paper.is(Mutant::EqualHasBasis) {
        paper.met(EqualColumn);
        return None;
    }
    let (offset, classes) = combination(paper, column);
    Some(combination_cost(paper.field, offset, &classes))
}

/// The cost of a column on its own.
pub fn standalone_cost(field: Field, column: &[u64]) -> u64 {
    standalone(&Paper::over(field), column)
}

/// The cost of a column over the basis, if it has one.
pub fn basis_cost(field: Field, column: &[u64]) -> Option<u64> {
    basis(&mut Paper::over(field), column)
}

/// What a column saves over the basis, never below 0.
pub fn saving(field: Field, column: &[u64]) -> u64 {
    let basis = basis_cost(field, column);
    basis.map_or(0, |basis| standalone_cost(field, column).saturating_sub(basis))
}

/// What the savings of a period have to exceed.
pub fn overhead(period: u64) -> u64 {
    7 * period + 2
}

/// Whether a period's distinct columns save more than their basis costs.
fn goes_over(paper: &mut Paper, columns: &[Vec<u64>], period: usize) -> bool {
    let mut savings = 0;
    for (place, column) in columns.iter().enumerate() {
        let repeated = columns[..place].contains(column);
        if column.len() != period || (repeated && !paper.is(Mutant::RepeatsCount)) {
            continue;
        }
        if let Some(cost) = basis(paper, column) {
            savings += standalone(paper, column).saturating_sub(cost);
        }
    }
    let limit = overhead(period as u64);
    if let Some(edge) = [limit, limit + 1].iter().position(|&edge| edge == savings) {
        paper.tally.edges[period.ilog2() as usize][edge] += 1;
    }
    period >= 2 && (savings > limit || (paper.is(Mutant::SavingsAtLeast) && savings == limit))
}

/// Each column's form.
pub(crate) fn forms(paper: &mut Paper, columns: &[Vec<u64>]) -> Vec<u64> {
    note_columns(paper, columns);
    let over: Vec<bool> = (0..8).map(|bits| goes_over(paper, columns, 1 << bits)).collect();
    let mut forms = Vec::new();
    for column in columns {
        let alone = if is_sparse(paper, column) { SPARSE } else { DENSE };
        let period_over = over[log(column) as usize];
        let cheaper = basis(paper, column)
            .is_some_and(|cost| cost < standalone(paper, column) || paper.is(Mutant::AllGoOver));
        if period_over && !cheaper {
            paper.met(StaysBehind);
        }
        let form = if period_over && cheaper { BASIS } else { alone };
        paper.tally.forms[log(column) as usize][form as usize] += 1;
        forms.push(form);
    }
    forms
}

/// Counts the corners that a set of columns reaches.
fn note_columns(paper: &mut Paper, columns: &[Vec<u64>]) {
    if columns.is_empty() {
        paper.met(NoColumns);
    }
    if columns.iter().any(|column| nonzero(column) == 0) {
        paper.met(ZeroColumn);
    }
    if columns.iter().any(|column| column.len() == 128 && nonzero(column) == 11) {
        paper.met(ElevenTerms);
    }
    if columns.len() == 16 && columns.iter().all(|column| column.len() == 128) {
        paper.met(SixteenLongest);
    }
    if columns.iter().any(|column| column.len() != columns[0].len()) {
        paper.met(SeveralPeriods);
    }
    if (1..columns.len()).any(|place| columns[..place].contains(&columns[place])) {
        paper.met(RepeatedColumn);
    }
}

/// Counts the corners that a list and a period reach.
fn note_surroundings(paper: &mut Paper, list: &[Record], columns: &[Vec<u64>], period: u64) {
    let longest = columns.iter().map(|column| column.len() as u64).max();
    for (is, event) in [
        (longest == Some(period), PeriodLongest),
        (period == paper.field.longest_period, PeriodMost),
        (list.contains(&[0, ZK, 0]), ZkPresent),
    ] {
        if is {
            paper.met(event);
        }
    }
}

/// The list with each column's nodes, and the place of each column's node.
pub(crate) fn lower(
    paper: &mut Paper,
    list: &[Record],
    columns: &[Vec<u64>],
    period: u64,
) -> (Vec<Record>, Vec<u64>) {
    let forms = forms(paper, columns);
    note_surroundings(paper, list, columns, period);
    let mut builder = Builder::over(paper, list);
    let mut places = Vec::new();
    for (column, form) in columns.iter().zip(forms) {
        let ratio = period / column.len() as u64;
        places.push(match form {
            SPARSE => sparse_node(&mut builder, column, ratio),
            DENSE => dense_node(&mut builder, column, ratio),
            _ => basis_node(&mut builder, column, ratio),
        });
    }
    let lowered = builder.list;
    match lowered.len() as u64 {
        LIMIT => paper.met(LandsOnLimit),
        count if count == LIMIT + 1 => paper.met(OneOver),
        _ => {}
    }
    (lowered, places)
}

/// ZK squared until it is its power by the ratio.
fn column_point(builder: &mut Builder, ratio: u64) -> u64 {
    let mut point = builder.request([0, ZK, 0]);
    for _ in 0..ratio.ilog2() {
        point = builder.request([4, point, point]);
    }
    point
}

/// The sum of the nonzero entries' doubling products.
fn sparse_node(builder: &mut Builder, column: &[u64], ratio: u64) -> u64 {
    if nonzero(column) == 0 && builder.paper.is(Mutant::ZeroColumnBare) {
        return builder.constant(0);
    }
    let mut power_node = column_point(builder, ratio);
    let mut powers = Vec::new();
    for level in 0..log(column) {
        powers.push(power_node);
        if level + 1 < log(column) || !builder.paper.is(Mutant::SquaringsSpared) {
            power_node = builder.request([4, power_node, power_node]);
        }
    }
    let field = builder.paper.field;
    let unit = field.inverse(field.generator(log(column) as u32));
    let late = u64::from(builder.paper.is(Mutant::LaterTwiddle));
    let scale = field.inverse(column.len() as u64);
    let mut sum = None;
    for (entry, &value) in column.iter().enumerate().filter(|&(_, &value)| value != 0) {
        let mut factor = builder.constant(1);
        for (level, &power_node) in powers.iter().enumerate() {
            let twiddle = field.power(unit, (entry as u64 + late) << level);
            let twiddle = builder.constant(twiddle);
            let scaled = builder.request([4, twiddle, power_node]);
            let one = builder.constant(1);
            let one_plus = builder.request([2, one, scaled]);
            factor = builder.request([4, factor, one_plus]);
        }
        let scaled_value = builder.constant(field.mul(value, scale));
        let term = builder.request([4, scaled_value, factor]);
        sum = Some(match sum {
            None => term,
            Some(sum) => builder.request([2, sum, term]),
        });
    }
    sum.unwrap_or_else(|| builder.constant(0))
}

/// Coefficient j: the sum of entry i × w^(−ij), over P.
fn coefficients(field: Field, column: &[u64]) -> Vec<u64> {
    let length = column.len();
    let unit = field.inverse(field.generator(log(column) as u32));
    let powers: Vec<u64> = (0..length as u64).map(|exponent| field.power(unit, exponent)).collect();
    let scale = field.inverse(length as u64);
    let term = |i: usize, j: usize| field.mul(column[i], powers[i * j % length]);
    let sum = |j: usize| (0..length).fold(0, |sum, i| field.add(sum, term(i, j)));
    (0..length).map(|j| field.mul(sum(j), scale)).collect()
}

/// Horner's rule from the highest coefficient down.
fn dense_node(builder: &mut Builder, column: &[u64], ratio: u64) -> u64 {
    let point = column_point(builder, ratio);
    let mut coefficients: Vec<u64> = coefficients(builder.paper.field, column)
        .iter()
        .map(|&coefficient| builder.constant(coefficient))
        .collect();
    if builder.paper.is(Mutant::HighestFirst) {
        coefficients.reverse();
    }
    let mut sum = builder.constant(0);
    for &coefficient in coefficients.iter().rev() {
        let product = builder.request([4, point, sum]);
        sum = builder.request([2, coefficient, product]);
    }
    sum
}

/// The products of a period's linear factors before and after each entry.
struct Products {
    roots: Vec<u64>,
    prefix: Vec<u64>,
    suffix: Vec<u64>,
}

impl Products {
    /// The factors' nodes and their running products.
    fn over(builder: &mut Builder, point: u64, length: usize) -> Self {
        let field = builder.paper.field;
        let unit = field.generator(length.ilog2());
        let roots: Vec<u64> =
            (0..length as u64).map(|exponent| field.power(unit, exponent)).collect();
        let mut factors = Vec::new();
        for &root in &roots {
            let root = builder.constant(root);
            factors.push(builder.request([3, point, root]));
        }
        let mut prefix = vec![builder.constant(field.inverse(length as u64))];
        for place in 1..length {
            prefix.push(builder.request([4, prefix[place - 1], factors[place - 1]]));
        }
        let mut suffix = vec![builder.constant(1)];
        for place in (1..length).rev() {
            suffix.push(builder.request([4, suffix[length - 1 - place], factors[place]]));
        }
        suffix.reverse();
        Self { roots, prefix, suffix }
    }

    /// The basis element of an entry.
    fn element(&self, builder: &mut Builder, entry: usize) -> u64 {
        let product = builder.request([4, self.prefix[entry], self.suffix[entry]]);
        let root = builder.constant(self.roots[entry]);
        builder.request([4, root, product])
    }
}

/// The offset and the classes over the basis, those of minus one subtracted last.
fn basis_node(builder: &mut Builder, column: &[u64], ratio: u64) -> u64 {
    let point = column_point(builder, ratio);
    let products = Products::over(builder, point, column.len());
    let (offset, classes) = combination(builder.paper, column);
    let minus_one = builder.paper.field.minus_one();
    let is_minus = |class: &&Class| class.coefficient == minus_one;
    if !classes.iter().is_sorted_by_key(|class| is_minus(&class)) {
        builder.paper.met(MinusOneClass);
    }
    let passes =
        if builder.paper.is(Mutant::MinusOneFirst) { [true, false] } else { [false, true] };
    let mut sum = builder.constant(offset);
    for subtracted in passes {
        for class in classes.iter().filter(|class| is_minus(class) == subtracted) {
            sum = add_class(builder, &products, class, sum, subtracted);
        }
    }
    sum
}

/// The sum with one class taken in.
fn add_class(
    builder: &mut Builder,
    products: &Products,
    class: &Class,
    sum: u64,
    subtracted: bool,
) -> u64 {
    let mut elements = builder.constant(0);
    for &entry in &class.entries {
        let element = products.element(builder, entry);
        elements = builder.request([2, elements, element]);
    }
    if subtracted {
        return builder.request([3, sum, elements]);
    }
    let coefficient = builder.constant(class.coefficient);
    let term = builder.request([4, coefficient, elements]);
    builder.request([2, sum, term])
}

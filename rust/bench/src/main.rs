//! Times the proved calls beside the Rust of docs/src, in one run, by turns.
//!
//! bench [--quick] [WORD ...]
//!
//! With words, only the rows whose names have one of them. Each side takes its own form of a list:
//! ours the words, with the list check and the blanking of the stores, the Rust its nodes. Only the
//! ratios count.

mod calls;
mod measure;
mod products;

use calls::{Kind, Rooted, Sides};
use measure::{Bench, Row};
use oracle::{BabyBear, QuadFelt};

/// The lists that normalising is timed on.
const KINDS: [(&str, Kind); 3] = [
    ("random expressions", Kind::Expression),
    ("a·x1 + a·x2 + …", Kind::Chain),
    ("no rewrites", Kind::Unchanged),
];

/// The lengths that normalising is timed at: a chain has a multiple of three records.
const NORMALIZED: [usize; 4] = [16, 256, 1_024, 4_095];

/// The lengths that the other calls on lists are timed at.
const LENGTHS: [usize; 4] = [16, 256, 1_024, 4_096];

/// The lengths from one to its double to its fourfold.
const DOUBLING: [usize; 3] = [1_023, 2_046, 4_092];

/// A call, the lengths of the lists that it is timed on, and whether its growth is told too.
struct Timed<'a> {
    name: String,
    lengths: &'static [usize],
    grows: bool,
    time: Box<dyn Fn(usize) -> Row + 'a>,
}

impl<'a> Timed<'a> {
    /// A call over a field, at several lengths.
    fn at<E: Sides>(
        name: &str,
        lengths: &'static [usize],
        time: impl Fn(usize) -> Row + 'a,
    ) -> Self {
        let name = format!("field {}, {name}", E::OURS.number());
        Self { name, lengths, grows: lengths.len() > 1, time: Box::new(time) }
    }

    /// A row for each length, with its name.
    fn rows(&self) -> impl Iterator<Item = (String, usize)> + '_ {
        self.lengths.iter().map(|&n| (format!("{}, {n}", self.name), n))
    }

    /// How much longer the call takes when its list is twice as long.
    fn print_growth(&self) {
        let rows = DOUBLING.map(&self.time);
        let factors = |side: fn(&Row) -> f64| {
            let [one, two, four] = rows.each_ref().map(side);
            format!("{:.1} {:.1}", two / one, four / two)
        };
        let (ours, rust) = (factors(|row| row.one), factors(|row| row.other));
        println!("{:<44} {ours:>12} {rust:>12}", self.name);
    }
}

/// All that is timed over a field but the products.
fn timed<E: Sides>(bench: &Bench) -> Vec<Timed<'_>> {
    let normalized = KINDS.map(|(name, kind)| {
        let name = format!("normalize, {name}");
        Timed::at::<E>(&name, &NORMALIZED, move |n| calls::normalize::<E>(bench, kind, n))
    });
    let lowered = calls::columns::<E>().map(|(name, columns)| {
        let name = format!("lower, {} {name} columns", columns.len());
        Timed::at::<E>(&name, &[128], move |_| calls::lower::<E>(bench, &columns))
    });
    let colliding = |n| calls::build::<E>(bench, Kind::Colliding, n);
    let others = [
        Timed::at::<E>("build", &LENGTHS, |n| calls::build::<E>(bench, Kind::Expression, n)),
        Timed::at::<E>("build, inputs of one hash", &[4_096], colliding),
        Timed::at::<E>("compact", &LENGTHS, |n| calls::compact::<E>(bench, n)),
        Timed::at::<E>("evaluate", &LENGTHS, |n| calls::evaluate::<E>(bench, n)),
    ];
    let drawn =
        [("draw", &LENGTHS[..], Kind::Expression), ("draw, constants", &[4_096], Kind::Constants)];
    let drawn = drawn.map(|(name, lengths, kind)| {
        Timed::at::<E>(name, lengths, move |n| calls::draw::<E>(bench, kind, n))
    });
    let emitted = [
        ("emit", &LENGTHS[..], Kind::Expression),
        ("emit, constants", &[4_096], Kind::Alternating),
        ("emit, operations", &[4_096], Kind::Operations),
    ];
    let emitted = emitted.map(|(name, lengths, kind)| {
        Timed::at::<E>(name, lengths, move |n| calls::emit::<E>(bench, kind, n))
    });
    let listed = normalized.into_iter().chain(others).chain(lowered);
    listed.chain(drawn).chain(emitted).collect()
}

/// The calls with roots over a field, timed with eight of them beside one.
fn rooted<E: Sides>(bench: &Bench) -> Vec<Timed<'_>> {
    let timed = |call: Rooted| {
        let name = format!("{}, 8 roots", call.name);
        Timed::at::<E>(&name, &LENGTHS, move |n| call.eight_beside_one::<E>(bench, n))
    };
    Rooted::all::<E>().map(timed).into()
}

/// The rows that are asked for: those that have one of these words in their names.
struct Asked(Vec<String>);

impl Asked {
    fn row(&self, name: &str) -> bool {
        self.0.is_empty() || self.0.iter().any(|word| name.contains(word))
    }

    /// Ends the run where a word is in no row's name.
    fn check(&self, timed: &[Timed], rooted: &[Timed]) {
        let names = timed.iter().chain(rooted).flat_map(Timed::rows).map(|(name, _)| name);
        let names: Vec<String> =
            names.chain(products::ALL.map(|each| each.name.to_string())).collect();
        let strange = |word: &&String| !names.iter().any(|name| name.contains(*word));
        if let Some(word) = self.0.iter().find(strange) {
            stop(&format!("no row has {word} in its name; the rows are\n  {}", names.join("\n  ")));
        }
    }
}

fn main() {
    let (options, words): (Vec<String>, Vec<String>) =
        std::env::args().skip(1).partition(|word| word.starts_with('-'));
    if let Some(other) = options.iter().find(|option| *option != "--quick") {
        stop(&format!("{other} is no option (--help tells more)"));
    }
    let (bench, asked) = (Bench { quick: !options.is_empty() }, Asked(words));
    let timed: Vec<Timed> =
        timed::<QuadFelt>(&bench).into_iter().chain(timed::<BabyBear>(&bench)).collect();
    let rooted: Vec<Timed> =
        rooted::<QuadFelt>(&bench).into_iter().chain(rooted::<BabyBear>(&bench)).collect();
    asked.check(&timed, &rooted);
    print_rows("", ["ours", "Rust"], &timed, &asked);
    print_growth(&timed, &asked);
    println!();
    print_rows("ours on one list", ["8 roots", "1 root"], &rooted, &asked);
    for products in products::ALL.iter().filter(|products| asked.row(products.name)) {
        products.print(&bench);
    }
}

/// A row for each call and each length, under the names of what is timed by turns.
fn print_rows(heading: &str, [one, other]: [&str; 2], timed: &[Timed], asked: &Asked) {
    println!("{heading:<44} {one:>12} {other:>12} {:>8}", "ratio");
    let rows = timed.iter().flat_map(|call| call.rows().map(move |(name, n)| (call, name, n)));
    for (call, name, n) in rows.filter(|(_, name, _)| asked.row(name)) {
        (call.time)(n).print(&name);
    }
}

/// A row for each call that is timed at several lengths.
fn print_growth(timed: &[Timed], asked: &Asked) {
    println!("\n{:<44} {:>12} {:>12}", "growth from n to 2n to 4n", "ours", "Rust");
    timed.iter().filter(|call| call.grows && asked.row(&call.name)).for_each(Timed::print_growth);
}

/// Says what is wrong and ends.
fn stop(what: &str) -> ! {
    eprintln!("bench: {what}");
    std::process::exit(2);
}

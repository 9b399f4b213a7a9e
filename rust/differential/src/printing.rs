//! What programs print of house files, beside the Rust's in the same format and document 01's.

use std::collections::BTreeMap;
use std::fmt::Write;

use model::field::P;
use model::{
    BEFORE_ROOTS, FILE_LIMIT, Field, HEAD, Judge, KINDS, MOST_ROOTS, Paper, RECORD, ROOT, Record,
    before_records, coincide, file_drawing, file_length, listing, read_house_file,
};

use crate::cases::{LONGEST_FILE, LONGEST_LENGTH};
use crate::compare::Difference;
use crate::program::Delivery;
use crate::roots::Roots;
use crate::{Rng, Rust};

/// The refusals of a house file: its count is no 1, its length no 2.
pub const REFUSALS: [u64; 9] = [3, 4, 5, 6, 21, 22, 23, 24, 46];

/// The bytes of the longest listing: 1,024 constants of p − 1, p − 1, eight roots of four digits.
const LONGEST_LISTING: usize = 53_227;

/// The bytes of the longest drawing: 1,024 constants whose coordinates are −(p − 1)/2.
const LONGEST_DRAWING: usize = 65_464;

/// Numbers of roots that are none, one too many, and the most that a file can give.
const WRONG: [usize; 3] = [0, MOST_ROOTS + 1, 255];

/// A program that prints something of a house file.
#[derive(Clone, Copy, Debug, PartialEq, Eq)]
pub enum Printer {
    Normlist,
    Drawlist,
}

impl Printer {
    pub const ALL: [Printer; 2] = [Printer::Normlist, Printer::Drawlist];

    pub fn name(self) -> &'static str {
        match self {
            Printer::Normlist => "normlist",
            Printer::Drawlist => "drawlist",
        }
    }

    /// The script that runs it.
    pub fn script(self) -> &'static str {
        match self {
            Printer::Normlist => "./normlist",
            Printer::Drawlist => "bin/drawlist",
        }
    }

    /// What it prints of a file, by this judge.
    pub fn prints(self, file: &[u8], judge: &mut dyn Judge) -> String {
        match self {
            Printer::Normlist => listing(file, judge),
            Printer::Drawlist => file_drawing(file, judge),
        }
    }

    /// The kind of the record that a line is of.
    fn kind(self, line: &str) -> Option<usize> {
        let kind = match self {
            Printer::Normlist => line.split(' ').nth(1),
            Printer::Drawlist => line.split_once(" [label=\"").map(|(_, label)| label),
        };
        let kind = kind?.split([' ', '"']).next();
        KINDS.iter().position(|known| Some(*known) == kind)
    }

    /// What a run of it has to meet beside the refusals.
    fn marks(self) -> Vec<Mark> {
        let own = match self {
            Printer::Normlist => &LISTED[..],
            Printer::Drawlist => &DRAWN,
        };
        [&FILES, own].concat()
    }
}

/// What runs a program: a file's bytes and how they come, to what it prints or what went wrong.
pub type Runner<'a> = Box<dyn FnMut(&[u8], Delivery) -> Result<Vec<u8>, String> + 'a>;

/// A number of the head of a file that has one.
fn head(file: &[u8], from: usize) -> Option<u64> {
    let bytes = file.get(..HEAD)?[from..from + 4].try_into().expect("four bytes");
    Some(u32::from_be_bytes(bytes).into())
}

/// Whether a file of this version has this many bytes more than its head asks for.
fn beside(file: &[u8], version: u8, more: i64) -> bool {
    let counted = head(file, 1).is_some_and(|count| (1..=FILE_LIMIT).contains(&count));
    let asked = file_length(file).filter(|_| counted && file[0] == version);
    asked.is_some_and(|asked| file.len() as i64 == asked as i64 + more)
}

/// The number of roots that a file of version 2 gives, and the one that its length fits.
fn root_numbers(file: &[u8]) -> Option<(usize, Option<usize>)> {
    let count = head(file, 1).filter(|count| (1..=FILE_LIMIT).contains(count) && file[0] == 2)?;
    let bytes = file.len().checked_sub(BEFORE_ROOTS + RECORD * count as usize);
    let fits = bytes.filter(|bytes| bytes % ROOT == 0).map(|bytes| bytes / ROOT);
    Some((file[BEFORE_ROOTS - 1].into(), fits.filter(|&roots| roots < 256)))
}

/// Whether a file of version 2 gives none of 1 to 8 roots.
fn gives_wrong(file: &[u8]) -> bool {
    matches!(root_numbers(file), Some((0 | 9.., _)))
}

/// The roots of a file of version 2 that is as long as its head asks for.
fn given_roots(file: &[u8]) -> Option<Vec<u64>> {
    let (given, fits) = root_numbers(file)?;
    let number = |root: &[u8]| u32::from_be_bytes(root.try_into().expect("four bytes")).into();
    let roots = || file[BEFORE_ROOTS..][..ROOT * given].chunks(ROOT).map(number).collect();
    (fits == Some(given)).then(roots)
}

/// The length of a file of version 2 that is cut within its head, which has eight roots.
fn cut_head(file: &[u8]) -> Option<usize> {
    let is_cut = file.len() < BEFORE_ROOTS + ROOT * MOST_ROOTS && file.first() == Some(&2);
    let of_eight = || file.get(BEFORE_ROOTS - 1).is_none_or(|&count| count == MOST_ROOTS as u8);
    (is_cut && of_eight()).then_some(file.len())
}

/// Whether a file's list is accepted.
fn accepted(file: &[u8]) -> bool {
    read_house_file(file).is_ok()
}

/// Whether a text is the line of this refusal.
fn refused(text: &str, number: u64) -> bool {
    text.strip_prefix("refused ").is_some_and(|behind| behind.starts_with(&format!("{number} ")))
}

/// The roots that a listing names.
fn listed_roots(text: &str) -> Vec<&str> {
    let line = text.lines().next().unwrap_or_default();
    let behind = line.split_once(" root ").map_or("", |(_, behind)| behind);
    behind.split_once(" rounds").map_or(vec![], |(roots, _)| roots.split(' ').collect())
}

/// Whether a file's roots are at different places, and its listing names one of theirs twice.
fn meet(file: &[u8], text: &str) -> bool {
    let given = read_house_file(file).map_or(vec![], |(_, roots)| roots);
    !coincide(&given) && coincide(&listed_roots(text))
}

/// Whether a listing has this number of rounds or more.
fn rounds(text: &str, least: u64) -> bool {
    let line = text.lines().next().unwrap_or_default();
    let rounds = line.rsplit_once(" rounds ").and_then(|(_, rounds)| rounds.parse().ok());
    rounds.is_some_and(|rounds: u64| rounds >= least)
}

/// What a file, and what is printed of it, are.
type Mark = (&'static str, fn(&[u8], &str) -> bool);

/// What a run of every program has to meet.
const FILES: [Mark; 29] = [
    ("empty", |file, _| file.is_empty()),
    ("under 9 bytes", |file, _| !file.is_empty() && file.len() < HEAD),
    ("version 0", |file, _| head(file, 1).is_some() && file[0] == 0),
    ("version 3", |file, _| head(file, 1).is_some() && file[0] == 3),
    ("count 0", |file, _| head(file, 1) == Some(0)),
    ("count 1", |file, _| head(file, 1) == Some(1)),
    ("count 1,024", |file, _| head(file, 1) == Some(FILE_LIMIT)),
    ("count 1,025", |file, _| head(file, 1) == Some(FILE_LIMIT + 1)),
    ("a byte short", |file, _| beside(file, 1, -1)),
    ("a byte long", |file, _| beside(file, 1, 1)),
    ("a record long", |file, _| beside(file, 1, RECORD as i64)),
    ("version 2, a byte short", |file, _| beside(file, 2, -1)),
    ("version 2, a byte long", |file, _| beside(file, 2, 1)),
    ("version 2, a root short", |file, _| beside(file, 2, -4)),
    ("version 2, a root long", |file, _| beside(file, 2, 4)),
    ("1 to 8 roots, a length of others", |file, _| {
        matches!(root_numbers(file), Some((1..=8, Some(0 | 9..))))
    }),
    ("other roots, a length of 1 to 8", |file, _| {
        matches!(root_numbers(file), Some((0 | 9.., Some(1..=8))))
    }),
    (
        "1 to 8 roots, a length of other 1 to 8",
        |file, _| matches!(root_numbers(file), Some((given @ 1..=8, Some(fits @ 1..=8))) if given != fits),
    ),
    ("17 roots more, a length of four records more", |file, _| {
        beside(file, 2, 0) && matches!(root_numbers(file), Some((18..=25, _)))
    }),
    ("23 before 46", |file, text| refused(text, 23) && file[0] == 2 && matches!(file[5], 0 | 9..)),
    ("24 before 46", |file, text| refused(text, 24) && gives_wrong(file)),
    ("3 or 4 before 46", |file, text| (refused(text, 3) || refused(text, 4)) && gives_wrong(file)),
    ("5 before 46", |file, text| refused(text, 5) && gives_wrong(file)),
    ("46 before 6", |file, text| {
        let outside = |root: &u64| head(file, 1).is_some_and(|count| *root >= count);
        refused(text, 46) && given_roots(file).is_some_and(|roots| roots.iter().any(outside))
    }),
    ("longest good file", |file, _| file.len() == LONGEST_FILE && accepted(file)),
    ("longest file of the right length", |file, _| {
        file.len() == LONGEST_LENGTH && beside(file, 2, 0)
    }),
    ("longer than any of these", |file, _| file.len() > LONGEST_LENGTH),
    ("root just outside", |file, _| beside(file, 1, 0) && head(file, 1) == head(file, 5)),
    ("roots at one place", |file, _| {
        accepted(file) && given_roots(file).is_some_and(|roots| coincide(&roots))
    }),
];

/// What a run of `normlist` has to meet.
const LISTED: [Mark; 5] = [
    ("roots brought to one place", meet),
    ("no round kept", |_, text| text.starts_with("nodes ") && !rounds(text, 1)),
    ("rounds kept", |_, text| rounds(text, 1)),
    ("100 rounds kept", |_, text| rounds(text, 100)),
    ("longest listing", |_, text| text.len() == LONGEST_LISTING),
];

/// Whether an accepted file has such a record.
fn has(file: &[u8], is: impl Fn(Record) -> bool) -> bool {
    read_house_file(file).is_ok_and(|(list, _)| list.into_iter().any(is))
}

/// Whether an accepted file has an operation on two places that stand so.
fn operands(file: &[u8], stand: fn(&u64, &u64) -> bool) -> bool {
    has(file, |[tag, first, second]| matches!(tag, 2..=4) && stand(&first, &second))
}

/// Whether an accepted file has a constant with this coordinate, 1 or 2 behind its tag.
fn constant(file: &[u8], word: usize, coordinate: u64) -> bool {
    has(file, |record| record[0] == 1 && record[word] == coordinate)
}

/// What a run of `drawlist` has to meet.
const DRAWN: [Mark; 14] = [
    ("first operand before second", |file, _| operands(file, u64::lt)),
    ("second operand before first", |file, _| operands(file, u64::gt)),
    ("two equal operands", |file, _| operands(file, u64::eq)),
    ("c0 of 0", |file, _| constant(file, 1, 0)),
    ("c0 of 1", |file, _| constant(file, 1, 1)),
    ("c0 of (p−1)/2", |file, _| constant(file, 1, P / 2)),
    ("c0 of (p+1)/2", |file, _| constant(file, 1, P / 2 + 1)),
    ("c0 of p−1", |file, _| constant(file, 1, P - 1)),
    ("c1 of 0", |file, _| constant(file, 2, 0)),
    ("c1 of 1", |file, _| constant(file, 2, 1)),
    ("c1 of (p−1)/2", |file, _| constant(file, 2, P / 2)),
    ("c1 of (p+1)/2", |file, _| constant(file, 2, P / 2 + 1)),
    ("c1 of p−1", |file, _| constant(file, 2, P - 1)),
    ("longest drawing", |_, text| text.len() == LONGEST_DRAWING),
];

/// The comparisons of what a program prints, so far.
pub struct Printing<'a> {
    pub printer: Printer,
    run: Option<Runner<'a>>,
    /// Files compared.
    pub cases: u64,
    /// Files of which other bytes were printed.
    pub failed: u64,
    /// How often each refusal was met; 0 is acceptance.
    pub outcomes: BTreeMap<u64, u64>,
    marks: Vec<(Mark, u64)>,
    /// The roots of files of version 2.
    roots: Roots,
    /// Heads of version 2 with eight roots, by the byte that they are cut at.
    cuts: [u64; BEFORE_ROOTS + ROOT * MOST_ROOTS],
    kinds: [u64; KINDS.len()],
    deliveries: [u64; Delivery::ALL.len()],
    rng: Rng,
}

impl<'a> Printing<'a> {
    /// Comparisons with this program, or of the Rust and document 01 alone.
    pub fn new(printer: Printer, run: Option<Runner<'a>>, seed: u64) -> Self {
        Self {
            printer,
            run,
            cases: 0,
            failed: 0,
            outcomes: BTreeMap::new(),
            marks: printer.marks().into_iter().map(|mark| (mark, 0)).collect(),
            roots: Roots::new(WRONG, u32::MAX.into()),
            cuts: [0; BEFORE_ROOTS + ROOT * MOST_ROOTS],
            kinds: [0; KINDS.len()],
            deliveries: [0; Delivery::ALL.len()],
            rng: Rng::new(seed),
        }
    }

    /// Compares what is printed of one file.
    pub fn take(&mut self, file: &[u8]) -> Option<Difference> {
        let rust = self.printer.prints(file, &mut Rust(Field::GOLDILOCKS));
        let paper = self.printer.prints(file, &mut Paper::over(Field::GOLDILOCKS));
        self.count(file, &rust);
        let delivery = Delivery::ALL[self.rng.weighted(&[5, 1, 2])];
        let mut found = (paper != rust).then(|| ("document 01", Ok(paper.into_bytes())));
        if let Some(run) = &mut self.run {
            self.deliveries[delivery as usize] += 1;
            let printed = run(file, delivery);
            if printed.as_deref() != Ok(rust.as_bytes()) {
                found = Some(("the program", printed));
            }
        }
        let (name, printed) = found?;
        self.failed += 1;
        let heading =
            format!("  {}, {} bytes {}", self.printer.name(), file.len(), delivery.text());
        Some(difference(file, &heading, name, printed, &rust))
    }

    /// Counts what a file and what is printed of it are.
    fn count(&mut self, file: &[u8], text: &str) {
        self.cases += 1;
        let number = read_house_file(file).err().map_or(0, |refusal| refusal.number);
        *self.outcomes.entry(number).or_default() += 1;
        for ((_, is), count) in &mut self.marks {
            *count += u64::from(is(file, text));
        }
        if let Some((roots, n)) = given_roots(file).zip(head(file, 1)) {
            self.roots.count(number, &roots, n);
        }
        if let Some(length) = cut_head(file) {
            self.cuts[length] += 1;
        }
        for kind in text.lines().skip(1).filter_map(|line| self.printer.kind(line)) {
            self.kinds[kind] += 1;
        }
    }

    /// What was met, and how often.
    pub fn met(&self) -> Vec<(String, u64)> {
        let marks = self.marks.iter().map(|((text, _), n)| (text.to_string(), *n));
        let cuts = self.cuts[1..].iter().min().copied().unwrap_or(0);
        let cuts = ("version 2 cut at each byte of its head".to_string(), cuts);
        let kinds = KINDS.iter().zip(&self.kinds).map(|(kind, n)| (format!("{kind} lines"), *n));
        let deliveries = Delivery::ALL.iter().zip(&self.deliveries);
        let deliveries = deliveries.map(|(delivery, n)| (delivery.text().to_string(), *n));
        let some = if self.run.is_some() { Delivery::ALL.len() } else { 0 };
        let marks = marks.chain(self.roots.met()).chain([cuts]);
        marks.chain(kinds).chain(deliveries.take(some)).collect()
    }
}

/// The most bytes behind the head that a short text shows.
const SHOWN: usize = 12 * RECORD;

/// The lines shown before and behind the first different one.
const AROUND: usize = 4;

/// A difference of two texts of a file.
fn difference(
    file: &[u8],
    heading: &str,
    name: &str,
    printed: Result<Vec<u8>, String>,
    rust: &str,
) -> Difference {
    let said = match printed {
        Err(what) => format!("  {name} {what}\n{}", excerpt("the Rust", rust, 0)),
        Ok(bytes) => {
            let other = String::from_utf8_lossy(&bytes);
            let equal = other.split_inclusive('\n').zip(rust.split_inclusive('\n'));
            let line = equal.take_while(|(one, two)| one == two).count();
            let (one, two) = (excerpt(name, &other, line), excerpt("the Rust", rust, line));
            format!("  the texts differ from line {}\n{one}{two}", line + 1)
        }
    };
    let text = |most: usize| format!("{heading}\n{}{said}", bytes_text(file, most));
    let short = (file.len() > HEAD + SHOWN).then(|| text(SHOWN));
    Difference { whole: text(usize::MAX), short, file: Some(file.to_vec()) }
}

/// The bytes of a file: its head, then a record a line, up to the most behind the head.
fn bytes_text(file: &[u8], most: usize) -> String {
    let hex = |bytes: &[u8]| bytes.iter().map(|byte| format!("{byte:02x}")).collect::<String>();
    let (head, body) = file.split_at(before_records(file).unwrap_or(HEAD).min(file.len()));
    let mut text = format!("    {}\n", hex(head));
    for record in body[..body.len().min(most)].chunks(RECORD) {
        let _ = writeln!(text, "    {}", hex(record));
    }
    if body.len() > most {
        text.push_str("    …\n");
    }
    text
}

/// The lines of a text around this one; a missing newline shows.
fn excerpt(name: &str, text: &str, line: usize) -> String {
    let lines: Vec<&str> = text.split_inclusive('\n').collect();
    let mut shown = format!("  {name} ({} bytes, {} lines):\n", text.len(), lines.len());
    let begin = line.saturating_sub(AROUND);
    for (place, text) in lines.iter().enumerate().skip(begin).take(2 * AROUND + 1) {
        let end = if text.ends_with('\n') { "" } else { " (no newline)" };
        let _ = writeln!(shown, "    {}: {:?}{end}", place + 1, text.trim_end_matches('\n'));
    }
    shown
}

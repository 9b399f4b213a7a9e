//! What the command line asks for.

use std::path::{Path, PathBuf};

use differential::printing::Printer;
use differential::report;
use model::{Call, Field};

/// What is compared under one name.
#[derive(Clone, Copy, Debug, PartialEq, Eq)]
pub enum Part {
    Call(Call, Field),
    /// A program, over house files of field 1.
    Program(Printer),
}

impl Part {
    /// Every part, in the order of a run.
    fn all() -> Vec<Part> {
        let calls = Call::ALL.into_iter();
        let parts = calls.flat_map(|call| Field::ALL.map(|field| Part::Call(call, field)));
        parts.chain(Printer::ALL.map(Part::Program)).collect()
    }

    /// The call or the program.
    fn what(self) -> &'static str {
        match self {
            Part::Call(call, _) => call.signature().name,
            Part::Program(printer) => printer.name(),
        }
    }

    fn field(self) -> Field {
        match self {
            Part::Call(_, field) => field,
            Part::Program(_) => Field::GOLDILOCKS,
        }
    }

    pub fn name(self) -> String {
        match self {
            Part::Call(call, field) => report::name(call, field),
            Part::Program(printer) => printer.name().to_string(),
        }
    }
}

/// What is to be done.
#[derive(Clone, Copy, Debug, PartialEq, Eq)]
pub enum Task {
    Compare,
    List,
    Dot,
    Record,
    Help,
}

/// The command line.
pub struct Options {
    pub task: Task,
    pub seconds: Option<u64>,
    pub cases: Option<u64>,
    pub seed: u64,
    /// The one call or program that is asked for.
    pub what: Option<&'static str>,
    pub field: Option<Field>,
    pub quick: bool,
    pub corners: bool,
    pub bare: bool,
    /// One in so many of the house files made by hand.
    pub every: usize,
    pub without_ours: bool,
    /// The one program, where it is another file than usual.
    pub program: Option<PathBuf>,
    pub out: Option<PathBuf>,
    pub count: usize,
}

/// A number of these digits, for this option.
fn number<T: std::str::FromStr>(option: &str, digits: &str) -> Result<T, String> {
    digits.parse().map_err(|_| format!("{option} takes a number, not {digits}"))
}

/// The call or the program with this name.
fn what(name: &str) -> Result<&'static str, String> {
    let mut names: Vec<&str> = Part::all().into_iter().map(Part::what).collect();
    names.dedup();
    let found = names.iter().find(|known| **known == name).copied();
    found.ok_or_else(|| format!("no call is named {name}; there are {}", names.join(", ")))
}

/// The field with this number.
fn field(digits: &str) -> Result<Field, String> {
    let found = Field::numbered(number("--field", digits)?);
    found.ok_or_else(|| format!("--field takes 1 or 2, not {digits}"))
}

impl Options {
    /// The parts that are asked for, in the order of a run.
    pub fn parts(&self) -> Vec<Part> {
        let asked = |part: &Part| {
            self.what.is_none_or(|what| part.what() == what)
                && self.field.is_none_or(|field| part.field() == field)
        };
        Part::all().into_iter().filter(asked).collect()
    }

    /// The file of a program.
    pub fn file(&self, printer: Printer) -> PathBuf {
        let usual = || Path::new("target/bin").join(printer.name());
        let asked = self.program.clone().filter(|_| self.what == Some(printer.name()));
        asked.unwrap_or_else(usual)
    }

    /// The options of no words.
    fn unnamed() -> Self {
        Self {
            task: Task::Compare,
            seconds: None,
            cases: None,
            seed: 1,
            what: None,
            field: None,
            quick: false,
            corners: false,
            bare: false,
            every: 1,
            without_ours: false,
            program: None,
            out: None,
            count: 300,
        }
    }

    /// The options of these words, or what is wrong with them.
    pub fn read(words: &[String]) -> Result<Self, String> {
        let mut options = Self::unnamed();
        let mut words = words.iter();
        while let Some(word) = words.next() {
            let mut value = || words.next().ok_or_else(|| format!("{word} needs a value"));
            match word.as_str() {
                "list" => options.task = Task::List,
                "dot" => options.task = Task::Dot,
                "record" => options.task = Task::Record,
                "--help" | "-h" => options.task = Task::Help,
                "--quick" => options.quick = true,
                "--corners" => options.corners = true,
                "--bare" => options.bare = true,
                "--without-ours" => options.without_ours = true,
                "--seconds" => options.seconds = Some(number(word, value()?)?),
                "--cases" => options.cases = Some(number(word, value()?)?),
                "--every" => options.every = number::<usize>(word, value()?)?.max(1),
                "--seed" => options.seed = number(word, value()?)?,
                "--count" => options.count = number(word, value()?)?,
                "--out" => options.out = Some(value()?.into()),
                "--program" => options.program = Some(value()?.into()),
                "--call" => options.what = Some(what(value()?)?),
                "--field" => options.field = Some(field(value()?)?),
                _ => return Err(format!("{word} is no option")),
            }
        }
        match (&options.parts()[..], &options.program) {
            ([], _) => {
                let name = options.what.expect("a program");
                Err(format!("{name} reads house files of field 1 alone"))
            }
            ([Part::Program(_)], _) | (_, None) => Ok(options),
            _ => Err("--program goes with --call and a program's name".to_string()),
        }
    }
}

//! Runs the comparison, lists or draws a house file, or records a sample of the Rust's answers.
//!
//! help.txt says how.

mod options;
mod progress;

use std::io::{Read, Write};
use std::ops::ControlFlow::Continue;
use std::path::{Path, PathBuf};
use std::process::ExitCode;
use std::time::{Duration, Instant};

use differential::cases::{self, Flow};
use differential::compare::{Comparison, Difference};
use differential::ours::Lending;
use differential::printing::{Printer, Printing};
use differential::program::Program;
use differential::report::{self, Missing, Summary, grouped, table};
use differential::{Rng, Rust, record};
use model::{Call, Case, Field, Judge, Paper};

use options::{Options, Part, Task};
use progress::Progress;

/// Prints a line; a reader that has left is no fault.
macro_rules! say {
    ($($words:tt)*) => {{
        let _ = writeln!(std::io::stdout(), $($words)*);
    }};
}

const HELP: &str = include_str!("../help.txt");

/// The most differences printed and kept of each part.
const SHOWN: u64 = 20;

/// Where differences are kept.
const DIFFERENCES: &str = "target/differences";

/// The random cases of a call that there is one random house file for.
const A_FILE: u64 = 100;

/// The random cases with one root that there is one with several roots for.
const SEVERAL: u64 = 2;

/// The seconds of random cases of a run that names none.
const SECONDS: u64 = 60;

/// About the seconds that short lists and corners take.
const FIXED: u64 = 80;

/// The differences of one part: printed as cases to send, and kept.
struct Shown<'a> {
    name: String,
    seed: u64,
    count: u64,
    progress: &'a Progress,
}

impl Shown<'_> {
    fn show(&mut self, difference: &Difference) {
        self.count += 1;
        if self.count > SHOWN {
            return;
        }
        let Self { name, seed, count, .. } = self;
        let file = format!("{name}-{count}.txt").replace(", ", "-").replace(' ', "-");
        let path = Path::new(DIFFERENCES).join(file);
        let heading = format!("DIFFERENCE {count} in {name}, seed {seed}");
        let mut kept = vec![path.clone()];
        let mut whole = keep(&path, format!("{heading}\n{}", difference.whole));
        if let Some(file) = &difference.file {
            kept.push(path.with_extension("bin"));
            whole &= keep(&kept[1], file);
        }
        let kept: Vec<String> = kept.iter().map(|path| path.display().to_string()).collect();
        let place = if whole { format!(", kept in {}", kept.join(" and ")) } else { String::new() };
        let short = difference.short.as_ref().filter(|_| whole).unwrap_or(&difference.whole);
        self.progress.print(|| say!("{heading}{place}\n{short}"));
    }
}

/// Whether these bytes could be written to a file.
fn keep(path: &Path, bytes: impl AsRef<[u8]>) -> bool {
    std::fs::create_dir_all(DIFFERENCES).and_then(|()| std::fs::write(path, bytes)).is_ok()
}

/// A run: what is asked for, and how long the random cases of each part may take.
struct Run {
    options: Options,
    each: Option<Duration>,
    progress: Progress,
}

impl Run {
    /// The random cases wanted beside what time allows.
    fn wanted(&self) -> u64 {
        let few = if self.options.quick { 3_000 } else { u64::MAX };
        self.options.cases.unwrap_or(if self.options.corners { 0 } else { few })
    }

    /// Goes through this many random cases, as long as there is time.
    fn random(&self, wanted: u64, mut take: impl FnMut()) {
        let begun = Instant::now();
        for _ in 0..wanted {
            if self.each.is_some_and(|each| begun.elapsed() >= each) {
                break;
            }
            take();
        }
    }

    fn shown(&self, name: String) -> Shown<'_> {
        Shown { name, seed: self.options.seed, count: 0, progress: &self.progress }
    }

    /// Compares the cases of one call over a field: short lists, faults, corners, then random ones.
    fn call(&self, call: Call, field: Field) -> Summary {
        let options = &self.options;
        let lending = if options.bare { Lending::Bare } else { Lending::Guarded };
        let lending = (!options.without_ours).then_some(lending);
        let mut run = Comparison::new(call, field, options.seed, lending);
        let mut rng = Rng::new(options.seed ^ (call as u64 + 1) << 56 ^ field.number << 48);
        let mut shown = self.shown(report::name(call, field));
        let mut take = |case: Case| -> Flow {
            for difference in run.take(&case) {
                shown.show(&difference);
            }
            self.progress.note(run.cases, run.failed);
            Continue(())
        };
        let thorough = !options.quick && !options.corners;
        if !options.corners {
            let _ = cases::exhaustive(call, field, &mut rng, thorough, &mut take);
        }
        let _ = cases::faulty(call, field, &mut rng, thorough, &mut take);
        let _ = cases::fixed(call, field, &mut rng, thorough, &mut take);
        self.random(self.wanted(), || {
            let _ = take(cases::random(call, field, &mut rng));
            if rng.once_in(SEVERAL) {
                let _ = cases::several_roots(call, field, &mut rng).map(&mut take);
            }
        });
        Summary::of_call(&run)
    }

    /// Compares what a program prints of the files made by hand, then of random ones.
    fn program(&self, printer: Printer) -> Summary {
        let options = &self.options;
        let program = Program::new(&options.file(printer), &[]);
        let run = (!options.without_ours)
            .then(|| Box::new(move |file: &[u8], delivery| program.run(file, delivery)) as _);
        let mut run = Printing::new(printer, run, options.seed);
        let mut rng = Rng::new(options.seed ^ (0xff - printer as u64) << 56);
        let mut shown = self.shown(printer.name().to_string());
        let mut take = |file: Vec<u8>| {
            if let Some(difference) = run.take(&file) {
                shown.show(&difference);
            }
            self.progress.note(run.cases, run.failed);
        };
        let files = cases::fixed_files(&mut rng);
        files.into_iter().step_by(options.every).for_each(&mut take);
        let wanted = self.wanted() / A_FILE;
        self.random(wanted, || take(cases::random_file(&mut rng)));
        Summary::of_printing(&run)
    }

    /// Compares one part and prints what it met; one that is absent counts as failed.
    fn part(&self, part: Part) -> Summary {
        let begun = Instant::now();
        self.progress.begin(part.name());
        let mut summary = match (absent(part, &self.options), part) {
            (Some(why), _) => Summary::absent(part.name(), why),
            (None, Part::Call(call, field)) => self.call(call, field),
            (None, Part::Program(printer)) => self.program(printer),
        };
        self.progress.end();
        summary.seconds = begun.elapsed().as_secs_f64();
        if self.options.corners {
            summary.missing.retain(|what| !matches!(what, Missing::Unmet(_)));
        }
        if summary.failed > SHOWN {
            say!("{} cases of {} differ; {SHOWN} are shown", grouped(summary.failed), part.name());
        }
        say!("{}", summary.details().trim_end());
        summary
    }
}

/// Why the proved calls can't be compared, if they can't.
#[cfg(feature = "ours")]
fn calls_absent() -> Option<String> {
    let archive = ace::ARCHIVE;
    let (has, wants) = (ace::words::interface(), ace::words::INTERFACE);
    if has != wants {
        return Some(format!("{archive} has interface {has}, and rust/ace is for {wants}"));
    }
    let other = format!("{archive} is gone, or is not what was linked: touch it, and run again");
    (!ace::archive_is_linked()).then_some(other)
}

#[cfg(not(feature = "ours"))]
fn calls_absent() -> Option<String> {
    Some("this program was built without libace.a (`tools/archive ace` writes it)".to_string())
}

/// Why a program can't be compared, if it can't.
fn program_absent(printer: Printer, options: &Options) -> Option<String> {
    let (file, script) = (options.file(printer), printer.script());
    (!file.exists()).then(|| format!("{} is not there (`{script}` builds it)", file.display()))
}

/// Why a part can't be compared, if it can't.
fn absent(part: Part, options: &Options) -> Option<String> {
    match part {
        _ if options.without_ours => None,
        Part::Call(..) => calls_absent(),
        Part::Program(printer) => program_absent(printer, options),
    }
}

/// Says what is compared with what.
fn say_sides(options: &Options) {
    say!("the Rust: {}", oracle::SOURCE);
    if options.without_ours {
        say!("without the proved calls: the Rust and document 01 alone");
        return;
    }
    #[cfg(feature = "ours")]
    say!("the proved calls: {}", ace::ARCHIVE);
    for part in options.parts() {
        if let Part::Program(printer) = part {
            say!("{}: {}", printer.name(), options.file(printer).display());
        }
    }
}

/// The whole comparison: what each part met, a table, the verdict.
fn compare(options: Options) -> ExitCode {
    let parts = options.parts();
    say_sides(&options);
    let timed = options.seconds.is_some()
        || (options.cases.is_none() && !options.quick && !options.corners);
    let seconds = options.seconds.unwrap_or(SECONDS);
    let each = timed.then(|| Duration::from_secs_f64(seconds as f64 / parts.len() as f64));
    let takes = if timed { format!(", about {} seconds", seconds + FIXED) } else { String::new() };
    say!("seed {}{takes}\n", options.seed);
    let _ = std::fs::remove_dir_all(DIFFERENCES);
    let run = Run { options, each, progress: Progress::new() };
    let rows: Vec<Summary> = parts.into_iter().map(|part| run.part(part)).collect();
    say!("\n{}", table(&rows));
    let passed: u64 = rows.iter().map(|row| row.cases - row.failed).sum();
    let failed: u64 = rows.iter().map(|row| row.failed + row.missing.len() as u64).sum();
    say!("{passed} passed, {failed} failed");
    if failed == 0 { ExitCode::SUCCESS } else { ExitCode::FAILURE }
}

/// Prints what a program would of the house file on standard input, by this judge.
fn print(printer: Printer, judge: &mut dyn Judge) -> Result<ExitCode, String> {
    let mut file = Vec::new();
    std::io::stdin().read_to_end(&mut file).map_err(|error| format!("standard input: {error}"))?;
    let text = printer.prints(&file, judge);
    std::io::stdout().write_all(text.as_bytes()).map_err(|error| format!("{error}"))?;
    Ok(ExitCode::SUCCESS)
}

/// Writes the recorded sample of a call, or of every call.
fn write_sample(options: &Options) -> Result<ExitCode, String> {
    let calls = match options.what {
        None => record::CALLS.to_vec(),
        Some(name) => {
            let call = Call::named(name).filter(|call| record::CALLS.contains(call));
            vec![call.ok_or("record takes a call that replay knows")?]
        }
    };
    let out: &PathBuf = options.out.as_ref().ok_or("record needs --out FILE")?;
    let bytes = record::stream(&calls, options.count, options.seed);
    std::fs::write(out, &bytes).map_err(|error| format!("{}: {error}", out.display()))?;
    say!("{} cases of each of {} calls, {} bytes", options.count, calls.len(), bytes.len());
    Ok(ExitCode::SUCCESS)
}

fn main() -> ExitCode {
    let words: Vec<String> = std::env::args().skip(1).collect();
    let options = match Options::read(&words) {
        Ok(options) => options,
        Err(message) => {
            eprintln!("differential: {message} (--help tells more)");
            return ExitCode::from(2);
        }
    };
    let done = match options.task {
        Task::Compare => Ok(compare(options)),
        Task::List => print(Printer::Normlist, &mut Rust(Field::GOLDILOCKS)),
        Task::Dot => print(Printer::Drawlist, &mut Paper::over(Field::GOLDILOCKS)),
        Task::Record => write_sample(&options),
        Task::Help => {
            say!("{}", HELP.trim_end());
            Ok(ExitCode::SUCCESS)
        }
    };
    done.unwrap_or_else(|message| {
        eprintln!("differential: {message}");
        ExitCode::from(2)
    })
}

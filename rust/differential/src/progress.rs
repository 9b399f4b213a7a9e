//! A progress line a second, at a terminal.

use std::io::{IsTerminal, Write};
use std::sync::{Arc, Mutex, MutexGuard, PoisonError};
use std::thread;
use std::time::{Duration, Instant};

use differential::report::grouped;

/// What the line says.
struct Line {
    name: String,
    cases: u64,
    failed: u64,
    begun: Instant,
    /// Whether something is under way.
    on: bool,
}

/// The line, where there is a terminal to show it.
pub struct Progress(Option<Arc<Mutex<Line>>>);

/// The line, for one who reads or changes it.
fn held(line: &Mutex<Line>) -> MutexGuard<'_, Line> {
    line.lock().unwrap_or_else(PoisonError::into_inner)
}

/// Clears the terminal's line.
fn clear() {
    eprint!("\r\x1b[K");
    let _ = std::io::stderr().flush();
}

impl Line {
    fn show(&self) {
        eprint!(
            "\r\x1b[K{}: {} cases, {} differ, {} s",
            self.name,
            grouped(self.cases),
            self.failed,
            self.begun.elapsed().as_secs(),
        );
        let _ = std::io::stderr().flush();
    }
}

impl Progress {
    /// A line that is shown every second from now on, while something is under way.
    pub fn new() -> Self {
        if !std::io::stderr().is_terminal() {
            return Self(None);
        }
        let begun = Instant::now();
        let line = Line { name: String::new(), cases: 0, failed: 0, begun, on: false };
        let line = Arc::new(Mutex::new(line));
        let shown = Arc::downgrade(&line);
        thread::spawn(move || {
            loop {
                thread::sleep(Duration::from_secs(1));
                let Some(line) = shown.upgrade() else { return };
                let line = held(&line);
                if line.on {
                    line.show();
                }
            }
        });
        Self(Some(line))
    }

    /// Begins with what has this name.
    pub fn begin(&self, name: String) {
        if let Some(line) = &self.0 {
            let begun = Instant::now();
            *held(line) = Line { name, cases: 0, failed: 0, begun, on: true };
        }
    }

    /// Takes note of the cases so far.
    pub fn note(&self, cases: u64, failed: u64) {
        if let Some(line) = &self.0 {
            let mut line = held(line);
            (line.cases, line.failed) = (cases, failed);
        }
    }

    /// Prints on a line that is clear.
    pub fn print(&self, print: impl FnOnce()) {
        let _line = self.0.as_deref().map(held);
        if self.0.is_some() {
            clear();
        }
        print();
    }

    /// Ends what is under way.
    pub fn end(&self) {
        if let Some(line) = &self.0 {
            held(line).on = false;
            clear();
        }
    }
}

//! A program of house files: the file is its standard input, what it prints its output.

use std::fs::File;
use std::io::{Read, Write};
use std::path::{Path, PathBuf};
use std::process::{Child, ChildStdin, Command, Stdio};
use std::sync::mpsc::{Receiver, RecvTimeoutError, channel};
use std::thread;
use std::time::Duration;

/// How a file comes to the program's standard input.
#[derive(Clone, Copy, Debug, PartialEq, Eq)]
pub enum Delivery {
    /// Through a pipe, at once.
    Pipe,
    /// Through a pipe, in pieces with pauses between them.
    Pieces,
    /// As a file that is opened.
    File,
}

impl Delivery {
    pub const ALL: [Delivery; 3] = [Delivery::Pipe, Delivery::Pieces, Delivery::File];

    /// The delivery in words.
    pub fn text(self) -> &'static str {
        match self {
            Delivery::Pipe => "through a pipe",
            Delivery::Pieces => "in pieces",
            Delivery::File => "from a file",
        }
    }
}

/// How long a program may take over a file.
const PATIENCE: Duration = Duration::from_secs(60);

/// The most bytes read of what a program prints.
const MOST_PRINTED: u64 = 1 << 20;

/// A program, its arguments, and a folder for the files that it opens.
#[derive(Clone, Debug)]
pub struct Program {
    path: PathBuf,
    arguments: Vec<String>,
    scratch: PathBuf,
}

impl Program {
    /// The program at this path.
    pub fn new(path: &Path, arguments: &[&str]) -> Self {
        let arguments = arguments.iter().map(|word| word.to_string()).collect();
        let scratch = std::env::temp_dir().join(format!("house-file-{}", std::process::id()));
        Self { path: path.to_path_buf(), arguments, scratch }
    }

    pub fn path(&self) -> &Path {
        &self.path
    }

    /// What the program prints for a file, or what it did instead.
    pub fn run(&self, file: &[u8], delivery: Delivery) -> Result<Vec<u8>, String> {
        let said = |error: std::io::Error| format!("{}: {error}", self.path.display());
        let mut child = self.started(file, delivery).map_err(said)?;
        let printed = collected(child.stdout.take().expect("piped"));
        let complaint = collected(child.stderr.take().expect("piped"));
        let feeder = child.stdin.take().map(|stdin| {
            let file = file.to_vec();
            thread::spawn(move || feed(stdin, &file, delivery))
        });
        let printed = match printed.recv_timeout(PATIENCE) {
            Ok(printed) if (printed.len() as u64) < MOST_PRINTED => printed,
            Ok(_) => return Err(stopped(child, "printed more than of any house file")),
            Err(RecvTimeoutError::Timeout) => return Err(stopped(child, "did not end")),
            Err(RecvTimeoutError::Disconnected) => return Err(stopped(child, "can't be read")),
        };
        let status = child.wait().map_err(said)?;
        if let Some(feeder) = feeder {
            let _ = feeder.join();
        }
        let complaint = complaint.recv().unwrap_or_default();
        if status.code().is_none() {
            return Err(format!("was killed ({status})"));
        }
        if !complaint.is_empty() {
            let text = String::from_utf8_lossy(&complaint);
            return Err(format!("wrote to standard error: {}", text.trim_end()));
        }
        Ok(printed)
    }

    /// The program, with the file as its input where it is opened, else with a pipe.
    fn started(&self, file: &[u8], delivery: Delivery) -> std::io::Result<Child> {
        let mut command = Command::new(&self.path);
        command.args(&self.arguments).stdout(Stdio::piped()).stderr(Stdio::piped());
        if delivery != Delivery::File {
            return command.stdin(Stdio::piped()).spawn();
        }
        std::fs::write(&self.scratch, file)?;
        let child = command.stdin(File::open(&self.scratch)?).spawn();
        std::fs::remove_file(&self.scratch)?;
        child
    }
}

/// Writes a file to the program; one that stops reading is no fault of the file.
fn feed(mut stdin: ChildStdin, file: &[u8], delivery: Delivery) {
    if delivery == Delivery::Pipe {
        let _ = stdin.write_all(file);
        return;
    }
    let ends = [1, 5, 6, 9, 10, 26, file.len() / 2, file.len() * 3 / 4, file.len()];
    let mut begin = 0;
    for end in ends {
        if end <= begin || end > file.len() {
            continue;
        }
        if stdin.write_all(&file[begin..end]).is_err() {
            return;
        }
        begin = end;
        thread::sleep(Duration::from_millis(1));
    }
}

/// All that comes out of a pipe, when it ends.
fn collected(pipe: impl Read + Send + 'static) -> Receiver<Vec<u8>> {
    let (sender, receiver) = channel();
    thread::spawn(move || {
        let mut bytes = Vec::new();
        let _ = pipe.take(MOST_PRINTED).read_to_end(&mut bytes);
        let _ = sender.send(bytes);
    });
    receiver
}

/// Ends a program that this is to be said of.
fn stopped(mut child: Child, what: &str) -> String {
    let _ = child.kill();
    let _ = child.wait();
    what.to_string()
}

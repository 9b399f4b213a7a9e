//! Copies the Rust of docs/src into the output folder, where src/lib.rs mounts it.
//!
//! ACE_SRC names the folder; a relative one stands against the repository's root. It holds the
//! files as docs/src names them, or is a clone of the repository that they come from. Files that
//! are not the commit's are refused.

mod sha256;
mod sources;

use std::env;
use std::fs;
use std::path::{Path, PathBuf};

use sources::{MODULES, Source, TESTING};

/// The folder taken where ACE_SRC is not set, from the repository's root.
const DEFAULT: &str = "../shared/docs/src";

/// Added behind normalize.rs: a name for one round that stands outside it, so that rounds can be
/// counted.
const ONE_ROUND: &str = "
pub(super) fn one_round<EF: Field>(dag: AceDag<EF>) -> (AceDag<EF>, bool) { normalize_once(dag) }
";

fn main() {
    for file in ["build.rs", "sha256.rs", "sources.rs"] {
        println!("cargo::rerun-if-changed={file}");
    }
    println!("cargo::rerun-if-env-changed=ACE_SRC");
    if let Err(message) = mount() {
        println!("cargo::error={message}");
    }
}

/// Writes each module, and a line that declares it, to the output folder, below its own folders.
fn mount() -> Result<(), String> {
    let out = PathBuf::from(env::var("OUT_DIR").unwrap());
    let folder = source_folder();
    for source in MODULES {
        let mut text = read(&folder, source)?;
        if source.0 == "compiler/dag/normalize.rs" {
            text.push_str(ONE_ROUND);
        }
        let path = source.0.trim_end_matches(".rs");
        let visible = path.rsplit('/').next().unwrap();
        let file = out.join(source.0);
        let declaration =
            format!("#[allow(dead_code, unexpected_cfgs)] #[path = {file:?}] pub mod {visible};\n");
        write(&file, &text)?;
        write(&out.join(format!("{path}_module.rs")), &declaration)?;
    }
    let testing = read(&folder, TESTING)?;
    let evaluator = cut(&testing, "pub fn eval_dag")
        .ok_or_else(|| format!("{} in {} has no eval_dag", TESTING.0, folder.display()))?;
    write(&out.join("eval_dag.rs"), evaluator)
}

/// The folder that ACE_SRC names, or the default one; the crate is told its name.
fn source_folder() -> PathBuf {
    let named = env::var("ACE_SRC").ok().filter(|name| !name.is_empty());
    let named = named.as_deref().unwrap_or(DEFAULT);
    println!("cargo::rustc-env=ORACLE_SOURCE={named}");
    let manifest = PathBuf::from(env::var("CARGO_MANIFEST_DIR").unwrap());
    manifest.parent().and_then(Path::parent).unwrap().join(named)
}

/// The text of a file of the commit, under either of its two names.
fn read(folder: &Path, source: Source) -> Result<String, String> {
    let name = source.0;
    let flat = format!("src--crates--ace--src--{}.txt", name.replace('/', "--"));
    let places = [folder.join(flat), folder.join("crates/ace/src").join(name)];
    let Some(path) = places.iter().find(|path| path.exists()) else {
        return Err(format!(
            "the Rust to compare with is not in {} ({name} is missing): set ACE_SRC to docs/src, \
             or to a clone of github.com/0xMiden/miden-vm at 614c9f3608",
            folder.display()
        ));
    };
    println!("cargo::rerun-if-changed={}", path.display());
    let text = fs::read_to_string(path).map_err(|error| format!("{}: {error}", path.display()))?;
    match sources::refused(source, text.as_bytes()) {
        Some(refusal) => Err(format!("{}: {refusal}", path.display())),
        None => Ok(text),
    }
}

/// The item that begins at a line's start with `head`, to its closing line.
fn cut<'a>(text: &'a str, head: &str) -> Option<&'a str> {
    let begin = text.find(&format!("\n{head}"))? + 1;
    let end = text[begin..].find("\n}\n")? + 3;
    Some(&text[begin..begin + end])
}

/// Writes a file, and the folders that it is below.
fn write(path: &Path, text: &str) -> Result<(), String> {
    let folders = path.parent().map_or(Ok(()), fs::create_dir_all);
    folders
        .and_then(|()| fs::write(path, text))
        .map_err(|error| format!("{}: {error}", path.display()))
}

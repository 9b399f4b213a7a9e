//! include/ace.h compiles, says what the Rust and the exported functions say, serves examples/c, and
//! has the numbers that the calls answer and the stack that they take.

mod numbers;
mod stack;

use std::path::{Path, PathBuf};
use std::process::{Command, Output};

/// The exported functions.
const EXPORTED: [&str; 10] = [
    "ace_interface",
    "ace_step",
    "ace_build",
    "ace_compact",
    "ace_normalize",
    "ace_evaluate",
    "ace_prepare",
    "ace_lower",
    "ace_draw",
    "ace_emit",
];

/// The repository's root.
fn root() -> PathBuf {
    Path::new(env!("CARGO_MANIFEST_DIR")).join("../..")
}

fn text(path: &str) -> String {
    std::fs::read_to_string(root().join(path)).expect(path)
}

/// What a compiler comes to at the repository's root: the one that the variable names, else this.
fn run(variable: &str, usual: &str, words: &[&str]) -> Output {
    let compiler = std::env::var(variable).unwrap_or_else(|_| usual.to_string());
    let mut command = Command::new(&compiler);
    let words = ["-Wall", "-Wextra", "-pedantic", "-Werror", "-Iinclude"].iter().chain(words);
    let output = command.current_dir(root()).args(words).output();
    output.unwrap_or_else(|error| {
        panic!("the header is not tested: {compiler}: {error} ({variable} names another compiler)")
    })
}

/// What the C compiler complains of in a source text.
fn complaint(name: &str, source: &str, words: &[&str]) -> String {
    complaint_of(("CC", "cc"), name, source, words)
}

/// What this compiler complains of in a source text.
fn complaint_of(compiler: (&str, &str), name: &str, source: &str, words: &[&str]) -> String {
    let path = Path::new(env!("CARGO_TARGET_TMPDIR")).join(name);
    std::fs::write(&path, source).expect("a source file");
    let path = path.to_str().expect("a path in UTF-8");
    let output = run(compiler.0, compiler.1, &[words, &["-fsyntax-only", path]].concat());
    String::from_utf8_lossy(&output.stderr).into_owned()
}

/// A function's name, its parameters' types, and whether it answers a word.
#[derive(Clone)]
struct Function {
    name: String,
    types: Vec<String>,
    answers: bool,
}

/// The functions that begin so.
fn functions(text: &str, begin: &str) -> Vec<Function> {
    let mut found = Vec::new();
    for part in text.split(begin).skip(1) {
        let (name, rest) = part.split_once('(').expect("parameters");
        let (parameters, behind) = rest.split_once(')').expect("the end of the parameters");
        let parameters = parameters.split(',').filter_map(|each| each.split_once(':'));
        let types = parameters.map(|(_, kind)| kind.trim().to_string()).collect();
        let answers = behind.starts_with(" -> u64");
        found.push(Function { name: format!("ace_{name}"), types, answers });
    }
    found.sort_by_key(|function| EXPORTED.iter().position(|name| *name == function.name));
    found
}

/// The C types of a parameter of the Rust's declarations.
fn of_rust(kind: &str) -> &'static str {
    match kind {
        "*const u64" => "const uint64_t *",
        "*mut u64" => "uint64_t *",
        "*mut u8" => "uint8_t *",
        "usize" => "size_t",
        "u64" => "uint64_t",
        _ => panic!("no C type for {kind}"),
    }
}

/// The C types of a parameter of the exported functions.
fn of_exported(kind: &str) -> &'static str {
    match kind {
        "&[u64]" => "const uint64_t *, size_t",
        "&mut [u64]" => "uint64_t *, size_t",
        "&mut [u8]" => "uint8_t *, size_t",
        answer if answer.starts_with("&mut [u64; ") => "uint64_t *",
        "usize" | "u64" => "uint64_t",
        _ => panic!("no C type for {kind}"),
    }
}

/// A C source that compiles only where the header declares these functions with these types.
fn assertions(functions: &[Function], c_type: fn(&str) -> &'static str) -> String {
    let mut source = String::from("#include \"ace.h\"\n");
    for Function { name, types, answers } in functions {
        let types: Vec<&str> = types.iter().map(|kind| c_type(kind)).collect();
        let types = if types.is_empty() { "void".to_string() } else { types.join(", ") };
        let answer = if *answers { "uint64_t" } else { "void" };
        source += &format!("extern {answer} (*const check_{name})({types});\n");
        source += &format!("{answer} (*const check_{name})({types}) = {name};\n");
    }
    source
}

/// Whether these are the exported functions.
fn are_exported(functions: &[Function]) -> bool {
    functions.iter().map(|function| &function.name).eq(EXPORTED)
}

/// The functions that the Rust calls.
fn called() -> Vec<Function> {
    functions(&text("rust/ace/src/words.rs"), "fn ace_")
}

#[test]
fn the_header_is_good_c_and_good_cpp() {
    let source = "#include \"ace.h\"\nextern int nothing;\n";
    assert_eq!(complaint("header.c", source, &["-std=c99"]), "");
    assert_eq!(complaint("header11.c", source, &["-std=c11"]), "");
    let cpp = complaint_of(("CXX", "c++"), "header.cpp", source, &["-std=c++11"]);
    assert_eq!(cpp, "");
}

#[test]
fn the_header_declares_what_the_rust_calls() {
    let called = called();
    assert!(are_exported(&called));
    assert_eq!(complaint("rust.c", &assertions(&called, of_rust), &["-std=c99"]), "");
}

/// The functions that the archive exports.
fn exported() -> Vec<Function> {
    functions(&text("crates/ace_c/src/lib.rt"), "pub extern \"C\" fn ace_")
}

#[test]
fn the_header_declares_what_is_exported() {
    let exported = exported();
    assert!(are_exported(&exported));
    assert_eq!(complaint("exported.c", &assertions(&exported, of_exported), &["-std=c99"]), "");
}

/// The name that the header gives the number of words that a function answers.
fn width(function: &str) -> &'static str {
    match function {
        "ace_build" | "ace_compact" | "ace_normalize" => "LIST_WORDS",
        "ace_evaluate" => "EVALUATE_WORDS",
        "ace_prepare" => "PREPARE_WORDS",
        _ => "ANSWER_WORDS",
    }
}

#[test]
fn the_header_says_how_many_words_are_answered() {
    let (header, defined) = (text("include/ace.h"), numbers::defined());
    let mut answers = 0;
    for Function { name, types, .. } in exported() {
        let Some(words) = types.last().and_then(|kind| kind.strip_prefix("&mut [u64; ")) else {
            continue;
        };
        let words = words.trim_end_matches(']');
        let behind = header.split(&format!("void {name}(")).nth(1).expect("a declaration");
        let parameters = behind.split(')').next().expect("parameters");
        assert!(parameters.ends_with(&format!("*answer /* {words} words */")), "{name}");
        assert_eq!(defined[width(&name)].to_string(), words, "{name}");
        answers += 1;
    }
    assert_eq!(answers, EXPORTED.len() - 1);
}

#[test]
fn a_wrong_signature_does_not_compile() {
    for (place, name) in EXPORTED.iter().enumerate() {
        let (mut wrong, mut other) = (called(), called());
        // The answer's pointer becomes a number, or a number is asked for where nothing is.
        wrong[place].types.pop();
        wrong[place].types.push("u64".to_string());
        other[place].answers = !other[place].answers;
        for (which, functions) in [wrong, other].iter().enumerate() {
            let source = assertions(functions, of_rust);
            let file = format!("wrong{place}_{which}.c");
            let complaint = complaint(&file, &source, &["-std=c99"]);
            assert!(complaint.contains(name), "{name}: {complaint}");
        }
    }
}

/// What examples/c/normalise.c prints: the listing of document 01's example, with a root more, then the rest.
const NORMALISED: &str = "\
nodes 5 root 4 0 rounds 1
0 in 0 0
1 in 1 0
2 in 2 0
3 add 1 2
4 mul 0 3
15 words behind, 15 blank
refused 2 0
";

/// What examples/c/draw.c prints: a drawing, then the refusal of a store that is too short.
const DRAWN: &str = r#"digraph g {
n0 [label="in 5"];
n1 [label="const -1 0"];
n2 [label="mul"];
n2 -> n0;
n2 -> n1;
}
refused 41 0
"#;

/// What examples/c/emit.c prints: 10 − 4, −2, their product −12, its square; then the refusal of
/// another root.
const EMITTED: &str = "\
constants 2 operations 4
node 3 is 6
node 2 is 2013265919
node 1 is 2013265909
node 0 is 144
refused 43 0
";

#[test]
fn the_examples_link_and_run() {
    for (name, printed) in [("normalise", NORMALISED), ("draw", DRAWN), ("emit", EMITTED)] {
        let program = Path::new(env!("CARGO_TARGET_TMPDIR")).join(name);
        let path = program.to_str().expect("a path in UTF-8");
        let source = format!("examples/c/{name}.c");
        let output = run("CC", "cc", &["-std=c99", &source, ace::ARCHIVE, "-o", path]);
        assert!(output.status.success(), "{}", String::from_utf8_lossy(&output.stderr));
        let run = Command::new(program).output().expect("the example runs");
        assert!(run.status.success(), "{name}");
        assert_eq!(String::from_utf8_lossy(&run.stdout), printed);
    }
}

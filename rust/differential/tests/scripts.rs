//! The scripts of the programs, by their launcher, around one that stands in for the proved ones.

use std::fs;
use std::os::unix::fs::{PermissionsExt, symlink};
use std::path::{Path, PathBuf};
use std::process::{Command, Output};

use differential::printing::REFUSALS;

/// The scripts, by the programs that they run.
const SCRIPTS: [(&str, &str); 2] = [("normlist", "./normlist"), ("drawlist", "bin/drawlist")];

/// What the kit says behind a crate that it has proved.
const PROVED: &str = "logic=proved functions=1 sum=0";

/// Takes a file's text as a refusal's number, or lists it; an empty one is 21.
const STAND_IN: &str = r#"#!/bin/sh
text=$(cat)
case "$text" in
  '') echo refused 21 0 ;;
  [0-9]*) echo "refused $text 0" ;;
  *) echo "nodes $text" ;;
esac
"#;

/// A folder with the scripts and the stand-in, and how it is called. It lies outside of the
/// repository, in which rt takes no second crates.txt.
struct Sandbox(PathBuf);

impl Drop for Sandbox {
    fn drop(&mut self) {
        let _ = fs::remove_dir_all(&self.0);
    }
}

impl Sandbox {
    /// The scripts, and the files one and two, which are good, and bad, which is refused.
    fn new(name: &str) -> Self {
        let own = format!("ace-scripts-{}-{name}", std::process::id());
        let sandbox = Self(std::env::temp_dir().join(own));
        let root = Path::new(env!("CARGO_MANIFEST_DIR")).join("../..");
        let tools = ["tools/launch", "tools/common.sh", "tools/stale", "tools/refusals.txt"];
        let scripts = SCRIPTS.map(|(_, script)| script);
        let files = scripts.into_iter().chain(tools).chain(["samples/shared_factor.house"]);
        for file in files {
            sandbox.write(file, &fs::read(root.join(file)).expect(file));
        }
        sandbox.write("crates.txt", b"normlist:\ndrawlist:\n");
        for (program, _) in SCRIPTS {
            sandbox.write(&format!("crates/{program}/src/main.rt"), b"");
            sandbox.write(&format!("target/bin/{program}"), STAND_IN.as_bytes());
        }
        for (file, text) in [("one", "one"), ("two", "two"), ("bad", "24")] {
            sandbox.write(file, text.as_bytes());
        }
        sandbox
    }

    /// Writes a file that can be run.
    fn write(&self, name: &str, bytes: &[u8]) {
        let path = self.0.join(name);
        fs::create_dir_all(path.parent().expect("a folder")).expect("a folder");
        fs::write(&path, bytes).expect("a file");
        fs::set_permissions(&path, fs::Permissions::from_mode(0o755)).expect("a file");
    }

    /// What a line of shell comes to here: standard output, standard error, exit status. A kit of
    /// the sandbox comes before every other.
    fn shell(&self, line: &str) -> (String, String, i32) {
        let path = std::env::var("PATH").expect("a PATH");
        let mut command = Command::new("bash");
        command.args(["-c", line]).current_dir(&self.0);
        command.env("PATH", format!("{}/kit:{path}", self.0.display()));
        let Output { status, stdout, stderr } = command.output().expect("bash");
        let text = |bytes: Vec<u8>| String::from_utf8(bytes).expect("text");
        (text(stdout), text(stderr), status.code().expect("a status"))
    }
}

#[test]
fn a_file_is_taken_by_name_and_from_standard_input() {
    let sandbox = Sandbox::new("taken");
    for (program, script) in SCRIPTS {
        let named = sandbox.shell(&format!("{script} one"));
        assert_eq!(named, ("nodes one\n".into(), String::new(), 0));
        let read = sandbox.shell(&format!("{script} < two"));
        assert_eq!(read, ("nodes two\n".into(), String::new(), 0));
        symlink(sandbox.0.join(script), sandbox.0.join("link")).expect("a link");
        assert_eq!(sandbox.shell("cd tools && ../link ../one").0, "nodes one\n", "{program}");
        fs::remove_file(sandbox.0.join("link")).expect("a link");
    }
}

#[test]
fn a_refusal_has_its_reason() {
    let sandbox = Sandbox::new("refusal");
    let said = "refused 24 0: the length is not 9 + 17 × records (version 2: 6 + 4 × roots + 17 × \
                records)\n";
    for (_, script) in SCRIPTS {
        let refused = sandbox.shell(&format!("{script} bad"));
        assert_eq!(refused, ("refused 24 0\n".into(), said.into(), 1));
        for number in REFUSALS {
            let (_, said, status) = sandbox.shell(&format!("echo {number} | {script}"));
            let reason = said.strip_prefix(&format!("refused {number} 0: ")).expect("a refusal");
            assert!(reason.len() > 1 && status == 1, "{number}: {said}");
        }
    }
}

#[test]
fn one_missing_file_does_not_stop_the_others() {
    let sandbox = Sandbox::new("missing");
    for (program, script) in SCRIPTS {
        let (printed, said, status) = sandbox.shell(&format!("{script} one nowhere bad tools two"));
        assert_eq!(printed, "one:\nnodes one\nbad:\nrefused 24 0\ntwo:\nnodes two\n");
        for file in ["nowhere", "tools"] {
            let line = format!("{program}: {file}: there is no such file, or it can't be read\n");
            assert!(said.contains(&line), "{said}");
        }
        assert_eq!(status, 2);
        assert_eq!(sandbox.shell(&format!("{script} one bad two")).2, 1);
        assert_eq!(sandbox.shell(&format!("{script} nowhere")).2, 2);
    }
}

#[test]
fn an_empty_input_and_a_closed_one_say_what_was_expected() {
    let sandbox = Sandbox::new("empty");
    for (program, script) in SCRIPTS {
        for line in
            [format!("{script} < /dev/null"), format!("{script} <&-"), format!("true | {script}")]
        {
            let (printed, said, status) = sandbox.shell(&line);
            assert_eq!((&*printed, status), ("refused 21 0\n", 1), "{line}");
            assert!(
                said.starts_with(&format!("{program}: standard input is empty")),
                "{line}: {said}"
            );
            assert!(said.contains("samples/shared_factor.house"), "{line}: {said}");
        }
        assert_eq!(sandbox.shell(&format!("{script} one <&-")).0, "nodes one\n");
    }
}

#[test]
fn help_is_the_comment_at_the_head() {
    let sandbox = Sandbox::new("help");
    for (_, script) in SCRIPTS {
        for word in ["--help", "-h", "nowhere --help"] {
            let (printed, said, status) = sandbox.shell(&format!("{script} {word}"));
            assert!(printed.contains(&format!("\n\n  {script} ")), "{printed}");
            assert!(!printed.contains("exec") && !printed.starts_with('#'), "{printed}");
            assert_eq!((&*said, status), ("", 0));
        }
    }
}

/// The formats of drawlist's pictures.
const FORMATS: [&str; 2] = ["svg", "png"];

/// Takes a text for a picture of it in the format asked for.
const DOT: &[u8] = b"#!/bin/sh\necho picture \"$1\"; cat\n";

impl Sandbox {
    /// The scripts, and a dot that stands in for Graphviz's.
    fn with_dot(name: &str, dot: &[u8]) -> Self {
        let sandbox = Self::new(name);
        sandbox.write("kit/dot", dot);
        sandbox
    }

    /// What a line comes to where the PATH has everything but dot.
    fn shell_without_dot(&self, line: &str) -> (String, String, i32) {
        let all = "IFS=:; for folder in $PATH; do ln -s \"$folder\"/* bare/; done 2> /dev/null";
        self.shell(&format!(
            "mkdir -p bare; ({all}); rm -f bare/dot; export PATH=$PWD/bare; {line}"
        ))
    }

    /// The text of a file, where there is one.
    fn text(&self, name: &str) -> Option<String> {
        fs::read_to_string(self.0.join(name)).ok()
    }
}

#[test]
fn a_picture_of_a_file_is_written_beside_it() {
    let sandbox = Sandbox::with_dot("pictures", DOT);
    sandbox.write("far/a list.house", b"far");
    for format in FORMATS {
        let line = format!("bin/drawlist 'far/a list.house' --{format} two");
        let (named, other) = (format!("far/a list.{format}"), format!("two.{format}"));
        let said = format!("drawlist: {named} is written\ndrawlist: {other} is written\n");
        assert_eq!(sandbox.shell(&line), (String::new(), said, 0));
        let picture = |text| Some(format!("picture -T{format}\nnodes {text}\n"));
        assert_eq!((sandbox.text(&named), sandbox.text(&other)), (picture("far"), picture("two")));
        let (printed, said, status) = sandbox.shell(&format!("bin/drawlist --{format} < one"));
        assert_eq!((Some(printed), &*said, status), (picture("one"), "", 0));
    }
}

#[test]
fn a_refused_file_makes_no_picture() {
    let sandbox = Sandbox::with_dot("no-picture", DOT);
    for format in FORMATS {
        let (printed, said, status) = sandbox.shell(&format!("bin/drawlist --{format} bad"));
        assert_eq!((&*printed, status), ("refused 24 0\n", 1));
        assert!(said.starts_with("refused 24 0: the length"), "{said}");
        let read = sandbox.shell(&format!("bin/drawlist --{format} < bad"));
        assert_eq!(read, (printed, said, status));
        let (printed, said, status) = sandbox.shell(&format!("bin/drawlist --{format} bad one"));
        assert_eq!((&*printed, status), ("bad:\nrefused 24 0\n", 1));
        assert!(said.ends_with(&format!("drawlist: one.{format} is written\n")), "{said}");
        assert_eq!(sandbox.text(&format!("bad.{format}")), None);
    }
}

#[test]
fn without_dot_nothing_is_written() {
    let sandbox = Sandbox::new("without-dot");
    for format in FORMATS {
        for files in ["one two", "bad", "< one"] {
            let (printed, said, status) =
                sandbox.shell_without_dot(&format!("bin/drawlist --{format} {files}"));
            assert_eq!((&*printed, status), ("", 2), "{said}");
            assert!(said.starts_with("drawlist: dot, which makes pictures, is not"), "{said}");
            assert!(said.ends_with("graphviz)\n") && said.lines().count() == 1, "{said}");
        }
        assert_eq!(sandbox.text(&format!("one.{format}")), None);
    }
    let drawn = sandbox.shell_without_dot("bin/drawlist one");
    assert_eq!(drawn, ("nodes one\n".into(), String::new(), 0), "a drawing needs no dot");
}

#[test]
fn a_picture_that_fails_leaves_what_was_there() {
    let sandbox = Sandbox::with_dot("failed", b"#!/bin/sh\necho half; echo no >&2; exit 1\n");
    sandbox.write("one.svg", b"kept");
    let (printed, said, status) = sandbox.shell("bin/drawlist --svg one two");
    assert_eq!((&*printed, status), ("", 2));
    assert_eq!(said, "no\ndrawlist: dot made no picture\n".repeat(2));
    assert_eq!((sandbox.text("one.svg"), sandbox.text("two.svg")), (Some("kept".into()), None));
    assert_eq!(sandbox.shell("bin/drawlist --svg < one").0, "");
    sandbox.write("kit/dot", DOT);
    sandbox.write("two.svg/full", b"");
    let (_, said, status) = sandbox.shell("bin/drawlist --svg two one");
    assert!(said.contains("drawlist: two.svg can't be written: "), "{said}");
    assert!(said.ends_with("drawlist: one.svg is written\n") && status == 2, "{said}");
    assert_eq!(sandbox.shell("ls | grep new").0, "", "nothing is left over");
}

#[test]
fn an_option_that_there_is_not_is_told() {
    let sandbox = Sandbox::with_dot("options", DOT);
    for option in ["--pdf", "-svg", "--", "-", "'--svg png'"] {
        let (printed, said, status) = sandbox.shell(&format!("bin/drawlist {option} one"));
        let line =
            format!("drawlist: {} is no option (--help tells more)\n", option.trim_matches('\''));
        assert_eq!((printed, said, status), (String::new(), line, 2));
    }
    let (printed, said, status) = sandbox.shell("bin/drawlist --svg --png one");
    assert_eq!((&*printed, status, sandbox.text("one.svg")), ("", 2, None));
    assert!(said.contains("--svg and --png"), "{said}");
    assert_eq!(sandbox.shell("bin/drawlist --svg --svg one").2, 0);
    let listed = sandbox.shell("./normlist --svg one");
    assert_eq!((&*listed.0, listed.2), ("one:\nnodes one\n", 2), "normlist has no option");
}

/// A kit that says two lines a crate, and more, and then does this in the program's folder.
fn kit(commands: &str) -> Vec<u8> {
    let said = ["fn ring::sum: proved", "crate ring: modules loaded=0 checked=3", PROVED];
    let said = said.map(|line| format!("echo '{line}'\n")).concat();
    format!("#!/bin/sh\n[ \"$1\" = run ] || exit 9\n{said}{commands}\n").into_bytes()
}

#[test]
fn a_program_that_is_missing_is_built_with_a_line_a_crate() {
    let sandbox = Sandbox::new("built");
    sandbox.write("kept", STAND_IN.as_bytes());
    sandbox.write("kit/rt", &kit("mkdir -p out && cp ../../kept out/normlist"));
    fs::remove_file(sandbox.0.join("target/bin/normlist")).expect("a program");
    let (printed, said, status) = sandbox.shell("./normlist one");
    assert_eq!((&*printed, status), ("nodes one\n", 0));
    assert!(said.starts_with("proving and building normlist, about "), "{said}");
    assert!(said.ends_with(":\nring is proved\n"), "{said}");
    assert_eq!(sandbox.shell("./normlist one").1, "", "it is built once");
    sandbox.write("kit/rt", &kit("exit 1"));
    fs::remove_file(sandbox.0.join("target/bin/normlist")).expect("a program");
    let again = sandbox.shell("./normlist one");
    assert_eq!(again, ("nodes one\n".into(), String::new(), 0), "what rt has built is taken");
}

#[test]
fn an_old_program_is_built_again_or_not_run() {
    let sandbox = Sandbox::new("old");
    sandbox.shell("touch -d 2001-01-01 target/bin/normlist");
    sandbox.write("kit/rt", &kit("echo wrong in line 7; exit 1"));
    let (printed, said, status) = sandbox.shell("./normlist one");
    assert_eq!((&*printed, status), ("", 2));
    assert!(
        said.contains("wrong in line 7") && said.contains("rt run failed in crates/normlist"),
        "{said}"
    );
    sandbox.write("kit/rt", &kit(""));
    let (printed, said, status) = sandbox.shell("./normlist one");
    assert_eq!((&*printed, status), ("", 2));
    assert!(said.contains("wrote no"), "{said}");
}

//! Wrong programs are told from `normlist` and from `drawlist` by the files that a run compares.

use std::path::{Path, PathBuf};

use differential::cases::{LONGEST_FILE, LONGEST_LENGTH, fixed_files, random_file};
use differential::printing::{Printer, Printing, REFUSALS};
use differential::program::{Delivery, Program};
use differential::report::{Missing, Summary};
use differential::{Rng, Rust};
use model::{
    Field, HEAD, Judge, MOST_ROOTS, Mutant, Paper, RECORD, before_records, file_length,
    read_house_file, version_1, version_2,
};

/// What a program prints.
type Prints = dyn Fn(&[u8]) -> String;

/// What this program has to print.
fn right(printer: Printer) -> impl Fn(&[u8]) -> String {
    move |file| printer.prints(file, &mut Rust(Field::GOLDILOCKS))
}

/// What `normlist` has to print.
fn listed(file: &[u8]) -> String {
    right(Printer::Normlist)(file)
}

/// What `drawlist` has to print.
fn drawn(file: &[u8]) -> String {
    right(Printer::Drawlist)(file)
}

/// A refusal's line.
fn refused(number: u64) -> String {
    format!("refused {number} 0\n")
}

/// The count of a file that has a head.
fn count(file: &[u8]) -> Option<usize> {
    let bytes = file.get(1..HEAD)?[..4].try_into().unwrap();
    Some(u32::from_be_bytes(bytes) as usize)
}

/// The length that the head of a file of either version asks for.
fn asked(file: &[u8]) -> Option<usize> {
    file_length(file).map(|length| length as usize)
}

/// The place of a file's first record, or its end.
fn first_record(file: &[u8]) -> usize {
    before_records(file).unwrap_or(HEAD).min(file.len())
}

/// The number of roots of a file of version 2 with a good count.
fn root_count(file: &[u8]) -> Option<usize> {
    let counted = count(file).is_some_and(|count| (1..=1_024).contains(&count));
    (counted && file[0] == 2).then(|| file[5].into())
}

/// Whether a file is of version 2 and has no roots or too many.
fn roots_refused(file: &[u8]) -> bool {
    root_count(file).is_some_and(|count| !(1..=MOST_ROOTS).contains(&count))
}

/// The refusal of a file, where it is one of a record.
fn refused_record(file: &[u8]) -> Option<String> {
    let refusal = read_house_file(file).err().filter(|refusal| (3..=5).contains(&refusal.number));
    refusal.map(|refusal| format!("refused {} {}\n", refusal.number, refusal.place))
}

/// The file with this number of roots in its head.
fn root_counted(file: &[u8], count: u8) -> Vec<u8> {
    [&file[..5], &[count], &file[6..]].concat()
}

/// The listing, with the roots that its first line names changed.
fn with_roots(file: &[u8], change: impl FnOnce(&mut Vec<String>)) -> String {
    let text = listed(file);
    let Some((nodes, behind)) = text.split_once(" root ") else { return text };
    let (roots, behind) = behind.split_once(" rounds ").expect("the rounds behind the roots");
    let mut roots = roots.split(' ').map(String::from).collect();
    change(&mut roots);
    format!("{nodes} root {} rounds {behind}", roots.join(" "))
}

/// The file with zeros in these bytes, where it has them.
fn zeroed(file: &[u8], from: usize, to: usize) -> Vec<u8> {
    let mut file = file.to_vec();
    if file.len() >= to {
        file[from..to].fill(0);
    }
    file
}

/// Each word of the records with its bytes the other way round.
fn reversed(file: &[u8]) -> Vec<u8> {
    let (mut file, first) = (file.to_vec(), first_record(file));
    for record in file[first..].chunks_mut(RECORD).filter(|r| r.len() == RECORD) {
        record[1..9].reverse();
        record[9..].reverse();
    }
    file
}

/// The given list instead of the normalised one.
fn unnormalised(file: &[u8]) -> String {
    let Ok((list, roots)) = read_house_file(file) else { return listed(file) };
    let roots = roots.iter().map(u64::to_string).collect::<Vec<_>>().join(" ");
    let mut text = format!("nodes {} root {roots} rounds 0\n", list.len());
    for (place, [tag, first, second]) in list.iter().enumerate() {
        text += &format!("{place} {} {first} {second}\n", model::KINDS[*tag as usize]);
    }
    text
}

/// What is wrong with any program, and what it prints in place of what is right.
type Wrong = (&'static str, fn(&[u8], &Prints) -> String);

const WRONG: &[Wrong] = &[
    ("no newline at the end", |file, right| right(file).trim_end().into()),
    ("a newline too many", |file, right| right(file) + "\n"),
    ("carriage returns", |file, right| right(file).replace('\n', "\r\n")),
    ("a refused line with something behind it", |file, right| {
        let text = right(file);
        let behind = if text.starts_with("refused ") { "\0" } else { "" };
        text + behind
    }),
    ("an empty text for a refused file", |file, right| {
        if read_house_file(file).is_ok() { right(file) } else { String::new() }
    }),
    ("two spaces", |file, right| right(file).replace("refused ", "refused  ")),
    ("a longer file is cut to the longest good one", |file, right| {
        right(&file[..file.len().min(LONGEST_FILE)])
    }),
    ("a longer file is cut to the longest", |file, right| {
        right(&file[..file.len().min(LONGEST_LENGTH)])
    }),
    ("a longer file is cut to its count", |file, right| {
        right(&file[..asked(file).unwrap_or(0).clamp(file.len().min(HEAD), file.len())])
    }),
    ("half a record behind is not seen", |file, right| {
        let surplus = (file.len() - first_record(file)) % RECORD;
        right(&file[..file.len() - surplus])
    }),
    ("a shorter file is filled up", |file, right| {
        let mut file = file.to_vec();
        let length = asked(&file).filter(|asked| *asked <= LONGEST_LENGTH).unwrap_or(0);
        file.resize(length.max(file.len()), 0);
        right(&file)
    }),
    ("the length's low two bytes decide", |file, right| {
        let right_length = asked(file).is_some_and(|asked| asked % 65_536 == file.len() % 65_536);
        right(if right_length { &file[..asked(file).unwrap().min(file.len())] } else { file })
    }),
    ("any version is 1", |file, right| match file {
        [_, rest @ ..] => right(&[&[1], rest].concat()),
        [] => right(file),
    }),
    ("any version but 1 is 2", |file, right| match file {
        [version, rest @ ..] if *version != 1 => right(&[&[2], rest].concat()),
        _ => right(file),
    }),
    ("version 2 is none", |file, right| match file.first() {
        Some(2) if file.len() >= HEAD => refused(22),
        _ => right(file),
    }),
    ("the version before the least length", |file, right| match file.first() {
        Some(version) if !(1..=2).contains(version) => refused(22),
        _ => right(file),
    }),
    ("a head of version 2 has 6 bytes", |file, right| match file {
        [2, .., _] if (6..HEAD).contains(&file.len()) => refused(24),
        _ => right(file),
    }),
    ("the count before the version", |file, right| match count(file) {
        Some(count) if count == 0 || count > 1_024 => refused(23),
        _ => right(file),
    }),
    ("1,024 records are too many", |file, right| match count(file) {
        Some(1_024) if asked(file).is_some() => refused(23),
        _ => right(file),
    }),
    ("1,025 records are not too many", |file, right| match count(file) {
        Some(1_025) if asked(file).is_some_and(|asked| asked != file.len()) => refused(24),
        _ => right(file),
    }),
    ("a count of 0 is the list check's 1", |file, right| match count(file) {
        Some(0) if asked(file).is_some() => refused(1),
        _ => right(file),
    }),
    ("the length before the count", |file, right| match asked(file) {
        Some(asked) if asked != file.len() => refused(24),
        _ => right(file),
    }),
    ("the records before the length", |file, right| {
        let cut = &file[..asked(file).unwrap_or(0).min(file.len())];
        refused_record(cut).unwrap_or_else(|| right(file))
    }),
    ("the root before the records", |file, right| match refused_record(file) {
        Some(_) if file[0] == 1 => {
            let root = u32::from_be_bytes(file[5..9].try_into().unwrap());
            if root as usize >= count(file).unwrap() { refused(6) } else { right(file) }
        }
        _ => right(file),
    }),
    ("the number of roots before the length", |file, right| {
        if roots_refused(file) { refused(46) } else { right(file) }
    }),
    ("the number of roots before the records", |file, right| match refused_record(file) {
        Some(_) if roots_refused(file) => refused(46),
        _ => right(file),
    }),
    ("the roots before their number", |file, right| {
        let places = file.get(6..first_record(file)).unwrap_or(&[]).chunks(4);
        let outside = |place: &[u8]| place.to_vec() >= file[1..5].to_vec();
        let is_refused = right(file) == refused(46);
        if is_refused && places.into_iter().any(outside) { refused(6) } else { right(file) }
    }),
    ("eight roots are too many", |file, right| match read_house_file(file) {
        Ok((_, roots)) if roots.len() == MOST_ROOTS => refused(46),
        _ => right(file),
    }),
    ("nine roots are not too many", |file, right| match root_count(file) {
        Some(9) if right(file) == refused(46) => {
            right(&[&root_counted(file, 8)[..38], &file[42..]].concat())
        }
        _ => right(file),
    }),
    ("no roots are one", |file, right| match root_count(file) {
        Some(0) if right(file) == refused(46) => {
            right(&[&root_counted(file, 1)[..6], &[0; 4], &file[6..]].concat())
        }
        _ => right(file),
    }),
    ("the number of roots by the length", |file, right| match root_count(file) {
        Some(_) => {
            let records = RECORD * count(file).expect("a count");
            let roots = file.len().saturating_sub(6 + records) / 4;
            right(&root_counted(file, roots as u8))
        }
        None => right(file),
    }),
    ("the number of records by the length", |file, right| match root_count(file) {
        Some(_) => {
            let records = (file.len() - first_record(file)) / RECORD;
            right(&[&file[..1], &(records as u32).to_be_bytes(), &file[5..]].concat())
        }
        None => right(file),
    }),
    ("a number of roots of seven bits", |file, right| match root_count(file) {
        Some(count) => right(&root_counted(file, count as u8 & 127)),
        None => right(file),
    }),
    ("a number of roots of four bits", |file, right| match root_count(file) {
        Some(count) => right(&root_counted(file, count as u8 & 15)),
        None => right(file),
    }),
    ("the first root alone tested", |file, right| {
        let (mut file, first) = (file.to_vec(), first_record(file));
        let (count, roots) = (file.get(1..5).map(<[u8]>::to_vec), file.get_mut(10..first));
        for root in roots.unwrap_or_default().chunks_mut(4) {
            if count.as_ref().is_some_and(|count| root[..] >= count[..]) {
                root.fill(0);
            }
        }
        right(&file)
    }),
    ("roots from the other end", |file, right| {
        let (mut file, first) = (file.to_vec(), first_record(file));
        let roots = file.get_mut(6..first).unwrap_or_default();
        roots.chunks_mut(4).for_each(<[u8]>::reverse);
        right(&file)
    }),
    ("the length without the roots", |file, right| match root_count(file) {
        Some(_) if count(file).is_some_and(|count| HEAD + RECORD * count != file.len()) => {
            refused(24)
        }
        _ => right(file),
    }),
    ("a count of two bytes", |file, right| right(&zeroed(file, 1, 3))),
    ("a count of three bytes", |file, right| right(&zeroed(file, 1, 2))),
    ("a root of two bytes", |file, right| match file.first() {
        Some(1) => right(&zeroed(file, 5, 7)),
        _ => right(file),
    }),
    ("a root of three bytes", |file, right| match file.first() {
        Some(1) => right(&zeroed(file, 5, 6)),
        _ => right(file),
    }),
    ("a first root of two bytes in version 2", |file, right| match root_count(file) {
        Some(1..) => right(&zeroed(file, 6, 8)),
        _ => right(file),
    }),
    ("a second root of three bytes in version 2", |file, right| match root_count(file) {
        Some(2..) => right(&zeroed(file, 10, 11)),
        _ => right(file),
    }),
    ("words from the other end", |file, right| right(&reversed(file))),
    ("a tag's low bits", |file, right| {
        let (mut file, first) = (file.to_vec(), first_record(file));
        for record in file[first..].chunks_mut(RECORD) {
            record[0] &= 127;
        }
        right(&file)
    }),
    ("no place for a refusal", |file, right| match read_house_file(file) {
        Err(refusal) => refused(refusal.number),
        Ok(_) => right(file),
    }),
];

/// What is wrong with one program, and what it prints.
type Own = (&'static str, fn(&[u8]) -> String);

const LISTED: &[Own] = &[
    ("the first root alone listed", |file| with_roots(file, |roots| roots.truncate(1))),
    ("the last root alone listed", |file| {
        with_roots(file, |roots| drop(roots.drain(..roots.len() - 1)))
    }),
    ("the roots listed from the last", |file| with_roots(file, |roots| roots.reverse())),
    ("a place named twice listed once", |file| with_roots(file, |roots| roots.dedup())),
    ("the roots as they were given", |file| match read_house_file(file) {
        Ok((_, given)) => {
            with_roots(file, |roots| *roots = given.iter().map(u64::to_string).collect())
        }
        Err(_) => listed(file),
    }),
    ("signed words", |file| {
        let signed = |word: &str| match word.parse::<u64>() {
            Ok(word) => (word as i64).to_string(),
            Err(_) => word.to_string(),
        };
        let line = |line: &str| line.split(' ').map(signed).collect::<Vec<_>>().join(" ") + "\n";
        listed(file).lines().map(line).collect()
    }),
    ("rounds left out of account", |file| {
        let text = listed(file);
        let Some((head, lines)) = text.split_once('\n') else { return text };
        match head.rsplit_once(" rounds ") {
            Some((head, _)) => format!("{head} rounds 0\n{lines}"),
            None => text,
        }
    }),
    ("the list as it was given", unnormalised),
];

/// The drawing by definitions with this mistake.
fn mistaken(file: &[u8], mutant: Mutant) -> String {
    Printer::Drawlist.prints(file, &mut Paper::wrong(mutant, Field::GOLDILOCKS))
}

const DRAWN: &[Own] = &[
    ("(p−1)/2 as a negative number", |file| mistaken(file, Mutant::HalfNegative)),
    ("(p+1)/2 as it stands", |file| mistaken(file, Mutant::PastHalfPositive)),
    ("no second coordinate", |file| mistaken(file, Mutant::SecondLeftOut)),
    ("the second operand first", |file| mistaken(file, Mutant::SecondEdgeFirst)),
    ("two equal operands as one", |file| mistaken(file, Mutant::EqualEdgesOnce)),
    ("edges from the operands", |file| mistaken(file, Mutant::EdgesTurned)),
    ("edges among the records", |file| mistaken(file, Mutant::EdgesAmong)),
    ("the normal form drawn", |file| match read_house_file(file) {
        Ok((list, roots)) => {
            let (list, _, _) = Rust(Field::GOLDILOCKS).normalize(&list, &roots);
            Rust(Field::GOLDILOCKS).draw(&list)
        }
        Err(_) => drawn(file),
    }),
    ("what the roots reach drawn", |file| match read_house_file(file) {
        Ok((list, roots)) => {
            let (list, _) = Rust(Field::GOLDILOCKS).compact(&list, &roots);
            Rust(Field::GOLDILOCKS).draw(&list)
        }
        Err(_) => drawn(file),
    }),
    ("the longest drawings cut", |file| {
        let mut text = drawn(file);
        text.truncate(65_463);
        text
    }),
];

/// The files of a short run.
fn files() -> Vec<Vec<u8>> {
    let mut rng = Rng::new(1);
    let mut files = fixed_files(&mut rng);
    files.extend((0..100).map(|_| random_file(&mut rng)));
    files
}

/// The mistakes that these files don't tell from a program, by name.
fn missed(printer: Printer, own: &[Own]) -> Vec<&'static str> {
    let right = right(printer);
    let files: Vec<_> = files().into_iter().map(|file| (right(&file), file)).collect();
    let told = |wrong: &dyn Fn(&[u8]) -> String| {
        files.iter().any(|(printed, file)| wrong(file) != *printed)
    };
    let any = WRONG.iter().filter(|(_, wrong)| !told(&|file| wrong(file, &right)));
    let own = own.iter().filter(|(_, wrong)| !told(wrong));
    any.map(|wrong| wrong.0).chain(own.map(|wrong| wrong.0)).collect()
}

#[test]
fn every_wrong_program_is_told() {
    assert_eq!(missed(Printer::Normlist, LISTED), [""; 0], "are not told from normlist");
    assert_eq!(missed(Printer::Drawlist, DRAWN), [""; 0], "are not told from drawlist");
}

#[test]
fn a_difference_is_a_case_to_send() {
    let file = version_2(&[[0, 0, 0], [2, 0, 0]], &[1, 0]);
    let lines = [
        (Printer::Normlist, ["differ from line 3", "\"1 mul 0 0\"", "\"1 add 0 0\""]),
        (Printer::Drawlist, ["differ from line 3", "\\\"mul\\\"];\"", "\\\"add\\\"];\""]),
    ];
    for (printer, lines) in lines {
        let wrong = |file: &[u8], _| Ok(right(printer)(file).replace("add", "mul").into_bytes());
        let mut run = Printing::new(printer, Some(Box::new(wrong)), 1);
        let difference = run.take(&file).expect("a difference");
        assert_eq!((run.cases, run.failed), (1, 1));
        assert_eq!(difference.file.as_ref(), Some(&file));
        let heading = format!("  {}, 48 bytes ", printer.name());
        let parts = [&*heading, "    0200000002020000000100000000\n"];
        for part in parts.into_iter().chain(lines) {
            assert!(difference.whole.contains(part), "{part} is not in:\n{}", difference.whole);
        }
    }
}

#[test]
fn the_right_program_meets_all_that_is_to_be_met() {
    let files = files();
    assert!(files.len() >= 400);
    for printer in Printer::ALL {
        let program = |file: &[u8], _| Ok(right(printer)(file).into_bytes());
        let mut run = Printing::new(printer, Some(Box::new(program)), 1);
        for file in &files {
            assert!(run.take(file).is_none());
        }
        assert_eq!(Summary::of_printing(&run).missing, []);
        let nothing = Summary::of_printing(&Printing::new(printer, None, 1)).missing;
        for refusal in REFUSALS {
            assert!(nothing.contains(&Missing::Unmet(format!("refusal {refusal}"))));
        }
    }
}

/// A file of the repository.
fn path(name: &str) -> PathBuf {
    Path::new(env!("CARGO_MANIFEST_DIR")).join("../..").join(name)
}

/// The samples with this ending, by name.
fn samples(ending: &str) -> Vec<PathBuf> {
    let files = std::fs::read_dir(path("samples")).expect("samples");
    let files = files.map(|entry| entry.expect("a sample").path());
    let mut found: Vec<_> =
        files.filter(|file| file.extension() == Some(ending.as_ref())).collect();
    found.sort();
    found
}

/// Holds a program, and the Rust, to what the samples' files with this ending say.
fn hold_to_samples(printer: Printer, ending: &str) {
    let (houses, texts) = (samples("house"), samples(ending));
    let named: Vec<_> = houses.iter().map(|house| house.with_extension(ending)).collect();
    assert_eq!(named, texts, "each sample has what is printed of it");
    assert!(!houses.is_empty());
    let (name, script) = (printer.name(), printer.script());
    let program = Program::new(&path("target/bin").join(name), &[]);
    assert!(program.path().exists(), "target/bin/{name} is missing: `{script}` builds it");
    for house in houses {
        let said = std::fs::read_to_string(house.with_extension(ending)).expect("a text");
        let file = std::fs::read(&house).expect("a sample");
        assert_eq!(right(printer)(&file), said, "the Rust on {}", house.display());
        let printed = program.run(&file, Delivery::Pipe).expect("a text");
        assert_eq!(String::from_utf8(printed).unwrap(), said, "{name} on {}", house.display());
    }
}

#[test]
fn the_samples_are_listed_as_their_listings_say() {
    hold_to_samples(Printer::Normlist, "txt");
}

#[test]
fn the_samples_are_drawn_as_their_drawings_say() {
    hold_to_samples(Printer::Drawlist, "dot");
}

#[test]
fn a_program_that_is_run_is_heard_whole() {
    let word = |word| Program::new(Path::new(env!("CARGO_BIN_EXE_differential")), &[word]);
    let words = [(Printer::Normlist, word("list")), (Printer::Drawlist, word("dot"))];
    let mut rng = Rng::new(3);
    let mut some: Vec<Vec<u8>> = (0..12).map(|_| random_file(&mut rng)).collect();
    some.extend([vec![], vec![1; 1_000_000], version_1(&vec![[1, 0, 0]; 1_024], 1_023)]);
    some.push(version_2(&vec![[1, 0, 0]; 1_024], &[1_023; 8]));
    for file in some {
        for ((printer, program), delivery) in
            words.iter().flat_map(|each| Delivery::ALL.map(|delivery| (each, delivery)))
        {
            assert_eq!(program.run(&file, delivery), Ok(right(*printer)(&file).into_bytes()));
        }
    }
}

#[test]
fn a_program_that_fails_is_told() {
    let run = |script: &str| {
        let program = Program::new(Path::new("/bin/sh"), &["-c", script]);
        program.run(&[1; 200_000], Delivery::Pipe).map(|text| text.len())
    };
    assert_eq!(run("cat"), Ok(200_000));
    assert_eq!(run("exit 0"), Ok(0));
    assert!(run("kill -9 $$").unwrap_err().contains("killed"));
    assert!(run("echo no >&2").unwrap_err().contains("standard error: no"));
    assert!(run("cat /dev/zero").unwrap_err().contains("more than of any house file"));
    let nothing = Program::new(Path::new("/nowhere"), &[]);
    assert!(nothing.run(&[], Delivery::Pipe).unwrap_err().contains("/nowhere"));
}

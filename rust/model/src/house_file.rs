//! House files, and what `normlist` and `drawlist` print for one.

use std::fmt::Write;

use crate::case::Record;
use crate::field::Field;
use crate::judge::Judge;
use crate::refusal::{Refusal, check_list};

/// The most records of a house file.
pub const FILE_LIMIT: u64 = 1_024;

/// The least bytes of a file, which are the head of version 1: version, count, root.
pub const HEAD: usize = 9;

/// The bytes of a record: tag, two numbers.
pub const RECORD: usize = 17;

/// The bytes of version 2 before its roots: version, count, number of roots.
pub const BEFORE_ROOTS: usize = 6;

/// The bytes of a root.
pub const ROOT: usize = 4;

/// The kinds of records, by tag.
pub const KINDS: [&str; 6] = ["in", "const", "add", "sub", "mul", "neg"];

/// The house file of a list with one root, which is in its head; of a tag, the lowest byte.
pub fn version_1(list: &[Record], root: u32) -> Vec<u8> {
    house_file(1, list, &root.to_be_bytes())
}

/// The house file of a list with several roots; of their number, the lowest byte.
pub fn version_2(list: &[Record], roots: &[u32]) -> Vec<u8> {
    let places = roots.iter().flat_map(|root| root.to_be_bytes());
    house_file(2, list, &[roots.len() as u8].into_iter().chain(places).collect::<Vec<u8>>())
}

/// Version, count, these bytes for the roots, records.
fn house_file(version: u8, list: &[Record], roots: &[u8]) -> Vec<u8> {
    let mut file = vec![version];
    file.extend((list.len() as u32).to_be_bytes());
    file.extend(roots);
    for &[tag, first, second] in list {
        file.push(tag as u8);
        file.extend(first.to_be_bytes());
        file.extend(second.to_be_bytes());
    }
    file
}

/// A number of a file.
fn number(bytes: &[u8]) -> u64 {
    bytes.iter().fold(0, |number, &byte| number << 8 | u64::from(byte))
}

/// The bytes before a file's roots, and those before its records, by its version.
fn parts(file: &[u8]) -> Option<(usize, usize)> {
    match file[0] {
        1 => Some((HEAD - ROOT, HEAD)),
        2 => Some((BEFORE_ROOTS, BEFORE_ROOTS + ROOT * usize::from(file[BEFORE_ROOTS - 1]))),
        _ => None,
    }
}

/// The bytes before the records of a file that is not too short, of either version.
pub fn before_records(file: &[u8]) -> Option<usize> {
    parts(file.get(..HEAD)?).map(|(_, records)| records)
}

/// The bytes that the head of such a file asks for.
pub fn file_length(file: &[u8]) -> Option<u64> {
    before_records(file).map(|head| head as u64 + RECORD as u64 * number(&file[1..5]))
}

/// The records and the roots of a house file that none of its tests refuses.
pub fn read_house_file(file: &[u8]) -> Result<(Vec<Record>, Vec<u64>), Refusal> {
    if file.len() < HEAD {
        return Err(Refusal::new(21));
    }
    let (roots, records) = parts(file).ok_or(Refusal::new(22))?;
    let count = number(&file[1..5]);
    if count == 0 || count > FILE_LIMIT {
        return Err(Refusal::new(23));
    }
    if Some(file.len() as u64) != file_length(file) {
        return Err(Refusal::new(24));
    }
    let record = |bytes: &[u8]| [number(&bytes[..1]), number(&bytes[1..9]), number(&bytes[9..])];
    let words: Vec<u64> = file[records..].chunks(RECORD).flat_map(record).collect();
    let roots: Vec<u64> = file[roots..records].chunks(ROOT).map(number).collect();
    Ok((check_list(Field::GOLDILOCKS, &words, count, Some(&roots))?, roots))
}

/// What is printed of a file: this of its list and roots, or the line of its refusal.
fn printed(file: &[u8], text: impl FnOnce(&[Record], &[u64]) -> String) -> String {
    match read_house_file(file) {
        Ok((list, roots)) => text(&list, &roots),
        Err(refusal) => format!("refused {} {}\n", refusal.number, refusal.place),
    }
}

/// What `normlist` prints for a file, its list normalised by this judge over field 1.
pub fn listing(file: &[u8], judge: &mut dyn Judge) -> String {
    printed(file, |list, roots| {
        let (normal, roots, rounds) = judge.normalize(list, roots);
        let roots: String = roots.iter().map(|root| format!(" {root}")).collect();
        let mut text = format!("nodes {} root{roots} rounds {rounds}\n", normal.len());
        for (place, [tag, first, second]) in normal.iter().enumerate() {
            let _ = writeln!(text, "{place} {} {first} {second}", KINDS[*tag as usize]);
        }
        text
    })
}

/// What `drawlist` prints for a file, its list drawn by this judge over field 1.
pub fn file_drawing(file: &[u8], judge: &mut dyn Judge) -> String {
    printed(file, |list, _| judge.draw(list))
}

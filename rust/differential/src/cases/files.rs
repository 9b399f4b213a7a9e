//! House files: good, damaged, short and long ones, and one at every boundary.

use model::field::P;
use model::{
    BEFORE_ROOTS, Call, Case, FIELDS, FILE_LIMIT, Field, HEAD, MOST_ROOTS, RECORD, ROOT, Record,
    records, version_1, version_2,
};

use super::drawings::filed;
use super::faults::{Fault, faults};
use super::fixed::{eight_roots, examples, meeting, rewriting};
use super::lists::{
    chain, every_kind, growing, inputs, negations, of_size, several_roots, unchanged,
};
use super::make::list_case;
use crate::Rng;

/// The bytes of the longest good file, of eight roots.
pub const LONGEST_FILE: usize = BEFORE_ROOTS + ROOT * MOST_ROOTS + RECORD * FILE_LIMIT as usize;

/// The bytes of the longest file whose length is right, of 255 roots.
pub const LONGEST_LENGTH: usize = BEFORE_ROOTS + ROOT * 255 + RECORD * FILE_LIMIT as usize;

/// The field of house files.
const FIELD: Field = Field::GOLDILOCKS;

/// Counts at the limits, and ones that only a part of the four bytes would mistake for 6.
const COUNTS: [u32; 16] = [
    0,
    1,
    2,
    5,
    6,
    7,
    1_023,
    1_024,
    1_025,
    4_096,
    4_097,
    6 << 8,
    1 << 16 | 6,
    1 << 24 | 6,
    1 << 31 | 6,
    u32::MAX,
];

/// Roots inside and outside a list of 6, and ones that a part of the four bytes would mistake.
const ROOTS: [u32; 11] =
    [0, 1, 4, 5, 6, 7, 5 << 8, 1 << 16 | 5, 1 << 24 | 5, 1 << 31 | 5, u32::MAX];

/// Numbers of roots at the limits, and ones that a part of the byte would mistake for 1 or 2.
const ROOT_COUNTS: [u8; 12] = [0, 1, 2, 3, 7, 8, 9, 16, 17, 129, 130, 255];

/// The file with this count in its head.
fn counted(file: &[u8], count: u32) -> Vec<u8> {
    [&file[..1], &count.to_be_bytes(), &file[5..]].concat()
}

/// The file of version 1 with this root in its head.
fn rooted(file: &[u8], root: u32) -> Vec<u8> {
    [&file[..5], &root.to_be_bytes(), &file[9..]].concat()
}

/// The file of version 2 with this number of roots in its head.
fn root_counted(file: &[u8], count: u8) -> Vec<u8> {
    [&file[..5], &[count], &file[6..]].concat()
}

/// The file of version 2 of a list whose roots, so many, are all 0.
fn zero_roots(list: &[Record], count: u8) -> Vec<u8> {
    version_2(list, &vec![0; count.into()])
}

/// The file with this version.
fn versioned(file: &[u8], version: u8) -> Vec<u8> {
    [&[version], &file[1..]].concat()
}

/// The file at this length: cut, or with these bytes behind.
fn sized(file: &[u8], length: usize, filling: u8) -> Vec<u8> {
    let mut file = file.to_vec();
    file.resize(length, filling);
    file
}

/// The file of version 2 of a case, and that of version 1 where it has one root; numbers are cut to
/// four bytes, and records that the store lacks are left out.
fn of_case(case: &Case) -> Vec<Vec<u8>> {
    let n = case.number("n").expect("a call on a list");
    let held = (case.stores[0].len() / 3).min(n as usize);
    let list = records(&case.stores[0][..3 * held]);
    let roots = case.roots().expect("a call with roots");
    let roots: Vec<u32> = roots.iter().map(|&root| root as u32).collect();
    let one = if let [root] = roots[..] { Some(version_1(&list, root)) } else { None };
    let files = [version_2(&list, &roots)].into_iter().chain(one);
    files.map(|file| counted(&file, n as u32)).collect()
}

/// The lists whose listings and drawings matter, with their roots.
fn good(rng: &mut Rng) -> Vec<Vec<u8>> {
    let mut lists: Vec<(Vec<Record>, u64)> = examples();
    lists.push((every_kind(FIELD).to_vec(), 5));
    for list in rewriting() {
        lists.extend((0..list.len() as u64).map(|root| (list.clone(), root)));
    }
    // Every variant of a key, its fields at their most.
    let keys = FIELDS
        .iter()
        .zip(0u64..)
        .map(|(&fields, variant)| [0, (variant << 48) + (1 << (16 * fields)) - 1, 0]);
    lists.push((keys.collect(), 21));
    let most = FILE_LIMIT as usize;
    // No listing is longer than this one's.
    lists.push((vec![[1, P - 1, P - 1]; most], FILE_LIMIT - 1));
    lists.extend(filed(FIELD, most).map(|list| (list, 0)));
    let rooted_last = |list: Vec<Record>| {
        let root = list.len() as u64 - 1;
        (list, root)
    };
    for list in [inputs(1), inputs(FILE_LIMIT), unchanged(most), growing(most), negations(1_000)] {
        lists.push(rooted_last(list));
    }
    lists.extend([2, 60, 341].map(|terms| rooted_last(chain(terms))));
    for n in [most, most, most - 1, 300, 40] {
        lists.push(rooted_last(of_size(FIELD, rng, n)));
    }
    let files = |(list, root): &(Vec<Record>, u64)| {
        let (root, last) = (*root as u32, list.len() as u64 - 1);
        let several = [several_roots(rng, list), eight_roots(last).to_vec(), vec![last; 8]];
        let several =
            several.map(|roots| roots.iter().map(|&root| root as u32).collect::<Vec<_>>());
        let [any, eight, same] = several.map(|roots| version_2(list, &roots));
        [version_1(list, root), version_2(list, &[root]), any, eight, same]
    };
    let met = [version_2(&meeting(), &[5, 7]), version_2(&meeting(), &[7, 0, 5])];
    lists.iter().flat_map(files).chain(met).collect()
}

/// Every length up to a good file's, and a little more.
fn short(file: &[u8]) -> Vec<Vec<u8>> {
    (0..file.len() + RECORD + 2).map(|length| sized(file, length, 0)).collect()
}

/// Versions and counts, on the whole file, on its head and on less.
fn heads(file: &[u8]) -> Vec<Vec<u8>> {
    let mut files = Vec::new();
    for version in [0, 1, 2, 3, 49, 128, 129, 130, 255] {
        let other = versioned(file, version);
        files.extend([1, HEAD - 1, HEAD, file.len()].map(|length| sized(&other, length, 0)));
    }
    for count in COUNTS {
        let other = counted(file, count);
        files.extend([HEAD, file.len()].map(|length| sized(&other, length, 0)));
    }
    files
}

/// Files of every count, and roots of both versions.
fn counts_and_roots(list: &[Record]) -> Vec<Vec<u8>> {
    let mut files = Vec::new();
    for count in COUNTS.into_iter().filter(|&count| count <= 4_097) {
        let list = inputs(count.into());
        files.extend([version_1(&list, 0), zero_roots(&list, 1), zero_roots(&list, 8)]);
    }
    for root in ROOTS {
        files.push(version_1(list, root));
        for place in 0..MOST_ROOTS {
            let mut roots = [5; MOST_ROOTS];
            roots[place] = root;
            files.extend([version_2(list, &roots), version_2(list, &roots[..=place])]);
        }
    }
    files
}

/// Numbers of roots, with as many and with others; the same bytes read with 17 roots more and four
/// records fewer.
fn root_counts(list: &[Record]) -> Vec<Vec<u8>> {
    let mut late = list.to_vec();
    late.push([5, list.len() as u64, 0]);
    let mut files = Vec::new();
    for count in ROOT_COUNTS {
        files.extend([zero_roots(list, count), zero_roots(&late, count)]);
        let outside = vec![list.len() as u32; count.into()];
        files.push(version_2(list, &outside));
        for head in ROOT_COUNTS {
            files.push(root_counted(&zero_roots(list, count), head));
        }
        let fewer = counted(&zero_roots(list, count), list.len() as u32 - 4);
        files.push(root_counted(&fewer, count.wrapping_add(17)));
    }
    files
}

/// Lengths beside the right one, and files longer than any good one.
fn lengths() -> Vec<Vec<u8>> {
    let mut files = Vec::new();
    for n in [1, 2, FILE_LIMIT - 1, FILE_LIMIT] {
        let list = inputs(n);
        let two = [1, 2, 8, 9, 255].map(|count| zero_roots(&list, count));
        for file in [version_1(&list, n as u32 - 1)].into_iter().chain(two) {
            let right = file.len();
            let longer = [1, 4, RECORD - 1, RECORD, 1 << 8, 1 << 16].map(|more| right + more);
            for length in [right - RECORD, right - 4, right - 1].into_iter().chain(longer) {
                files.push(sized(&file, length, 0));
            }
        }
    }
    let list = inputs(FILE_LIMIT);
    for file in [version_1(&list, 0), zero_roots(&list, 8), zero_roots(&list, 255)] {
        let beside = [LONGEST_FILE + 2, LONGEST_LENGTH, LONGEST_LENGTH + 1];
        for length in beside.into_iter().chain([32_768, 65_535, 65_536, 65_537, 1_000_000]) {
            let long = sized(&file, length, 1);
            files.extend([versioned(&long, 3), counted(&long, 0), counted(&long, 1_025)]);
            files.extend([counted(&long, 1), long]);
        }
    }
    files
}

/// Each fault of a record, and of the counts and roots that the bytes hold.
fn faulty(list: &[Record], roots: &[u64], rng: &mut Rng) -> Vec<Vec<u8>> {
    let base = list_case(Call::Normalize, FIELD, rng, list, roots);
    let mut files = Vec::new();
    for fault in faults(&base, rng) {
        let fits = match fault {
            Fault::Scalar(place, value) => place > 0 && value <= u32::MAX.into(),
            Fault::Word(0, word, value) => word < 3 * list.len() && (word % 3 > 0 || value < 256),
            Fault::Word(1, _, value) => value <= u32::MAX.into(),
            Fault::Length(1, length) => length < 256,
            _ => false,
        };
        if fits {
            let mut case = base.clone();
            fault.apply(&mut case, rng);
            files.extend(of_case(&case));
        }
    }
    files
}

/// Tags that are bad as a whole byte and may be good as a part of one.
fn tags() -> Vec<Vec<u8>> {
    let tag = |tag: u64| {
        let mut list = every_kind(FIELD);
        list[2][0] = tag;
        [version_1(&list, 5), version_2(&list, &[5, 0])]
    };
    [6, 7, 8, 18, 34, 66, 127, 128, 130, 254, 255].into_iter().flat_map(tag).collect()
}

/// Every choice among a bad version, count, length, record, root and number of roots.
fn together() -> Vec<Vec<u8>> {
    let mut files = Vec::new();
    for record in [[6, 0, 0], [1, P, 0], [2, 3, 0]] {
        for faults in 0..128u32 {
            let has = |fault: u32| faults >> fault & 1 == 1;
            let mut list = every_kind(FIELD);
            if has(0) {
                list[3] = record;
            }
            let root = if has(1) { 6 } else { 5 };
            let roots = if has(5) { 9 } else { 2 };
            let mut file = match has(6) {
                false => version_1(&list, root),
                true => version_2(&list, &vec![root; roots]),
            };
            if has(2) {
                file.pop();
            }
            if has(3) {
                file = counted(&file, 0);
            }
            files.push(if has(4) { versioned(&file, 3) } else { file });
        }
    }
    files
}

/// The files made by hand.
pub fn fixed_files(rng: &mut Rng) -> Vec<Vec<u8>> {
    let list = &examples()[0].0;
    let mut files = good(rng);
    for example in [version_1(list, 5), version_2(list, &[5, 3]), zero_roots(list, 8)] {
        files.extend(short(&example));
        files.extend(heads(&example));
    }
    let (kinds, most) = (every_kind(FIELD), FILE_LIMIT - 1);
    let parts = [
        counts_and_roots(list),
        root_counts(list),
        lengths(),
        faulty(&kinds, &[5], rng),
        faulty(&kinds, &eight_roots(5), rng),
        faulty(&inputs(FILE_LIMIT), &[most], rng),
        faulty(&inputs(FILE_LIMIT), &eight_roots(most), rng),
        tags(),
        together(),
    ];
    [files, parts.concat()].concat()
}

/// Damages a file somewhere.
fn damage(file: &mut Vec<u8>, rng: &mut Rng) {
    let place = rng.below(file.len() as u64 + 1) as usize;
    let byte = rng.word() as u8;
    let last = file.len().saturating_sub(1);
    match rng.below(8) {
        0 => file.truncate(place),
        1 => file.insert(place, byte),
        2 if !file.is_empty() => {
            file.remove(place.min(last));
        }
        3 => file.extend((0..rng.within(1, 40)).map(|_| byte)),
        4 if file.len() >= HEAD => *file = counted(file, rng.below(1_100) as u32),
        5 if file.len() >= HEAD && file[0] == 2 => *file = root_counted(file, rng.below(12) as u8),
        5 if file.len() >= HEAD => *file = rooted(file, rng.below(40) as u32),
        _ if !file.is_empty() => file[place.min(last)] ^= 1 << rng.below(8),
        _ => file.push(byte),
    }
}

/// A file at random: a list of any kind, with a bad word or damaged bytes in some.
pub fn random_file(rng: &mut Rng) -> Vec<u8> {
    let call = rng.pick(&[Call::Normalize, Call::Normalize, Call::Draw]);
    let case = match rng.below(60) {
        0 => {
            let n = rng.within(FILE_LIMIT - 3, FILE_LIMIT + 1);
            let list = of_size(FIELD, rng, n as usize);
            list_case(call, FIELD, rng, &list, &[list.len() as u64 - 1])
        }
        1..30 => super::random(call, FIELD, rng),
        _ => super::several_roots(call, FIELD, rng).expect("a call with roots"),
    };
    let mut files = of_case(&case);
    let mut file = files.swap_remove(rng.below(files.len() as u64) as usize);
    for _ in 0..rng.pick(&[0, 0, 0, 1, 1, 2]) {
        damage(&mut file, rng);
    }
    file
}

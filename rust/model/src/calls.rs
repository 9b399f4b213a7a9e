//! The whole outcome of each call: refusals first, then the judge, then the stores.

use crate::BLANK;
use crate::case::{Call, Case, Outcome, Record};
use crate::circuit::Emission;
use crate::draw;
use crate::events::Event;
use crate::field::Field;
use crate::judge::Judge;
use crate::lists::reached;
use crate::mutants::Mutant;
use crate::order;
use crate::refusal::{
    LIMIT, LOWER_WORK, Refusal, check_assignment, check_columns, check_layout, check_list,
    check_record,
};
use crate::roots::{answered, coincide, listed, rooted};

/// The values that an accepted call answers, and its writable stores afterwards.
struct Accepted {
    values: Vec<u64>,
    after: Vec<Vec<u64>>,
}

/// A call that refuses, and its writable stores afterwards where they change.
struct Refused {
    refusal: Refusal,
    after: Option<Vec<Vec<u64>>>,
}

impl From<Refusal> for Refused {
    fn from(refusal: Refusal) -> Self {
        Self { refusal, after: None }
    }
}

/// What this call comes to by this judge, who is over its field.
pub fn expected(case: &Case, judge: &mut dyn Judge) -> Outcome {
    let mut answer = vec![0; case.call.signature().answer];
    match called(case, judge) {
        Ok(accepted) => {
            answer[1..=accepted.values.len()].copy_from_slice(&accepted.values);
            Outcome { answer, after: accepted.after }
        }
        Err(refused) => {
            if case.call == Call::Draw {
                draw::note_refused(case, refused.refusal.number, judge);
            }
            answer[0] = refused.refusal.number;
            answer[1] = refused.refusal.place;
            Outcome { answer, after: refused.after.unwrap_or_else(|| case.writable()) }
        }
    }
}

/// What the call accepts or refuses: the field's number before all else.
fn called(case: &Case, judge: &mut dyn Judge) -> Result<Accepted, Refused> {
    let field = field(case, judge)?;
    match case.call {
        Call::Step => step(case, field, judge),
        Call::Build => build(case, field, judge),
        Call::Compact => compact(case, field, judge),
        Call::Normalize => normalize(case, field, judge),
        Call::Evaluate => evaluate(case, field, judge),
        Call::Prepare => prepare(case, field, judge),
        Call::Lower => lower(case, field, judge),
        Call::Draw => drawing(case, field, judge),
        Call::Emit => emit(case, field, judge),
    }
}

/// The judge's field, which is the call's, or 49.
fn field(case: &Case, judge: &mut dyn Judge) -> Result<Field, Refusal> {
    let field = judge.field();
    if let Some(named) = Field::numbered(case.scalars[0]) {
        assert_eq!(named.number, field.number, "the judge is over the call's field");
        return Ok(field);
    }
    let opening = match case.call {
        Call::Prepare => columns(case, field).err(),
        _ => list(case, field).err(),
    };
    judge.note(if opening.is_none() { Event::FieldAlone } else { Event::FieldFirst });
    Err(opening.filter(|_| judge.has(Mutant::FieldLate)).unwrap_or(Refusal::new(49)))
}

/// The call's list, where it passes the list check with the roots that the call has.
fn list(case: &Case, field: Field) -> Result<Vec<Record>, Refusal> {
    let n = case.number("n").expect("a call on a list");
    check_list(field, &case.stores[0], n, case.roots())
}

/// The call's columns, where Prepare's tests let them pass; Lower has a list before them.
fn columns(case: &Case, field: Field) -> Result<Vec<Vec<u64>>, Refusal> {
    let behind = usize::from(case.call == Call::Lower);
    check_columns(field, &case.stores[behind], &case.stores[behind + 1])
}

/// A store of this length: these words, then blanks.
fn filled(length: usize, words: &[u64]) -> Vec<u64> {
    laid(vec![BLANK; length], words)
}

/// The store with these words at its begin.
fn laid(mut store: Vec<u64>, words: &[u64]) -> Vec<u64> {
    store[..words.len()].copy_from_slice(words);
    store
}

/// 2 unless every store has at least its length.
fn enough(stores: &[(&Vec<u64>, usize)]) -> Result<(), Refusal> {
    if stores.iter().any(|(store, length)| store.len() < *length) {
        return Err(Refusal::new(2));
    }
    Ok(())
}

/// The records that a list can have at most, of the call's number.
fn lent_records(case: &Case) -> usize {
    case.number("n").expect("a call on a list").min(LIMIT) as usize
}

fn step(case: &Case, field: Field, judge: &mut dyn Judge) -> Result<Accepted, Refused> {
    let [_, n, tag, first, second] = case.scalars[..] else { panic!("five numbers") };
    let store = &case.stores[0];
    let list = list(case, field)?;
    let request = [tag, first, second];
    if let Some(number) = check_record(field, request, n) {
        return Err(Refusal::at(number, list.len()).into());
    }
    let (stepped, place) = judge.step(&list, request);
    let appended = stepped.len() > list.len();
    let end = 3 * stepped.len();
    if n == LIMIT {
        judge.note(if appended { Event::FullNew } else { Event::FullKnown });
    }
    if appended && (n == LIMIT || store.len() < end) {
        if n < LIMIT {
            judge.note(Event::ShortStore);
        }
        return Err(Refusal::new(7).into());
    }
    let mut after = store.clone();
    after[..end].copy_from_slice(stepped.as_flattened());
    Ok(Accepted { values: vec![place, stepped.len() as u64], after: vec![after] })
}

fn build(case: &Case, field: Field, judge: &mut dyn Judge) -> Result<Accepted, Refused> {
    let [_, _, result, map] = &case.stores[..] else { panic!("four stores") };
    let n = lent_records(case);
    let enough = enough(&[(result, 3 * n), (map, n)]);
    let (requests, roots, ()) = rooted(case, field, enough, judge)?;
    let (built, places) = judge.build(&requests);
    let new_roots = roots.iter().map(|&root| places[root as usize]).collect();
    Ok(Accepted {
        values: listed(built.len(), 0, &roots, new_roots, judge),
        after: vec![filled(result.len(), built.as_flattened()), filled(map.len(), &places)],
    })
}

fn compact(case: &Case, field: Field, judge: &mut dyn Judge) -> Result<Accepted, Refused> {
    let [_, _, result] = &case.stores[..] else { panic!("three stores") };
    let enough = enough(&[(result, 3 * lent_records(case))]);
    let (records, roots, ()) = rooted(case, field, enough, judge)?;
    let (kept, new_roots) = judge.compact(&records, &roots);
    Ok(Accepted {
        values: listed(kept.len(), 0, &roots, new_roots, judge),
        after: vec![filled(result.len(), kept.as_flattened())],
    })
}

fn normalize(case: &Case, field: Field, judge: &mut dyn Judge) -> Result<Accepted, Refused> {
    let [_, _, result, work] = &case.stores[..] else { panic!("four stores") };
    let n = lent_records(case);
    let enough = enough(&[(result, 3 * n), (work, 6 * n)]);
    let (records, roots, ()) = rooted(case, field, enough, judge)?;
    let (normal, new_roots, rounds) = judge.normalize(&records, &roots);
    Ok(Accepted {
        values: listed(normal.len(), rounds, &roots, new_roots, judge),
        after: vec![filled(result.len(), normal.as_flattened()), filled(work.len(), &[])],
    })
}

fn evaluate(case: &Case, field: Field, judge: &mut dyn Judge) -> Result<Accepted, Refused> {
    let [_, _, m] = case.scalars[..] else { panic!("three numbers") };
    let entries = check_assignment(field, &case.stores[2], m);
    let (records, roots, entries) = rooted(case, field, entries, judge)?;
    let unassigned =
        |record: &Record| record[0] == 0 && entries.iter().all(|entry| entry[0] != record[1]);
    if let Some(place) = records.iter().position(unassigned) {
        if !reached(&records, &roots)[place] {
            judge.note(Event::UnreachableInput);
        }
        return Err(Refusal::at(12, place).into());
    }
    let values = judge.evaluate(&records, &roots, &entries);
    let values = answered(&roots, values, judge);
    Ok(Accepted { values: values.concat(), after: vec![] })
}

fn prepare(case: &Case, field: Field, judge: &mut dyn Judge) -> Result<Accepted, Refused> {
    let columns = columns(case, field)?;
    let mut values = vec![columns.len() as u64];
    values.extend(judge.forms(&columns));
    Ok(Accepted { values, after: vec![] })
}

fn lower(case: &Case, field: Field, judge: &mut dyn Judge) -> Result<Accepted, Refused> {
    let [_, _, period] = case.scalars[..] else { panic!("three numbers") };
    let [_, lengths, _, result, work, places] = &case.stores[..] else { panic!("six stores") };
    let records = list(case, field)?;
    let columns = columns(case, field)?;
    enough(&[(work, LOWER_WORK), (places, columns.len())])?;
    let longest = lengths.iter().copied().max();
    let is_period =
        |longest| period.is_power_of_two() && (longest..=field.longest_period).contains(&period);
    if longest.is_some_and(|longest| !is_period(longest)) {
        return Err(Refusal::new(15).into());
    }
    let (lowered, nodes) = match longest {
        Some(_) => judge.lower(&records, &columns, period),
        None => {
            judge.note(Event::NoColumns);
            (records, vec![])
        }
    };
    let blank = filled(work.len(), &[]);
    if result.len() == 3 * lowered.len() {
        judge.note(Event::ResultExact);
    }
    if result.len() + 1 == 3 * lowered.len() {
        judge.note(Event::ResultShort);
    }
    if lowered.len() as u64 > LIMIT || result.len() < 3 * lowered.len() {
        let after = Some(vec![result.clone(), blank, places.clone()]);
        return Err(Refused { refusal: Refusal::new(7), after });
    }
    let written = filled(result.len(), lowered.as_flattened());
    let after = vec![written, blank, filled(places.len(), &nodes)];
    Ok(Accepted { values: vec![lowered.len() as u64], after })
}

fn drawing(case: &Case, field: Field, judge: &mut dyn Judge) -> Result<Accepted, Refused> {
    let [_, _, text] = &case.stores[..] else { panic!("three stores") };
    if draw::too_early(text.len(), judge) {
        return Err(Refusal::new(41).into());
    }
    let drawing = draw::of_records(case, field, judge);
    let fitting = drawing.and_then(|drawing| draw::fitting(drawing, text.len(), judge));
    let tested = rooted(case, field, fitting, judge);
    let (records, roots, drawing) = tested.map_err(|refusal| refused_text(refusal, text, judge))?;
    if coincide(&roots) {
        judge.note(Event::RootsTogether);
    }
    draw::note_drawn(&records, field, text.len() - drawing.len(), judge);
    let bytes: Vec<u64> = drawing.into_iter().map(u64::from).collect();
    // 0 bytes stand behind a text, whatever the blank is.
    let before = if judge.has(Mutant::BehindLeft) { text.clone() } else { vec![0; text.len()] };
    Ok(Accepted { values: vec![bytes.len() as u64], after: vec![laid(before, &bytes)] })
}

/// Draw's refusal, which leaves the text store as it was, save by mistake.
fn refused_text(refusal: Refusal, text: &[u64], judge: &dyn Judge) -> Refused {
    let blanked = refusal.number == 41 && judge.has(Mutant::TextBlanked);
    Refused { refusal, after: blanked.then(|| vec![vec![0; text.len()]]) }
}

fn emit(case: &Case, field: Field, judge: &mut dyn Judge) -> Result<Accepted, Refused> {
    let emitted = emitted(case, field, judge);
    let Emission { num_vars, num_ops, words } =
        emitted.map_err(|refusal| order::refused(case, refusal, judge))?;
    let result = &case.stores[3];
    order::note_emitted(case, result.len() - words.len(), judge);
    let left = judge.has(Mutant::ResultLeft);
    let before = if left { result.clone() } else { filled(result.len(), &[]) };
    Ok(Accepted { values: vec![num_vars, num_ops], after: vec![laid(before, &words)] })
}

/// What the call's list is emitted as, where nothing refuses it.
fn emitted(case: &Case, field: Field, judge: &mut dyn Judge) -> Result<Emission, Refusal> {
    let k = case.number("k").expect("a call on a layout");
    let keys = check_layout(&case.stores[2], k);
    let (records, roots, keys) = rooted(case, field, keys, judge)?;
    let emission = judge.emit(&records, &roots, &keys)?;
    let (length, room) = (emission.words.len(), case.stores[3].len());
    if room + 1 == length {
        judge.note(Event::ResultShort);
    }
    let spare = usize::from(judge.has(Mutant::FitRefused));
    if room < length + spare { Err(Refusal::new(2)) } else { Ok(emission) }
}

//! The proved calls on lent stores, each between guards.

#[cfg(feature = "ours")]
use model::Call;
use model::{Case, Outcome, Store, Unit};

/// What stands around a lent store.
#[derive(Clone, Copy, Debug, PartialEq, Eq)]
pub enum Lending {
    /// Guards on each side.
    Guarded,
    /// Nothing: the store is an allocation of its own, for a memory checker to watch.
    Bare,
}

impl Lending {
    /// The guards on each side of a store of words.
    fn words(self) -> usize {
        match self {
            Lending::Guarded => 4,
            Lending::Bare => 0,
        }
    }

    /// The guards on each side of a store of bytes, so many that it begins at an odd address.
    fn bytes(self) -> usize {
        match self {
            Lending::Guarded => 33,
            Lending::Bare => 0,
        }
    }
}

/// A word or a byte of a store, which a case holds as a word.
trait Item: Copy + PartialEq {
    fn of(word: u64) -> Self;
    fn word(self) -> u64;
}

impl Item for u64 {
    fn of(word: u64) -> Self {
        word
    }

    fn word(self) -> u64 {
        self
    }
}

impl Item for u8 {
    fn of(word: u64) -> Self {
        word as u8
    }

    fn word(self) -> u64 {
        self.into()
    }
}

/// A store between guards.
struct Guarded<T> {
    items: Vec<T>,
    guards: usize,
}

impl<T: Item> Guarded<T> {
    /// These words, guarded by others that depend on the store's place.
    fn new(store: &[u64], place: usize, guards: usize) -> Self {
        let mut items = Vec::with_capacity(store.len() + 2 * guards);
        items.extend((0..guards).map(|guard| T::of(guard_word(place, guard))));
        items.extend(store.iter().map(|&word| T::of(word)));
        items.extend((0..guards).map(|guard| T::of(guard_word(place, guards + guard))));
        Self { items, guards }
    }

    fn store(&self) -> &[T] {
        &self.items[self.guards..self.items.len() - self.guards]
    }

    fn store_mut(&mut self) -> &mut [T] {
        let end = self.items.len() - self.guards;
        &mut self.items[self.guards..end]
    }

    /// Whether the guards are as they were.
    fn is_whole(&self, place: usize) -> bool {
        let (guards, end) = (self.guards, self.items.len() - self.guards);
        let is = |at: usize, guard| self.items[at + guard] == T::of(guard_word(place, guard));
        (0..guards).all(|guard| is(0, guard) && is(end - guards, guards + guard))
    }
}

/// A guard word of a store.
fn guard_word(place: usize, guard: usize) -> u64 {
    0x9e37_79b9_7f4a_7c15u64.wrapping_mul(1 + place as u64 * 8 + guard as u64)
}

/// A lent store.
enum Lent {
    Words(Guarded<u64>),
    Bytes(Guarded<u8>),
}

use Lent::{Bytes, Words};

impl Lent {
    /// This store, counted in this unit, as a call is lent it.
    fn new(store: &[u64], unit: Unit, place: usize, lending: Lending) -> Self {
        match unit {
            Unit::Word => Words(Guarded::new(store, place, lending.words())),
            Unit::Byte => Bytes(Guarded::new(store, place, lending.bytes())),
        }
    }

    /// The words, or a word a byte.
    fn held(&self) -> Vec<u64> {
        match self {
            Words(words) => words.store().to_vec(),
            Bytes(bytes) => bytes.store().iter().map(|byte| byte.word()).collect(),
        }
    }

    /// Whether these are the words, or a word a byte.
    fn holds(&self, store: &[u64]) -> bool {
        match self {
            Words(words) => words.store() == store,
            Bytes(bytes) => bytes.store().iter().map(|byte| byte.word()).eq(store.iter().copied()),
        }
    }

    /// Whether the guards are as they were.
    fn is_whole(&self, place: usize) -> bool {
        match self {
            Words(words) => words.is_whole(place),
            Bytes(bytes) => bytes.is_whole(place),
        }
    }
}

/// An answer word before a call, so that one left unwritten shows.
const UNWRITTEN: u64 = u64::MAX;

/// What the proved call comes to, or what it damaged that it may not write.
pub fn run(case: &Case, lending: Lending) -> Result<Outcome, String> {
    let signature = case.call.signature();
    let stores = signature.stores.iter().zip(&case.stores).enumerate();
    let lend = |(place, (store, words)): (usize, (&Store, &Vec<u64>))| {
        Lent::new(words, store.2, place, lending)
    };
    let mut lent: Vec<Lent> = stores.map(lend).collect();
    let behind = lent.len();
    let mut answer = Guarded::new(&vec![UNWRITTEN; signature.answer], behind, lending.words());
    call(case, &mut lent, answer.store_mut());
    if !answer.is_whole(behind) {
        return Err("wrote outside the answer".to_string());
    }
    let mut after = Vec::new();
    for (place, store) in lent.iter().enumerate() {
        let name = signature.stores[place].0;
        if !store.is_whole(place) {
            return Err(format!("wrote outside the {name} store"));
        }
        if signature.stores[place].1 {
            after.push(store.held());
        } else if !store.holds(&case.stores[place]) {
            return Err(format!("wrote to the {name} store"));
        }
    }
    Ok(Outcome { answer: answer.store().to_vec(), after })
}

/// Says that the proved call is not linked.
#[cfg(not(feature = "ours"))]
fn call(case: &Case, _: &mut [Lent], _: &mut [u64]) {
    panic!("ace_{} is not linked", case.call.signature().name);
}

/// Runs the proved call, which writes its answer words.
#[cfg(feature = "ours")]
fn call(case: &Case, lent: &mut [Lent], answer: &mut [u64]) {
    let number = |place: usize| case.scalars[place];
    let field = number(0);
    match (case.call, lent) {
        (Call::Step, [Words(list)]) => {
            let (list, [tag, first, second]) = (list.store_mut(), [2, 3, 4].map(number));
            ace::words::step(field, list, number(1), tag, first, second, sized(answer));
        }
        (Call::Build, [Words(list), Words(roots), Words(result), Words(map)]) => {
            let (list, roots) = (list.store(), roots.store());
            let (result, map) = (result.store_mut(), map.store_mut());
            ace::words::build(field, list, number(1), roots, result, map, sized(answer));
        }
        (Call::Compact, [Words(list), Words(roots), Words(result)]) => {
            let (list, roots, result) = (list.store(), roots.store(), result.store_mut());
            ace::words::compact(field, list, number(1), roots, result, sized(answer));
        }
        (Call::Normalize, [Words(list), Words(roots), Words(result), Words(work)]) => {
            let (list, roots) = (list.store(), roots.store());
            let (result, work) = (result.store_mut(), work.store_mut());
            ace::words::normalize(field, list, number(1), roots, result, work, sized(answer));
        }
        (Call::Evaluate, [Words(list), Words(roots), Words(entries)]) => {
            let (list, roots, entries) = (list.store(), roots.store(), entries.store());
            ace::words::evaluate(field, list, number(1), roots, entries, number(2), sized(answer));
        }
        (Call::Prepare, [Words(lengths), Words(entries)]) => {
            ace::words::prepare(field, lengths.store(), entries.store(), sized(answer));
        }
        (Call::Lower, lent) => lower(case, lent, sized(answer)),
        (Call::Draw, [Words(list), Words(roots), Bytes(text)]) => {
            let (list, roots, text) = (list.store(), roots.store(), text.store_mut());
            ace::words::draw(field, list, number(1), roots, text, sized(answer));
        }
        (Call::Emit, lent) => emit(case, lent, sized(answer)),
        (call, _) => panic!("the stores of ace_{}", call.signature().name),
    }
}

/// Runs the proved `ace_lower`.
#[cfg(feature = "ours")]
fn lower(case: &Case, lent: &mut [Lent], answer: &mut [u64; 4]) {
    let [Words(list), Words(lengths), Words(entries), Words(result), Words(work), Words(places)] =
        lent
    else {
        panic!("six stores");
    };
    let (list, lengths, entries) = (list.store(), lengths.store(), entries.store());
    let (result, work, places) = (result.store_mut(), work.store_mut(), places.store_mut());
    let [field, n, period] = case.scalars[..] else { panic!("three numbers") };
    ace::words::lower(field, list, n, lengths, entries, period, result, work, places, answer);
}

/// Runs the proved `ace_emit`.
#[cfg(feature = "ours")]
fn emit(case: &Case, lent: &mut [Lent], answer: &mut [u64; 4]) {
    let [Words(list), Words(roots), Words(layout), Words(result)] = lent else {
        panic!("four stores");
    };
    let (list, roots, layout) = (list.store(), roots.store(), layout.store());
    let [field, n, k] = case.scalars[..] else { panic!("three numbers") };
    ace::words::emit(field, list, n, roots, layout, k, result.store_mut(), answer);
}

/// These answer words, as many as the call has.
#[cfg(feature = "ours")]
fn sized<const N: usize>(answer: &mut [u64]) -> &mut [u64; N] {
    answer.try_into().expect("the words of the call's answer")
}

#[cfg(test)]
mod tests {
    use super::*;

    /// Holds a store of three between guards to what is changed in it.
    fn told<T: Item>(guards: usize) {
        let store = [1, 2, 3];
        let new = || Guarded::<T>::new(&store, 5, guards);
        assert!(new().is_whole(5) && !new().is_whole(6));
        assert!(new().store().iter().map(|item| item.word()).eq(store));
        for place in 0..new().items.len() {
            let mut changed = new();
            changed.items[place] = T::of(changed.items[place].word() ^ 1);
            let within = (guards..guards + 3).contains(&place);
            assert_eq!(changed.is_whole(5), within, "item {place}");
        }
    }

    #[test]
    fn a_changed_guard_is_told() {
        told::<u64>(Lending::Guarded.words());
        told::<u8>(Lending::Guarded.bytes());
    }
}

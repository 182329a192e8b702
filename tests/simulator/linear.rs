//! Whether a history of files is linearizable: whether its operations could have happened one behind another, each at one moment between
//! its call and its return, with the responses that they had (the search of Wing and Gong, with a memory of what was tried).
//!
//! An operation of which the end isn't known may have happened at any moment behind its call, or not at all. A power failure of the
//! server is an operation as well: it may bring back what the folder held at any moment since it was flushed last.

use std::collections::HashSet;
use std::hash::{BuildHasherDefault, Hasher};

/// The number of a content; 0 is no file.
pub type Content = u16;
pub const NO_FILE: Content = 0;

/// What the files of the store hold, by the place of their names.
pub type Files = [Content; MOST_NAMES];
pub const MOST_NAMES: usize = 4;

/// A history has at most so many operations.
pub const MOST_OPERATIONS: usize = 128;

/// After so many states the search gives up.
const MOST_STATES: usize = 100_000;

/// What an operation does. Names are the places of names.
#[derive(Clone, Copy, PartialEq, Eq, Debug)]
pub enum Act {
    Put(usize, Content),
    Get(usize),
    Delete(usize),
    Rename(usize, usize),
    /// The power of the server's machine failed.
    Power,
}

/// How an operation ended.
#[derive(Clone, Copy, PartialEq, Eq, Debug)]
pub enum Response {
    Done,
    Content(Content),
    NoFile,
    Exists,
    /// It happened by its return or it never does.
    DoneOrNot,
    /// It may happen at any moment, or never.
    Unknown,
}

/// An operation with the moments of its call and its return.
#[derive(Clone, Copy, PartialEq, Eq, Debug)]
pub struct Operation {
    pub call: u64,
    pub back: u64,
    pub act: Act,
    pub response: Response,
    /// The operation of the same process that happens before this operation, by its place in the history.
    pub behind: Option<usize>,
}

impl Operation {
    /// The moment by which it happened.
    fn end(&self) -> u64 {
        if self.response == Response::Unknown {
            u64::MAX
        } else {
            self.back
        }
    }
}

/// What a search comes to.
#[derive(Clone, PartialEq, Eq, Debug)]
pub enum Verdict {
    Linearizable,
    /// No order explains these operations, by their places, where as many others as can be are explained.
    Unexplained(Vec<usize>),
    /// The search gave up.
    TooHard,
}

/// What the store holds, and what a power failure may bring back besides.
#[derive(Clone, PartialEq, Eq, Hash)]
struct Store {
    now: Files,
    unsure: Vec<Files>,
}

impl Store {
    /// The store behind a change. If the change wasn't flushed, a power failure may undo it.
    fn changed(&self, now: Files, is_flushed: bool, may_fail: bool) -> Store {
        if is_flushed || !may_fail {
            return Store { now, unsure: Vec::new() };
        }
        let mut unsure = self.unsure.clone();
        if self.now != now && !unsure.contains(&self.now) {
            unsure.push(self.now);
            unsure.sort_unstable();
        }
        Store { now, unsure }
    }
}

/// The response of an act that happens now, and the files behind it.
pub fn happen(act: Act, files: &Files) -> (Response, Files) {
    let mut held = *files;
    match act {
        Act::Put(name, content) => {
            held[name] = content;
            (Response::Done, held)
        }
        Act::Power => (Response::Done, held),
        Act::Get(name) | Act::Delete(name) | Act::Rename(name, _) if held[name] == NO_FILE => (Response::NoFile, held),
        Act::Get(name) => (Response::Content(held[name]), held),
        Act::Delete(name) => {
            held[name] = NO_FILE;
            (Response::Done, held)
        }
        Act::Rename(_, new) if held[new] != NO_FILE => (Response::Exists, held),
        Act::Rename(old, new) => {
            held[new] = held[old];
            held[old] = NO_FILE;
            (Response::Done, held)
        }
    }
}

/// A state of the search: the operations that are left, and the store.
#[derive(Clone, PartialEq, Eq, Hash)]
struct State {
    left: u128,
    store: Store,
}

/// A history, and what the search needs to know of all of it.
struct Search<'a> {
    history: &'a [Operation],
    /// Operations that others are behind.
    leads: u128,
    powers: u128,
    known: u128,
    /// Whether the server may have refused an operation of which the end isn't known.
    may_refuse: bool,
    /// The places, those that end first in front.
    order: Vec<usize>,
}

fn bit(place: usize) -> u128 {
    1 << place
}

impl<'a> Search<'a> {
    fn of(history: &'a [Operation], may_refuse: bool) -> Self {
        let places = |is: &dyn Fn(&Operation) -> bool| {
            history.iter().enumerate().filter(|(_, it)| is(it)).fold(0, |set, (place, _)| set | bit(place))
        };
        let mut order: Vec<usize> = (0..history.len()).collect();
        order.sort_by_key(|&place| history[place].end());
        Search {
            history,
            leads: history.iter().filter_map(|it| it.behind).fold(0, |set, place| set | bit(place)),
            powers: places(&|it| it.act == Act::Power),
            known: places(&|it| it.response != Response::Unknown),
            may_refuse,
            order,
        }
    }

    /// The states behind this one, the one that is tried first at the end.
    fn next_of(&self, state: &State, next: &mut Vec<State>) {
        let end = self.order.iter().find(|&&place| state.left & bit(place) != 0).map_or(u64::MAX, |&place| self.history[place].end());
        for &place in self.order.iter().rev() {
            let operation = &self.history[place];
            let waits = operation.behind.is_some_and(|other| state.left & bit(other) != 0);
            if state.left & bit(place) == 0 || operation.call > end || waits {
                continue;
            }
            self.happens(place, state, next);
        }
    }

    /// The states in which this operation happened.
    fn happens(&self, place: usize, state: &State, next: &mut Vec<State>) {
        let operation = &self.history[place];
        let left = state.left & !bit(place);
        let may_fail = left & self.powers != 0;
        let (response, files) = happen(operation.act, &state.store.now);
        if operation.act == Act::Power {
            let back = state.store.unsure.iter().chain([&state.store.now]);
            next.extend(back.map(|now| State { left, store: Store { now: *now, unsure: Vec::new() } }));
            return;
        }
        let mut push = |files, is_flushed| next.push(State { left, store: state.store.changed(files, is_flushed, may_fail) });
        match operation.response {
            Response::DoneOrNot => {
                push(state.store.now, false);
                push(files, false);
            }
            Response::Unknown => {
                if files != state.store.now {
                    push(files, false);
                }
                // otherwise the process of the next operation would not have gone on
                if self.leads & bit(place) != 0 && (self.may_refuse || files == state.store.now) {
                    push(state.store.now, false);
                }
            }
            said if said == response => push(files, said == Response::Done && matches!(operation.act, Act::Put(..))),
            _ => {}
        }
    }
}

/// Whether a history is linearizable that begins with these files. Where disks fail or memory is refused, the server may have refused an
/// operation of which the end isn't known.
pub fn verdict(history: &[Operation], files: Files, may_refuse: bool) -> Verdict {
    assert!(history.len() <= MOST_OPERATIONS);
    let search = Search::of(history, may_refuse);
    let all = if history.len() == MOST_OPERATIONS { u128::MAX } else { bit(history.len()) - 1 };
    let first = State { left: all, store: Store { now: files, unsure: Vec::new() } };
    let mut tried: HashSet<State, BuildHasherDefault<Mixer>> = HashSet::default();
    let (mut waiting, mut next, mut best) = (vec![first], Vec::new(), search.known);
    while let Some(state) = waiting.pop() {
        let known = state.left & search.known;
        if known == 0 {
            return Verdict::Linearizable;
        }
        if known.count_ones() < best.count_ones() {
            best = known;
        }
        search.next_of(&state, &mut next);
        for state in next.drain(..) {
            if tried.insert(state.clone()) {
                waiting.push(state);
            }
        }
        if tried.len() > MOST_STATES {
            return Verdict::TooHard;
        }
    }
    Verdict::Unexplained((0..history.len()).filter(|&place| best & bit(place) != 0).collect())
}

/// A hasher that is faster than that of the library, which resists attackers.
#[derive(Default)]
struct Mixer(u64);

impl Hasher for Mixer {
    fn write(&mut self, bytes: &[u8]) {
        for chunk in bytes.chunks(8) {
            let mut word = [0; 8];
            word[..chunk.len()].copy_from_slice(chunk);
            self.write_u64(u64::from_le_bytes(word));
        }
    }

    fn write_u64(&mut self, word: u64) {
        self.0 = (self.0.rotate_left(5) ^ word).wrapping_mul(0x517c_c1b7_2722_0a95);
    }

    fn write_usize(&mut self, word: usize) {
        self.write_u64(word as u64);
    }

    fn write_u128(&mut self, word: u128) {
        self.write_u64(word as u64);
        self.write_u64((word >> 64) as u64);
    }

    fn finish(&self) -> u64 {
        self.0 ^ (self.0 >> 29)
    }
}

#[cfg(test)]
mod tests {
    use super::Response::{Done, DoneOrNot, Exists, NoFile, Unknown};
    use super::*;
    use crate::chance::Chance;

    const A: usize = 0;
    const B: usize = 1;

    fn operation(call: u64, back: u64, act: Act, response: Response) -> Operation {
        Operation { call, back, act, response, behind: None }
    }

    fn put_at(call: u64, back: u64, content: Content, name: usize, response: Response) -> Operation {
        operation(call, back, Act::Put(name, content), response)
    }

    fn put(call: u64, back: u64, content: Content) -> Operation {
        put_at(call, back, content, A, Done)
    }

    fn get_at(call: u64, back: u64, content: Content, name: usize) -> Operation {
        operation(call, back, Act::Get(name), if content == NO_FILE { NoFile } else { Response::Content(content) })
    }

    fn get(call: u64, back: u64, content: Content) -> Operation {
        get_at(call, back, content, A)
    }

    fn delete(call: u64, back: u64, response: Response) -> Operation {
        operation(call, back, Act::Delete(A), response)
    }

    fn rename(call: u64, back: u64, response: Response) -> Operation {
        operation(call, back, Act::Rename(A, B), response)
    }

    fn power(at: u64) -> Operation {
        operation(at, at, Act::Power, Done)
    }

    fn behind(other: usize, operation: Operation) -> Operation {
        Operation { behind: Some(other), ..operation }
    }

    fn check(name: &str, history: &[Operation], is_good: bool) {
        let found = verdict(history, [NO_FILE; MOST_NAMES], false);
        assert_eq!(found == Verdict::Linearizable, is_good, "{name}: {found:?}");
    }

    #[test]
    fn what_is_linearizable_is_found_to_be() {
        let good = |name, history: &[Operation]| check(name, history, true);
        good("nothing", &[]);
        good("one behind another", &[get(0, 1, 0), put(2, 3, 1), get(4, 5, 1), delete(6, 7, Done), get(8, 9, 0), delete(10, 11, NoFile)]);
        good("a get beside a put sees it", &[put(0, 9, 1), get(1, 2, 1), get(3, 4, 1)]);
        good("a get beside a put doesn't see it yet", &[put(0, 9, 1), get(1, 2, 0), get(3, 4, 1)]);
        good("of two puts at once either is last", &[put(0, 9, 1), put(0, 9, 2), get(10, 11, 1)]);
        good("a put whose end isn't known is seen late", &[put_at(0, 1, 1, A, Unknown), get(2, 3, 0), get(4, 5, 1)]);
        good("a put whose end isn't known never happened", &[put_at(0, 1, 1, A, Unknown), get(2, 3, 0), get(9, 10, 0)]);
        good("a delete whose end isn't known", &[put(0, 1, 1), delete(2, 3, Unknown), get(4, 5, 1), get(6, 7, 0)]);
        good("a rename", &[put(0, 1, 1), rename(2, 3, Done), get_at(4, 5, 1, B), get(4, 5, 0), rename(6, 7, NoFile)]);
        let onto = [put(0, 1, 1), put_at(0, 1, 2, B, Done), rename(2, 3, Exists)];
        good("a rename onto a file", &[&onto[..], &[operation(4, 5, Act::Delete(B), Done), rename(6, 7, Done)]].concat());
        good("a rename beside a get of each name", &[put(0, 1, 1), rename(2, 9, Done), get(3, 4, 0), get_at(5, 6, 1, B)]);
        let unsure = [put(0, 1, 1), rename(2, 3, Unknown), put(4, 5, 2), get_at(6, 7, 1, B), get(6, 7, 2)];
        good("a rename whose end isn't known", &unsure);
    }

    #[test]
    fn what_is_not_linearizable_is_found_not_to_be() {
        let bad = |name, history: &[Operation]| check(name, history, false);
        bad("a put that is lost", &[put(0, 1, 1), get(2, 3, 0)]);
        bad("a content that comes from nowhere", &[put(0, 1, 1), get(2, 3, 2)]);
        bad("an old content behind a new one", &[put(0, 1, 1), put(2, 3, 2), get(4, 5, 1)]);
        bad("a content before it was put", &[get(0, 1, 1), put(2, 3, 1)]);
        bad("a new content and then the old one", &[put(0, 1, 1), put(2, 9, 2), get(3, 4, 2), get(5, 6, 1)]);
        let seen = [put(0, 1, 1), put_at(2, 3, 2, A, Unknown), get(4, 5, 2), get(6, 7, 1)];
        bad("a put whose end isn't known is seen, and then what was before", &seen);
        bad("one file is deleted twice", &[put(0, 1, 1), delete(2, 9, Done), delete(2, 9, Done)]);
        bad("a file comes back", &[put(0, 1, 1), delete(2, 3, Done), get(4, 5, 1)]);
        bad("a file of two names", &[put(0, 1, 1), rename(2, 3, Done), get(4, 5, 1), get_at(4, 5, 1, B)]);
        bad("a rename that took another file's place", &[put(0, 1, 1), put_at(0, 1, 2, B, Done), rename(2, 3, Done)]);
        bad("a put that happened twice", &[put(0, 1, 1), delete(2, 3, Done), put(4, 5, 2), get(6, 7, 1)]);
    }

    #[test]
    fn a_power_failure_undoes_what_was_not_flushed_and_nothing_else() {
        let deleted = [put(0, 1, 1), delete(2, 3, Done), power(4)];
        check("a delete is undone", &[&deleted[..], &[get(5, 6, 1)]].concat(), true);
        check("a delete stays", &[&deleted[..], &[get(5, 6, 0)]].concat(), true);
        check("a put stays", &[put(0, 1, 1), power(2), get(3, 4, 0)], false);
        let flushed = [put(0, 1, 1), delete(2, 3, Done), put_at(4, 5, 2, B, Done), power(6)];
        check("a put flushes the delete before it", &[&flushed[..], &[get(7, 8, 1)]].concat(), false);
        let two = [put(0, 1, 1), put_at(0, 1, 2, B, Done), delete(2, 3, Done), operation(4, 5, Act::Delete(B), Done), power(6)];
        check("the later of two is undone", &[&two[..], &[get(7, 8, 0), get_at(7, 8, 2, B)]].concat(), true);
        check("the earlier of two alone isn't", &[&two[..], &[get(7, 8, 1), get_at(7, 8, 0, B)]].concat(), false);
        check("what is undone stays undone", &[&deleted[..], &[get(5, 6, 1), get(7, 8, 0)]].concat(), false);
        check("not at a second failure either", &[&deleted[..], &[get(5, 6, 0), power(7), get(8, 9, 1)]].concat(), false);
    }

    #[test]
    fn what_happens_by_its_return_or_never() {
        let faulty = [put(0, 1, 1), put_at(2, 3, 2, A, DoneOrNot)];
        check("it happened", &[&faulty[..], &[get(4, 5, 2), get(6, 7, 2)]].concat(), true);
        check("it never does", &[&faulty[..], &[get(4, 5, 1), get(6, 7, 1)]].concat(), true);
        check("it happens late", &[&faulty[..], &[get(4, 5, 1), get(6, 7, 2)]].concat(), false);
        check("it is undone", &[&faulty[..], &[get(4, 5, 2), power(6), get(7, 8, 1)]].concat(), true);
    }

    #[test]
    fn operations_of_one_process_happen_in_their_order() {
        let script = [put(0, 9, 1), behind(0, delete(0, 9, Done))];
        check("the delete is last", &[&script[..], &[get(10, 11, 0)]].concat(), true);
        check("the put is last", &[&script[..], &[get(10, 11, 1)]].concat(), false);
        let unknown = [delete(0, 9, Unknown), behind(0, put_at(0, 9, 1, B, Unknown))];
        check("the second behind the first, which changes nothing", &[&unknown[..], &[get_at(1, 2, 1, B)]].concat(), true);
        let first = [put(0, 1, 1), delete(2, 9, Unknown), behind(1, put_at(2, 9, 1, B, Unknown)), get_at(3, 4, 1, B), get(5, 6, 1)];
        check("the second without the first", &first, false);
        assert_eq!(verdict(&first, [NO_FILE; MOST_NAMES], true), Verdict::Linearizable, "the first was refused");
    }

    #[test]
    fn what_was_played_is_explained_and_one_get_that_returns_another_content_is_not() {
        let (mut chance, mut files, mut history) = (Chance::new(1981, "linear", 0), [NO_FILE; MOST_NAMES], Vec::new());
        for moment in 0..120_u64 {
            let (first, second) = if chance.one_in(2) { (A, B) } else { (B, A) };
            let acts = [Act::Put(first, moment as Content + 1), Act::Get(first), Act::Delete(first), Act::Rename(first, second)];
            let act = *chance.pick(&acts);
            let (response, behind) = happen(act, &files);
            files = behind;
            let is_forgotten = !matches!(act, Act::Get(_)) && moment % 20 == 0;
            let (call, back) = (100 * moment + 500 - chance.below(500), 100 * moment + 500 + chance.below(500));
            history.push(operation(call, back, act, if is_forgotten { Unknown } else { response }));
        }
        assert_eq!(verdict(&history, [NO_FILE; MOST_NAMES], false), Verdict::Linearizable);
        let is_read = |it: &Operation| it.call > 8_000 && matches!(it.response, Response::Content(_));
        let place = history.iter().position(is_read).expect("some get has a content");
        history[place].response = Response::Content(999);
        assert!(matches!(verdict(&history, [NO_FILE; MOST_NAMES], false), Verdict::Unexplained(_)));
    }
}

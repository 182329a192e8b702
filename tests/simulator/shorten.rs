//! Shortens a schedule that fails: leaves out kinds of faults, clients, operations and single faults, as long as the run fails alike.
//!
//! What is left out changes what happens behind it, so other faults may happen then. Each try says what still happened.

use crate::chance::FaultKind;
use crate::trial::Without;
use std::collections::BTreeSet;

/// So many runs are tried at most.
const MOST_TRIES: usize = 400;

/// What can be left out.
#[derive(Clone, Copy, PartialEq, Eq, PartialOrd, Ord, Debug)]
pub enum Item {
    Fault(FaultKind, u64),
    Work(usize, usize),
}

/// Plays without this. If the run fails alike, the result is what happened in it.
pub type Try<'a> = dyn FnMut(&Without) -> Option<Vec<Item>> + 'a;

struct Shortening<'a, 'b> {
    without: Without,
    items: Vec<Item>,
    tries: usize,
    try_it: &'a mut Try<'b>,
}

/// What can be left out of a run that fails, in which these items happened, besides what is left out already.
pub fn shorten(without: Without, items: Vec<Item>, try_it: &mut Try) -> Without {
    let mut shortening = Shortening { without, items, tries: 0, try_it };
    // from now on no fault happens that didn't happen in the first run
    shortening.without = shortening.extended(&[]);
    shortening.leave_out_groups();
    shortening.leave_out_items();
    shortening.without = shortening.extended(&[]);
    shortening.without
}

impl Shortening<'_, '_> {
    /// Leaves this out as well, if the run still fails alike.
    fn accepts(&mut self, without: Without) -> bool {
        if self.tries >= MOST_TRIES || without == self.without {
            return false;
        }
        self.tries += 1;
        let Some(items) = (self.try_it)(&without) else { return false };
        (self.without, self.items) = (without, items);
        true
    }

    /// Leaves out all faults of a kind, and all operations of a client.
    fn leave_out_groups(&mut self) {
        let group = |item: &Item| match *item {
            Item::Fault(kind, _) => kind as usize,
            Item::Work(client, _) => 100 + client,
        };
        let groups: BTreeSet<usize> = self.items.iter().map(group).collect();
        for one in groups {
            let items: Vec<Item> = self.items.iter().filter(|item| group(item) == one).copied().collect();
            let without = self.extended(&items);
            self.accepts(without);
        }
    }

    /// What is left out, with these items besides. Of all faults those of the last run alone may happen.
    fn extended(&self, items: &[Item]) -> Without {
        let mut without = self.without.clone();
        let mut only = BTreeSet::new();
        for item in &self.items {
            match *item {
                Item::Fault(kind, index) if !items.contains(item) => {
                    only.insert((kind, index));
                }
                Item::Work(client, place) if items.contains(item) => {
                    without.works.insert((client, place));
                }
                _ => {}
            }
        }
        without.only = Some(only);
        without
    }

    /// Leaves out halves, then quarters and so on, down to single items.
    fn leave_out_items(&mut self) {
        let mut size = self.items.len().div_ceil(2);
        while size >= 1 && self.tries < MOST_TRIES {
            let (mut place, mut is_shorter) = (0, false);
            while place < self.items.len() {
                let end = self.items.len().min(place + size);
                let without = self.extended(&self.items[place..end]);
                if self.accepts(without) {
                    is_shorter = true;
                } else {
                    place += size;
                }
                if self.tries >= MOST_TRIES {
                    return;
                }
            }
            if size == 1 && !is_shorter {
                return;
            }
            size = size.div_ceil(2).min(self.items.len().max(1));
        }
    }
}

#[cfg(test)]
mod tests {
    use super::*;

    #[test]
    fn all_that_the_failure_does_not_need_is_left_out() {
        let works = (1..5).flat_map(|client| (0..4).map(move |place| Item::Work(client, place)));
        let faults = (0..40).flat_map(|index| [Item::Fault(FaultKind::Loss, index), Item::Fault(FaultKind::Kill, index)]);
        let all: Vec<Item> = works.chain(faults).collect();
        let needed = [Item::Fault(FaultKind::Kill, 7), Item::Work(2, 3), Item::Fault(FaultKind::Kill, 31)];
        let left = |without: &Without| -> Vec<Item> {
            let is_left = |item: &&Item| match **item {
                Item::Fault(kind, index) => without.only.as_ref().is_none_or(|only| only.contains(&(kind, index))),
                Item::Work(client, place) => !without.works.contains(&(client, place)),
            };
            all.iter().filter(is_left).copied().collect()
        };
        let mut try_it = |without: &Without| Some(left(without)).filter(|rest| needed.iter().all(|it| rest.contains(it)));
        let without = shorten(Without::default(), all.clone(), &mut try_it);
        let mut rest = left(&without);
        rest.sort();
        let mut needed = needed.to_vec();
        needed.sort();
        assert_eq!(rest, needed);
    }
}

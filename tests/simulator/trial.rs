//! A trial: a seed is played, without what is left out of it, and judged.

use crate::chance::FaultKind;
use crate::image::Image;
use crate::indices;
use crate::judge::{judge, Judgement};
use crate::play::{play, Record};
use crate::scenario::Scenario;
use crate::wrong::Wrong;
use std::collections::BTreeSet;
use std::fmt::{Display, Formatter};

/// What is left out of a seed.
#[derive(Clone, Default, PartialEq, Eq, Debug)]
pub struct Without {
    pub kinds: BTreeSet<FaultKind>,
    pub faults: BTreeSet<(FaultKind, u64)>,
    /// The faults that alone may happen, where there are such.
    pub only: Option<BTreeSet<(FaultKind, u64)>>,
    /// Operations, as pairs of a client and a place.
    pub works: BTreeSet<(usize, usize)>,
    /// Once in how many chances each kind of fault happens, in place of the seed's own rates.
    pub rates: Option<BTreeSet<(FaultKind, u64)>>,
}

impl Without {
    /// Reads `loss:3,kill:*,op:2.1`: the loss at chance 3, each kill, and operation 1 of client 2.
    pub fn read(text: &str) -> Option<Self> {
        let mut without = Without::default();
        for word in text.split(',').filter(|word| !word.is_empty()) {
            let (name, number) = word.split_once(':')?;
            if name == "op" {
                let (client, place) = number.split_once('.')?;
                without.works.insert((client.parse().ok()?, place.parse().ok()?));
                continue;
            }
            let kind = *FaultKind::ALL.iter().find(|kind| kind.name() == name)?;
            match number {
                "*" => without.kinds.insert(kind),
                _ => without.faults.insert((kind, number.parse().ok()?)),
            };
        }
        Some(without)
    }

    /// Whether anything is left out.
    pub fn leaves_out(&self) -> bool {
        *self != Without { rates: self.rates.clone(), ..Without::default() }
    }

    /// The option that sets the rates, if they aren't the seed's own.
    pub fn rate_words(&self) -> Vec<String> {
        let list =
            |rates: &BTreeSet<(FaultKind, u64)>| rates.iter().map(|(kind, rate)| format!("{}:{rate}", kind.name())).collect::<Vec<_>>();
        self.rates.iter().flat_map(|rates| ["--rates".to_string(), list(rates).join(",")]).collect()
    }

    /// The options of a command line that leave this out.
    pub fn words(&self) -> String {
        let list =
            |faults: &BTreeSet<(FaultKind, u64)>| faults.iter().map(|(kind, index)| format!("{}:{index}", kind.name())).collect::<Vec<_>>();
        let mut words = String::new();
        if let Some(only) = &self.only {
            words = format!(" --only '{}'", list(only).join(","));
        }
        self.rate_words().iter().for_each(|word| words.push_str(&format!(" {word}")));
        let text = self.to_string();
        if text.is_empty() {
            words
        } else {
            format!("{words} --without {text}")
        }
    }
}

impl Display for Without {
    fn fmt(&self, f: &mut Formatter) -> std::fmt::Result {
        let kinds = self.kinds.iter().map(|kind| format!("{}:*", kind.name()));
        let faults =
            self.faults.iter().filter(|(kind, _)| !self.kinds.contains(kind)).map(|(kind, index)| format!("{}:{index}", kind.name()));
        let works = self.works.iter().map(|(client, place)| format!("op:{client}.{place}"));
        write!(f, "{}", kinds.chain(faults).chain(works).collect::<Vec<_>>().join(","))
    }
}

/// A seed that was played and judged.
pub struct Trial {
    pub scenario: Scenario,
    pub record: Record,
    pub judgement: Judgement,
}

impl Trial {
    /// Plays a seed and judges the run.
    pub fn of(image: &'static Image, seed: u64, without: &Without, is_traced: bool) -> Self {
        let mut scenario = match &without.rates {
            None => Scenario::of(seed),
            Some(list) => {
                let mut rates = [0; 16];
                list.iter().for_each(|(kind, rate)| rates[*kind as usize] = *rate);
                Scenario::with_rates(seed, rates)
            }
        };
        scenario.leave_out(&without.works, &without.kinds);
        let record = play(image, &scenario, without, is_traced);
        let mut judgement = judge(&scenario, &record);
        if judgement.complaints.iter().any(|it| !it.wrong.is_always_wrong()) {
            let again = (!is_traced).then(|| play(image, &scenario, without, true));
            if indices::is_one_shared(again.as_ref().unwrap_or(&record)) {
                judgement.complaints.retain(|it| it.wrong.is_always_wrong());
            }
        }
        Trial { scenario, record, judgement }
    }

    /// The kind of what is wrong first of all.
    pub fn wrong(&self) -> Option<Wrong> {
        self.judgement.complaints.iter().map(|it| it.wrong).min()
    }
}

#[cfg(test)]
mod tests {
    use super::*;

    #[test]
    fn what_is_left_out_is_read_back() {
        let text = "kill:*,loss:3,op:2.1";
        let without = Without::read(text).expect("it is well formed");
        assert_eq!((without.to_string(), Without::read("loss"), Without::read("los:3")), (text.into(), None, None));
        assert!(Without::read("").is_some_and(|it| !it.leaves_out()));
    }
}

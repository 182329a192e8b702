//! What is printed of a run: of one that failed, and of one that is looked at closely.

use crate::chance::FaultKind;
use crate::image::Image;
use crate::ladder::Ladder;
use crate::linear::{Act, Operation};
use crate::options::Options;
use crate::scenario::Scenario;
use crate::shorten::{shorten, Item};
use crate::svg;
use crate::trial::{Trial, Without};
use crate::wrong::Wrong;
use std::collections::BTreeSet;
use std::fmt::Write;

/// A text has no more lines of a ladder.
const MOST_LINES: usize = 250;

/// What can be left out of a trial.
fn items_of(trial: &Trial) -> Vec<Item> {
    let works = trial.scenario.clients.iter().flat_map(|client| client.works.iter().map(|work| Item::Work(client.host, work.place)));
    let faults = trial.record.happened.iter().map(|fault| Item::Fault(fault.kind, fault.index));
    works.chain(faults).collect()
}

/// What can be left out of a seed that fails so.
fn shortened(image: &'static Image, (seed, first): (u64, &Without), trial: &Trial, wrong: Wrong, go_on: &mut dyn FnMut()) -> Without {
    shorten(first.clone(), items_of(trial), &mut |without| {
        go_on();
        let trial = Trial::of(image, seed, without, false);
        (trial.wrong() == Some(wrong)).then(|| items_of(&trial))
    })
}

/// The report of a seed that failed: what the judges say and, if that is asked for, its shortened schedule. `go_on` is called at each try.
pub fn failure(image: &'static Image, options: &Options, seed: u64, trial: &Trial, is_shortened: bool, go_on: &mut dyn FnMut()) -> String {
    let mut text = format!("seed {seed} fails\n");
    put_complaints(&mut text, trial);
    let Some(wrong) = trial.wrong().filter(|_| is_shortened) else {
        let _ = writeln!(text, "replay: simulator {} --seed {seed} --trace{}", options.program, options.without.words());
        return text;
    };
    let without = shortened(image, (seed, &options.without), trial, wrong, go_on);
    let short = Trial::of(image, seed, &without, true);
    let _ = writeln!(text, "shortened, seed {seed} fails:");
    put_complaints(&mut text, &short);
    put_history(&mut text, &short);
    put_ladder(&mut text, &short);
    let _ = writeln!(text, "replay: simulator {} --seed {seed} --trace{}", options.program, without.words());
    text
}

fn put_complaints(text: &mut String, trial: &Trial) {
    let mut said = BTreeSet::new();
    for complaint in &trial.judgement.complaints {
        if said.insert((complaint.wrong, complaint.text.clone())) && said.len() <= 8 {
            let _ = writeln!(text, "  {:?}: {}", complaint.wrong, complaint.text.trim_end().replace('\n', "\n    "));
        }
    }
}

/// An operation as a line of a history.
fn line_of(scenario: &Scenario, place: usize, operation: &Operation) -> String {
    let name = |place: usize| scenario.names[place];
    let act = match operation.act {
        Act::Put(at, content) => format!("put {} ({})", name(at), scenario.contents.shown(content)),
        Act::Get(at) => format!("get {}", name(at)),
        Act::Delete(at) => format!("delete {}", name(at)),
        Act::Rename(old, new) => format!("rename {} to {}", name(old), name(new)),
        Act::Power => "the power of the server fails".into(),
    };
    let behind = operation.behind.map_or(String::new(), |other| format!(", behind {other}"));
    let millis = |moment: u64| moment as f64 / 1e6;
    format!("  {place:>3} {:>11.3} to {:>11.3} ms: {act}: {:?}{behind}", millis(operation.call), millis(operation.back), operation.response)
}

fn put_history(text: &mut String, trial: &Trial) {
    if !trial.judgement.complaints.iter().any(|it| it.wrong == Wrong::Order) {
        return;
    }
    text.push_str("history:\n");
    let mut lines: Vec<(u64, String)> = Vec::new();
    for (place, operation) in trial.judgement.history.iter().enumerate() {
        lines.push((operation.call, line_of(&trial.scenario, place, operation)));
    }
    lines.sort();
    for (_, line) in lines {
        let _ = writeln!(text, "{line}");
    }
}

fn put_ladder(text: &mut String, trial: &Trial) {
    let ladder = Ladder::of(&trial.scenario, &trial.record);
    let lines = ladder.text();
    let count = lines.len();
    for line in lines.iter().take(MOST_LINES) {
        let _ = writeln!(text, "{line}");
    }
    if count > MOST_LINES {
        let _ = writeln!(text, "and {} lines more", count - MOST_LINES);
    }
}

/// Plays one seed, and prints what is asked for. The result is whether it didn't fail.
pub fn look_closely(image: &'static Image, options: &Options) -> Result<bool, String> {
    let trial = Trial::of(image, options.seed, &options.without, true);
    let is_good = trial.judgement.complaints.is_empty();
    if options.is_digest {
        println!("{:016x}", trial.record.digest);
        return Ok(is_good);
    }
    if let Some(path) = &options.picture {
        let picture = svg::picture(&Ladder::of(&trial.scenario, &trial.record));
        std::fs::write(path, picture).map_err(|error| format!("can't write {path}: {error}"))?;
    }
    if options.is_traced {
        print_calls(&trial);
    }
    print_trial(&trial, options.seed);
    Ok(is_good)
}

/// Each call, at its moment.
fn print_calls(trial: &Trial) {
    for call in &trial.record.calls {
        println!("{:>14.6} ms  process {} of machine {}: {}", call.at as f64 / 1e6, call.process.0, call.host, call.text);
    }
}

fn print_trial(trial: &Trial, seed: u64) {
    let mut text = String::new();
    let rates = FaultKind::ALL.iter().filter(|&&kind| trial.scenario.rates[kind as usize] > 0);
    let rates: Vec<String> = rates.map(|&kind| format!("{} once in {}", kind.name(), trial.scenario.rates[kind as usize])).collect();
    let _ =
        writeln!(text, "seed {seed}, {:?}, faults for {} ms: {}", trial.scenario.seal, trial.scenario.until / 1_000_000, rates.join(", "));
    put_ladder(&mut text, trial);
    for fault in &trial.record.happened {
        let _ = writeln!(text, "{:>14.6} ms  {}:{}", fault.at as f64 / 1e6, fault.kind.name(), fault.index);
    }
    text.push_str("history:\n");
    for (place, operation) in trial.judgement.history.iter().enumerate() {
        let _ = writeln!(text, "{}", line_of(&trial.scenario, place, operation));
    }
    if trial.judgement.complaints.is_empty() {
        text.push_str("nothing is wrong\n");
    } else {
        let _ = writeln!(text, "seed {seed} fails");
        put_complaints(&mut text, trial);
    }
    print!("{text}");
}

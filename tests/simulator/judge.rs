//! Judges a run: its history, its statuses and messages, its memory.

use crate::chance::FaultKind;
use crate::history::{is_note, Ended, History, NO_LINE};
use crate::linear::{verdict, Act, Operation, Response, Verdict, MOST_NAMES, MOST_OPERATIONS, NO_FILE};
use crate::lines;
use crate::play::{Record, Run};
use crate::process::End;
use crate::scenario::{Scenario, Task};
use crate::wrong::{Complaint, Wrong};

/// The most bytes of heap that a server and a client may hold. The greatest of 380,000 runs were 1,326,663 and
/// 203,156 bytes.
pub const MOST_SERVER: usize = 2 << 20;
pub const MOST_CLIENT: usize = 512 << 10;

/// On a network whose datagrams take longer, a client may give up although nothing goes wrong.
const MOST_USUAL: u64 = 60_000_000;
/// So it is on a line that carries fewer bytes a second.
const LEAST_USUAL: u64 = 100_000;
/// So many packets may arrive twice in any run: a timer may run out once while the acknowledgement of a flight is on its way, and the whole flight
/// then goes again.
const SPARED: u64 = 32;
/// A client that waits for so long while nothing goes wrong gets its reply, whatever was lost before.
const LONG_WAIT: u64 = 5_000_000_000;

/// What the judges say of a run.
#[derive(Default)]
pub struct Judgement {
    pub complaints: Vec<Complaint>,
    pub history: Vec<Operation>,
    /// Whether the search for an order gave up.
    pub is_too_hard: bool,
}

struct Judge<'a> {
    scenario: &'a Scenario,
    record: &'a Record,
    found: Judgement,
}

/// Judges a run of a scenario.
pub fn judge(scenario: &Scenario, record: &Record) -> Judgement {
    let mut judge = Judge { scenario, record, found: Judgement::default() };
    judge.found.complaints.extend(record.complaints.iter().cloned());
    for run in &record.runs {
        judge.judge_run(run);
        judge.judge_success(run);
    }
    judge.judge_history();
    judge.judge_repeats();
    if judge.has(FaultKind::Flip) && !scenario.seal.has_keys() {
        judge.found.complaints.retain(|it| it.wrong.is_always_wrong());
    }
    judge.found
}

impl Judge<'_> {
    fn complain(&mut self, wrong: Wrong, text: String) {
        self.found.complaints.push(Complaint { wrong, text });
    }

    fn has(&self, kind: FaultKind) -> bool {
        self.record.happened.iter().any(|fault| fault.kind == kind)
    }

    fn judge_run(&mut self, run: &Run) {
        let words = match &run.work {
            Some(work) => format!("{:?} of machine {}", work.task, run.host),
            None => "the server".to_string(),
        };
        let errors = String::from_utf8_lossy(&run.errors);
        match &run.end {
            End::Trapped(why) => self.complain(Wrong::Trap, format!("{words}: {why}")),
            End::Status(status) if !(0..=4).contains(status) => self.complain(Wrong::Status, format!("{words}: status {status}")),
            End::Status(4) if !self.has(FaultKind::Refused) => {
                self.complain(Wrong::Status, format!("{words}: status 4, and memory was there: {errors}"))
            }
            End::Status(2) => self.complain(Wrong::Status, format!("{words}: status 2: {errors}")),
            _ => {}
        }
        let bound = if run.work.is_none() { MOST_SERVER } else { MOST_CLIENT };
        if run.peak > bound {
            self.complain(Wrong::Memory, format!("{words}: {} bytes of heap", run.peak));
        }
        self.judge_errors(run, &words, &errors);
        if run.work.is_none() {
            self.judge_server(run, &errors);
        }
    }

    /// Standard error has whole lines of the program; a report of `--verbose` begins with a file's name.
    fn judge_errors(&mut self, run: &Run, words: &str, errors: &str) {
        let is_verbose = run.work.as_ref().is_some_and(|work| work.options.iter().any(|it| it == "--verbose"));
        let is_timed = run.work.is_none() && self.scenario.server.options.iter().any(|it| it == "--log-time");
        let is_right = |line: &str| match line.find("chaosd: ") {
            Some(0) => true,
            Some(21) => is_timed,
            None if line == NO_LINE => self.has(FaultKind::Refused),
            _ => is_verbose && (line.contains(" bytes, ") || line.ends_with(" deleted") || line.contains(" renamed to ")),
        };
        let is_whole = errors.is_empty() || errors.ends_with('\n');
        if !is_whole || !errors.lines().all(is_right) {
            self.complain(Wrong::Errors, format!("{words}: {errors:?}"));
        }
        let caused = [("MEM No memory", &[FaultKind::Refused][..]), ("STF Store fault", &DISKS[..])];
        let output = String::from_utf8_lossy(&run.output);
        for (text, kinds) in caused {
            let is_said =
                errors.contains(text) || matches!(run.work.as_ref().map(|it| &it.task), Some(Task::Ask(_))) && output.contains(text);
            if is_said && !kinds.iter().any(|&kind| self.has(kind)) {
                self.complain(Wrong::Reply, format!("{words}: {text}, which nothing caused"));
            }
        }
    }

    /// An operation succeeds if it began when nothing went wrong any more, and while the same server ran, or if it waited for long since
    /// then. A late packet of an earlier run of the host may end it, since one index in 256 is the same: so it is the first operation of its
    /// host, or one of which no such packet is late.
    fn judge_success(&mut self, run: &Run) {
        let Some(work) = &run.work else { return };
        let quiet = if self.record.happened.is_empty() { 0 } else { self.record.until };
        let is_served = self.record.runs.iter().any(|it| it.work.is_none() && it.begun <= run.begun && run.ended <= it.ended);
        let earlier = || self.record.runs.iter().filter(|it| it.host == run.host && it.begun < run.begun);
        let (is_first, all_ended_well) = (earlier().next().is_none(), earlier().all(|it| it.end == End::Status(0)));
        let has_clocks = self.scenario.seal.has_keys() && self.has(FaultKind::ClockJump);
        let said = String::from_utf8_lossy(&run.errors);
        let waited = run.ended.saturating_sub(quiet.max(run.begun)) >= LONG_WAIT;
        let none_is_late = all_ended_well && !self.has(FaultKind::Repeat) && !self.has(FaultKind::Delay);
        let is_stalled = waited && none_is_late && (said.contains("no reply came in") || said.contains("no connection opened in"));
        let is_spared = (run.begun < quiet || !is_first) && !is_stalled;
        if is_spared || !is_served || has_clocks || !self.is_usual() || run.is_final {
            return;
        }
        let (errors, output) = (String::from_utf8_lossy(&run.errors), String::from_utf8_lossy(&run.output));
        let is_refusal = |line: &str| line.ends_with("FNF No such file.") || line.ends_with("FAE File exists.");
        let is_done = match (&work.task, &run.end) {
            (Task::Ask(commands), End::Status(0)) => output.lines().count() == commands.len(),
            (Task::Ask(_), End::Status(3)) => {
                output.lines().last().is_some_and(|line| is_refusal(line) || line.ends_with("NOH No such handle."))
            }
            (_, End::Status(0)) => true,
            (_, End::Status(3)) => errors.lines().filter(|line| !is_note(line)).all(is_refusal),
            _ => false,
        };
        if !is_done && !errors.contains("Connection table full") {
            self.complain(Wrong::Failed, format!("{:?} of machine {}: {:?}, {errors:?}, {output:?}", work.task, run.host, run.end));
        }
    }

    /// The server ends by itself only if something keeps it from beginning, or memory is refused.
    fn judge_server(&mut self, run: &Run, errors: &str) {
        let End::Status(status) = run.end else { return };
        let is_caused = self.has(FaultKind::Refused)
            || DISKS.iter().any(|&kind| self.has(kind)) && errors.contains("chaosd: can't ")
            || errors.contains("key");
        let is_late = self.record.happened.iter().map(|it| it.at).max().is_none_or(|last| run.begun > last);
        if !is_caused || is_late {
            self.complain(Wrong::ServerEnded, format!("the server ended with status {status}: {errors}"));
        }
    }

    /// Where nothing goes wrong and the network is fast enough, at most 1% of the packets arrive twice, beside 32.
    fn judge_repeats(&mut self) {
        let Some(repeats) = &self.record.repeats else { return };
        if self.is_usual() && repeats.again > SPARED + repeats.arrived / 100 {
            let text = format!("{} of {} packets arrived that had arrived before", repeats.again, repeats.arrived);
            self.complain(Wrong::Repeated, text);
        }
    }

    /// Whether the network is so fast that a client gives up only if something goes wrong.
    fn is_usual(&self) -> bool {
        self.scenario.pace.most <= MOST_USUAL && self.scenario.line.is_none_or(|line| line.bytes_a_second >= LEAST_USUAL)
    }

    fn judge_history(&mut self) {
        let mut history = History::default();
        for run in &self.record.runs {
            self.note(run, &mut history);
        }
        for &at in &self.record.powers {
            history.operations.push(Operation { call: at, back: at, act: Act::Power, response: Response::Done, behind: None });
        }
        self.found.complaints.append(&mut history.complaints);
        if history.operations.len() <= MOST_OPERATIONS {
            let may_refuse = self.has(FaultKind::Refused) || DISKS.iter().any(|&kind| self.has(kind));
            match verdict(&history.operations, [NO_FILE; MOST_NAMES], may_refuse) {
                Verdict::Linearizable => {}
                Verdict::TooHard => self.found.is_too_hard = true,
                Verdict::Unexplained(places) => self.complain(Wrong::Order, format!("no order explains the operations {places:?}")),
            }
        } else {
            self.found.is_too_hard = true;
        }
        self.found.history = history.operations;
    }

    fn note(&mut self, run: &Run, history: &mut History) {
        let Some(work) = &run.work else { return };
        let status = if let End::Status(status) = run.end { Some(status) } else { None };
        let (output, errors) = (String::from_utf8_lossy(&run.output), String::from_utf8_lossy(&run.errors));
        let named = match &work.task {
            Task::Put(..) => lines::sources(self.scenario, work),
            Task::Get(names, _) | Task::Delete(names) => names.iter().map(|&name| self.scenario.names[name].to_string()).collect(),
            Task::Rename(old, _) => vec![self.scenario.names[*old].to_string()],
            Task::Ask(_) => Vec::new(),
        };
        let is_expected = |line: &str| line.ends_with(": FNF No such file.") || line.starts_with("chaosd: ") && is_note(line);
        if run.is_final && (status.is_none() || !errors.lines().all(is_expected)) {
            if !errors.contains("Connection table full") {
                self.complain(Wrong::Final, format!("the last get: {:?}, {errors:?}", run.end));
            }
        }
        let ended = Ended { work, call: run.begun, back: run.ended, status, output: &output, errors: &errors, named, got: &run.got };
        history.note(&ended, &self.scenario.contents);
    }
}

/// The faults of disks.
const DISKS: [FaultKind; 4] = [FaultKind::WriteFails, FaultKind::FlushFails, FaultKind::NoSpace, FaultKind::DiskFails];

//! Plays a scenario: begins processes, kills them, begins them again, and keeps what they did for the judges.

use crate::chance::{Chance, Fault, FaultKind, Faults};
use crate::image::Image;
use crate::lines;
use crate::machine::{Event, Machine, Noted, ProcessId};
use crate::net::{Host, Sent};
use crate::repeats::Repeats;
use crate::process::{End, Start};
use crate::scenario::{Scenario, Target, Task, Work};
use crate::trial::Without;
use crate::wrong::{Complaint, Wrong};
use std::collections::BTreeMap;

const MILLISECOND: u64 = 1_000_000;
const SECOND: u64 = 1_000 * MILLISECOND;
/// An operation takes at most so long once nothing goes wrong, besides twice its `--timeout`. In 150,000 runs the longest
/// took 22 hundredths of its bound.
const BOUND: u64 = 20 * SECOND;
/// Each command takes at most so many times as long as a datagram, besides.
const ROUNDS: u64 = 12;
/// How long clients wait for a reply where no option says so.
const USUAL_PATIENCE: u64 = 17;
/// The server gives up a client that says nothing for 90 seconds. Behind so long all its connections are free.
const ALL_FREE: u64 = 100 * SECOND;
/// A run has no more steps: it would have no end.
const MOST_STEPS: u64 = 20_000_000;

/// A run of the program that is over.
pub struct Run {
    pub host: Host,
    /// What a client was to do; none for the server.
    pub work: Option<Work>,
    pub begun: u64,
    pub ended: u64,
    pub end: End,
    pub output: Vec<u8>,
    pub errors: Vec<u8>,
    pub peak: usize,
    /// What a `get` wrote, for each of its names.
    pub got: Vec<Option<Vec<u8>>>,
    /// Whether it is the get at the end.
    pub is_final: bool,
}

/// A moment of a machine, for a picture.
#[derive(Clone, Debug)]
pub struct Mark {
    pub at: u64,
    pub host: Host,
    pub text: String,
}

/// What a run of a scenario came to.
#[derive(Default)]
pub struct Record {
    pub runs: Vec<Run>,
    /// When the power of the server's machine failed.
    pub powers: Vec<u64>,
    pub complaints: Vec<Complaint>,
    pub happened: Vec<Fault>,
    /// From this moment on nothing went wrong.
    pub until: u64,
    pub steps: u64,
    pub digest: u64,
    /// The longest that an operation took once nothing went wrong.
    pub longest: u64,
    /// The greatest part of its bound that an operation took then, in hundredths.
    pub strain: u64,
    /// What the server's folder holds at the end.
    pub folder: BTreeMap<Vec<u8>, Vec<u8>>,
    pub marks: Vec<Mark>,
    pub trace: Vec<Sent>,
    /// What arrived more than once, where nothing could go wrong and nothing was lost.
    pub repeats: Option<Repeats>,
    pub calls: Vec<Noted>,
}

/// What is to be done at a moment.
#[derive(Clone, Copy, PartialEq, Eq)]
enum Duty {
    Serve,
    /// The next operation of that client, by its place.
    Work(usize),
    Final,
}

/// A run that goes on.
struct Running {
    id: ProcessId,
    host: Host,
    work: Option<Work>,
    begun: u64,
    is_final: bool,
    /// How long it may take once nothing goes wrong.
    bound: u64,
}

struct Play<'a> {
    scenario: &'a Scenario,
    machine: Machine,
    agenda: Vec<(u64, Duty)>,
    running: Vec<Running>,
    /// By client: how many of its operations began.
    begun: Vec<usize>,
    chance: Chance,
    /// When the server began last.
    served: u64,
    calm: Option<u64>,
    /// By then the operations that run must have ended.
    late: u64,
    finals: usize,
    /// The run is over: processes that still run are ended.
    is_over: bool,
    /// What each local file holds by the last get that ended well; none where a later get may have replaced it.
    locals: BTreeMap<(Host, &'static [u8], String), Option<Vec<u8>>>,
    record: Record,
}

/// Plays a scenario without what is left out. The trace is kept where it is asked for.
pub fn play(image: &'static Image, scenario: &Scenario, without: &Without, is_traced: bool) -> Record {
    let mut faults = Faults::new(scenario.seed, scenario.rates, scenario.until, without.faults.clone());
    faults.only = without.only.clone();
    let mut machine = Machine::new(image, scenario.seed, scenario.hosts(), (scenario.pace, scenario.line), faults);
    for (host, disk) in machine.disks.iter_mut().enumerate() {
        *disk = lines::disk(scenario, host);
    }
    (machine.net.traced, machine.traced) = (is_traced, is_traced);
    machine.net.repeats = scenario.counts_repeats().then(Repeats::default);
    let mut agenda = vec![(scenario.server.begins, Duty::Serve)];
    agenda.extend(scenario.clients.iter().enumerate().map(|(place, client)| (client.begins, Duty::Work(place))));
    let mut play = Play {
        scenario,
        machine,
        agenda,
        running: Vec::new(),
        begun: vec![0; scenario.clients.len()],
        chance: Chance::new(scenario.seed, "play", 0),
        served: 0,
        calm: None,
        late: u64::MAX,
        finals: 0,
        is_over: false,
        locals: BTreeMap::new(),
        record: Record::default(),
    };
    while !play.is_over {
        play.step();
    }
    play.finish()
}

/// About how many commands a client sends, or may have to send.
fn commands_of(work: &Work, scenario: &Scenario) -> u64 {
    let most = scenario.clients.iter().flat_map(|client| &client.works).flat_map(|work| match &work.task {
        Task::Put(files, _) => files.iter().map(|(_, content)| scenario.contents.bytes(*content).len()).collect(),
        _ => Vec::new(),
    });
    let pieces = most.max().unwrap_or(0) as u64 / 448 + 4;
    match &work.task {
        Task::Put(files, _) => files.len() as u64 * pieces,
        Task::Get(names, _) | Task::Delete(names) => names.len() as u64 * pieces,
        Task::Rename(..) => 1,
        Task::Ask(commands) => commands.len() as u64,
    }
}

/// How long a client's run may take once nothing goes wrong.
fn bound_of(work: &Work, scenario: &Scenario) -> u64 {
    let place = work.options.iter().position(|word| word == "--timeout" || word == "-t");
    let seconds = place.and_then(|place| work.options[place + 1].parse().ok()).unwrap_or(USUAL_PATIENCE);
    let rounds = commands_of(work, scenario) * ROUNDS;
    let carried = scenario.line.map_or(0, |line| (rounds * scenario.clients.len() as u64 + line.queue as u64) * line.packet_time());
    BOUND + 2 * seconds.max(1) * SECOND + rounds * scenario.pace.most + carried
}

impl Play<'_> {
    fn complain(&mut self, wrong: Wrong, text: String) {
        self.record.complaints.push(Complaint { wrong, text });
    }

    fn mark(&mut self, host: Host, text: String) {
        if self.machine.net.traced {
            self.record.marks.push(Mark { at: self.machine.now, host, text });
        }
    }

    /// Lets the world go on by one event.
    fn step(&mut self) {
        let duty = self.agenda.iter().enumerate().min_by_key(|(place, (at, _))| (*at, *place)).map(|(place, _)| place);
        let until = duty.map_or(u64::MAX, |place| self.agenda[place].0).min(self.late);
        match self.machine.step(until) {
            Event::Called(id) => self.may_kill(id),
            Event::Ended(id) => self.end(id),
            Event::Time => match duty {
                Some(place) if self.agenda[place].0 <= self.machine.now => {
                    let (_, duty) = self.agenda.swap_remove(place);
                    self.do_duty(duty);
                }
                _ => self.give_up(),
            },
        }
        if self.machine.steps > MOST_STEPS {
            self.give_up();
        }
    }

    /// When the first of the operations that run must have ended. While faults happen there is no such moment.
    fn deadline(&self) -> u64 {
        let calm = self.calm.unwrap_or(self.machine.faults.until);
        let works = self.running.iter().filter(|run| run.work.is_some());
        works.map(|run| run.begun.max(calm.max(self.served)) + run.bound).min().unwrap_or(u64::MAX)
    }

    fn give_up(&mut self) {
        let running: Vec<String> =
            self.running.iter().map(|run| format!("{:?} of machine {}", run.work.as_ref().map(|it| &it.task), run.host)).collect();
        self.complain(
            Wrong::Late,
            format!("{} ms after the world began there still run: {}", self.machine.now / MILLISECOND, running.join(", ")),
        );
        self.is_over = true;
    }

    fn do_duty(&mut self, duty: Duty) {
        match duty {
            Duty::Serve => {
                self.served = self.machine.now;
                self.begin(0, None, false);
            }
            Duty::Work(place) => self.begin_work(place),
            Duty::Final => self.begin_final(),
        }
    }

    fn begin(&mut self, host: Host, work: Option<Work>, is_final: bool) {
        let (words, input) = match &work {
            None => (lines::server_words(self.scenario), Vec::new()),
            Some(work) => (lines::client_words(self.scenario, host, work), lines::input(self.scenario, work)),
        };
        self.mark(host, words.join(" "));
        let id = self.machine.start(Start { host, words, input, environment: Vec::new() });
        let bound = work.as_ref().map_or(0, |work| bound_of(work, self.scenario));
        self.running.push(Running { id, host, work, begun: self.machine.now, is_final, bound });
        self.late = self.deadline();
    }

    /// Begins the next operation of a client. Once no client has one, nothing goes wrong any more.
    fn begin_work(&mut self, place: usize) {
        let client = &self.scenario.clients[place];
        let next = self.begun[place];
        if let Some(work) = client.works.get(next) {
            self.begun[place] += 1;
            self.begin(client.host, Some(work.clone()), false);
        } else if !self.agenda.iter().any(|(_, duty)| *duty != Duty::Serve) && !self.running.iter().any(|run| run.work.is_some()) {
            self.calm_down();
        }
    }

    /// From now on nothing goes wrong. As soon as the server runs, each file is got once more.
    fn calm_down(&mut self) {
        let now = self.machine.now;
        self.calm = Some(now.min(self.machine.faults.until));
        self.machine.faults.until = self.machine.faults.until.min(now);
        self.machine.net.calm();
        for disk in &mut self.machine.disks {
            disk.calm();
        }
        for clock in &mut self.machine.clocks {
            clock.calm(now);
        }
        let serves = self.agenda.iter().find(|(_, duty)| *duty == Duty::Serve).map_or(now, |(at, _)| *at);
        self.agenda.push((serves + 20 * MILLISECOND, Duty::Final));
    }

    /// The gets at the end, by a machine that did nothing before.
    fn begin_final(&mut self) {
        self.finals += 1;
        let options = vec!["--timeout".into(), "60".into()];
        let task = Task::Get((0..self.scenario.names.len()).collect(), Target::Folder);
        self.begin(self.scenario.hosts() - 1, Some(Work { place: 99, pause: 0, task, options }), true);
    }

    /// At this call its process may be killed, or the power of its machine may fail.
    fn may_kill(&mut self, id: ProcessId) {
        let now = self.machine.now;
        if self.machine.faults.happens(FaultKind::Kill, now).is_some() {
            self.mark(self.machine.host(id), "killed".into());
            self.machine.kill(id);
            self.end(id);
        }
        if self.machine.faults.happens(FaultKind::Power, now).is_some() {
            let host = self.machine.host(id);
            self.mark(host, "the power fails".into());
            self.machine.lose_power(host);
            let ended: Vec<ProcessId> = self.running.iter().filter(|run| run.host == host).map(|run| run.id).collect();
            if host == 0 {
                self.record.powers.push(now);
            }
            for id in ended {
                self.end(id);
            }
            self.look_at_locals(host);
        }
    }

    /// A process has ended.
    fn end(&mut self, id: ProcessId) {
        let Some(place) = self.running.iter().position(|run| run.id == id) else { return };
        let run = self.running.swap_remove(place);
        self.late = self.deadline();
        let end = self.machine.ended(id).cloned().unwrap_or(End::Killed);
        let errors = String::from_utf8_lossy(self.machine.errors(id)).replace('\n', "; ");
        self.mark(run.host, format!("ends: {end:?} {}", errors.trim_end()).trim_end().to_string());
        let now = self.machine.now;
        if run.work.is_some() {
            let calm = self.calm.unwrap_or(self.machine.faults.until).max(self.served).max(run.begun);
            self.record.longest = self.record.longest.max(now.saturating_sub(calm));
            self.record.strain = self.record.strain.max(100 * now.saturating_sub(calm) / run.bound.max(1));
        }
        let got = self.take_got(&run, &end);
        let (output, errors) = (self.machine.output(id).to_vec(), self.machine.errors(id).to_vec());
        let peak = self.machine.peak(id);
        let (host, is_final) = (run.host, run.is_final);
        let is_killed = end == End::Killed;
        let next = run.work.as_ref().map(|work| work.place);
        self.record.runs.push(Run { host, work: run.work, begun: run.begun, ended: now, end, output, errors, peak, got, is_final });
        match next {
            None => self.end_server(),
            Some(_) if is_final => self.end_final(),
            Some(_) => self.rest(host - 1, is_killed),
        }
    }

    /// The client goes on with its next operation after a while.
    fn rest(&mut self, place: usize, is_killed: bool) {
        let client = &self.scenario.clients[place];
        let pause = client.works.get(self.begun[place]).map_or(0, |work| work.pause);
        let rest = if is_killed { client.rest } else { 0 };
        self.agenda.push((self.machine.now + pause + rest, Duty::Work(place)));
    }

    /// The server begins again after a while. Its folder holds what was put, whole.
    fn end_server(&mut self) {
        self.look_at_folder();
        let (least, most) = self.scenario.server.rest;
        let rest = self.chance.between(least, most + 1);
        self.agenda.push((self.machine.now + rest, Duty::Serve));
    }

    /// The run is over, unless the server had no room for one more connection: then that is waited for.
    fn end_final(&mut self) {
        let is_full = self.record.runs.last().is_some_and(|run| String::from_utf8_lossy(&run.errors).contains("Connection table full"));
        if is_full && self.finals < 3 {
            self.agenda.push((self.machine.now + ALL_FREE, Duty::Final));
            return;
        }
        self.look_at_folder();
        self.is_over = true;
    }

    fn finish(mut self) -> Record {
        self.record.until = self.machine.faults.until;
        while let Some(run) = self.running.first() {
            let id = run.id;
            self.machine.kill(id);
            self.end(id);
        }
        self.record.folder = self.machine.disks[0].files(lines::STORE);
        self.record.happened = std::mem::take(&mut self.machine.faults.happened);
        self.record.steps = self.machine.steps;
        self.record.digest = self.machine.digest;
        self.record.trace = std::mem::take(&mut self.machine.net.trace);
        self.record.repeats = self.machine.net.repeats.take().filter(|_| self.machine.net.overflown == 0);
        self.record.calls = std::mem::take(&mut self.machine.trace);
        self.record
    }
}

/// What lies on disks.
impl Play<'_> {
    /// The server's folder holds whole contents under the names of files, and nothing else but what is being written.
    fn look_at_folder(&mut self) {
        for (name, bytes) in self.machine.disks[0].files(lines::STORE) {
            let is_named = self.scenario.names.iter().any(|known| known.as_bytes() == name);
            if name != b".new" && (!is_named || self.scenario.contents.find(&bytes).is_none()) {
                let text = format!("the server's folder has {} with {}", String::from_utf8_lossy(&name), crate::history::shown(&bytes));
                self.complain(Wrong::Folder, text);
            }
        }
    }

    /// What a `get` wrote, for each of its names, and whether its local files are as they must be.
    fn take_got(&mut self, run: &Running, end: &End) -> Vec<Option<Vec<u8>>> {
        let Some(Task::Get(names, target)) = run.work.as_ref().map(|work| &work.task) else { return Vec::new() };
        let errors = String::from_utf8_lossy(self.machine.errors(run.id)).into_owned();
        let mut got = Vec::new();
        for &name in names {
            let name = self.scenario.names[name];
            let Some((folder, local)) = lines::local(*target, name) else {
                got.push(Some(self.machine.output(run.id).to_vec()));
                continue;
            };
            let files = self.machine.disks[run.host].files(folder);
            self.look_for_part(run, end, &files, &local);
            let found = files.get(local.as_bytes()).cloned();
            let is_done = matches!(end, End::Status(_))
                && !errors.lines().any(|line| line.contains(&format!("{name}: ")) || line.contains(&format!("/{local}: ")));
            let is_done = is_done && (*end == End::Status(0) || !errors.is_empty() && !errors.contains("no file: "));
            self.locals.insert((run.host, folder, local), is_done.then(|| found.clone()).flatten());
            got.push(found);
        }
        self.look_at_locals(run.host);
        got
    }

    /// A get that ended by itself leaves no part of a file, unless the disk failed.
    fn look_for_part(&mut self, run: &Running, end: &End, files: &BTreeMap<Vec<u8>, Vec<u8>>, local: &str) {
        let part = format!(".{local}.{}.part", lines::udp(run.host).1);
        let disk_failed = self.machine.faults.happened.iter().any(|fault| fault.kind == FaultKind::DiskFails);
        let was_killed = self.record.runs.iter().any(|run_before| run_before.host == run.host && run_before.end == End::Killed);
        if matches!(end, End::Status(_)) && !disk_failed && !was_killed && files.contains_key(part.as_bytes()) {
            self.complain(Wrong::Leftover, format!("machine {} has {part} behind a get that ended: {end:?}", run.host));
        }
    }

    /// Each local file that was got holds a whole content, and that of the last get that ended well where no later get was tried.
    fn look_at_locals(&mut self, host: Host) {
        let mut problems = Vec::new();
        for ((owner, folder, local), held) in &self.locals {
            if *owner != host {
                continue;
            }
            let files = self.machine.disks[host].files(folder);
            let found = files.get(local.as_bytes());
            let is_right = match (held, found) {
                (Some(held), Some(found)) => held == found,
                (Some(_), None) => false,
                (None, Some(found)) => self.scenario.contents.find(found).is_some(),
                (None, None) => true,
            };
            if !is_right {
                problems.push(format!(
                    "machine {host} has {local} as {:?}, not as {:?}",
                    found.map(|it| crate::history::shown(it)),
                    held.as_ref().map(|it| crate::history::shown(it))
                ));
            }
        }
        for problem in problems {
            self.complain(Wrong::Local, problem);
        }
    }
}

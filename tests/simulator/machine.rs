//! The world: hosts with disks and clocks, a network between them, and processes of the program, whose calls happen one at a time.
//!
//! The next call of each process has its moment. A step makes the earliest call, and lets its process run to the next call. Between two
//! calls a process changes nothing outside of its memory. So a kill between two steps is a kill at any instruction between two calls.

use self::notes::{mix, mix_bytes, Made};
use crate::calls::{self, Call, Memory};
use crate::chance::{Chance, Faults};
use crate::clock::Clock;
use crate::coroutine::{self, Alone, Asked, SLOTS, TRAPPED};
use crate::disk::Disk;
use crate::image::{Image, BASE};
use crate::net::{Host, Line, Net, Pace};
use crate::process::{Body, End, Process, Start, Wait};
use crate::system::{Answer, Stop, System};

#[path = "machine_notes.rs"]
mod notes;

/// How many nanoseconds pass between two calls of a process, at least and at most.
const LEAST_COST: u64 = 1_000;
const MOST_COST: u64 = 50_000;

#[derive(Clone, Copy, PartialEq, Eq, PartialOrd, Ord, Hash, Debug)]
pub struct ProcessId(pub usize);

/// What a step did.
#[derive(Clone, Copy, PartialEq, Eq, Debug)]
pub enum Event {
    /// The process made a call, and will go on with the next one.
    Called(ProcessId),
    Ended(ProcessId),
    /// Nothing more happens before the moment that the step was limited to.
    Time,
}

/// A call, for a trace.
#[derive(Clone, Debug)]
pub struct Noted {
    pub at: u64,
    pub process: ProcessId,
    pub host: Host,
    pub text: String,
}

/// A thread has one machine at a time; other threads wait for it.
pub struct Machine {
    pub now: u64,
    pub net: Net,
    /// The disks and the clocks of the hosts.
    pub disks: Vec<Disk>,
    pub clocks: Vec<Clock>,
    pub faults: Faults,
    /// How many calls happened.
    pub steps: u64,
    /// A sum of all calls and their results.
    pub digest: u64,
    /// Whether `trace` keeps each call.
    pub traced: bool,
    pub trace: Vec<Noted>,
    image: &'static Image,
    seed: u64,
    processes: Vec<Process>,
    /// The processes that haven't ended, by number.
    running: Vec<usize>,
    /// A bit for each slot that is in use.
    slots: u64,
    /// For each process, a sum of its host and words.
    starts: Vec<u64>,
    /// How often the power failed.
    failures: u64,
    // The last field: it is dropped after the processes, whose memory it guards.
    _alone: Alone,
}

impl Machine {
    /// A world of that many hosts, whose disks are empty.
    pub fn new(image: &'static Image, seed: u64, hosts: usize, (pace, line): (Pace, Option<Line>), faults: Faults) -> Self {
        let alone = Alone::new();
        coroutine::catch_traps();
        calls::begin_with(image);
        Machine {
            now: 0,
            net: Net::new(pace, line),
            disks: (0..hosts).map(|_| Disk::new()).collect(),
            clocks: (0..hosts as u64).map(|host| Clock::new(&mut Chance::new(seed, "clock", host))).collect(),
            faults,
            steps: 0,
            digest: 0,
            traced: false,
            trace: Vec::new(),
            image,
            seed,
            processes: Vec::new(),
            running: Vec::new(),
            slots: 0,
            starts: Vec::new(),
            failures: 0,
            _alone: alone,
        }
    }

    /// Begins a process. Its first step runs it to its first call.
    pub fn start(&mut self, start: Start) -> ProcessId {
        let slot = self.slots.trailing_ones() as usize;
        assert!(slot < SLOTS, "more than {SLOTS} processes run");
        self.slots |= 1 << slot;
        let mut process = Process::new(&start, slot, self.image, self.pace_of(&start));
        process.moment = self.now + cost(&mut process.pace);
        self.processes.push(process);
        let id = self.processes.len() - 1;
        self.running.push(id);
        ProcessId(id)
    }

    /// How long the calls of a process take depends on its host and words, and not on other processes.
    fn pace_of(&mut self, start: &Start) -> Chance {
        let words = start.words.iter().map(String::as_bytes);
        let sum = words.fold(start.host as u64, mix_bytes);
        let earlier = self.starts.iter().filter(|other| **other == sum).count();
        self.starts.push(sum);
        Chance::new(self.seed, "pace", mix(sum, earlier as u64))
    }

    /// Ends a process between two calls, if it hasn't ended. Its sockets, files and locks go.
    pub fn kill(&mut self, id: ProcessId) {
        self.finish(id.0, End::Killed);
    }

    /// Kills each process of a host, and its disk keeps what the disk's model says.
    pub fn lose_power(&mut self, host: Host) {
        for id in self.running.clone() {
            if self.processes[id].host == host {
                self.finish(id, End::Killed);
            }
        }
        self.failures += 1;
        self.disks[host].lose_power(&mut Chance::new(self.seed, "power", self.failures));
    }

    /// Makes the next call before `until`, if there is one.
    pub fn step(&mut self, until: u64) -> Event {
        while let Some((moment, id)) = self.next().filter(|(moment, _)| *moment < until) {
            self.now = self.now.max(moment);
            self.exchange(id);
            let event = self.turn(id);
            self.exchange(id);
            if let Some(event) = event {
                return event;
            }
        }
        self.now = self.now.max(until);
        Event::Time
    }

    /// How a process ended.
    pub fn ended(&self, id: ProcessId) -> Option<&End> {
        self.processes[id.0].end.as_ref()
    }

    /// What it wrote to its standard output.
    pub fn output(&self, id: ProcessId) -> &[u8] {
        &self.processes[id.0].output
    }

    /// What it wrote to its standard error.
    pub fn errors(&self, id: ProcessId) -> &[u8] {
        &self.processes[id.0].errors
    }

    /// The most bytes of heap that it held.
    pub fn peak(&self, id: ProcessId) -> usize {
        self.processes[id.0].peak()
    }

    pub fn host(&self, id: ProcessId) -> Host {
        self.processes[id.0].host
    }
}

/// How a step goes.
impl Machine {
    /// The least moment at which a process goes on, and the process.
    fn next(&self) -> Option<(u64, usize)> {
        let moments = self.running.iter().map(|id| (self.moment(&self.processes[*id]), *id));
        moments.min()
    }

    fn moment(&self, process: &Process) -> u64 {
        match process.wait {
            None => process.moment,
            Some(Wait { socket: None, until }) => until,
            // an arrival ends the wait
            Some(Wait { socket: Some(socket), until }) => self.net.next_arrival(socket).map_or(until, |at| at.max(self.now).min(until)),
        }
    }

    /// Makes the call that a process asked for, and runs the process to its next call. Gives nothing if the process waits.
    fn turn(&mut self, id: usize) -> Option<Event> {
        let process = &self.processes[id];
        let asked = process.asked;
        if asked.number == TRAPPED {
            let why = self.trap(id, &asked);
            return Some(self.end(id, End::Trapped(why)));
        }
        let answer = if process.has_begun { self.answer(id, &asked) } else { Ok(0) };
        match self.returned(id, answer) {
            Ok(result) => Some(self.go_on(id, result)),
            Err(end) => end.map(|end| self.end(id, end)),
        }
    }

    /// Makes a process's call, and adds it to the digest and to the trace.
    fn answer(&mut self, id: usize, asked: &Asked) -> Answer {
        let process = &mut self.processes[id];
        let (Some(call), Some(memory)) = (Call::of(asked.number), process.memory(self.image)) else { unreachable!("a call of nobody") };
        let (disk, clock) = (&mut self.disks[process.host], &mut self.clocks[process.host]);
        let (net, faults, now) = (&mut self.net, &mut self.faults, self.now);
        let mut system = System { process, memory, net, disk, clock, faults, now };
        let answer = system.answer(call, &asked.words);
        let Some(result) = notes::result(&answer) else { return answer };
        let made = Made { call, words: &asked.words, result, memory: &system.memory };
        self.digest = if call.takes_time() { made.sum(mix(mix(self.digest, now), id as u64)) } else { made.short_sum(self.digest) };
        if self.traced {
            self.trace.push(Noted { at: now, process: ProcessId(id), host: system.process.host, text: made.text() });
        }
        answer
    }

    /// The value that a call returns to its process. Otherwise how the process ends, or nothing if it waits.
    fn returned(&mut self, id: usize, answer: Answer) -> Result<usize, Option<End>> {
        let process = &mut self.processes[id];
        process.wait = None;
        match answer {
            Ok(result) => Ok(result),
            Err(Stop::Fails(error)) => {
                process.fail(error);
                Ok(usize::MAX)
            }
            Err(Stop::Waits(wait)) => {
                process.wait = Some(wait);
                Err(None)
            }
            Err(Stop::Exits(status)) => Err(Some(End::Status(status))),
            Err(Stop::Traps(why)) => Err(Some(End::Trapped(why))),
        }
    }

    /// Runs a process to its next call that takes time.
    fn go_on(&mut self, id: usize, result: usize) -> Event {
        self.steps += 1;
        let mut result = result;
        loop {
            let Some(asked) = self.resume(id, result) else { unreachable!("a process that ended goes on") };
            let call = Call::of(asked.number);
            if call.is_none_or(Call::takes_time) {
                let process = &mut self.processes[id];
                (process.has_begun, process.asked) = (true, asked);
                process.moment = self.now + cost(&mut process.pace);
                return Event::Called(ProcessId(id));
            }
            let answer = self.answer(id, &asked);
            match self.returned(id, answer) {
                Ok(value) => result = value,
                Err(end) => return self.end(id, end.unwrap_or(End::Killed)),
            }
        }
    }

    /// Runs a process to its next call of any kind.
    fn resume(&mut self, id: usize, result: usize) -> Option<Asked> {
        let Body { coroutine, errno, environ, .. } = self.processes[id].body.as_mut()?;
        calls::exchange(errno, environ);
        let asked = coroutine.resume(result);
        calls::exchange(errno, environ);
        Some(asked)
    }

    /// Puts the writable data of a process into the program's memory, or takes it out again.
    fn exchange(&mut self, id: usize) {
        if let Some(body) = &mut self.processes[id].body {
            self.image.exchange(&mut body.data);
        }
    }

    fn end(&mut self, id: usize, end: End) -> Event {
        self.finish(id, end);
        Event::Ended(ProcessId(id))
    }

    fn finish(&mut self, id: usize, end: End) {
        let process = &mut self.processes[id];
        self.net.settle(self.now);
        if let Some(slot) = process.finish(end, &mut self.net, &mut self.disks[process.host]) {
            self.slots &= !(1 << slot);
            self.running.retain(|other| *other != id);
        }
    }

    /// Describes a trap.
    fn trap(&mut self, id: usize, asked: &Asked) -> String {
        let [signal, address, code, stack_pointer, ..] = asked.words;
        self.digest = mix(mix(self.digest, signal as u64), id as u64);
        let Some(memory) = self.processes[id].memory(self.image) else { return String::new() };
        let place = format!("{} in the program at {:#x}", coroutine::signal_name(signal), self.place(code, stack_pointer, &memory));
        match coroutine::names_address(signal) {
            true if memory.is_below_stack(address) => format!("{place}: the stack is used up"),
            true => format!("{place}, which uses the address {address:#x}"),
            false => place,
        }
    }

    /// The address of the code in the program's file. If the code is the C library's, the address of its caller.
    fn place(&self, code: usize, stack_pointer: usize, memory: &Memory) -> usize {
        let is_inside = |address: &usize| self.image.span.contains(address);
        let place = std::iter::once(code).chain(memory.stack_from(stack_pointer)).find(is_inside);
        place.map_or(0, |place| place - BASE)
    }
}

/// How long it takes until the next call of a process.
fn cost(pace: &mut Chance) -> u64 {
    pace.between(LEAST_COST, MOST_COST)
}

#[cfg(test)]
#[path = "toy.rs"]
mod toy;

#[cfg(test)]
mod tests {
    use super::*;
    use crate::chance::FaultKind;
    use crate::errno::{EADDRINUSE, EAGAIN, EFAULT};
    use std::collections::BTreeSet;

    const FOREVER: u64 = 1 << 60;

    fn machine(seed: u64, rates: [u64; FaultKind::ALL.len()]) -> Machine {
        Machine::new(toy::image(), seed, 2, (Pace { least: 1_000_000, most: 2_000_000 }, None), Faults::new(seed, rates, FOREVER, BTreeSet::new()))
    }

    fn start(machine: &mut Machine, host: Host, word: &str) -> ProcessId {
        machine.start(Start { host, words: vec![word.into()], input: b"some bytes, and more".to_vec(), ..Start::default() })
    }

    /// Runs all processes until no call happens before a moment.
    fn run(machine: &mut Machine, until: u64) {
        while machine.step(until) != Event::Time {}
    }

    /// How a process of that word ends.
    fn end_of(word: &str) -> End {
        let mut machine = machine(1, [0; FaultKind::ALL.len()]);
        let id = start(&mut machine, 0, word);
        run(&mut machine, FOREVER);
        machine.ended(id).cloned().expect("it ended")
    }

    #[test]
    fn a_receive_waits_for_its_time_or_a_datagram() {
        let mut machine = machine(1, [0; FaultKind::ALL.len()]);
        let alone = start(&mut machine, 0, "receive");
        run(&mut machine, 5_000_000);
        assert_eq!(machine.ended(alone), None);
        run(&mut machine, 5_300_000);
        assert_eq!(machine.ended(alone), Some(&End::Status(EAGAIN)));
        let receiver = start(&mut machine, 0, "receive");
        let sender = start(&mut machine, 1, "send");
        run(&mut machine, 8_300_000);
        assert_eq!((machine.ended(receiver), machine.ended(sender)), (Some(&End::Status(5)), Some(&End::Status(5))));
    }

    #[test]
    fn a_killed_process_leaves_its_port() {
        let mut machine = machine(1, [0; FaultKind::ALL.len()]);
        let first = start(&mut machine, 0, "hold");
        run(&mut machine, 1_000_000);
        let second = start(&mut machine, 0, "hold");
        run(&mut machine, 2_000_000);
        assert_eq!((machine.ended(first), machine.ended(second)), (None, Some(&End::Status(EADDRINUSE))));
        machine.kill(first);
        machine.kill(second);
        let third = start(&mut machine, 0, "hold");
        run(&mut machine, 3_000_000);
        assert_eq!((machine.ended(first), machine.ended(third)), (Some(&End::Killed), None));
        assert_eq!(machine.ended(second), Some(&End::Status(EADDRINUSE)));
        machine.lose_power(0);
        assert_eq!(machine.ended(third), Some(&End::Killed));
    }

    #[test]
    fn a_trap_ends_its_process_alone() {
        let why = |word: &str| match end_of(word) {
            End::Trapped(why) => why,
            end => panic!("{word}: {end:?}"),
        };
        assert!(why("null").starts_with("SIGSEGV"));
        assert!(why("deep").contains("the stack is used up"));
        assert!(why("twice").contains("no block in use"));
        let mut machine = machine(1, [0; FaultKind::ALL.len()]);
        let (deep, files) = (start(&mut machine, 0, "deep"), start(&mut machine, 0, "files"));
        run(&mut machine, FOREVER);
        assert!(matches!(machine.ended(deep), Some(End::Trapped(_))));
        assert_eq!(machine.ended(files), Some(&End::Status(5)));
        assert_eq!(machine.disks[0].files(b"/").get(b"old".as_slice()), Some(&b"hello".to_vec()));
    }

    #[test]
    fn calls_reach_what_is_the_process_s() {
        assert_eq!(end_of("fault"), End::Status(EFAULT));
        let mut machine = machine(1, [0; FaultKind::ALL.len()]);
        let id = start(&mut machine, 0, "echo");
        run(&mut machine, FOREVER);
        assert_eq!(machine.ended(id), Some(&End::Status(i32::from(b'e'))));
        assert_eq!((machine.output(id), machine.errors(id)), (b"some bytes, and more".as_slice(), b"s,".as_slice()));
    }

    #[test]
    fn memory_is_clean_and_counted() {
        for _ in 0..3 {
            let mut machine = machine(1, [0; FaultKind::ALL.len()]);
            let both = [start(&mut machine, 0, "dirty"), start(&mut machine, 0, "dirty")];
            run(&mut machine, FOREVER);
            assert_eq!(both.map(|id| (machine.ended(id).cloned(), machine.peak(id))), [(); 2].map(|()| (Some(End::Status(0)), 3 << 20)));
        }
    }

    #[test]
    fn a_seed_decides_all() {
        let digest = |seed| {
            let mut machine = machine(seed, [3; FaultKind::ALL.len()]);
            for word in ["receive", "hold", "echo", "receive"] {
                start(&mut machine, 0, word);
                start(&mut machine, 1, "send");
            }
            run(&mut machine, 100_000_000);
            machine.digest
        };
        let all: BTreeSet<u64> = (0..20).map(digest).collect();
        assert_eq!(all.len(), 20);
        assert_eq!((0..20).map(digest).collect::<BTreeSet<u64>>(), all);
    }
}

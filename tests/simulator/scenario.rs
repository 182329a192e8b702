//! What a seed asks: the hosts, their command lines and operations, and what may go wrong.
//!
//! Many scenarios have few kinds of faults, at rates of their own: a fault that is always there hides what others would show.

use crate::chance::{Chance, FaultKind};
use crate::contents::{repeated, Contents};
use crate::linear::Content;
use crate::net::{Line, Pace};
use crate::script::{Command, PIECE};
use std::collections::BTreeSet;

const MILLISECOND: u64 = 1_000_000;
const SECOND: u64 = 1_000 * MILLISECOND;
pub const MOST_CLIENTS: usize = 8;
/// No client has more operations.
const MOST_WORKS: u64 = 6;
/// A whole scenario has about so many parts of operations at most, so the history stays short.
const MOST_PARTS: usize = 44;
const NAMES: [&str; 4] = ["A", "B.LISP", "c-d_e", "X9.0"];
const HANDLES: [&str; 3] = ["H1", "H2", "Z"];

/// Whether datagrams are sealed.
#[derive(Clone, Copy, PartialEq, Eq, Debug)]
pub enum Seal {
    Clear,
    /// In clear, in the framing of CHUDP.
    Chudp,
    /// One key for all, by the option of the command line.
    OneKey,
    /// A key for each client, by the server's hosts table.
    Table,
}

impl Seal {
    pub fn has_keys(self) -> bool {
        matches!(self, Seal::OneKey | Seal::Table)
    }
}

/// Where a `get` writes.
#[derive(Clone, Copy, PartialEq, Eq, Debug)]
pub enum Target {
    Output,
    /// The file of this name in the folder `/got`.
    File(&'static str),
    /// Files of their names in the folder `/got`.
    Folder,
    /// Files of their names in the current folder.
    Current,
}

/// Where a `put` reads.
#[derive(Clone, Copy, PartialEq, Eq, Debug)]
pub enum Source {
    Input,
    /// A file of another name, with `--as`.
    As,
    /// Files of their names.
    Files,
}

/// What a client is to do. Names are the places of names.
#[derive(Clone, PartialEq, Eq, Debug)]
pub enum Task {
    Put(Vec<(usize, Content)>, Source),
    Get(Vec<usize>, Target),
    Delete(Vec<usize>),
    Rename(usize, usize),
    Ask(Vec<Command>),
}

/// One run of the program by a client.
#[derive(Clone, Debug)]
pub struct Work {
    /// Its place among the client's, which stays when others are left out.
    pub place: usize,
    pub pause: u64,
    pub task: Task,
    pub options: Vec<String>,
}

#[derive(Clone, Debug)]
pub struct Client {
    /// The machine that it runs on.
    pub host: usize,
    pub begins: u64,
    /// It rests so long before it runs again when it was killed.
    pub rest: u64,
    pub works: Vec<Work>,
}

#[derive(Clone, Debug)]
pub struct Server {
    pub begins: u64,
    /// The least and the most time that passes before it begins again.
    pub rest: (u64, u64),
    pub options: Vec<String>,
    /// Whether clients are answered where their last datagram came from, in a hosts table.
    pub follows: bool,
}

/// What a seed asks.
#[derive(Clone)]
pub struct Scenario {
    pub seed: u64,
    pub names: Vec<&'static str>,
    pub contents: Contents,
    pub seal: Seal,
    pub server: Server,
    pub clients: Vec<Client>,
    pub rates: [u64; 16],
    /// From this moment on nothing goes wrong.
    pub until: u64,
    pub pace: Pace,
    /// What bounds how fast datagrams go, where anything does.
    pub line: Option<Line>,
}

/// What is chosen for all operations of a scenario.
struct Style {
    names: u64,
    /// No file is larger.
    most_size: u64,
    /// Whether memory may be refused: then a script ends at its first error.
    is_short_of_memory: bool,
    /// The seconds that clients wait for a reply; 0 where the option isn't given.
    timeout: u64,
    parts: usize,
}

impl Scenario {
    /// What a seed asks.
    pub fn of(seed: u64) -> Self {
        Self::with_rates(seed, rates_of(&mut Chance::new(seed, "rates", 0)))
    }

    /// What a seed asks, with these rates of faults in place of its own.
    pub fn with_rates(seed: u64, rates: [u64; 16]) -> Self {
        let mut chance = Chance::new(seed, "scenario", 0);
        let seal = if chance.one_in(4) { *chance.pick(&[Seal::OneKey, Seal::Table, Seal::Chudp]) } else { Seal::Clear };
        let slowness = if chance.one_in(40) { 3_000 } else { *chance.pick(&[1, 1, 1, 2, 5, 20, 100]) };
        let pace = Pace { least: slowness * 100_000, most: slowness * 100_000 * chance.between(2, 6) };
        let mut style = Style {
            names: chance.between(1, NAMES.len() as u64 + 1),
            most_size: if chance.one_in(40) { 40_000 } else { *chance.pick(&[20, 460, 460, 1_000, 2_000]) },
            is_short_of_memory: rates[FaultKind::Refused as usize] > 0,
            timeout: timeout_of(slowness, &mut chance),
            parts: MOST_PARTS,
        };
        let mut contents = Contents::default();
        let count = *chance.pick(&[1, 1, 1, 2, 2, 2, 3, 3, 4, chance.clone().between(4, MOST_CLIENTS as u64 + 1)]) as usize;
        let clients = (0..count).map(|place| client_of(seed, place, &mut style, &mut contents)).collect();
        let until = if chance.one_in(30) { 20 * SECOND } else { *chance.pick(&[300, 500, 1_000, 1_000, 2_000, 4_000]) * MILLISECOND };
        let server = server_of(&mut Chance::new(seed, "server", 0), seal);
        let names = NAMES[..style.names as usize].to_vec();
        let line = line_of(&mut Chance::new(seed, "line", 0));
        Scenario { seed, names, contents, seal, server, clients, rates, until, pace, line }
    }

    /// Leaves out these operations, which are pairs of a client and a place, and kinds of faults.
    pub fn leave_out(&mut self, works: &BTreeSet<(usize, usize)>, kinds: &BTreeSet<FaultKind>) {
        for client in &mut self.clients {
            let host = client.host;
            client.works.retain(|work| !works.contains(&(host, work.place)));
        }
        for &kind in kinds {
            self.rates[kind as usize] = 0;
        }
    }

    /// Whether nothing can go wrong and all timers measure, so that a packet that arrives twice was sent again without need. Datagrams under
    /// seal can't be read.
    pub fn counts_repeats(&self) -> bool {
        let is_fixed = |options: &[String]| options.iter().any(|option| option == "--retransmit");
        let measures = !is_fixed(&self.server.options) && !self.clients.iter().flat_map(|client| &client.works).any(|work| is_fixed(&work.options));
        measures && self.rates.iter().all(|&rate| rate == 0) && !self.seal.has_keys()
    }

    /// The machines of the world: the server's, those of the clients, and one for the gets at the end.
    pub fn hosts(&self) -> usize {
        self.clients.len() + 2
    }
}

/// How long clients wait for a reply on a network of this slowness, in seconds.
fn timeout_of(slowness: u64, chance: &mut Chance) -> u64 {
    if slowness >= 1_000 {
        *chance.pick(&[0, 20, 30])
    } else {
        if chance.one_in(16) {
            0
        } else {
            *chance.pick(&[1, 1, 1, 2, 3])
        }
    }
}

/// Each second scenario has lines with a rate.
fn line_of(chance: &mut Chance) -> Option<Line> {
    let bytes_a_second = *chance.pick(&[0, 0, 0, 10_000, 100_000, 1_000_000]);
    let queue = *chance.pick(&[20, 50, 1_000]);
    (bytes_a_second > 0).then_some(Line { bytes_a_second, queue })
}

/// Once in how many chances each kind of fault happens.
fn rates_of(chance: &mut Chance) -> [u64; 16] {
    let kinds = *chance.pick(&[0, 1, 1, 1, 2, 2, 3, 3, 4, 5, 7]);
    let mut rates = [0; 16];
    for _ in 0..kinds {
        let kind = *chance.pick(&FaultKind::ALL);
        rates[kind as usize] = *chance.pick(rates_of_kind(kind));
    }
    rates
}

fn rates_of_kind(kind: FaultKind) -> &'static [u64] {
    match kind {
        FaultKind::Loss => &[3, 5, 10, 20, 50, 200],
        FaultKind::Repeat => &[2, 3, 10, 50],
        FaultKind::Delay => &[3, 10, 30, 100],
        FaultKind::Flip | FaultKind::Cut | FaultKind::SendFails => &[10, 50, 200],
        FaultKind::Partition => &[50, 200, 1_000],
        FaultKind::Kill => &[200, 500, 1_500, 5_000],
        FaultKind::Power => &[500, 1_500, 5_000],
        FaultKind::WriteFails | FaultKind::FlushFails | FaultKind::NoSpace => &[2, 3, 6, 15],
        FaultKind::DiskFails => &[5, 15, 50],
        FaultKind::Refused => &[300, 1_000, 3_000, 10_000],
        FaultKind::ClockJump => &[5, 50, 300],
        FaultKind::ClockStop => &[50, 300, 2_000],
    }
}

fn word(name: &str, value: u64) -> [String; 2] {
    [name.into(), value.to_string()]
}

fn server_of(chance: &mut Chance, seal: Seal) -> Server {
    let mut options = Vec::new();
    let log = *chance.pick(&["quiet", "quiet", "quiet", "normal", "all"]);
    options.extend(["--log".to_string(), log.into()]);
    if log != "quiet" && chance.one_in(4) {
        options.push("--log-time".into());
    }
    if chance.one_in(3) {
        options.extend(word("--window", *chance.pick(&[1, 2, 3, 5, 40, 64])));
    }
    if chance.one_in(2) {
        options.extend(word("--retransmit", *chance.pick(&[20, 50, 100, 1_000])));
    }
    if chance.one_in(3) {
        options.extend(word("--carriage", 2));
    }
    let follows = seal == Seal::Table && chance.one_in(2);
    if !follows && chance.one_in(4) {
        options.push("--only-peers".into());
    }
    let rest = *chance.pick(&[(1, 20), (1, 300), (100, 1_500)]);
    let begins = if chance.one_in(6) { chance.below(3 * SECOND) } else { 0 };
    Server { begins, rest: (rest.0 * MILLISECOND, rest.1 * MILLISECOND), options, follows }
}

fn client_of(seed: u64, place: usize, style: &mut Style, contents: &mut Contents) -> Client {
    let mut chance = Chance::new(seed, "client", place as u64);
    let host = place + 1;
    let most = if chance.one_in(4) { MOST_WORKS } else { 3 };
    let count = 1 + chance.below(most);
    let begins = *chance.pick(&[0, 5, 50, 500]) * MILLISECOND + chance.below(5 * MILLISECOND);
    let rest = chance.between(1, 300) * MILLISECOND;
    let works = (0..count as usize).map_while(|place| {
        let mut chance = Chance::new(seed, "work", (host * 100 + place) as u64);
        let number = host * 1_000 + place * 20;
        (style.parts > 0).then(|| work_of(&mut chance, place, number, style, contents))
    });
    Client { host, begins, rest, works: works.collect() }
}

/// An operation, whose contents say numbers from this one on.
fn work_of(chance: &mut Chance, place: usize, number: usize, style: &mut Style, contents: &mut Contents) -> Work {
    let pause = *chance.pick(&[0, 1, 20, 200]) * MILLISECOND + chance.below(2 * MILLISECOND);
    let mut writer = Writer { chance, number, style, contents };
    let task = match writer.chance.below(16) {
        0..=4 => writer.put(),
        5..=8 => writer.get(),
        9..=10 => Task::Delete(writer.names()),
        11..=12 if writer.style.names > 1 => {
            let [old, new] = writer.two_names();
            Task::Rename(old, new)
        }
        _ => Task::Ask(writer.script()),
    };
    style.parts = style.parts.saturating_sub(parts_of(&task));
    let options = options_of(chance, &task, style);
    Work { place, pause, task, options }
}

/// About how many operations of a history a task makes.
fn parts_of(task: &Task) -> usize {
    match task {
        Task::Put(files, _) => files.len(),
        Task::Get(names, _) | Task::Delete(names) => names.len(),
        Task::Rename(..) => 1,
        Task::Ask(commands) => commands.iter().filter(|it| !matches!(it, Command::Write(..) | Command::Read(_) | Command::Login)).count(),
    }
}

fn options_of(chance: &mut Chance, task: &Task, style: &Style) -> Vec<String> {
    let mut options = Vec::new();
    if style.timeout > 0 {
        options.extend(word(*chance.pick(&["--timeout", "-t"]), style.timeout));
    }
    if chance.one_in(3) {
        options.extend(word("--carriage", 2));
    }
    if chance.one_in(6) {
        options.push("--any-source".into());
    }
    match task {
        Task::Put(..) | Task::Get(..) if chance.one_in(3) => options.extend(word("--window", *chance.pick(&[1, 2, 4, 13, 40]))),
        Task::Ask(_) if chance.one_in(2) => options.extend(word("--retransmit", *chance.pick(&[20, 100, 1_000]))),
        _ => {}
    }
    let is_strict = matches!(task, Task::Ask(_)) && (style.is_short_of_memory || chance.one_in(2));
    if is_strict {
        options.push("--strict".into());
    }
    if chance.one_in(5) {
        options.push("--verbose".into());
    }
    options
}

/// Who writes tasks.
struct Writer<'a> {
    chance: &'a mut Chance,
    /// The number that the next content says.
    number: usize,
    style: &'a Style,
    contents: &'a mut Contents,
}

impl Writer<'_> {
    fn name(&mut self) -> usize {
        self.chance.below(self.style.names) as usize
    }

    fn two_names(&mut self) -> [usize; 2] {
        let old = self.name();
        let shift = self.chance.between(1, self.style.names) as usize;
        [old, (old + shift) % self.style.names as usize]
    }

    /// One name mostly, or several different ones.
    fn names(&mut self) -> Vec<usize> {
        let first = self.name();
        let count = if self.chance.one_in(4) { 1 + self.chance.below(self.style.names) as usize } else { 1 };
        (0..count).map(|shift| (first + shift) % self.style.names as usize).collect()
    }

    fn content(&mut self, most: u64) -> Content {
        let size = match self.chance.below(8) {
            0 => 0,
            1 => self.chance.below(20),
            2 => *self.chance.pick(&[447, 448, 449, 896]),
            3 => most,
            _ => self.chance.below(most + 1),
        };
        let behind: &[u8] = *self.chance.pick(&[b", ".as_slice(), b"\n", b"\x8d", b"\x00\xff", b"\r\n"]);
        self.number += 1;
        self.contents.add(repeated(self.number, behind, size.min(most) as usize))
    }

    fn put(&mut self) -> Task {
        let names = self.names();
        let source = *self.chance.pick(&[Source::Input, Source::As, Source::Files]);
        let source = if names.len() > 1 { Source::Files } else { source };
        Task::Put(names.into_iter().map(|name| (name, self.content(self.style.most_size))).collect(), source)
    }

    fn get(&mut self) -> Task {
        let names = self.names();
        let targets = [Target::Output, Target::Output, Target::File("x"), Target::File("y"), Target::Folder, Target::Current];
        let target = *self.chance.pick(&targets);
        let is_one = names.len() == 1;
        Task::Get(names, if is_one || matches!(target, Target::Folder | Target::Current) { target } else { Target::Folder })
    }

    /// Commands behind a login: those of up to three handles among each other, and others between them.
    fn script(&mut self) -> Vec<Command> {
        let count = self.chance.between(1, 4) as usize;
        let mut rows: Vec<_> = (0..count).map(|place| self.row(HANDLES[place])).collect();
        let mut commands = vec![Command::Login];
        while !rows.is_empty() {
            let place = self.chance.below(rows.len() as u64) as usize;
            commands.push(rows[place].remove(0));
            rows.retain(|row| !row.is_empty());
        }
        commands
    }

    /// The commands of one handle, or one without a handle.
    fn row(&mut self, handle: &'static str) -> Vec<Command> {
        match self.chance.below(7) {
            0..=2 => self.writing(handle),
            3..=4 => self.reading(handle),
            5 if self.style.names > 1 => {
                let [old, new] = self.two_names();
                vec![Command::Rename(old, new)]
            }
            _ => vec![Command::Delete(self.name())],
        }
    }

    fn writing(&mut self, handle: &'static str) -> Vec<Command> {
        let content = self.content(self.style.most_size.min(1_000));
        let size = self.contents.bytes(content).len();
        let most = if self.style.is_short_of_memory { PIECE } else { *self.chance.pick(&[100, PIECE, PIECE]) };
        let mut row = vec![Command::OpenWrite(handle, self.name())];
        row.extend((0..size).step_by(most).map(|from| Command::Write(handle, content, from, size.min(from + most))));
        row.extend((!self.chance.one_in(8)).then_some(Command::Close(handle)));
        row
    }

    fn reading(&mut self, handle: &'static str) -> Vec<Command> {
        let mut row = vec![Command::OpenRead(handle, self.name())];
        row.extend((0..self.chance.between(1, 5)).map(|_| Command::Read(handle)));
        row.extend((!self.chance.one_in(4)).then_some(Command::Close(handle)));
        row
    }
}

#[cfg(test)]
mod tests {
    use super::*;

    #[test]
    fn a_seed_asks_the_same_again_and_what_is_left_out_shifts_nothing() {
        for seed in 0..2_000 {
            let (first, mut second) = (Scenario::of(seed), Scenario::of(seed));
            assert_eq!(format!("{:?} {:?}", first.clients, first.server), format!("{:?} {:?}", second.clients, second.server));
            let parts: usize = first.clients.iter().flat_map(|client| &client.works).map(|work| parts_of(&work.task)).sum();
            assert!(parts <= MOST_PARTS + 12 && (1..=MOST_CLIENTS).contains(&first.clients.len()), "{parts}");
            second.leave_out(&BTreeSet::from([(1, 0)]), &BTreeSet::from([FaultKind::Loss]));
            assert_eq!(second.clients[0].works.len() + 1, first.clients[0].works.len());
            assert_eq!(second.rates[FaultKind::Loss as usize], 0);
        }
    }
}

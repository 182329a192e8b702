//! The command lines of a scenario's processes, and the files that lie on the disks when the world begins.

use crate::disk::Disk;
use crate::net::{ip, Address, Host};
use crate::scenario::{Scenario, Seal, Source, Target, Task, Work};
use std::fmt::Write;

/// The folder that the server serves, and the folder that files are got into.
pub const STORE: &[u8] = b"/store";
pub const GOT: &[u8] = b"/got";
const SERVER_PORT: u16 = 42_042;

/// The Chaosnet address of a machine: 402 is the server's, and its clients are 401, 403 and so on.
pub fn address(host: Host) -> u16 {
    match host {
        0 => 0o402,
        1 => 0o401,
        _ => 0o401 + host as u16,
    }
}

/// The UDP address of a machine's program. A client's port has the digits of its Chaosnet address.
pub fn udp(host: Host) -> Address {
    let digits = format!("{:o}", address(host)).parse().unwrap_or(0_u16);
    (ip(host), if host == 0 { SERVER_PORT } else { 9_000 + digits })
}

/// A UDP address as a command line has it.
pub fn spelled(address: Address) -> String {
    let [a, b, c, d] = address.0.to_be_bytes();
    format!("{a}.{b}.{c}.{d}:{}", address.1)
}

fn end(host: Host) -> [String; 2] {
    [format!("{:o}", address(host)), spelled(udp(host))]
}

fn peer(host: Host) -> String {
    end(host).join("=")
}

fn strings(words: &[&str]) -> Vec<String> {
    words.iter().map(|word| (*word).to_string()).collect()
}

/// Options in the framing of a scenario: a datagram of CHUDP carries one packet.
fn framed(scenario: &Scenario, options: &[String]) -> Vec<String> {
    let mut options = options.to_vec();
    if scenario.seal == Seal::Chudp {
        if let Some(place) = options.iter().position(|word| word == "--carriage") {
            options.drain(place..place + 2);
        }
        options.push("--chudp".into());
    }
    options
}

/// The words of the server.
pub fn server_words(scenario: &Scenario) -> Vec<String> {
    let mut words = vec!["serve".to_string()];
    words.extend(framed(scenario, &scenario.server.options));
    match scenario.seal {
        Seal::Table => words.extend(strings(&["--hosts", "/hosts", "store"])),
        seal => {
            words.extend(strings(if seal == Seal::OneKey { &["--key", "/key"] } else { &[] }));
            words.extend(end(0));
            words.push("store".into());
            words.extend((1..scenario.hosts()).map(peer));
        }
    }
    words
}

/// The words of a client on a machine.
pub fn client_words(scenario: &Scenario, host: Host, work: &Work) -> Vec<String> {
    let command = match &work.task {
        Task::Put(..) => "put",
        Task::Get(..) => "get",
        Task::Delete(_) => "delete",
        Task::Rename(..) => "rename",
        Task::Ask(_) => "ask",
    };
    let mut words = vec![command.to_string()];
    words.extend(framed(scenario, &work.options));
    words.extend(strings(if scenario.seal.has_keys() { &["--key", "/key"] } else { &[] }));
    words.extend(own_options(scenario, &work.task));
    words.extend(end(host));
    if matches!(work.task, Task::Ask(_)) {
        words.push(format!("{:o}", address(0)));
    }
    words.push(peer(0));
    words.extend(arguments(scenario, work));
    words
}

/// The options that belong to what a task does.
fn own_options(scenario: &Scenario, task: &Task) -> Vec<String> {
    match task {
        Task::Put(files, Source::Input | Source::As) => strings(&["--as", scenario.names[files[0].0]]),
        Task::Get(_, Target::Output) => strings(&["-o", "-"]),
        Task::Get(_, Target::File(name)) => strings(&["--output", &format!("/got/{name}")]),
        Task::Get(_, Target::Folder) => strings(&["-o", "/got/"]),
        _ => Vec::new(),
    }
}

/// The files of a line, behind its addresses.
fn arguments(scenario: &Scenario, work: &Work) -> Vec<String> {
    let named = |names: &[usize]| names.iter().map(|&name| scenario.names[name].to_string()).collect();
    match &work.task {
        Task::Put(..) => sources(scenario, work),
        Task::Get(names, _) | Task::Delete(names) => named(names),
        Task::Rename(old, new) => named(&[*old, *new]),
        Task::Ask(_) => Vec::new(),
    }
}

/// The local files that a `put` reads.
pub fn sources(scenario: &Scenario, work: &Work) -> Vec<String> {
    let Task::Put(files, source) = &work.task else { return Vec::new() };
    let file = |name: usize| match source {
        Source::Input => "-".to_string(),
        Source::As => format!("/from/{}/as", work.place),
        Source::Files => format!("from/{}/{}", work.place, scenario.names[name]),
    };
    files.iter().map(|(name, _)| file(*name)).collect()
}

/// What a client reads from standard input.
pub fn input(scenario: &Scenario, work: &Work) -> Vec<u8> {
    match &work.task {
        Task::Put(files, Source::Input) => scenario.contents.bytes(files[0].1).to_vec(),
        Task::Ask(commands) => {
            let line = |(number, command): (usize, &crate::script::Command)| command.line(number, &scenario.names, &scenario.contents);
            let mut text: String = commands.iter().enumerate().map(|it| line(it) + "\n").collect();
            if work.place % 2 == 1 {
                text.pop();
            }
            text.into_bytes()
        }
        _ => Vec::new(),
    }
}

/// The folder and the name of the local file that a `get` writes.
pub fn local(target: Target, name: &str) -> Option<(&'static [u8], String)> {
    match target {
        Target::Output => None,
        Target::File(local) => Some((GOT, local.into())),
        Target::Folder => Some((GOT, name.into())),
        Target::Current => Some((b"/", name.into())),
    }
}

/// A key as its file has it: 64 digits.
fn key(scenario: &Scenario, host: Host) -> String {
    let host = if scenario.seal == Seal::Table { host } else { 0 };
    format!("{:016x}", scenario.seed ^ 0x9e37_79b9_7f4a_7c15 ^ ((host as u64) << 56)).repeat(4)
}

/// The server's hosts table.
fn table(scenario: &Scenario) -> String {
    let [own, udp] = end(0);
    let mut text = format!("{own} {udp} self # the server\n");
    for host in 1..scenario.hosts() {
        let [address, udp] = end(host);
        let udp = if scenario.server.follows { "*".into() } else { udp };
        let _ = writeln!(text, "{address} {udp} client{host} key=keys/{address}");
    }
    text
}

/// The disk of a machine when the world begins.
pub fn disk(scenario: &Scenario, host: Host) -> Disk {
    let mut disk = Disk::new();
    if scenario.seal.has_keys() {
        disk.put_file(b"/key", key(scenario, host).as_bytes());
    }
    if host != 0 {
        disk.make_folder(GOT);
        put_sources(&mut disk, scenario, host);
        return disk;
    }
    disk.make_folder(STORE);
    if scenario.seal == Seal::Table {
        disk.put_file(b"/hosts", table(scenario).as_bytes());
        for client in 1..scenario.hosts() {
            let path = format!("/keys/{:o}", address(client));
            disk.put_file(path.as_bytes(), key(scenario, client).as_bytes());
        }
    }
    disk
}

/// The local files of a client's puts.
fn put_sources(disk: &mut Disk, scenario: &Scenario, host: Host) {
    let Some(client) = scenario.clients.get(host - 1) else { return };
    for work in &client.works {
        let Task::Put(files, source) = &work.task else { continue };
        if *source == Source::Input {
            continue;
        }
        for (path, (_, content)) in sources(scenario, work).iter().zip(files) {
            disk.put_file(path.as_bytes(), scenario.contents.bytes(*content));
        }
    }
}

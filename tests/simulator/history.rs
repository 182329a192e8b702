//! The history of the files, from how processes ended and what they printed.

use crate::contents::Contents;
use crate::linear::{Act, Content, Operation, Response};
use crate::scenario::{Task, Work};
use crate::script::{read_spelled, Command};
use crate::wrong::{Complaint, Wrong};
use std::collections::BTreeMap;

/// How the run of a client ended, as the history needs to know.
pub struct Ended<'a> {
    pub work: &'a Work,
    pub call: u64,
    pub back: u64,
    /// Its status; none where it was killed or trapped.
    pub status: Option<i32>,
    pub output: &'a str,
    pub errors: &'a str,
    /// The names by which it reports its files, in their order.
    pub named: Vec<String>,
    /// What a `get` wrote, for each of its names.
    pub got: &'a [Option<Vec<u8>>],
}

/// Why something wasn't done, by a line of standard error.
#[derive(Clone, Copy, PartialEq, Eq, Debug)]
enum Reason {
    NoFile,
    Exists,
    Store,
    /// Nothing happened, and nothing will.
    Nothing,
    Unknown,
}

/// The operations of a run's clients, each with a text, and what is wrong with what they reported.
#[derive(Default)]
pub struct History {
    pub operations: Vec<Operation>,
    pub complaints: Vec<Complaint>,
}

/// The lines that a client prints although nothing failed.
const NOTES: [&str; 6] = [
    "waiting for host ",
    "refused a datagram of ",
    "nothing sealed came from ",
    "the server's window of ",
    "sending failed: ",
    "receiving failed: ",
];

/// The line of a client that had no memory for its command line.
pub const NO_LINE: &str = "error: out of memory";

/// The beginnings of lines that say that a run ended before it sent anything.
const OF_RUN: [&str; 8] = [
    "no file: ",
    "can't open 10.",
    "/key: ",
    "can't read the key file ",
    "host 402: no memory for a key",
    "out of memory while reading the command line",
    "no memory",
    "can't read the clock",
];

/// How other such lines end.
const NOTE_ENDS: [&str; 2] = ["was written and not closed, so its file was not kept", "on the way, after which packets were sent again"];

/// Whether a line of standard error only notes something.
pub fn is_note(line: &str) -> bool {
    if line == NO_LINE {
        return false;
    }
    let Some(text) = line.strip_prefix("chaosd: ") else { return true };
    NOTES.iter().any(|note| text.starts_with(note)) || NOTE_ENDS.iter().any(|end| text.ends_with(end))
}

impl History {
    fn complain(&mut self, wrong: Wrong, text: String) {
        self.complaints.push(Complaint { wrong, text });
    }

    /// Adds an operation behind another of its process.
    fn add(&mut self, ended: &Ended, act: Act, response: Response, behind: &mut Option<usize>) {
        self.operations.push(Operation { call: ended.call, back: ended.back, act, response, behind: *behind });
        *behind = Some(self.operations.len() - 1);
    }

    /// Adds what a client did.
    pub fn note(&mut self, ended: &Ended, contents: &Contents) {
        match &ended.work.task {
            Task::Ask(commands) => self.note_script(ended, commands, contents),
            _ => self.note_files(ended, contents),
        }
    }

    /// What each file of a `put`, `get`, `delete` or `rename` stands for.
    fn acts(task: &Task) -> Vec<Act> {
        match task {
            Task::Put(files, _) => files.iter().map(|&(name, content)| Act::Put(name, content)).collect(),
            Task::Get(names, _) => names.iter().map(|&name| Act::Get(name)).collect(),
            Task::Delete(names) => names.iter().map(|&name| Act::Delete(name)).collect(),
            Task::Rename(old, new) => vec![Act::Rename(*old, *new)],
            Task::Ask(_) => Vec::new(),
        }
    }

    fn note_files(&mut self, ended: &Ended, contents: &Contents) {
        let failures: Vec<&str> = ended.errors.lines().filter(|line| !is_note(line)).collect();
        if ended.status == Some(0) && !failures.is_empty() || ended.status.is_some_and(|it| it != 0) && failures.is_empty() {
            self.complain(Wrong::Reason, format!("status {:?} with these errors: {:?}", ended.status, ended.errors));
        }
        for line in &failures {
            if !is_attributed(line, &ended.named) {
                self.complain(Wrong::Reason, format!("a client reports {line:?}"));
            }
        }
        let mut behind = None;
        for (place, act) in Self::acts(&ended.work.task).into_iter().enumerate() {
            let reason = match ended.status {
                None => Some(Reason::Unknown),
                Some(0) => None,
                Some(_) if failures.is_empty() => Some(Reason::Unknown),
                Some(_) => self.reason_of(&failures, &ended.named[place], ended.named.len() == 1),
            };
            let response = match (reason, act) {
                (None, Act::Get(_)) => self.content_of(ended.got[place].as_deref(), contents),
                (None, _) => Response::Done,
                (Some(reason), act) => response_of(reason, act),
            };
            // A get and a delete for which the store failed changed nothing.
            let is_failed = reason == Some(Reason::Store) && response == Response::Unknown;
            let is_nothing = reason == Some(Reason::Nothing) || is_failed || response == Response::Unknown && matches!(act, Act::Get(_));
            if !is_nothing {
                self.add(ended, act, response, &mut behind);
            }
        }
    }

    /// The response of a `get` that ended well.
    fn content_of(&mut self, bytes: Option<&[u8]>, contents: &Contents) -> Response {
        let Some(bytes) = bytes else {
            self.complain(Wrong::Local, "a get ended well, and its file isn't there".into());
            return Response::Unknown;
        };
        match contents.find(bytes) {
            Some(content) => Response::Content(content),
            None => {
                self.complain(Wrong::Foreign, format!("a get gave {}", shown(bytes)));
                Response::Unknown
            }
        }
    }

    /// Why a file wasn't done: nothing where no line says so of it or of the run.
    fn reason_of(&mut self, failures: &[&str], name: &str, is_alone: bool) -> Option<Reason> {
        for line in failures {
            let Some(text) = line.strip_prefix("chaosd: ") else { return Some(Reason::Nothing) };
            let is_of_run = OF_RUN.iter().any(|it| text.starts_with(it));
            let is_local = [format!("can't open {name}: "), format!("can't write {name}: ")].iter().any(|it| text.starts_with(it));
            if is_of_run || is_local || text.starts_with("can't write ") && (is_alone || text.contains(&format!("{name}: "))) {
                return Some(Reason::Nothing);
            }
            if let Some(why) = text.strip_prefix(&format!("{name}: ")) {
                return Some(self.reason(why));
            }
        }
        None
    }

    /// What the words behind a file's name say.
    fn reason(&mut self, why: &str) -> Reason {
        const NOTHING: [&str; 8] = [
            "no server listens at ",
            "no connection opened in ",
            "no reply came in ",
            "it refused the connection",
            "it closed the connection",
            "it knows no such connection",
            "not tried",
            "it says to ask elsewhere",
        ];
        const UNKNOWN: [&str; 4] = ["whether ", "the socket failed", "the clock could not be read", "no memory"];
        let starts = |with: &[&str]| with.iter().any(|it| why.starts_with(it));
        match why {
            "FNF No such file." => Reason::NoFile,
            "FAE File exists." => Reason::Exists,
            "STF Store fault." => Reason::Store,
            "MEM No memory." => Reason::Nothing,
            _ if starts(&NOTHING) => Reason::Nothing,
            _ if starts(&UNKNOWN) => Reason::Unknown,
            _ => {
                self.complain(Wrong::Reply, format!("a client reports {why:?}"));
                Reason::Unknown
            }
        }
    }
}

/// Whether a line says why one of these files wasn't done, or why none was.
fn is_attributed(line: &str, named: &[String]) -> bool {
    let Some(text) = line.strip_prefix("chaosd: ") else { return line == NO_LINE };
    let is_of = |name: &String| text.starts_with(&format!("{name}: ")) || text.starts_with(&format!("can't open {name}: "));
    text.starts_with("can't write ") || OF_RUN.iter().any(|it| text.starts_with(it)) || named.iter().any(is_of)
}

/// The response of an act that wasn't done for this reason. Of a put and of a rename nobody knows what a failed store did.
fn response_of(reason: Reason, act: Act) -> Response {
    match (reason, act) {
        (Reason::NoFile, _) => Response::NoFile,
        (Reason::Exists, _) => Response::Exists,
        (Reason::Store, Act::Put(..) | Act::Rename(..)) => Response::DoneOrNot,
        _ => Response::Unknown,
    }
}

/// The first bytes of a content, for a message.
pub fn shown(bytes: &[u8]) -> String {
    let first = String::from_utf8_lossy(&bytes[..bytes.len().min(60)]).into_owned();
    format!("{} bytes that are no whole content: {first:?}", bytes.len())
}

/// What a script has open under a handle.
enum Handle {
    Writes(usize, Vec<u8>),
    /// A file that is read, by its place among the script's parts.
    Reads(usize),
}

/// What a script did, in its order.
enum Part {
    Change(Act, Response),
    /// It read these bytes of a file of that length; all of them where it met the end.
    Read {
        name: usize,
        length: usize,
        bytes: Vec<u8>,
    },
}

/// A script as far as its replies have been read.
#[derive(Default)]
struct Script {
    handles: BTreeMap<&'static str, Handle>,
    parts: Vec<Part>,
    problems: Vec<String>,
    /// Whether the last reply was an error.
    failed: bool,
}

impl Script {
    /// Takes the reply to a command.
    fn take(&mut self, command: &Command, said: &str, contents: &Contents) {
        self.failed = said.starts_with("ERROR ");
        match said.strip_prefix("ERROR ") {
            Some(error) => self.fail(command, error, contents),
            None if self.succeed(command, said, contents) => {}
            None => self.problems.push(format!("{command:?} is answered by {said:?}")),
        }
    }

    /// Takes a reply that says that a command was done. The result is whether it is the right reply.
    fn succeed(&mut self, command: &Command, said: &str, contents: &Contents) -> bool {
        let is_expected = match (command, command_handle(command).and_then(|handle| self.handles.get_mut(handle))) {
            (Command::Login, _) => said == "LOGIN LISPM",
            (Command::OpenWrite(..), None) => said == "OPEN 0",
            (Command::OpenRead(_, name), None) => match said.strip_prefix("OPEN ").and_then(|length| length.parse().ok()) {
                Some(length) => {
                    self.parts.push(Part::Read { name: *name, length, bytes: Vec::new() });
                    true
                }
                None => false,
            },
            (Command::Write(_, content, from, to), Some(Handle::Writes(_, bytes))) => {
                said == format!("WRITE {}", bytes.len() + contents.bytes(*content)[*from..*to].len())
            }
            (Command::Read(_), Some(Handle::Reads(place))) => take_piece(&mut self.parts[*place], said),
            (Command::Close(_), Some(Handle::Writes(_, bytes))) => said == format!("CLOSE {}", bytes.len()),
            (Command::Close(_), Some(Handle::Reads(place))) => {
                matches!(&self.parts[*place], Part::Read { length, .. } if said == format!("CLOSE {length}"))
            }
            (Command::Delete(_), _) => said == "DELETE",
            (Command::Rename(..), _) => said == "RENAME",
            _ => false,
        };
        self.happen(command, Response::Done, contents);
        is_expected
    }

    /// A command was done, or perhaps was.
    fn happen(&mut self, command: &Command, response: Response, contents: &Contents) {
        match *command {
            Command::OpenWrite(handle, name) => {
                self.handles.insert(handle, Handle::Writes(name, Vec::new()));
            }
            Command::OpenRead(handle, _) if response == Response::Done && !self.parts.is_empty() => {
                self.handles.insert(handle, Handle::Reads(self.parts.len() - 1));
            }
            Command::Write(handle, content, from, to) => {
                if let Some(Handle::Writes(_, bytes)) = self.handles.get_mut(handle) {
                    bytes.extend_from_slice(&contents.bytes(content)[from..to]);
                }
            }
            Command::Close(handle) => {
                if let Some(Handle::Writes(name, bytes)) = self.handles.remove(handle) {
                    match contents.find(&bytes) {
                        Some(content) => self.parts.push(Part::Change(Act::Put(name, content), response)),
                        None => self.problems.push(format!("a script put {}", shown(&bytes))),
                    }
                }
            }
            Command::Delete(name) => self.parts.push(Part::Change(Act::Delete(name), response)),
            Command::Rename(old, new) => self.parts.push(Part::Change(Act::Rename(old, new), response)),
            _ => {}
        }
    }

    /// Takes an error. Only a CLOSE and a RENAME may have been done although the store failed.
    fn fail(&mut self, command: &Command, error: &str, contents: &Contents) {
        let is_closed = matches!(command_handle(command), Some(handle) if !self.handles.contains_key(handle));
        match (&error[..error.len().min(3)], command) {
            ("STF", Command::Close(_) | Command::Rename(..)) => self.happen(command, Response::DoneOrNot, contents),
            ("FNF", Command::OpenRead(_, name)) => self.parts.push(Part::Change(Act::Get(*name), Response::NoFile)),
            ("FNF", Command::Delete(_) | Command::Rename(..)) => self.happen(command, Response::NoFile, contents),
            ("FAE", Command::Rename(..)) => self.happen(command, Response::Exists, contents),
            ("STF" | "MEM", _) => {
                // A CLOSE that fails ends its handle in any case.
                if let Command::Close(handle) = command {
                    self.handles.remove(handle);
                }
            }
            ("NOH", Command::Write(..) | Command::Read(_) | Command::Close(_)) if is_closed => {}
            _ => self.problems.push(format!("{command:?} is answered by ERROR {error:?}")),
        }
    }
}

/// The handle that a command needs to be open or closed.
fn command_handle(command: &Command) -> Option<&'static str> {
    match command {
        Command::OpenWrite(handle, _) | Command::OpenRead(handle, _) | Command::Write(handle, ..) => Some(handle),
        Command::Read(handle) | Command::Close(handle) => Some(handle),
        Command::Login | Command::Delete(_) | Command::Rename(..) => None,
    }
}

/// Adds the bytes of a reply to a READ. The result is whether they fit to what was read before.
fn take_piece(part: &mut Part, said: &str) -> bool {
    let Part::Read { length, bytes, .. } = part else { return false };
    if said == "EOF" {
        return bytes.len() == *length;
    }
    let Some(piece) = said.strip_prefix("READ^").and_then(read_spelled) else { return false };
    bytes.extend_from_slice(&piece);
    piece.len() == crate::script::PIECE || bytes.len() == *length
}

impl History {
    fn note_script(&mut self, ended: &Ended, commands: &[Command], contents: &Contents) {
        let mut script = Script::default();
        let mut lines = ended.output.split_inclusive('\n').filter_map(|line| line.strip_suffix('\n')).peekable();
        let mut count = 0;
        while let (Some(command), Some(line)) = (commands.get(count), lines.peek()) {
            let Some(said) = command.answer(count, line) else { break };
            script.take(command, said, contents);
            (_, count) = (lines.next(), count + 1);
        }
        self.judge_script(ended, commands.len(), count, lines.collect(), script.failed);
        let is_strict = ended.work.options.iter().any(|it| it == "--strict");
        // A strict script ends at an error, whether it is killed behind that or not.
        let sent = match ended.status {
            _ if is_strict && script.failed => count,
            None => commands.len(),
            Some(_) => commands.len().min(count + 1),
        };
        for command in &commands[count..sent] {
            script.happen(command, Response::Unknown, contents);
        }
        for problem in script.problems.drain(..) {
            self.complain(Wrong::Reply, problem);
        }
        self.add_parts(ended, script.parts, contents);
    }

    /// What is wrong with a script's status and with what it printed behind its replies.
    fn judge_script(&mut self, ended: &Ended, commands: usize, count: usize, rest: Vec<&str>, failed: bool) {
        let Some(status) = ended.status else { return };
        let is_strict = ended.work.options.iter().any(|it| it == "--strict");
        let is_right = match status {
            0 => count == commands && rest.is_empty(),
            3 => rest == ["no reply"] || is_strict && failed && rest.is_empty(),
            _ => rest.is_empty() || rest == ["no reply"],
        };
        if !is_right {
            let text = format!("status {status}, {count} of {commands} replies, and then {rest:?}; errors {:?}", ended.errors);
            self.complain(Wrong::Reply, text);
        }
    }

    fn add_parts(&mut self, ended: &Ended, parts: Vec<Part>, contents: &Contents) {
        let mut behind = None;
        for part in parts {
            match part {
                Part::Change(act, response) => self.add(ended, act, response, &mut behind),
                Part::Read { name, length, bytes } => match contents.with_prefix(length, &bytes)[..] {
                    [] => self.complain(Wrong::Foreign, format!("a script read a file of {length} bytes: {}", shown(&bytes))),
                    [content] => self.add(ended, Act::Get(name), Response::Content(content as Content), &mut behind),
                    _ => {}
                },
            }
        }
    }
}

#[cfg(test)]
mod tests {
    use super::*;

    fn noted(task: Task, strict: bool, status: Option<i32>, output: &str, errors: &str) -> (Vec<(Act, Response)>, usize) {
        let mut contents = Contents::default();
        contents.add(b"one".to_vec());
        contents.add(b"two!".to_vec());
        let options = if strict { vec!["--strict".to_string()] } else { vec![] };
        let work = Work { place: 0, pause: 0, task, options };
        let got = [Some(output.as_bytes().to_vec())];
        let named = vec!["A".into(), "B".into()];
        let mut history = History::default();
        history.note(&Ended { work: &work, call: 0, back: 9, status, output, errors, named, got: &got }, &contents);
        (history.operations.iter().map(|it| (it.act, it.response)).collect(), history.complaints.len())
    }

    #[test]
    fn operations_are_read_from_statuses_and_messages() {
        let get = || Task::Get(vec![0], crate::scenario::Target::Output);
        assert_eq!(noted(get(), false, Some(0), "one", ""), (vec![(Act::Get(0), Response::Content(1))], 0));
        assert_eq!(noted(get(), false, Some(0), "on", "").1, 1);
        assert_eq!(noted(get(), false, Some(3), "", "chaosd: A: FNF No such file.\n"), (vec![(Act::Get(0), Response::NoFile)], 0));
        assert_eq!(noted(get(), false, Some(3), "", "").1, 1);
        let delete = || Task::Delete(vec![0, 1]);
        let done = (Act::Delete(0), Response::Done);
        assert_eq!(noted(delete(), false, Some(3), "", "chaosd: B: MEM No memory.\n"), (vec![done], 0));
        let unknown = "chaosd: A: whether that was done isn't known: no reply came in 9 ms\nchaosd: B: not tried\n";
        assert_eq!(noted(delete(), false, Some(3), "", unknown), (vec![(Act::Delete(0), Response::Unknown)], 0));
        let killed = vec![(Act::Delete(0), Response::Unknown), (Act::Delete(1), Response::Unknown)];
        assert_eq!(noted(delete(), false, None, "", ""), (killed, 0));
    }

    #[test]
    fn operations_are_read_from_the_replies_of_a_script() {
        let put = [Command::Login, Command::OpenWrite("H", 0), Command::Write("H", 1, 0, 3), Command::Close("H"), Command::Delete(1)];
        let script = || Task::Ask(put.to_vec());
        let (replies, done) = ("T0  LOGIN LISPM\nT1 H OPEN 0\nT2 H WRITE 3\n", (Act::Put(0, 1), Response::Done));
        let all = format!("{replies}T3 H CLOSE 3\nT4  ERROR FNF No such file.\n");
        assert_eq!(noted(script(), false, Some(0), &all, ""), (vec![done, (Act::Delete(1), Response::NoFile)], 0));
        let cut = format!("{replies}no reply\n");
        assert_eq!(noted(script(), false, Some(3), &cut, ""), (vec![(Act::Put(0, 1), Response::Unknown)], 0));
        assert_eq!(noted(script(), false, None, replies, "").0.len(), 2);
        let fault = format!("{replies}T3 H ERROR STF Store fault.\n");
        assert_eq!(noted(script(), true, Some(3), &fault, ""), (vec![(Act::Put(0, 1), Response::DoneOrNot)], 0));
        let refused = "T0  LOGIN LISPM\nT1 H OPEN 0\nT2 H ERROR MEM No memory.\n";
        assert_eq!([Some(3), None].map(|status| noted(script(), true, status, refused, "")), [(vec![], 0), (vec![], 0)]);
        assert_eq!(noted(script(), false, Some(0), &all.replace("CLOSE 3", "CLOSE 4"), "").1, 1);
        let get = [Command::Login, Command::OpenRead("H", 1), Command::Read("H"), Command::Read("H"), Command::Close("H")];
        let read = |text: &str| noted(Task::Ask(get.to_vec()), false, Some(0), text, "");
        let text = "T0  LOGIN LISPM\nT1 H OPEN 4\nT2 H READ^two!\nT3 H EOF\nT4 H CLOSE 4\n";
        assert_eq!(read(text), (vec![(Act::Get(1), Response::Content(2))], 0));
        assert_eq!(read(&text.replace("two!", "twos")).1, 1);
    }
}

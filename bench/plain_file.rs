//! FILE commands over a session and a store in memory, in plain Rust, written for speed: beside the session of chaos_file. A command
//! is read where it lies, and its reply is written into a place that the caller keeps.
//!
//! It has one text for all errors, no DELETE and RENAME, and ends where memory is wanting; its store can't fail.
use std::collections::HashMap;
use std::time::Instant;

const COMMANDS: u64 = 2_340;
const TIMES: u64 = 20;
const LINE: u8 = 0x8D;
const LIMIT: usize = 1_048_576;

enum Handle {
    Reader { bytes: Vec<u8>, place: usize },
    Writer { path: Vec<u8>, bytes: Vec<u8> },
}

#[derive(Default)]
struct Session {
    name: Option<Vec<u8>>,
    handles: Vec<(Vec<u8>, Handle)>,
}

/// A reply in a fixed array, as a packet has it.
struct Reply {
    len: usize,
    bytes: [u8; 488],
}

impl Reply {
    fn new() -> Self {
        Reply { len: 0, bytes: [0; 488] }
    }

    fn put(&mut self, bytes: &[u8]) {
        self.bytes[self.len..self.len + bytes.len()].copy_from_slice(bytes);
        self.len += bytes.len();
    }

    fn put_number(&mut self, number: usize) {
        let mut digits = [0; 20];
        let mut place = digits.len();
        let mut left = number;
        loop {
            place -= 1;
            digits[place] = b'0' + (left % 10) as u8;
            left /= 10;
            if left == 0 {
                break;
            }
        }
        self.put(&digits[place..]);
    }

    fn text(&self) -> &[u8] {
        &self.bytes[..self.len]
    }
}

fn is_name(bytes: &[u8], least: usize, most: usize) -> bool {
    (least..=most).contains(&bytes.len()) && bytes.iter().all(u8::is_ascii_alphanumeric)
}

fn is_path(bytes: &[u8]) -> bool {
    (1..=64).contains(&bytes.len())
        && bytes[0] != b'.'
        && bytes.iter().all(|b| b.is_ascii_alphanumeric() || b".-_".contains(b))
}

fn cut(bytes: &[u8]) -> Option<(&[u8], &[u8])> {
    let place = bytes.iter().position(|&b| b == b' ')?;
    Some((&bytes[..place], &bytes[place + 1..]))
}

impl Session {
    fn found(&mut self, name: &[u8]) -> Option<&mut Handle> {
        self.handles.iter_mut().find(|(known, _)| known == name).map(|(_, handle)| handle)
    }

    fn open(&mut self, store: &HashMap<Vec<u8>, Vec<u8>>, name: &[u8], rest: &[u8], reply: &mut Reply) -> Option<()> {
        if self.found(name).is_some() || self.handles.len() == 8 {
            return None;
        }
        let handle = if let Some(path) = rest.strip_prefix(b" READ\x8D").filter(|path| is_path(path)) {
            let bytes = store.get(path)?.clone();
            reply.put(b"OPEN ");
            reply.put_number(bytes.len());
            Handle::Reader { bytes, place: 0 }
        } else {
            let path = rest.strip_prefix(b" WRITE\x8D").filter(|path| is_path(path))?;
            reply.put(b"OPEN 0");
            Handle::Writer { path: path.to_vec(), bytes: Vec::new() }
        };
        self.handles.push((name.to_vec(), handle));
        Some(())
    }

    fn run(&mut self, store: &mut HashMap<Vec<u8>, Vec<u8>>, name: &[u8], rest: &[u8], reply: &mut Reply) -> Option<()> {
        let end = rest.iter().position(|&b| b == b' ' || b == LINE).unwrap_or(rest.len());
        let (word, rest) = rest.split_at(end);
        if word == b"LOGIN" {
            let user = rest.strip_prefix(b" ").filter(|user| is_name(user, 1, 16))?;
            self.name = Some(user.to_vec());
            reply.put(b"LOGIN ");
            reply.put(user);
            return Some(());
        }
        self.name.as_ref()?;
        match word {
            b"OPEN" => self.open(store, name, rest, reply)?,
            b"READ" if rest.is_empty() => match self.found(name)? {
                Handle::Reader { bytes, place } if *place < bytes.len() => {
                    let next = (*place + 448).min(bytes.len());
                    reply.put(b"READ\x8D");
                    reply.put(&bytes[*place..next]);
                    *place = next;
                }
                Handle::Reader { .. } => reply.put(b"EOF"),
                Handle::Writer { .. } => return None,
            },
            b"WRITE" => {
                let more = rest.strip_prefix(b"\x8D").filter(|more| more.len() <= 448)?;
                match self.found(name)? {
                    Handle::Writer { bytes, .. } if bytes.len() + more.len() <= LIMIT => {
                        bytes.extend_from_slice(more);
                        let count = bytes.len();
                        reply.put(b"WRITE ");
                        reply.put_number(count);
                    }
                    _ => return None,
                }
            }
            b"CLOSE" if rest.is_empty() => {
                let place = self.handles.iter().position(|(known, _)| known == name)?;
                let count = match self.handles.remove(place).1 {
                    Handle::Reader { bytes, .. } => bytes.len(),
                    Handle::Writer { path, bytes } => {
                        let count = bytes.len();
                        store.insert(path, bytes);
                        count
                    }
                };
                reply.put(b"CLOSE ");
                reply.put_number(count);
            }
            _ => return None,
        }
        Some(())
    }

    fn apply_into(&mut self, store: &mut HashMap<Vec<u8>, Vec<u8>>, command: &[u8], reply: &mut Reply) {
        reply.len = 0;
        let Some((tid, rest)) = cut(command).filter(|(tid, _)| is_name(tid, 1, 8)) else {
            return reply.put(b"  ERROR SYN Bad command syntax.");
        };
        let Some((name, rest)) = cut(rest).filter(|(name, _)| is_name(name, 0, 8)) else {
            return reply.put(b"  ERROR SYN Bad command syntax.");
        };
        reply.put(tid);
        reply.put(b" ");
        reply.put(name);
        reply.put(b" ");
        let front = reply.len;
        if self.run(store, name, rest, reply).is_none() {
            reply.len = front;
            reply.put(b"ERROR");
        }
    }
}

/// A session with its files, and the place where its replies are written.
struct Bench {
    store: HashMap<Vec<u8>, Vec<u8>>,
    session: Session,
    reply: Reply,
}

impl Bench {
    fn answered(&mut self, command: &[u8], text: &[u8]) -> bool {
        self.session.apply_into(&mut self.store, command, &mut self.reply);
        self.reply.text().starts_with(text)
    }

    fn repeated(&mut self, command: &[u8], text: &[u8]) -> u64 {
        (0..COMMANDS).map(|_| u64::from(self.answered(command, text))).sum()
    }
}

fn main() {
    let mut bench = Bench { store: HashMap::new(), session: Session::default(), reply: Reply::new() };
    let mut write = [0x5A; 460];
    write[..12].copy_from_slice(b"T1 H1 WRITE\x8D");
    assert!(bench.answered(b"T1  LOGIN LISPM", b"T1  LOGIN"));
    let (mut writing, mut reading, mut written, mut read) = (0, 0, 0, 0);
    for _ in 0..TIMES {
        assert!(bench.answered(b"T1 H1 OPEN WRITE\x8DA", b"T1 H1 OPEN 0"));
        let start = Instant::now();
        written += bench.repeated(&write, b"T1 H1 WRITE ");
        writing += start.elapsed().as_nanos();
        assert!(bench.answered(b"T1 H1 CLOSE", b"T1 H1 CLOSE 1048320"));
        assert!(bench.answered(b"T1 H1 OPEN READ\x8DA", b"T1 H1 OPEN 1048320"));
        let start = Instant::now();
        read += bench.repeated(b"T1 H1 READ", b"T1 H1 READ\x8D");
        reading += start.elapsed().as_nanos();
        assert!(bench.answered(b"T1 H1 CLOSE", b"T1 H1 CLOSE 1048320"));
    }
    println!("WRITE_of_448_bytes {written} {writing}");
    println!("READ_of_448_bytes {read} {reading}");
}

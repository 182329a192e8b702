// A laboratory of two ends over a script of losses, repeats and reorderings, in plain Rust written for speed: beside `chaosd lab`.
//
// It prints the same for the same scripts, and does less. Bodies lie in one list of bytes, where a copy that is sent again and an
// item that is held name those of the item that was written. It keeps neither the packets' addresses, indices and forwarding
// counts, which it therefore doesn't check, nor what each end wrote and its user read. It has no UNC, ANS, FWD and LOS, since no
// line makes them, and no `window`. It ends where there is no memory, and writes its text once, at the end.
use std::collections::VecDeque;
use std::io::{Read, Write};
use std::process::ExitCode;

const RETRANSMIT: u64 = 500;
const PROBE: u64 = 10_000;
const DOWN: u64 = 90_000;
const FRESH: u64 = 32_640;

const RFC: u8 = 0o1;
const OPN: u8 = 0o2;
const CLS: u8 = 0o3;
const SNS: u8 = 0o6;
const STS: u8 = 0o7;
const EOF: u8 = 0o14;
const DATA: u8 = 0o200;

fn name_of(op: u8) -> &'static str {
    match op {
        RFC => "RFC",
        OPN => "OPN",
        CLS => "CLS",
        SNS => "SNS",
        STS => "STS",
        EOF => "EOF",
        0o300.. => "DWD",
        _ => "DAT",
    }
}

#[derive(Clone, Copy, PartialEq)]
enum State {
    Inactive,
    RfcSent,
    RfcReceived,
    Open,
    ClsReceived,
    HostDown,
}

impl State {
    fn name(self) -> &'static str {
        match self {
            State::Inactive => "Inactive",
            State::RfcSent => "RfcSent",
            State::RfcReceived => "RfcReceived",
            State::Open => "Open",
            State::ClsReceived => "ClsReceived",
            State::HostDown => "HostDown",
        }
    }
}

/// Where bytes lie in [`Out`].
#[derive(Clone, Copy, Default)]
struct Body {
    at: usize,
    len: u16,
}

#[derive(Clone, Copy)]
struct Item {
    op: u8,
    body: Body,
}

#[derive(Clone, Copy)]
struct Packet {
    op: u8,
    num: u16,
    ack: u16,
    body: Body,
}

#[derive(Clone, Copy)]
struct Stamped {
    side: usize,
    packet: Packet,
    lens: [u64; 2],
}

/// What an event put out, and the bytes of all bodies.
#[derive(Default)]
struct Out {
    packets: Vec<Packet>,
    bytes: Vec<u8>,
}

impl Out {
    fn keep(&mut self, bytes: &[u8]) -> Body {
        let at = self.bytes.len();
        self.bytes.extend_from_slice(bytes);
        Body { at, len: bytes.len() as u16 }
    }

    fn bytes_of(&self, body: Body) -> &[u8] {
        &self.bytes[body.at..][..usize::from(body.len)]
    }
}

#[derive(Clone, Copy)]
enum Ticked {
    Quiet,
    Down,
    Resent(usize),
    Probed,
}

struct Conn {
    state: State,
    asked: bool,
    request: u16,
    send_cap: u16,
    recv_cap: u16,
    last: u64,
    heard: u64,
    resent: u64,
    probed: u64,
    untold: u16,
    sent: u16,
    receipted: u16,
    acknowledged: u16,
    window: u16,
    kept: VecDeque<Item>,
    read: u16,
    held: VecDeque<Option<Item>>,
}

impl Conn {
    fn new(send_cap: u16, recv_cap: u16) -> Self {
        Conn {
            state: State::Inactive,
            asked: false,
            request: 0,
            send_cap,
            recv_cap,
            last: 0,
            heard: 0,
            resent: 0,
            probed: 0,
            untold: 0,
            sent: 0,
            receipted: 0,
            acknowledged: 0,
            window: send_cap,
            kept: VecDeque::new(),
            read: 0,
            held: (0..recv_cap).map(|_| None).collect(),
        }
    }

    fn outstanding(&self) -> u16 {
        self.sent.wrapping_sub(self.acknowledged)
    }

    fn begin(&mut self, start: u16) {
        self.sent = start.wrapping_sub(1);
        self.receipted = self.sent;
        self.acknowledged = self.sent;
        self.window = self.send_cap;
        self.kept.clear();
    }

    fn status(&self, out: &mut Out) -> Body {
        let run = self.held.iter().take_while(|slot| slot.is_some()).count() as u16;
        let [a, b] = self.read.wrapping_add(run).to_le_bytes();
        let [c, d] = self.recv_cap.to_le_bytes();
        out.keep(&[a, b, c, d])
    }

    fn put_sts(&mut self, out: &mut Out) {
        self.untold = 0;
        let body = self.status(out);
        out.packets.push(Packet { op: STS, num: 0, ack: self.read, body });
    }

    fn packet_of(&self, num: u16, item: Item) -> Packet {
        let ack = if item.op == RFC { 0 } else { self.read };
        Packet { op: item.op, num, ack, body: item.body }
    }

    fn put_item(&mut self, item: Item, out: &mut Out) -> u16 {
        if self.kept.is_empty() {
            self.resent = self.last;
        }
        self.sent = self.sent.wrapping_add(1);
        out.packets.push(self.packet_of(self.sent, item));
        if item.op != RFC {
            self.untold = 0;
        }
        self.kept.push_back(item);
        self.sent
    }

    fn receipt(&mut self, num: u16) {
        let count = num.wrapping_sub(self.receipted);
        if count <= self.sent.wrapping_sub(self.receipted) {
            self.kept.drain(..usize::from(count));
            self.receipted = num;
        }
    }

    fn acknowledge(&mut self, num: u16) {
        if num.wrapping_sub(self.acknowledged) <= self.outstanding() {
            self.receipt(num);
            self.acknowledged = num;
        }
    }

    fn hear_status(&mut self, ack: u16, receipt: u16, window: u16) {
        self.acknowledge(ack);
        self.receipt(receipt);
        self.window = window.min(self.send_cap);
    }

    fn hear(&mut self, now: u64) {
        self.last = self.last.max(now);
        self.heard = self.last;
    }

    fn request(&mut self, start: u16, out: &mut Out) {
        self.state = State::RfcSent;
        self.asked = true;
        self.request = start;
        self.begin(start);
        let body = out.keep(b"LAB");
        self.put_item(Item { op: RFC, body }, out);
    }

    fn take_request(&mut self, rfc: Packet, now: u64) {
        self.hear(now);
        self.state = State::RfcReceived;
        self.request = rfc.num;
        self.read = rfc.num.wrapping_sub(1);
        self.held[0] = Some(Item { op: RFC, body: rfc.body });
    }

    fn accept(&mut self, start: u16, now: u64, out: &mut Out) -> Option<Item> {
        if self.state != State::RfcReceived {
            return None;
        }
        self.hear(now);
        self.state = State::Open;
        self.probed = self.last;
        let rfc = self.take_front();
        self.begin(start);
        let body = self.status(out);
        self.put_item(Item { op: OPN, body }, out);
        rfc
    }

    fn take_front(&mut self) -> Option<Item> {
        let item = self.held.front_mut()?.take()?;
        self.held.pop_front();
        self.held.push_back(None);
        self.read = self.read.wrapping_add(1);
        Some(item)
    }

    fn write(&mut self, op: u8, bytes: &[u8], now: u64, out: &mut Out) -> Result<u16, &'static str> {
        if self.state != State::Open {
            return Err("1 NotOpen");
        }
        if op < DATA && op != EOF {
            return Err("2 BadOp");
        }
        if bytes.len() > 488 || op == EOF && !bytes.is_empty() {
            return Err("3 TooLong");
        }
        if self.outstanding() >= self.window {
            return Err("4 Full");
        }
        self.last = self.last.max(now);
        let body = out.keep(bytes);
        Ok(self.put_item(Item { op, body }, out))
    }

    fn read(&mut self, out: &mut Out) -> Result<Option<Item>, State> {
        if matches!(self.state, State::RfcSent | State::RfcReceived) {
            return Ok(None);
        }
        match self.take_front() {
            Some(item) => {
                if self.state == State::Open {
                    self.untold += 1;
                    if 3 * self.untold >= self.recv_cap {
                        self.put_sts(out);
                    }
                }
                Ok(Some(item))
            }
            None if self.state == State::Open => Ok(None),
            None => Err(self.state),
        }
    }

    fn close(&mut self, text: &[u8], out: &mut Out) {
        if matches!(self.state, State::Open | State::RfcReceived) {
            let body = out.keep(text);
            out.packets.push(Packet { op: CLS, num: 0, ack: 0, body });
        }
        let fresh = Conn::new(self.send_cap, self.recv_cap);
        *self = Conn { last: self.last, heard: self.heard, resent: self.resent, probed: self.probed, ..fresh };
    }

    fn tick(&mut self, now: u64, out: &mut Out) -> Ticked {
        self.last = self.last.max(now);
        let waits = matches!(self.state, State::RfcSent | State::Open);
        if waits && self.last - self.heard >= DOWN {
            self.state = State::HostDown;
            return Ticked::Down;
        }
        if waits && !self.kept.is_empty() && self.last - self.resent >= RETRANSMIT {
            self.resent = self.last;
            let mut num = self.receipted;
            for &item in &self.kept {
                num = num.wrapping_add(1);
                out.packets.push(self.packet_of(num, item));
            }
            if self.kept.iter().any(|item| item.op != RFC) {
                self.untold = 0;
            }
            return Ticked::Resent(self.kept.len());
        }
        if self.state == State::Open && self.last - self.heard.max(self.probed) >= PROBE {
            self.probed = self.last;
            self.untold = 0;
            out.packets.push(Packet { op: SNS, num: 0, ack: self.read, body: Body::default() });
            return Ticked::Probed;
        }
        Ticked::Quiet
    }

    fn arrive(&mut self, packet: Packet, now: u64, out: &mut Out) -> &'static str {
        self.hear(now);
        self.acknowledge(packet.ack);
        let offset = packet.num.wrapping_sub(self.read);
        let slot = usize::from(offset).wrapping_sub(1);
        if (1..=self.recv_cap).contains(&offset) && self.held[slot].is_none() {
            let body = if packet.op == EOF { Body::default() } else { packet.body };
            self.held[slot] = Some(Item { op: packet.op, body });
            return "Took";
        }
        self.put_sts(out);
        if self.recv_cap < offset && offset < 32_768 { "Outside" } else { "Duplicate" }
    }

    /// The addresses and indices of the laboratory's packets are always right, so that they aren't looked at.
    fn deliver(&mut self, packet: Packet, now: u64, out: &mut Out) -> &'static str {
        if !matches!(self.state, State::RfcSent | State::RfcReceived | State::Open) {
            return "Dropped NotOpen";
        }
        let status = |out: &Out| {
            let [a, b, c, d] = out.bytes[packet.body.at..][..4] else { return (0, 0) };
            (u16::from_le_bytes([a, b]), u16::from_le_bytes([c, d]))
        };
        match (self.state, packet.op) {
            (_, RFC) if self.asked => "Dropped BadOp",
            (_, RFC) if packet.num != self.request => "Dropped OtherNumber",
            (state, RFC) => {
                self.hear(now);
                if state == State::Open {
                    self.put_sts(out);
                }
                "Duplicate"
            }
            (State::RfcSent, OPN) => {
                self.hear(now);
                let (receipt, window) = status(out);
                self.hear_status(packet.ack, receipt, window);
                self.state = State::Open;
                self.probed = self.last;
                self.read = packet.num;
                self.put_sts(out);
                "Opened"
            }
            (_, CLS) => {
                self.hear(now);
                self.state = State::ClsReceived;
                "Closed"
            }
            (State::Open, OPN) => {
                self.hear(now);
                let (receipt, window) = status(out);
                self.hear_status(packet.ack, receipt, window);
                self.put_sts(out);
                "Duplicate"
            }
            (State::Open, STS) => {
                self.hear(now);
                let (receipt, window) = status(out);
                self.hear_status(packet.ack, receipt, window);
                "Status"
            }
            (State::Open, SNS) => {
                self.hear(now);
                self.acknowledge(packet.ack);
                self.put_sts(out);
                "Probed"
            }
            (State::Open, _) => self.arrive(packet, now, out),
            _ => "Dropped NotOpen",
        }
    }
}

struct Lab {
    ends: [Conn; 2],
    copies: Vec<Stamped>,
    lens: [u64; 2],
    now: u64,
    was_asked: bool,
    refused: u64,
    out: Out,
    text: Vec<u8>,
}

const SIDES: [&str; 2] = ["a", "b"];

fn side_of(text: &[u8]) -> Option<usize> {
    SIDES.iter().position(|side| side.as_bytes() == text)
}

fn number(text: &[u8], most: u64) -> Option<u64> {
    if text.is_empty() || text.len() > 1 && text[0] == b'0' {
        return None;
    }
    let mut number = 0u64;
    for byte in text {
        let digit = byte.wrapping_sub(b'0');
        if digit > 9 {
            return None;
        }
        number = number.checked_mul(10)?.checked_add(u64::from(digit))?;
    }
    (number <= most).then_some(number)
}

/// How many bytes stand before the first that isn't such a byte. Vectors look through sixteen at once.
fn front_of(bytes: &[u8], is_such: impl Fn(u8) -> bool) -> usize {
    let pieces = bytes.chunks_exact(16);
    let whole = 16 * pieces.take_while(|piece| piece.iter().fold(true, |all, &byte| all & is_such(byte))).count();
    let rest = &bytes[whole..];
    whole + rest.iter().position(|&byte| !is_such(byte)).unwrap_or(rest.len())
}

/// Whether a byte stands for itself, and is shown by itself.
fn is_plain(byte: u8) -> bool {
    (byte.wrapping_sub(0x20) <= 0x7E - 0x20) & (byte != b'^') & (byte != b'\\')
}

/// The bytes that a text stands for, in a place of the caller's.
fn bytes_of<'a>(text: &[u8], room: &'a mut [u8; 488]) -> Option<&'a [u8]> {
    let mut len = front_of(text, is_plain);
    room.get_mut(..len)?.copy_from_slice(&text[..len]);
    let mut rest = &text[len..];
    while let [first, others @ ..] = rest {
        rest = others;
        let byte = match first {
            b'^' => 0x8D,
            b'\\' => {
                let [high, low, others @ ..] = rest else { return None };
                let digit = |b: &u8| match b {
                    b'0'..=b'9' => Some(b - b'0'),
                    b'a'..=b'f' => Some(b - b'a' + 10),
                    _ => None,
                };
                rest = others;
                digit(high)? * 16 + digit(low)?
            }
            0x20..=0x7E => *first,
            _ => return None,
        };
        *room.get_mut(len)? = byte;
        len += 1;
    }
    Some(&room[..len])
}

fn put_text(text: &mut Vec<u8>, bytes: &[u8]) {
    const DIGITS: &[u8; 16] = b"0123456789abcdef";
    let plain = front_of(bytes, is_plain);
    text.extend_from_slice(&bytes[..plain]);
    for &byte in &bytes[plain..] {
        match byte {
            0x8D => text.push(b'^'),
            b'^' | b'\\' | 0..=0x1F | 0x7F.. => {
                text.extend_from_slice(&[b'\\', DIGITS[usize::from(byte >> 4)], DIGITS[usize::from(byte & 15)]]);
            }
            _ => text.push(byte),
        }
    }
}

/// Each number below 100 as two digits.
static PAIRS: [[u8; 2]; 100] = pairs();

const fn pairs() -> [[u8; 2]; 100] {
    let mut table = [[b'0'; 2]; 100];
    let mut n = 0;
    while n < 100 {
        table[n] = [b'0' + (n / 10) as u8, b'0' + (n % 10) as u8];
        n += 1;
    }
    table
}

fn put_number(text: &mut Vec<u8>, mut number: u64) {
    if number < 10 {
        text.push(b'0' + number as u8);
        return;
    }
    let mut digits = [0; 20];
    let mut at = digits.len();
    while number >= 100 {
        at -= 2;
        digits[at..at + 2].copy_from_slice(&PAIRS[(number % 100) as usize]);
        number /= 100;
    }
    if number >= 10 {
        at -= 2;
        digits[at..at + 2].copy_from_slice(&PAIRS[number as usize]);
    } else {
        at -= 1;
        digits[at] = b'0' + number as u8;
    }
    text.extend_from_slice(&digits[at..]);
}

impl Lab {
    fn new(caps: [u16; 4], start: u16) -> Self {
        let mut lab = Lab {
            ends: [Conn::new(caps[0], caps[1]), Conn::new(caps[2], caps[3])],
            copies: Vec::new(),
            lens: [1, 0],
            now: 0,
            was_asked: false,
            refused: 0,
            out: Out::default(),
            text: Vec::new(),
        };
        lab.ends[0].request(start, &mut lab.out);
        lab.post(0);
        lab
    }

    fn say(&mut self, parts: &[&str]) {
        for part in parts {
            self.text.extend_from_slice(part.as_bytes());
        }
        self.text.push(b'\n');
    }

    fn say_number(&mut self, words: &str, number: u64) {
        self.text.extend_from_slice(words.as_bytes());
        put_number(&mut self.text, number);
        self.text.push(b'\n');
    }

    fn refuse(&mut self, words: &[&str]) {
        self.refused += 1;
        self.text.extend_from_slice(b"refused ");
        self.say(words);
    }

    fn post(&mut self, side: usize) {
        for packet in self.out.packets.drain(..) {
            self.text.extend_from_slice(b"copy ");
            put_number(&mut self.text, self.copies.len() as u64);
            self.text.extend_from_slice(if side == 0 { b" a " } else { b" b " });
            self.text.extend_from_slice(name_of(packet.op).as_bytes());
            self.text.extend_from_slice(b" num ");
            put_number(&mut self.text, u64::from(packet.num));
            self.text.extend_from_slice(b" ack ");
            put_number(&mut self.text, u64::from(packet.ack));
            self.text.push(b'\n');
            self.copies.push(Stamped { side, packet, lens: self.lens });
        }
    }

    fn deliver(&mut self, place: usize) {
        let Some(&copy) = self.copies.get(place) else {
            return self.refuse(&["1 NoSuchCopy"]);
        };
        if (0..2).any(|side| self.lens[side] - copy.lens[side] >= FRESH) {
            return self.refuse(&["2 Stale"]);
        }
        let to = 1 - copy.side;
        let answer = if to == 1 && copy.packet.op == RFC && !self.was_asked && self.ends[1].state == State::Inactive {
            self.was_asked = true;
            self.ends[1].take_request(copy.packet, self.now);
            "Requested"
        } else {
            self.ends[to].deliver(copy.packet, self.now, &mut self.out)
        };
        self.say(&["delivered ", answer]);
        self.post(to);
    }

    fn write(&mut self, side: usize, op: u8, bytes: &[u8]) {
        match self.ends[side].write(op, bytes, self.now, &mut self.out) {
            Ok(num) => {
                self.lens[side] += 1;
                self.say_number("wrote ", u64::from(num));
                self.post(side);
            }
            Err(fault) => self.refuse(&["3 ", fault]),
        }
    }

    fn read(&mut self, side: usize) {
        match self.ends[side].read(&mut self.out) {
            Ok(Some(item)) => {
                let digit = |shift: u8| b'0' + (item.op >> shift & 7);
                self.text.extend_from_slice(b"read ");
                self.text.extend_from_slice(&[digit(6), digit(3), digit(0)]);
                if item.body.len > 0 {
                    self.text.push(b' ');
                    put_text(&mut self.text, self.out.bytes_of(item.body));
                }
                self.text.push(b'\n');
            }
            Ok(None) => self.say(&["read nothing"]),
            Err(state) => self.say(&["read ended ", state.name()]),
        }
        self.post(side);
    }

    fn tick(&mut self, side: usize, now: u64) {
        self.now = self.now.max(now);
        match self.ends[side].tick(now, &mut self.out) {
            Ticked::Quiet => self.say(&["ticked quiet"]),
            Ticked::Down => self.say(&["ticked down"]),
            Ticked::Resent(count) => self.say_number("ticked resent ", count as u64),
            Ticked::Probed => self.say(&["ticked probed"]),
        }
        self.post(side);
    }

    fn accept(&mut self, start: u16) {
        match self.ends[1].accept(start, self.now, &mut self.out) {
            Some(_) => {
                self.lens[1] += 1;
                self.say_number("accepted ", u64::from(start));
                self.post(1);
            }
            None => self.refuse(&["3 6 WrongState"]),
        }
    }

    /// What a line asks for. The bytes that its text stands for come into the room.
    fn event(&mut self, line: &[u8], room: &mut [u8; 488]) -> Option<()> {
        let (word, rest) = cut(line);
        match word {
            b"write" => {
                let (side, rest) = cut(rest?);
                let (op, text) = cut(rest?);
                let [a @ b'0'..=b'3', b @ b'0'..=b'7', c @ b'0'..=b'7'] = op else { return None };
                let op = (a - b'0') << 6 | (b - b'0') << 3 | (c - b'0');
                self.write(side_of(side)?, op, bytes_of(text.unwrap_or(&[]), room)?);
            }
            b"close" => {
                let (side, text) = cut(rest?);
                let side = side_of(side)?;
                let bytes = bytes_of(text.unwrap_or(&[]), room)?;
                self.ends[side].close(bytes, &mut self.out);
                self.say(&["closed"]);
                self.post(side);
            }
            b"read" => self.read(side_of(rest?)?),
            b"tick" => {
                let (side, now) = cut(rest?);
                self.tick(side_of(side)?, number(now?, u64::MAX)?);
            }
            b"accept" => self.accept(number(rest?, 65_535)? as u16),
            b"deliver" => self.deliver(usize::try_from(number(rest?, u64::MAX)?).ok()?),
            _ => return None,
        }
        Some(())
    }
}

/// What stands before the first space, and behind it.
fn cut(text: &[u8]) -> (&[u8], Option<&[u8]>) {
    match text.iter().position(|&b| b == b' ') {
        Some(at) => (&text[..at], Some(&text[at + 1..])),
        None => (text, None),
    }
}

fn first(line: &[u8]) -> Option<Lab> {
    let fields: Vec<&[u8]> = line.split(|&b| b == b' ').collect();
    let [b"ends", sa, ra, sb, rb, start] = fields[..] else { return None };
    let cap = |text| number(text, 64).filter(|&cap| cap > 0).map(|cap| cap as u16);
    Some(Lab::new([cap(sa)?, cap(ra)?, cap(sb)?, cap(rb)?], number(start, 65_535)? as u16))
}

fn main() -> ExitCode {
    let mut input = Vec::new();
    if std::io::stdin().lock().read_to_end(&mut input).is_err() {
        return ExitCode::from(1);
    }
    let mut rest = Some(input.strip_suffix(b"\n").unwrap_or(&input));
    let mut lab: Option<Lab> = None;
    let mut room = [0; 488];
    let mut number = 0;
    let mut bad = None;
    while let Some(bytes) = rest {
        let end = front_of(bytes, |byte| byte != b'\n');
        let line = &bytes[..end];
        rest = bytes.get(end + 1..);
        number += 1;
        let line = line.strip_suffix(b"\r").unwrap_or(line);
        let done = line.len() <= 4096
            && match &mut lab {
                Some(lab) => lab.event(line, &mut room).is_some(),
                None => {
                    lab = first(line);
                    lab.is_some()
                }
            };
        if !done {
            bad = Some(number);
            break;
        }
    }
    let mut status = if bad.is_some() || lab.is_none() { 2 } else { 0 };
    if let Some(mut lab) = lab {
        if status == 0 {
            let stored = |end: &Conn| end.kept.len() + end.held.iter().flatten().count();
            let (a, b) = (stored(&lab.ends[0]), stored(&lab.ends[1]));
            lab.say(&["stored a ", &a.to_string(), " b ", &b.to_string()]);
            status = if lab.refused > 0 { 3 } else { 0 };
        }
        if std::io::stdout().write_all(&lab.text).is_err() {
            return ExitCode::from(1);
        }
    }
    if status == 2 {
        eprintln!("line {}: bad", bad.unwrap_or(1));
    }
    ExitCode::from(status)
}

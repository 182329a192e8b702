//! Data packets through a table of connections, in plain Rust, written for speed: beside the host of chaos_host. A body is copied
//! once, from the packet into a place of the connection's, and nothing is allocated on the way.
//!
//! Its connections are open and stay so: it has no states, requests and listeners, no opcode but data and STS, no time but the
//! moment at which a peer was heard, sends nothing but STS, keeps nothing that it would send again, and has one window.
#![allow(dead_code)]
use std::collections::VecDeque;
use std::time::Instant;

const ROUNDS: u64 = 1_000_000;
const HERE: u16 = 0o401;
const THERE: u16 = 0o402;
const CAP: u16 = 64;

struct Body {
    len: u16,
    bytes: [u8; 488],
}

impl Body {
    fn of(bytes: &[u8]) -> Self {
        let mut body = Body { len: bytes.len() as u16, bytes: [0; 488] };
        body.bytes[..bytes.len()].copy_from_slice(bytes);
        body
    }

    fn fill(&mut self, other: &Body) {
        let len = usize::from(other.len);
        self.bytes[..len].copy_from_slice(&other.bytes[..len]);
        self.len = other.len;
    }
}

struct Packet {
    op: u8,
    dst: u16,
    dst_index: u16,
    src: u16,
    src_index: u16,
    num: u16,
    ack: u16,
    body: Body,
}

struct Item {
    op: u8,
    body: Body,
}

struct Conn {
    index: u16,
    peer: u16,
    peer_index: u16,
    heard: u64,
    untold: u16,
    sent: u16,
    acknowledged: u16,
    read: u16,
    /// The place of the next item.
    first: u16,
    /// Which offsets are held, the first in the lowest bit.
    held: u64,
    items: Box<[Item]>,
}

impl Conn {
    fn status(&self) -> Packet {
        let receipt = self.read.wrapping_add(self.held.trailing_ones() as u16);
        let ([r0, r1], [w0, w1]) = (receipt.to_le_bytes(), CAP.to_le_bytes());
        Packet {
            op: 0o7,
            dst: self.peer,
            dst_index: self.peer_index,
            src: HERE,
            src_index: self.index,
            num: 0,
            ack: self.read,
            body: Body::of(&[r0, r1, w0, w1]),
        }
    }

    fn deliver(&mut self, packet: &Packet, now: u64, out: &mut VecDeque<Packet>) {
        self.heard = self.heard.max(now);
        if packet.ack.wrapping_sub(self.acknowledged) <= self.sent.wrapping_sub(self.acknowledged) {
            self.acknowledged = packet.ack;
        }
        let offset = packet.num.wrapping_sub(self.read);
        if (1..=CAP).contains(&offset) && self.held & 1 << (offset - 1) == 0 {
            self.held |= 1 << (offset - 1);
            let item = &mut self.items[usize::from((self.first + offset - 1) % CAP)];
            item.op = packet.op;
            item.body.fill(&packet.body);
        } else {
            self.untold = 0;
            let status = self.status();
            out.push_back(status);
        }
    }

    fn read_done(&mut self, out: &mut VecDeque<Packet>) -> bool {
        if self.held & 1 == 0 || self.items[usize::from(self.first)].op < 0o200 {
            return false;
        }
        self.held >>= 1;
        self.first = (self.first + 1) % CAP;
        self.read = self.read.wrapping_add(1);
        self.untold += 1;
        if 3 * self.untold >= CAP {
            self.untold = 0;
            let status = self.status();
            out.push_back(status);
        }
        true
    }
}

struct Host {
    slots: Vec<Option<Conn>>,
}

impl Host {
    fn named(&mut self, index: u16) -> Option<&mut Conn> {
        let place = usize::from(index & 0xFF).checked_sub(1)?;
        self.slots.get_mut(place)?.as_mut().filter(|conn| conn.index == index)
    }

    fn deliver(&mut self, packet: &Packet, now: u64, out: &mut VecDeque<Packet>) -> bool {
        if packet.dst != HERE || packet.src == 0 {
            return false;
        }
        let (src, src_index) = (packet.src, packet.src_index);
        match self.named(packet.dst_index) {
            Some(conn) if conn.peer == src && conn.peer_index == src_index => {
                conn.deliver(packet, now, out);
                true
            }
            _ => false,
        }
    }
}

fn timed(conns: u16, name: &str) {
    let slot = |place: u16| {
        Some(Conn {
            index: place,
            peer: THERE,
            peer_index: place,
            heard: 0,
            untold: 0,
            sent: 9,
            acknowledged: 8,
            read: 5,
            first: 0,
            held: 0,
            items: (0..CAP).map(|_| Item { op: 0, body: Body::of(&[]) }).collect(),
        })
    };
    let mut host = Host { slots: (1..=conns).map(slot).collect() };
    let mut out = VecDeque::with_capacity(66);
    let mut packet = Packet {
        op: 0o200,
        dst: HERE,
        dst_index: conns,
        src: THERE,
        src_index: conns,
        num: 5,
        ack: 9,
        body: Body::of(&[0x5A; 448]),
    };
    let mut read = 0u64;
    let start = Instant::now();
    for _ in 0..ROUNDS {
        packet.num = packet.num.wrapping_add(1);
        host.deliver(&packet, 0, &mut out);
        if host.named(conns).is_some_and(|conn| conn.read_done(&mut out)) {
            read += 1;
        }
        out.clear();
    }
    println!("{name} {read} {}", start.elapsed().as_nanos());
}

fn main() {
    timed(2, "data_of_2_connections");
    timed(255, "data_of_255_connections");
}

//! What times the turns of a server: a link on which one datagram waits, and the commands of one connection beside others that are idle.
use crate::host::{Packet, DATA, MOST_DATAGRAM};
use crate::turn::{Link, LINK_ROOM};
use std::hint::black_box;
use std::io;
use std::time::Instant;

const ROUNDS: u64 = 200_000;
pub const HERE: u16 = 0o401;
const THERE: u16 = 0o402;
const START: u16 = 9;
const RFC: u8 = 1;

/// A link on which one datagram waits, or none. It counts what is sent.
pub struct Single {
    count: usize,
    waiting: [u8; MOST_DATAGRAM],
    sent: u64,
}

impl Link for Single {
    fn send(&mut self, _to: u16, _datagram: &[u8]) -> io::Result<()> {
        self.sent += 1;
        Ok(())
    }

    fn receive(&mut self, buffer: &mut [u8; LINK_ROOM], _may_wait: bool) -> io::Result<Option<usize>> {
        let count = std::mem::take(&mut self.count);
        buffer[..count].copy_from_slice(&self.waiting[..count]);
        Ok((count > 0).then_some(count))
    }
}

impl Single {
    fn new() -> Self {
        Single { count: 0, waiting: [0; MOST_DATAGRAM], sent: 0 }
    }

    /// Lets the datagram of an item of the peer wait whose index is `from`.
    fn put(&mut self, op: u8, to: u16, from: u16, num: u16, ack: u16, body: &[u8]) {
        let packet = Packet { op, dst: HERE, dst_index: to, src: THERE, src_index: from, num, ack, body };
        self.count = packet.write(&mut self.waiting);
    }
}

/// A server whose turns are timed.
pub trait Turning {
    /// One of so many slots, which serves the files of a memory.
    fn new(slots: usize, link: Single) -> Self;

    fn link(&mut self) -> &mut Single;

    fn turn(&mut self, start: u16, now: u64) -> io::Result<bool>;
}

/// Times a table of so many slots, of which so many have an open connection; the last of these is used.
fn timed<S: Turning>(slots: usize, conns: u16, name: &str) -> io::Result<()> {
    let mut server = S::new(slots, Single::new());
    for index in 1..=conns {
        server.link().put(RFC, 0, index, 5, 0, b"FILE");
        server.turn(START, 0)?;
    }
    let start = Instant::now();
    server.link().sent = 0;
    let (mut num, mut ack) = (5u16, 9u16);
    for _ in 0..ROUNDS {
        num = num.wrapping_add(1);
        server.link().put(DATA, conns, conns, num, ack, b"T1  LOGIN LISPM");
        ack = ack.wrapping_add(1);
        // A moment that the compiler doesn't know, as there.
        server.turn(START, black_box(0))?;
    }
    println!("{name} {ROUNDS} {} {}", start.elapsed().as_nanos(), server.link().sent);
    Ok(())
}

/// Times all tables.
pub fn time_all<S: Turning>() -> io::Result<()> {
    timed::<S>(1, 1, "turn_of_1_connection")?;
    timed::<S>(255, 1, "turn_of_1_connection_and_254_free_slots")?;
    timed::<S>(255, 255, "turn_of_255_connections")
}

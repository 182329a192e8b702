//! The turns of a client and of a server over a link.
use crate::file::{Session, Store};
use crate::host::{Carriage, Conn, Host, Item, Out, Packet, Slot, State, EOF};
use std::io;

pub const LINK_ROOM: usize = 2048;

/// Carries datagrams.
pub trait Link {
    fn send(&mut self, to: u16, datagram: &[u8]) -> io::Result<()>;

    /// How many bytes of the buffer a datagram that came has. Where none is there, it waits for one if it may.
    fn receive(&mut self, buffer: &mut [u8; LINK_ROOM], may_wait: bool) -> io::Result<Option<usize>>;
}

/// Sends all that waits, and says whether anything did.
pub fn send_all(link: &mut impl Link, out: &mut Out) -> io::Result<bool> {
    if out.is_empty() {
        return Ok(false);
    }
    for datagram in out.datagrams() {
        link.send(datagram.to, datagram.bytes())?;
    }
    out.clear();
    Ok(true)
}

pub struct Client<L> {
    host: Host,
    link: L,
    out: Out,
    buffer: [u8; LINK_ROOM],
}

impl<L: Link> Client<L> {
    pub fn new(address: u16, carriage: Carriage, link: L) -> Self {
        Client { host: Host::new(address, 1, false), link, out: Out::new(carriage), buffer: [0; LINK_ROOM] }
    }

    /// One turn, which says whether a datagram came or went.
    pub fn turn(&mut self, now: u64, may_wait: bool) -> io::Result<bool> {
        let Client { host, link, out, buffer } = self;
        let mut worked = send_all(link, out)?;
        if let Some(count) = link.receive(buffer, may_wait)? {
            worked = true;
            Packet::each(&mut buffer[..count], |packet| {
                host.deliver(packet, now, out);
            });
            send_all(link, out)?;
        }
        host.slots[0].conn.tick(now, out);
        Ok(send_all(link, out)? || worked)
    }

    /// Asks for a connection to FILE. The index's generation is that of so many connections before.
    pub fn connect(&mut self, generation: u8, to: u16, start: u16, now: u64) {
        self.host.slots[0].generation = generation;
        let index = self.host.index(0);
        self.host.slots[0].conn.request(index, to, b"FILE", start, now, &mut self.out);
    }

    pub fn write(&mut self, op: u8, bytes: &[u8], now: u64) -> bool {
        self.host.slots[0].conn.write(op, bytes, now, &mut self.out)
    }

    pub fn front(&self) -> Option<&Item> {
        self.host.slots[0].conn.front()
    }

    /// Lets the item in front go, which is there.
    pub fn read_done(&mut self) {
        self.host.slots[0].conn.read_done(&mut self.out);
    }

    pub fn state(&self) -> State {
        self.host.slots[0].conn.state
    }

    pub fn is_drained(&self) -> bool {
        self.host.slots[0].conn.outstanding() == 0
    }

    pub fn close(&mut self) {
        self.host.slots[0].close(&mut self.out);
    }

    /// Whether a packet waits to be sent.
    pub fn owes(&self) -> bool {
        !self.out.is_empty()
    }
}

/// What a slot keeps for its connection: a new one where a new request is accepted.
#[derive(Default)]
pub struct Kept {
    session: Session,
    eof: bool,
}

impl Kept {
    /// Whether the connection has ended, or its peer is done and has all replies.
    pub fn may_end(&self, conn: &Conn) -> bool {
        conn.state == State::Ended || self.eof && conn.state != State::Inactive && conn.outstanding() == 0
    }
}

pub struct Server<S, L> {
    host: Host,
    sessions: Vec<Kept>,
    store: S,
    pub link: L,
    out: Out,
    buffer: [u8; LINK_ROOM],
}

impl<S: Store, L: Link> Server<S, L> {
    pub fn new(address: u16, conns: usize, carriage: Carriage, store: S, link: L) -> Self {
        Server {
            host: Host::new(address, conns, true),
            sessions: (0..conns).map(|_| Kept::default()).collect(),
            store,
            link,
            out: Out::new(carriage),
            buffer: [0; LINK_ROOM],
        }
    }

    /// Whether a connection has something to serve, so that a turn isn't to wait.
    pub fn can_serve_any(&self) -> bool {
        self.host.slots.iter().any(|slot| slot.conn.can_be_served())
    }

    /// One turn, which says whether a datagram came or went. With version 2 of the carriage it serves a connection until nothing is in
    /// front or its window is full, so that its replies go out together.
    pub fn turn(&mut self, start: u16, now: u64, may_wait: bool) -> io::Result<bool> {
        let mut worked = send_all(&mut self.link, &mut self.out)?;
        if let Some(count) = self.link.receive(&mut self.buffer, may_wait)? {
            worked = true;
            self.arrive(count, start, now);
            send_all(&mut self.link, &mut self.out)?;
        }
        let Server { host, sessions, store, link, out, .. } = self;
        for (slot, kept) in host.slots.iter_mut().zip(&mut *sessions) {
            if slot.conn.state == State::Open {
                let mut goes_on = slot.conn.front().is_some();
                while goes_on {
                    goes_on = serve(&mut slot.conn, kept, store, now, out) && out.carriage == Carriage::Two;
                }
                worked |= send_all(link, out)?;
            }
        }
        for (slot, kept) in host.slots.iter_mut().zip(sessions) {
            if kept.may_end(&slot.conn) {
                end(slot, kept, out);
                worked |= send_all(link, out)?;
            }
        }
        for slot in &mut host.slots {
            slot.conn.tick(now, out);
            worked |= send_all(link, out)?;
        }
        Ok(worked)
    }

    fn arrive(&mut self, count: usize, start: u16, now: u64) {
        let Server { host, sessions, out, buffer, .. } = self;
        Packet::each(&mut buffer[..count], |packet| {
            if let Some(slot) = host.deliver(packet, now, out) {
                sessions[slot] = Kept::default();
                host.slots[slot].conn.accept(start, now, out);
            }
        });
    }
}

/// Frees the slot of a connection that has ended, and gives its session's files back: seldom.
#[cold]
pub fn end(slot: &mut Slot, kept: &mut Kept, out: &mut Out) {
    slot.close(out);
    kept.session.drop_files();
}

/// Serves an open connection once, and says whether there was something to serve.
pub fn serve(conn: &mut Conn, kept: &mut Kept, store: &mut impl Store, now: u64, out: &mut Out) -> bool {
    match conn.front() {
        Some(item) if item.op == EOF => {
            conn.read_done(out);
            kept.eof = true;
        }
        Some(_) if conn.can_write() => conn.reply(now, out, |command, reply| kept.session.apply(store, command, reply)),
        _ => return false,
    }
    true
}

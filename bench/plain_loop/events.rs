//! A server that looks only at the slots that something happened to, with version 1 of the carriage.
use crate::file::Store;
use crate::host::{Carriage, Host, Out, Packet, State};
use crate::turn::{end, send_all, serve, Kept, Link, LINK_ROOM};
use std::io;

/// Slots, at most 256 of them.
#[derive(Clone, Copy, Default)]
struct Slots([u64; 4]);

impl Slots {
    fn add(&mut self, slot: usize) {
        self.0[slot / 64] |= 1 << (slot % 64);
    }
}

impl Iterator for Slots {
    type Item = usize;

    /// Takes the least slot out.
    fn next(&mut self) -> Option<usize> {
        let word = self.0.iter().position(|&word| word != 0)?;
        let bit = self.0[word].trailing_zeros() as usize;
        self.0[word] &= self.0[word] - 1;
        Some(64 * word + bit)
    }
}

pub struct Server<S, L> {
    host: Host,
    sessions: Vec<Kept>,
    store: S,
    pub link: L,
    out: Out,
    buffer: [u8; LINK_ROOM],
    touched: Slots,
    /// No tick sends anything before this moment.
    due: u64,
}

impl<S: Store, L: Link> Server<S, L> {
    pub fn new(address: u16, conns: usize, store: S, link: L) -> Self {
        Server {
            host: Host::new(address, conns, true),
            sessions: (0..conns).map(|_| Kept::default()).collect(),
            store,
            link,
            out: Out::new(Carriage::One),
            buffer: [0; LINK_ROOM],
            touched: Slots::default(),
            due: u64::MAX,
        }
    }

    /// Whether a connection has something to serve, so that a turn isn't to wait.
    pub fn can_serve_any(&self) -> bool {
        self.touched.into_iter().any(|slot| self.host.slots[slot].conn.can_be_served())
    }

    /// One turn, which says whether a datagram came or went.
    pub fn turn(&mut self, start: u16, now: u64, may_wait: bool) -> io::Result<bool> {
        let mut worked = send_all(&mut self.link, &mut self.out)?;
        if let Some(count) = self.link.receive(&mut self.buffer, may_wait)? {
            worked = true;
            self.arrive(count, start, now);
            send_all(&mut self.link, &mut self.out)?;
        }
        let touched = std::mem::take(&mut self.touched);
        let Server { host, sessions, store, link, out, .. } = self;
        for slot in touched {
            let conn = &mut host.slots[slot].conn;
            if conn.state == State::Open {
                serve(conn, &mut sessions[slot], store, now, out);
                worked |= send_all(link, out)?;
                if conn.can_be_served() {
                    self.touched.add(slot);
                }
            }
        }
        for slot in touched {
            let (place, kept) = (&mut host.slots[slot], &mut sessions[slot]);
            if kept.may_end(&place.conn) {
                end(place, kept, out);
                worked |= send_all(link, out)?;
            }
            self.due = self.due.min(place.conn.due());
        }
        if now >= self.due {
            worked |= self.tick(now)?;
        }
        Ok(worked)
    }

    /// The packet's slot, where it has one, is looked at in this turn.
    fn arrive(&mut self, count: usize, start: u16, now: u64) {
        let Some(packet) = Packet::read(&mut self.buffer[..count]) else { return };
        let told = usize::from(packet.dst_index & 0xFF).wrapping_sub(1);
        if let Some(slot) = self.host.deliver(&packet, now, &mut self.out) {
            self.sessions[slot] = Kept::default();
            self.host.slots[slot].conn.accept(start, now, &mut self.out);
            self.touched.add(slot);
        } else if told < self.sessions.len() {
            self.touched.add(told);
        }
    }

    /// A tick of each connection. Those that it ends are looked at in the next turn.
    fn tick(&mut self, now: u64) -> io::Result<bool> {
        let mut worked = false;
        self.due = u64::MAX;
        for (slot, place) in self.host.slots.iter_mut().enumerate() {
            place.conn.tick(now, &mut self.out);
            worked |= send_all(&mut self.link, &mut self.out)?;
            if place.conn.state == State::Ended {
                self.touched.add(slot);
            }
            self.due = self.due.min(place.conn.due());
        }
        Ok(worked)
    }
}

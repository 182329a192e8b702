//! The turns of plain_turn.rs without its walks. A set of bits has the slots that something happened to, and only these are served and
//! ended. One moment stands for all connections: before it no tick sends anything, so none is made.
//!
//! It sends the same datagrams. But a connection's last moment stays as it was until something happens to it, where the specification has
//! each tick set it.
#![allow(dead_code)]
#[path = "plain_loop/events.rs"]
mod events;
#[path = "plain_loop/file.rs"]
mod file;
#[path = "plain_loop/host.rs"]
mod host;
#[path = "plain_loop/single.rs"]
mod single;
#[path = "plain_loop/turn.rs"]
mod turn;

use events::Server;
use file::MemStore;
use single::{time_all, Single, Turning, HERE};
use std::io;

impl Turning for Server<MemStore, Single> {
    fn new(slots: usize, link: Single) -> Self {
        Server::new(HERE, slots, MemStore::default(), link)
    }

    fn link(&mut self) -> &mut Single {
        &mut self.link
    }

    fn turn(&mut self, start: u16, now: u64) -> io::Result<bool> {
        Server::turn(self, start, now, false)
    }
}

fn main() -> io::Result<()> {
    time_all::<Server<MemStore, Single>>()
}

//! Turns of a FILE server that each serve one command, in plain Rust, written for speed: beside the turn of chaos_node. A datagram is
//! read where it lies, a command is carried out where it is held, its reply is written where it is kept to be sent again, and what goes
//! out is written as its datagram at once. No packet takes memory. Each turn walks over all slots, and each tick sets the last moment of
//! each connection, as the specification says.
//!
//! It has version 1 of the carriage alone, one contact and windows of 13; it counts no failures of a link, keeps no packet apart from its
//! datagram, and ends where memory is wanting.
#![allow(dead_code)]
#[path = "plain_loop/file.rs"]
mod file;
#[path = "plain_loop/host.rs"]
mod host;
#[path = "plain_loop/single.rs"]
mod single;
#[path = "plain_loop/turn.rs"]
mod turn;

use file::MemStore;
use host::Carriage;
use single::{time_all, Single, Turning, HERE};
use std::io;
use turn::Server;

impl Turning for Server<MemStore, Single> {
    fn new(slots: usize, link: Single) -> Self {
        Server::new(HERE, slots, Carriage::One, MemStore::default(), link)
    }

    fn link(&mut self) -> &mut Single {
        &mut self.link
    }

    fn turn(&mut self, start: u16, now: u64) -> io::Result<bool> {
        Server::turn(self, start, now, false)
    }
}

fn main() -> io::Result<()> {
    time_all::<Server<MemStore, Single>>()
}

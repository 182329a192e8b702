//! Which packets reached a socket more than once.
//!
//! Where the world lost nothing and delayed nothing, a packet that arrives twice was sent again without need.

use crate::net::Address;
use crate::packets::numbered;
use std::collections::HashSet;

/// The packets of a run that have a number of their own: data and EOF, by their ends, indices and number.
#[derive(Default)]
pub struct Repeats {
    seen: HashSet<((Address, Address), [u16; 3])>,
    /// How many arrived, and how many of these had arrived before.
    pub arrived: u64,
    pub again: u64,
}

impl Repeats {
    /// Notes the packets of a datagram that arrived from one address at another.
    pub fn note(&mut self, ends: (Address, Address), datagram: &[u8]) {
        for packet in numbered(datagram) {
            self.arrived += 1;
            self.again += u64::from(!self.seen.insert((ends, packet)));
        }
    }
}

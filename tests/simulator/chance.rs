//! Random numbers of a seed, and the faults that they decide.
//!
//! Each stream of numbers has a name and an index, so what is left out of a run doesn't shift the numbers of what stays in it.

use std::collections::BTreeSet;

/// A stream of random numbers (SplitMix64).
#[derive(Clone)]
pub struct Chance(u64);

impl Chance {
    /// The stream of that name and index of a seed.
    pub fn new(seed: u64, name: &str, index: u64) -> Self {
        let mut mixed = name.bytes().fold(seed ^ 0x6a09_e667_f3bc_c908, |sum, byte| mix(sum ^ u64::from(byte)));
        mixed = mix(mixed ^ index);
        Chance(mixed)
    }

    /// Any number.
    pub fn next(&mut self) -> u64 {
        self.0 = self.0.wrapping_add(0x9e37_79b9_7f4a_7c15);
        mix(self.0)
    }

    /// A number below `end`, which is 1 or more.
    pub fn below(&mut self, end: u64) -> u64 {
        ((u128::from(self.next()) * u128::from(end)) >> 64) as u64
    }

    /// A number from `first` up to and without `end`.
    pub fn between(&mut self, first: u64, end: u64) -> u64 {
        first + self.below(end - first)
    }

    /// Whether what happens once in `count` times happens now; 0 is never.
    pub fn one_in(&mut self, count: u64) -> bool {
        count > 0 && self.below(count) == 0
    }

    /// One of these.
    pub fn pick<'a, T>(&mut self, of: &'a [T]) -> &'a T {
        &of[self.below(of.len() as u64) as usize]
    }
}

fn mix(number: u64) -> u64 {
    let number = (number ^ (number >> 30)).wrapping_mul(0xbf58_476d_1ce4_e5b9);
    let number = (number ^ (number >> 27)).wrapping_mul(0x94d0_49bb_1331_11eb);
    number ^ (number >> 31)
}

/// What can go wrong.
#[derive(Clone, Copy, PartialEq, Eq, PartialOrd, Ord, Hash, Debug)]
pub enum FaultKind {
    /// A datagram is lost.
    Loss,
    /// A datagram arrives twice.
    Repeat,
    /// A datagram is late, so that others overtake it.
    Delay,
    /// One to three bits of a datagram flip.
    Flip,
    /// A datagram is cut short.
    Cut,
    /// One host no longer reaches another for a while; the other way stays open.
    Partition,
    /// The system refuses to send.
    SendFails,
    /// A process is killed, and its machine goes on.
    Kill,
    /// The power of a machine fails: its processes end, and its disk keeps what was flushed and parts of the rest.
    Power,
    /// A write to a file fails, or takes only a part of its bytes.
    WriteFails,
    /// A flush fails.
    FlushFails,
    /// The disk is full for a while.
    NoSpace,
    /// A call of the file system fails: open, rename, unlink, stat.
    DiskFails,
    /// The system refuses memory.
    Refused,
    /// A clock jumps, back or ahead.
    ClockJump,
    /// A clock stands still for a while.
    ClockStop,
}

use FaultKind::*;

impl FaultKind {
    pub const ALL: [FaultKind; 16] = [
        Loss, Repeat, Delay, Flip, Cut, Partition, SendFails, Kill, Power, WriteFails, FlushFails, NoSpace, DiskFails, Refused, ClockJump,
        ClockStop,
    ];

    /// Its name in a command line and in a picture.
    pub fn name(self) -> &'static str {
        const NAMES: [&str; 16] = [
            "loss",
            "repeat",
            "delay",
            "flip",
            "cut",
            "partition",
            "send-fails",
            "kill",
            "power",
            "write-fails",
            "flush-fails",
            "no-space",
            "disk-fails",
            "refused",
            "clock-jump",
            "clock-stop",
        ];
        NAMES[self as usize]
    }
}

/// A fault that happened: the index of its chance among those of its kind, and the moment.
#[derive(Clone, Copy, PartialEq, Eq, Debug)]
pub struct Fault {
    pub kind: FaultKind,
    pub index: u64,
    pub at: u64,
}

/// Which faults happen in a run.
pub struct Faults {
    seed: u64,
    /// By kind: one chance in so many comes true; 0 is none.
    rates: [u64; 16],
    /// By kind: how many chances there were.
    counts: [u64; 16],
    /// Faults that are left out.
    without: BTreeSet<(FaultKind, u64)>,
    /// The faults that alone may happen, where there are such.
    pub only: Option<BTreeSet<(FaultKind, u64)>>,
    /// From this moment, in nanoseconds, nothing goes wrong.
    pub until: u64,
    pub happened: Vec<Fault>,
}

impl Faults {
    /// The faults of a seed, with those rates, up to a moment, without those that are left out.
    pub fn new(seed: u64, rates: [u64; 16], until: u64, without: BTreeSet<(FaultKind, u64)>) -> Self {
        Faults { seed, rates, counts: [0; 16], without, only: None, until, happened: Vec::new() }
    }

    /// Whether a fault of that kind happens at this chance for it, at that moment; numbers for what it is like, if so.
    pub fn happens(&mut self, kind: FaultKind, now: u64) -> Option<Chance> {
        let place = kind as usize;
        let index = self.counts[place];
        self.counts[place] += 1;
        if self.rates[place] == 0 || now >= self.until {
            return None;
        }
        let mut chance = Chance::new(self.seed, kind.name(), index);
        if !chance.one_in(self.rates[place]) || self.without.contains(&(kind, index)) {
            return None;
        }
        if self.only.as_ref().is_some_and(|only| !only.contains(&(kind, index))) {
            return None;
        }
        self.happened.push(Fault { kind, index, at: now });
        Some(chance)
    }
}

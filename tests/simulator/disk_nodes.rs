//! Files and folders of a disk: what programs see of them, and what is durable.

use super::{FileId, Name, NodeId};
use crate::chance::Chance;
use std::rc::Rc;

const S_IFREG: u32 = 0o100_000;
const S_IFDIR: u32 = 0o040_000;
const S_IFCHR: u32 = 0o020_000;

/// The number of the root's inode, as ext4 has it. Each place has the number that many above.
const FIRST_INODE: u64 = 2;
/// A disk writes blocks of this size whole or not at all.
const BLOCK: usize = 512;

/// What a call of stat reports. The moments are the world's.
#[derive(Clone, Copy, PartialEq, Eq, Debug)]
pub struct Stat {
    pub inode: u64,
    /// The kind of the file and its permissions.
    pub mode: u32,
    pub size: u64,
    pub links: u32,
    /// When its bytes or entries changed last.
    pub modified: u64,
    /// When anything of it changed last.
    pub changed: u64,
    pub born: u64,
    /// The major and minor number, if it is a device.
    pub device: (u32, u32),
}

#[derive(Clone)]
pub(super) struct Content {
    pub(super) bytes: Rc<Vec<u8>>,
    /// What is durable; the same as `bytes` where nothing waits for a flush.
    pub(super) stable: Rc<Vec<u8>>,
    /// The least size since the last flush.
    pub(super) least: usize,
    /// A flush failed. Linux takes the file's pages for clean then, so a later flush doesn't write these bytes.
    pub(super) is_unsure: bool,
}

#[derive(Clone)]
pub(super) struct Folder {
    pub(super) parent: NodeId,
    pub(super) entries: Vec<(Name, NodeId)>,
    pub(super) stable: Vec<(Name, NodeId)>,
}

impl Folder {
    pub(super) fn find(&self, name: &[u8]) -> Option<NodeId> {
        self.entries.iter().find(|(other, _)| **other == *name).map(|(_, node)| *node)
    }
}

#[derive(Clone)]
pub(super) enum Kind {
    /// A place that a new file may take.
    Free,
    File(Content),
    Folder(Folder),
    /// `/dev/null`
    Null,
    /// `/dev/urandom`
    Random,
}

#[derive(Clone)]
pub(super) struct Node {
    pub(super) kind: Kind,
    pub(super) mode: u32,
    pub(super) stable_mode: u32,
    /// How many names it has.
    pub(super) links: u32,
    /// How many descriptions it has.
    pub(super) opens: usize,
    pub(super) modified: u64,
    pub(super) changed: u64,
    pub(super) born: u64,
    /// The descriptions that have it locked, and whether each lets no other in.
    pub(super) locks: Vec<(FileId, bool)>,
}

impl Kind {
    pub(super) fn file(bytes: Vec<u8>) -> Self {
        let (least, bytes) = (bytes.len(), Rc::new(bytes));
        Kind::File(Content { stable: bytes.clone(), bytes, least, is_unsure: false })
    }

    pub(super) fn folder(parent: NodeId) -> Self {
        Kind::Folder(Folder { parent, entries: Vec::new(), stable: Vec::new() })
    }
}

impl Node {
    pub(super) fn new(kind: Kind, mode: u32, now: u64) -> Self {
        Node { kind, mode, stable_mode: mode, links: 1, opens: 0, modified: now, changed: now, born: now, locks: Vec::new() }
    }

    pub(super) fn touch(&mut self, now: u64) {
        self.modified = now;
        self.changed = now;
    }

    pub(super) fn stat(&self, place: NodeId) -> Stat {
        let (kind, size, device) = match &self.kind {
            Kind::File(content) => (S_IFREG, content.bytes.len() as u64, (0, 0)),
            Kind::Folder(_) => (S_IFDIR, 4_096, (0, 0)),
            Kind::Free => (0, 0, (0, 0)),
            Kind::Null => (S_IFCHR, 0, (1, 3)),
            Kind::Random => (S_IFCHR, 0, (1, 9)),
        };
        let Node { mode, links, modified, changed, born, .. } = *self;
        Stat { inode: FIRST_INODE + place as u64, mode: kind | mode, size, links, modified, changed, born, device }
    }

    pub(super) fn lose_power(&mut self, chance: &mut Chance) {
        self.opens = 0;
        self.locks.clear();
        if self.mode != self.stable_mode && chance.one_in(2) {
            self.mode = self.stable_mode;
        }
        self.stable_mode = self.mode;
        if let Kind::File(content) = &mut self.kind {
            if !content.is_stable() {
                content.bytes = Rc::new(content.torn(chance));
            }
            content.is_unsure = false;
            content.flush();
        }
    }
}

impl Content {
    pub(super) fn is_stable(&self) -> bool {
        Rc::ptr_eq(&self.bytes, &self.stable)
    }

    pub(super) fn write(&mut self, begin: usize, bytes: &[u8]) {
        let all = Rc::make_mut(&mut self.bytes);
        let end = begin + bytes.len();
        if all.len() < begin {
            all.resize(begin, 0);
        }
        let within = bytes.len().min(all.len() - begin);
        all[begin..begin + within].copy_from_slice(&bytes[..within]);
        all.extend_from_slice(&bytes[within..]);
        debug_assert!(all.len() >= end);
    }

    pub(super) fn set_size(&mut self, size: usize) {
        Rc::make_mut(&mut self.bytes).resize(size, 0);
        self.least = self.least.min(size);
        // What a failed flush left unsure is gone.
        self.is_unsure &= size > 0;
    }

    pub(super) fn flush(&mut self) {
        if !self.is_unsure {
            self.stable = self.bytes.clone();
            self.least = self.bytes.len();
        }
    }

    /// What a power failure leaves of bytes that weren't flushed: the old, the new, or some blocks of each and some of zeros, in any size
    /// that the file can have had.
    pub(super) fn torn(&self, chance: &mut Chance) -> Vec<u8> {
        let (old, new) = (&self.stable, &self.bytes);
        let most = old.len().max(new.len());
        let size = match chance.below(5) {
            0 => return old.to_vec(),
            1 => return new.to_vec(),
            2 => new.len(),
            _ => self.least + chance.below((most - self.least) as u64 + 1) as usize,
        };
        let mut bytes = vec![0; size];
        for begin in (0..size).step_by(BLOCK) {
            let from: &[u8] = match chance.below(4) {
                0 => &[],
                1 => old,
                _ => new,
            };
            let end = (begin + BLOCK).min(size).min(from.len());
            if begin < end {
                bytes[begin..end].copy_from_slice(&from[begin..end]);
            }
        }
        bytes
    }
}

/// A name of a list leads elsewhere, or nowhere.
pub(super) fn replace(entries: &mut Vec<(Name, NodeId)>, name: &Name, to: Option<NodeId>) {
    let place = entries.iter().position(|(other, _)| other == name);
    match (place, to) {
        (Some(place), Some(node)) => entries[place].1 = node,
        (Some(place), None) => {
            entries.swap_remove(place);
        }
        (None, Some(node)) => entries.push((name.clone(), node)),
        (None, None) => (),
    }
}

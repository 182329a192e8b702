//! The file system of one host, and what a power failure leaves of it.
//!
//! A disk has two states: what programs see, and what is durable. A file's bytes are durable once the file was flushed, and a folder's
//! entries once the folder was flushed. Changes of entries wait in a journal until then.

#[path = "disk_nodes.rs"]
mod nodes;
#[path = "disk_paths.rs"]
mod paths;
#[path = "disk_power.rs"]
mod power;

use crate::chance::{Chance, FaultKind, Faults};
use crate::errno::*;
pub use nodes::Stat;
use nodes::{replace, Kind, Node};
use paths::Place;
use std::collections::BTreeMap;
use std::rc::Rc;

/// An open file description. A number isn't given twice.
pub type FileId = usize;
/// The place of a file or folder in `Disk::nodes`.
type NodeId = usize;
type Name = Rc<[u8]>;

pub const O_WRONLY: i32 = 0o1;
pub const O_RDWR: i32 = 0o2;
pub const O_ACCMODE: i32 = 0o3;
pub const O_CREAT: i32 = 0o100;
pub const O_EXCL: i32 = 0o200;
pub const O_TRUNC: i32 = 0o1000;
pub const O_APPEND: i32 = 0o2000;
pub const O_DIRECTORY: i32 = 0o200_000;
pub const SEEK_SET: i32 = 0;
pub const SEEK_CUR: i32 = 1;
pub const SEEK_END: i32 = 2;
pub const LOCK_SH: i32 = 1;
pub const LOCK_EX: i32 = 2;
pub const LOCK_NB: i32 = 4;
pub const LOCK_UN: i32 = 8;

const ROOT: NodeId = 0;
/// No file grows larger, so a run stays small.
const MOST_SIZE: u64 = 1 << 26;
/// The umask of all processes.
const UMASK: u32 = 0o022;
const MILLISECOND: u64 = 1_000_000;
const SECOND: u64 = 1_000 * MILLISECOND;

/// When a call is made, and what may go wrong with it.
pub struct Moment<'a> {
    pub now: u64,
    pub faults: &'a mut Faults,
}

impl Moment<'_> {
    fn happens(&mut self, kind: FaultKind) -> Option<Chance> {
        self.faults.happens(kind, self.now)
    }
}

#[derive(Clone)]
struct Description {
    node: NodeId,
    offset: u64,
    reads: bool,
    writes: bool,
    appends: bool,
    /// The bytes that `/dev/urandom` gives.
    random: Chance,
    flaw: Option<Flaw>,
}

/// Reads of a description stop once at this offset, or fail there each time.
#[derive(Clone, Copy)]
struct Flaw {
    at: u64,
    fails: bool,
}

/// A change of a folder's entries that isn't durable yet: the name leads there from now on, or nowhere.
#[derive(Clone)]
struct Change {
    /// Changes of one number reach the disk together.
    number: u64,
    folder: NodeId,
    name: Name,
    to: Option<NodeId>,
}

/// The disk takes no more for a while.
#[derive(Clone)]
struct Full {
    until: u64,
    /// Whether the next write may still take a part of its bytes.
    takes_part: bool,
    chance: Chance,
}

/// The file system of one host. The current folder of each process is its root.
#[derive(Clone)]
pub struct Disk {
    nodes: Vec<Node>,
    descriptions: Vec<Option<Description>>,
    journal: Vec<Change>,
    /// The number of the last change of entries.
    changes: u64,
    full: Option<Full>,
}

impl Default for Disk {
    fn default() -> Self {
        Disk::new()
    }
}

impl Disk {
    /// A disk with `/`, `/dev/null` and `/dev/urandom`.
    pub fn new() -> Self {
        let mut disk = Disk { nodes: Vec::with_capacity(16), descriptions: Vec::new(), journal: Vec::new(), changes: 0, full: None };
        disk.nodes.push(Node::new(Kind::folder(ROOT), 0o755, 0));
        disk.make_folder(b"/dev");
        for (path, kind) in [(b"/dev/null".as_slice(), Kind::Null), (b"/dev/urandom", Kind::Random)] {
            disk.put(path, Node::new(kind, 0o666, 0));
        }
        disk
    }

    /// Makes a folder, and those above it that aren't there. It is durable at once.
    pub fn make_folder(&mut self, path: &[u8]) {
        self.folder_at(path);
    }

    /// Makes a file of these bytes, and the folders above it that aren't there, or replaces the file of this path. It is durable at once.
    /// Its owner alone may read it, as it has to be for a key.
    pub fn put_file(&mut self, path: &[u8], bytes: &[u8]) {
        self.put(path, Node::new(Kind::file(bytes.to_vec()), 0o600, 0));
    }

    /// Opens a file, relative to an open folder or to the root. The description itself is opened again where the path is empty.
    pub fn open(&mut self, at: Option<FileId>, path: &[u8], flags: i32, mode: u32, when: &mut Moment) -> Result<FileId, Errno> {
        let place = self.walk(at, path);
        let flaw = self.flaw_of(&place, when)?;
        let place = place?;
        let node = match place.node {
            Some(_) if flags & (O_CREAT | O_EXCL) == O_CREAT | O_EXCL => return Err(EEXIST),
            Some(node) => self.may_open(node, flags).map(|()| node)?,
            None if flags & O_CREAT == 0 => return Err(ENOENT),
            None => self.create(place, mode & 0o7777 & !UMASK, when)?,
        };
        let access = flags & O_ACCMODE;
        let (reads, writes) = (access != O_WRONLY, access != 0);
        if flags & O_TRUNC != 0 && writes {
            self.set_size(node, 0, when.now);
        }
        self.nodes[node].opens += 1;
        let random = Chance::new(when.now, "urandom", self.descriptions.len() as u64);
        self.descriptions.push(Some(Description { node, offset: 0, reads, writes, appends: flags & O_APPEND != 0, random, flaw }));
        Ok(self.descriptions.len() - 1)
    }

    pub fn read(&mut self, f: FileId, buffer: &mut [u8]) -> Result<usize, Errno> {
        let description = self.descriptions.get_mut(f).and_then(Option::as_mut).filter(|it| it.reads).ok_or(EBADF)?;
        match &self.nodes[description.node].kind {
            Kind::File(content) => {
                let rest = content.bytes.get(description.offset as usize..).unwrap_or(&[]);
                let count = rest.len().min(buffer.len());
                let count = description.part_before_flaw(count)?;
                buffer[..count].copy_from_slice(&rest[..count]);
                description.offset += count as u64;
                Ok(count)
            }
            Kind::Random => {
                buffer.iter_mut().for_each(|byte| *byte = description.random.next() as u8);
                Ok(buffer.len())
            }
            Kind::Null => Ok(0),
            Kind::Folder(_) | Kind::Free => Err(EISDIR),
        }
    }

    /// Writes bytes, or the first of them.
    pub fn write(&mut self, f: FileId, bytes: &[u8], when: &mut Moment) -> Result<usize, Errno> {
        let description = self.description(f)?;
        if !description.writes {
            return Err(EBADF);
        }
        let (node, appends, offset) = (description.node, description.appends, description.offset);
        let Kind::File(content) = &self.nodes[node].kind else { return Ok(bytes.len()) };
        let begin = if appends { content.bytes.len() } else { offset as usize };
        let size = content.bytes.len();
        if bytes.is_empty() {
            return Ok(0);
        }
        if (begin + bytes.len()) as u64 > MOST_SIZE {
            return Err(EFBIG);
        }
        let taken = self.room_for(bytes.len(), begin + bytes.len() > size, when)?;
        if let Kind::File(content) = &mut self.nodes[node].kind {
            content.write(begin, &bytes[..taken]);
        }
        self.nodes[node].touch(when.now);
        if let Some(description) = &mut self.descriptions[f] {
            description.offset = (begin + taken) as u64;
        }
        Ok(taken)
    }

    pub fn seek(&mut self, f: FileId, offset: i64, whence: i32) -> Result<u64, Errno> {
        let description = self.description(f)?;
        let from = match (whence, &self.nodes[description.node].kind) {
            (_, Kind::Null | Kind::Random) => return Ok(0),
            (SEEK_SET, _) => 0,
            (SEEK_CUR, _) => description.offset,
            (SEEK_END, Kind::File(content)) => content.bytes.len() as u64,
            _ => return Err(EINVAL),
        };
        let to = from.checked_add_signed(offset).filter(|to| i64::try_from(*to).is_ok()).ok_or(EINVAL)?;
        if let Some(description) = &mut self.descriptions[f] {
            description.offset = to;
        }
        Ok(to)
    }

    pub fn truncate(&mut self, f: FileId, size: u64, when: &mut Moment) -> Result<(), Errno> {
        let description = self.description(f)?;
        let node = description.node;
        if !description.writes || !matches!(self.nodes[node].kind, Kind::File(_)) {
            return Err(EINVAL);
        }
        if size > MOST_SIZE {
            return Err(EFBIG);
        }
        if when.happens(FaultKind::DiskFails).is_some() {
            return Err(EIO);
        }
        self.set_size(node, size as usize, when.now);
        Ok(())
    }

    /// Flushes a file's bytes or a folder's entries.
    pub fn sync(&mut self, f: FileId, when: &mut Moment) -> Result<(), Errno> {
        let node = self.description(f)?.node;
        if matches!(self.nodes[node].kind, Kind::Null | Kind::Random) {
            return Err(EINVAL);
        }
        let fails = when.happens(FaultKind::FlushFails).is_some();
        let Node { kind, mode, stable_mode, .. } = &mut self.nodes[node];
        match kind {
            Kind::File(content) if fails => content.is_unsure |= !content.is_stable(),
            _ if fails => (),
            Kind::File(content) => {
                content.flush();
                *stable_mode = *mode;
            }
            Kind::Folder(_) => {
                self.flush_entries(node);
                self.sweep();
            }
            _ => (),
        }
        if fails {
            Err(EIO)
        } else {
            Ok(())
        }
    }

    /// What a path leads to, or the description itself where the path is empty. There are no symbolic links that it might follow.
    pub fn stat(&mut self, at: Option<FileId>, path: &[u8], _follow: bool, when: &mut Moment) -> Result<Stat, Errno> {
        let place = self.walk(at, path);
        self.may_fail(&place, when)?;
        let place = place?;
        let node = place.node.ok_or(ENOENT)?;
        Ok(self.nodes[node].stat(node))
    }

    pub fn chmod(&mut self, f: FileId, mode: u32) -> Result<(), Errno> {
        let node = self.description(f)?.node;
        self.nodes[node].mode = mode & 0o7777;
        Ok(())
    }

    /// Locks for a description, as flock does. A lock that would have to wait gives EAGAIN.
    pub fn lock(&mut self, f: FileId, operation: i32) -> Result<(), Errno> {
        let node = self.description(f)?.node;
        let locks = &mut self.nodes[node].locks;
        let excludes = match operation & !LOCK_NB {
            LOCK_UN => {
                locks.retain(|(holder, _)| *holder != f);
                return Ok(());
            }
            LOCK_EX => true,
            LOCK_SH => false,
            _ => return Err(EINVAL),
        };
        if locks.iter().any(|(holder, other)| *holder != f && (excludes || *other)) {
            return Err(EAGAIN);
        }
        locks.retain(|(holder, _)| *holder != f);
        locks.push((f, excludes));
        Ok(())
    }

    /// Gives an entry another name, in place of what has that name. POSIX promises nothing of the name after EIO: it may lead there.
    pub fn rename(&mut self, from: (Option<FileId>, &[u8]), to: (Option<FileId>, &[u8]), when: &mut Moment) -> Result<(), Errno> {
        let (source, target) = (self.walk(from.0, from.1), self.walk(to.0, to.1));
        let fault = when.happens(FaultKind::DiskFails);
        let (source, target) = (source?, target?);
        if !source.is_entry() || !target.is_entry() {
            return Err(EBUSY);
        }
        let node = source.node.ok_or(ENOENT)?;
        self.may_replace(node, target)?;
        if fault.is_none() || fault.clone().is_some_and(|mut chance| chance.one_in(4)) {
            self.move_entry(node, source, target, when.now);
        }
        if fault.is_some() {
            Err(EIO)
        } else {
            Ok(())
        }
    }

    pub fn unlink(&mut self, at: Option<FileId>, path: &[u8], when: &mut Moment) -> Result<(), Errno> {
        let place = self.walk(at, path);
        self.may_fail(&place, when)?;
        let place = place?;
        let node = place.node.ok_or(ENOENT)?;
        match self.nodes[node].kind {
            Kind::File(_) if place.is_entry() => (),
            Kind::Folder(_) => return Err(EISDIR),
            _ => return Err(EACCES),
        }
        self.changes += 1;
        self.set_entry(place.folder, place.name.into(), None, when.now);
        self.nodes[node].links -= 1;
        self.nodes[node].changed = when.now;
        Ok(())
    }

    /// There are no symbolic links: what is there is none.
    pub fn readlink(&mut self, at: Option<FileId>, path: &[u8], when: &mut Moment) -> Result<Vec<u8>, Errno> {
        self.stat(at, path, false, when).and(Err(EINVAL))
    }

    /// Ends a description and its locks. A file without a name ends with its last description. A second close changes nothing.
    pub fn close(&mut self, f: FileId) {
        let Some(description) = self.descriptions.get_mut(f).and_then(Option::take) else { return };
        let node = &mut self.nodes[description.node];
        node.opens -= 1;
        node.locks.retain(|(holder, _)| *holder != f);
    }

    /// Nothing goes wrong any more: the disk has room again, and can be read.
    pub fn calm(&mut self) {
        self.full = None;
        self.descriptions.iter_mut().flatten().for_each(|description| description.flaw = None);
    }

    /// The regular files of a folder as programs see them now, by name.
    pub fn files(&self, folder: &[u8]) -> BTreeMap<Vec<u8>, Vec<u8>> {
        let mut files = BTreeMap::new();
        let node = self.walk(None, folder).ok().and_then(|place| place.node);
        let Some(Kind::Folder(inner)) = node.map(|node| &self.nodes[node].kind) else { return files };
        for (name, node) in &inner.entries {
            if let Kind::File(content) = &self.nodes[*node].kind {
                files.insert(name.to_vec(), content.bytes.to_vec());
            }
        }
        files
    }
}

impl Description {
    /// How many of so many bytes a read gives, as far as its flaw allows.
    fn part_before_flaw(&mut self, count: usize) -> Result<usize, Errno> {
        match self.flaw {
            Some(flaw) if flaw.fails && flaw.at == self.offset => Err(EIO),
            Some(flaw) if (self.offset..self.offset + count as u64).contains(&flaw.at) && flaw.at > self.offset => {
                Ok((flaw.at - self.offset) as usize)
            }
            _ => Ok(count),
        }
    }
}

/// What may go wrong with a call.
impl Disk {
    fn description(&self, f: FileId) -> Result<&Description, Errno> {
        self.descriptions.get(f).and_then(Option::as_ref).ok_or(EBADF)
    }

    /// What is at a place, if something is.
    fn kind_at(&self, place: &Result<Place, Errno>) -> Option<&Kind> {
        place.as_ref().ok().and_then(|place| place.node).map(|node| &self.nodes[node].kind)
    }

    /// A fault of a call. A call that leads to a device has none.
    fn fault_of(&self, place: &Result<Place, Errno>, when: &mut Moment) -> Option<Chance> {
        let is_device = matches!(self.kind_at(place), Some(Kind::Null | Kind::Random));
        if is_device {
            None
        } else {
            when.happens(FaultKind::DiskFails)
        }
    }

    fn may_fail(&self, place: &Result<Place, Errno>, when: &mut Moment) -> Result<(), Errno> {
        self.fault_of(place, when).map_or(Ok(()), |_| Err(EIO))
    }

    /// If the disk fails at an open, then the open fails, or a later read, or a read gives only a part.
    fn flaw_of(&self, place: &Result<Place, Errno>, when: &mut Moment) -> Result<Option<Flaw>, Errno> {
        let Some(mut chance) = self.fault_of(place, when) else { return Ok(None) };
        match self.kind_at(place) {
            Some(Kind::File(content)) if chance.one_in(2) => {
                Ok(Some(Flaw { at: chance.below(content.bytes.len() as u64 + 1), fails: chance.one_in(2) }))
            }
            _ => Err(EIO),
        }
    }
}

/// How files and entries change.
impl Disk {
    /// The folder of a path, which is made where there is none.
    fn folder_at(&mut self, path: &[u8]) -> NodeId {
        let mut folder = ROOT;
        for name in path.split(|byte| *byte == b'/').filter(|name| !name.is_empty()) {
            let Kind::Folder(inner) = &self.nodes[folder].kind else { panic!("a file is in the way of a folder") };
            folder = match inner.find(name) {
                Some(node) => node,
                None => self.add_durable(folder, name, Node::new(Kind::folder(folder), 0o755, 0)),
            };
        }
        folder
    }

    /// Puts a file at a path, durable.
    fn put(&mut self, path: &[u8], node: Node) {
        let cut = path.iter().rposition(|byte| *byte == b'/').map_or(0, |slash| slash + 1);
        let folder = self.folder_at(&path[..cut]);
        self.add_durable(folder, &path[cut..], node);
    }

    fn add_durable(&mut self, folder: NodeId, name: &[u8], node: Node) -> NodeId {
        let place = self.add(node);
        if let Kind::Folder(inner) = &self.nodes[folder].kind {
            if let Some(replaced) = inner.find(name) {
                self.nodes[replaced].links -= 1;
            }
        }
        self.set_entry(folder, name.into(), Some(place), 0);
        self.flush_entries(folder);
        place
    }

    /// The entries of a folder are durable as they are now.
    fn flush_entries(&mut self, folder: NodeId) {
        if let Kind::Folder(inner) = &mut self.nodes[folder].kind {
            inner.stable = inner.entries.clone();
        }
        self.journal.retain(|change| change.folder != folder);
    }

    /// A new file or folder takes the first free place.
    fn add(&mut self, node: Node) -> NodeId {
        match self.nodes.iter().position(|node| matches!(node.kind, Kind::Free)) {
            Some(place) => {
                self.nodes[place] = node;
                place
            }
            None => {
                self.nodes.push(node);
                self.nodes.len() - 1
            }
        }
    }

    /// Creates an empty file. A full disk may have no room for it.
    fn create(&mut self, place: Place, mode: u32, when: &mut Moment) -> Result<NodeId, Errno> {
        if place.names_folder {
            return Err(EISDIR);
        }
        if self.nodes[place.folder].links == 0 {
            return Err(ENOENT);
        }
        self.may_fill(when);
        if self.full.as_mut().is_some_and(|full| full.chance.one_in(2)) {
            return Err(ENOSPC);
        }
        let node = self.add(Node::new(Kind::file(Vec::new()), mode, when.now));
        self.changes += 1;
        self.set_entry(place.folder, place.name.into(), Some(node), when.now);
        Ok(node)
    }

    /// A name of a folder leads elsewhere, or nowhere. The change waits in the journal.
    fn set_entry(&mut self, folder: NodeId, name: Name, to: Option<NodeId>, now: u64) {
        let node = &mut self.nodes[folder];
        node.touch(now);
        let Kind::Folder(inner) = &mut node.kind else { return };
        replace(&mut inner.entries, &name, to);
        self.journal.push(Change { number: self.changes, folder, name, to });
    }

    fn move_entry(&mut self, node: NodeId, source: Place, target: Place, now: u64) {
        if target.node == Some(node) {
            return;
        }
        self.changes += 1;
        self.set_entry(source.folder, source.name.into(), None, now);
        self.set_entry(target.folder, target.name.into(), Some(node), now);
        self.nodes[node].changed = now;
        if let Some(replaced) = target.node {
            self.nodes[replaced].links -= 1;
            self.nodes[replaced].changed = now;
        }
        if let Kind::Folder(inner) = &mut self.nodes[node].kind {
            inner.parent = target.folder;
        }
    }

    fn set_size(&mut self, node: NodeId, size: usize, now: u64) {
        if let Kind::File(content) = &mut self.nodes[node].kind {
            content.set_size(size);
            self.nodes[node].touch(now);
        }
    }

    /// At this chance the disk may be full for a while.
    fn may_fill(&mut self, when: &mut Moment) {
        if let Some(mut chance) = when.happens(FaultKind::NoSpace) {
            let most = *chance.pick(&[100 * MILLISECOND, SECOND, 10 * SECOND]);
            let until = (when.now + 1 + chance.below(most)).min(when.faults.until);
            self.full = Some(Full { until, takes_part: chance.one_in(2), chance });
        }
        if self.full.as_ref().is_some_and(|full| full.until <= when.now) {
            self.full = None;
        }
    }

    /// How many of so many bytes a write takes.
    fn room_for(&mut self, count: usize, grows: bool, when: &mut Moment) -> Result<usize, Errno> {
        let fails = when.happens(FaultKind::WriteFails);
        self.may_fill(when);
        if let Some(mut chance) = fails {
            return if count > 1 && chance.one_in(2) { Ok(part_of(count, &mut chance)) } else { Err(EIO) };
        }
        match &mut self.full {
            Some(full) if grows => {
                let takes_part = std::mem::take(&mut full.takes_part);
                if takes_part && count > 1 {
                    Ok(part_of(count, &mut full.chance))
                } else {
                    Err(ENOSPC)
                }
            }
            _ => Ok(count),
        }
    }
}

/// Some of so many bytes, at least one and not all.
fn part_of(count: usize, chance: &mut Chance) -> usize {
    1 + chance.below(count as u64 - 1) as usize
}

#[cfg(test)]
mod tests {
    use super::*;
    use std::collections::BTreeSet;

    /// Faults of these kinds, at one chance in so many.
    fn faults(seed: u64, kinds: &[FaultKind], rate: u64) -> Faults {
        let mut rates = [0; 16];
        kinds.iter().for_each(|kind| rates[*kind as usize] = rate);
        Faults::new(seed, rates, 1_000, BTreeSet::new())
    }

    fn text(disk: &mut Disk, f: FileId) -> Vec<u8> {
        let mut buffer = [0; 100];
        let count = disk.read(f, &mut buffer).unwrap();
        buffer[..count].to_vec()
    }

    /// How a file is created that isn't there.
    const NEW: i32 = O_RDWR | O_CREAT | O_EXCL;

    #[test]
    fn files_are_opened_written_and_found_as_posix_says() {
        let mut none = faults(0, &[], 0);
        let when = &mut Moment { now: 7, faults: &mut none };
        let mut disk = Disk::new();
        disk.make_folder(b"store");
        let store = disk.open(None, b"/store", O_DIRECTORY, 0, when).unwrap();
        let file = disk.open(Some(store), b"A", NEW, 0o666, when).unwrap();
        assert_eq!(disk.open(Some(store), b"A", NEW, 0o666, when), Err(EEXIST));
        assert_eq!(disk.write(file, b"hello", when), Ok(5));
        let other = disk.open(None, b"store//./A", 0, 0, when).unwrap();
        assert_eq!((text(&mut disk, other), disk.seek(other, -2, SEEK_END)), (b"hello".to_vec(), Ok(3)));
        assert_eq!((text(&mut disk, other), text(&mut disk, other)), (b"lo".to_vec(), Vec::new()));
        assert_eq!((disk.write(other, b"x", when), disk.seek(file, 0, SEEK_CUR)), (Err(EBADF), Ok(5)));
        let more = disk.open(Some(store), b"A", O_WRONLY | O_APPEND, 0, when).unwrap();
        assert_eq!((disk.write(more, b"!", when), disk.truncate(more, 2, when), disk.write(more, b"?", when)), (Ok(1), Ok(()), Ok(1)));
        assert_eq!(disk.files(b"store")[b"A".as_slice()], b"he?");
        let seen = disk.stat(Some(file), b"", true, when).unwrap();
        assert_eq!((seen.mode, seen.size, seen.links, seen.modified), (0o100_644, 3, 1, 7));
        assert_eq!(disk.stat(Some(store), b"A", false, when), Ok(seen));
        disk.chmod(file, 0o400).unwrap();
        assert_eq!(disk.open(None, b"/store/A", O_WRONLY, 0, when), Err(EACCES));
        for (path, flags, error) in [
            (b"".as_slice(), 0, ENOENT),
            (b"none", 0, ENOENT),
            (b"none/A", O_CREAT, ENOENT),
            (b"store/A/B", 0, ENOTDIR),
            (b"store/A/", 0, ENOTDIR),
            (b"store/A", O_DIRECTORY, ENOTDIR),
            (b"store", O_RDWR, EISDIR),
            (b"store/B/", O_CREAT, EISDIR),
            (&[b'x'; 256], O_CREAT, ENAMETOOLONG),
        ] {
            assert_eq!(disk.open(None, path, flags, 0o666, when), Err(error), "{}", String::from_utf8_lossy(path));
        }
    }

    #[test]
    fn what_is_open_outlives_its_name() {
        let mut none = faults(0, &[], 0);
        let when = &mut Moment { now: 0, faults: &mut none };
        let mut disk = Disk::new();
        disk.put_file(b"A", b"old");
        disk.put_file(b"B", b"new");
        let (old, new) = (disk.open(None, b"A", 0, 0, when).unwrap(), disk.open(None, b"B", 0, 0, when).unwrap());
        disk.rename((None, b"B"), (None, b"A"), when).unwrap();
        assert_eq!((text(&mut disk, old), text(&mut disk, new)), (b"old".to_vec(), b"new".to_vec()));
        assert_eq!(disk.files(b"/"), BTreeMap::from([(b"A".to_vec(), b"new".to_vec())]));
        assert_eq!((disk.stat(Some(old), b"", true, when).unwrap().links, disk.unlink(None, b"A", when)), (0, Ok(())));
        let root = disk.open(None, b"/", 0, 0, when).unwrap();
        let number = disk.stat(Some(new), b"", true, when).unwrap().inode;
        disk.sync(root, when).unwrap();
        assert_eq!(disk.seek(new, 0, SEEK_SET), Ok(0));
        assert_eq!(text(&mut disk, new), b"new");
        disk.close(new);
        disk.close(new);
        assert_eq!(disk.read(new, &mut [0]), Err(EBADF));
        disk.sync(root, when).unwrap();
        let next = disk.open(None, b"C", NEW, 0o600, when).unwrap();
        assert_eq!(disk.stat(Some(next), b"", true, when).unwrap().inode, number, "the inode's number comes again");
        for (from, to, error) in [(b"D", b"A", ENOENT), (b"C", b".", EBUSY), (b".", b"C", EBUSY)] {
            assert_eq!(disk.rename((None, from), (None, to), when), Err(error));
        }
        assert_eq!(disk.rename((None, b"C"), (None, b"dev"), when), Err(EISDIR));
        assert_eq!((disk.unlink(None, b"dev", when), disk.unlink(Some(next), b"", when)), (Err(EISDIR), Err(EACCES)));
    }

    #[test]
    fn locks_are_the_descriptions_and_devices_take_all() {
        let mut all = faults(0, &[FaultKind::DiskFails], 1);
        let mut none = faults(0, &[], 0);
        let when = &mut Moment { now: 0, faults: &mut none };
        let mut disk = Disk::new();
        let (one, two) = (disk.open(None, b".", 0, 0, when).unwrap(), disk.open(None, b"/", 0, 0, when).unwrap());
        assert_eq!((disk.lock(one, LOCK_EX | LOCK_NB), disk.lock(two, LOCK_EX | LOCK_NB)), (Ok(()), Err(EAGAIN)));
        assert_eq!((disk.lock(one, LOCK_SH), disk.lock(two, LOCK_SH), disk.lock(one, LOCK_EX)), (Ok(()), Ok(()), Err(EAGAIN)));
        disk.close(two);
        assert_eq!(disk.lock(one, LOCK_EX), Ok(()));
        disk.close(one);
        let three = disk.open(None, b"/", 0, 0, when).unwrap();
        assert_eq!(disk.lock(three, LOCK_EX), Ok(()));
        let when = &mut Moment { now: 0, faults: &mut all };
        assert_eq!(disk.open(None, b"/", 0, 0, when), Err(EIO));
        let null = disk.open(None, b"/dev/null", O_RDWR, 0, when).unwrap();
        assert_eq!((disk.write(null, b"gone", when), disk.read(null, &mut [0; 9])), (Ok(4), Ok(0)));
        let (random, mut seen) = (disk.open(None, b"/dev/urandom", 0, 0, when).unwrap(), [0; 16]);
        assert_eq!((disk.read(random, &mut seen), seen.iter().collect::<BTreeSet<_>>().len() > 8), (Ok(16), true));
    }

    #[test]
    fn a_disk_that_fails_refuses_an_open_or_a_read_or_gives_a_part() {
        let (mut opens, mut reads, mut parts) = (0, 0, 0);
        for seed in 0..200 {
            let mut all = faults(seed, &[FaultKind::DiskFails], 1);
            let mut disk = Disk::new();
            disk.put_file(b"A", b"0123456789");
            let Ok(file) = disk.open(None, b"A", 0, 0, &mut Moment { now: 0, faults: &mut all }) else {
                opens += 1;
                continue;
            };
            let (mut seen, mut buffer, mut fails) = (Vec::new(), [0; 20], false);
            for _ in 0..3 {
                match disk.read(file, &mut buffer) {
                    Ok(count) => seen.push(buffer[..count].to_vec()),
                    Err(error) => fails = error == EIO,
                }
            }
            assert!(b"0123456789".starts_with(&seen.concat()) && (fails || seen.concat().len() == 10), "{seen:?}");
            reads += u32::from(fails);
            parts += u32::from(!fails && seen[0].len() < 10);
        }
        assert!(opens > 50 && reads > 20 && parts > 20, "{opens} {reads} {parts}");
    }

    #[test]
    fn a_write_that_fails_takes_a_prefix_or_nothing() {
        let (mut errors, mut parts, mut wholes) = (0, 0, 0);
        for seed in 0..200 {
            let mut some = faults(seed, &[FaultKind::WriteFails, FaultKind::NoSpace], 4);
            let when = &mut Moment { now: seed, faults: &mut some };
            let mut disk = Disk::new();
            let Ok(file) = disk.open(None, b"A", NEW, 0o600, when) else { continue };
            let result = disk.write(file, b"0123456789", when);
            let taken = result.unwrap_or(0);
            assert_eq!(disk.files(b"/")[b"A".as_slice()], b"0123456789"[..taken]);
            match result {
                Err(error) => errors += [EIO, ENOSPC].contains(&error) as usize,
                Ok(10) => wholes += 1,
                Ok(_) => parts += 1,
            }
        }
        assert!(errors > 20 && parts > 20 && wholes > 50, "{errors} {parts} {wholes}");
    }

    #[test]
    fn a_full_disk_has_room_again_when_faults_end() {
        let mut some = faults(3, &[FaultKind::NoSpace], 1);
        let mut disk = Disk::new();
        disk.put_file(b"A", b"");
        let file = disk.open(None, b"A", O_RDWR, 0, &mut Moment { now: 0, faults: &mut some }).unwrap();
        let mut seen = BTreeSet::new();
        for now in [1, 1, 1, 999] {
            seen.insert(disk.write(file, b"01", &mut Moment { now, faults: &mut some }));
        }
        assert!(seen.contains(&Err(ENOSPC)) && !seen.contains(&Ok(2)), "{seen:?}");
        assert_eq!(disk.write(file, b"01", &mut Moment { now: 1_000, faults: &mut some }), Ok(2));
    }
}

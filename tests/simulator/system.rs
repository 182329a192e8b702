//! What the kernel does for a call, by the models of network, disk and clock.

use crate::calls::{Call, Memory};
use crate::chance::{FaultKind, Faults};
use crate::clock::{Clock, BEGIN};
use crate::disk::{Disk, FileId, Moment, Stat, LOCK_NB};
use crate::errno::*;
use crate::net::{Address, Net};
use crate::process::{Descriptor, Process, Socket, Wait};
use std::collections::VecDeque;

/// What a call of a process reaches.
pub struct System<'a> {
    pub process: &'a mut Process,
    pub memory: Memory,
    pub net: &'a mut Net,
    pub disk: &'a mut Disk,
    pub clock: &'a mut Clock,
    pub faults: &'a mut Faults,
    pub now: u64,
}

/// Why a call doesn't return a value.
#[derive(Debug)]
pub enum Stop {
    Fails(Errno),
    /// It isn't over yet.
    Waits(Wait),
    /// The process ends with this status.
    Exits(i32),
    /// The process can't go on.
    Traps(String),
}

impl From<Errno> for Stop {
    fn from(error: Errno) -> Self {
        Stop::Fails(error)
    }
}

/// What a call returns.
pub type Answer = Result<usize, Stop>;

const CURRENT_FOLDER: i32 = -100;
const NO_FOLLOW: i32 = 0x100;
const EMPTY_PATH: i32 = 0x1000;
const INTERNET: u16 = 2;
const DATAGRAMS: i32 = 2;
const TYPE_NON_BLOCKING: i32 = 0o4000;
const SET_NON_BLOCKING: usize = 0x5421;
const SOCKET_LEVEL: i32 = 1;
const RECEIVE_TIME: [i32; 2] = [20, 66];
const PEEK: i32 = 2;
const WHOLE_LENGTH: i32 = 0x20;
const DO_NOT_WAIT: i32 = 0x40;
const FOLDER_OF_DESCRIPTORS: &[u8] = b"/proc/self/fd/";
const SECOND: u64 = 1_000_000_000;
/// How often a process that waits for a lock looks again.
const LOCK_PAUSE: u64 = 1_000_000;

impl System<'_> {
    /// What a call of these words returns.
    pub fn answer(&mut self, call: Call, words: &[usize; 6]) -> Answer {
        let [first, second, third, fourth, ..] = *words;
        let number = first as i32;
        match call {
            Call::Open => self.open(first, second as i32, third as u32),
            Call::Read => self.read(number, second, third),
            Call::Write => self.write(number, second, third),
            Call::Seek => self.seek(number, second as i64, third as i32),
            Call::Close => self.close(number),
            Call::Truncate => self.truncate(number, second as i64),
            Call::Lock => self.lock(number, second as i32),
            Call::Sync | Call::SyncData => self.sync(number),
            Call::ChangeMode => self.change_mode(number, second as u32),
            Call::Unlink => self.unlink(first),
            Call::Rename => self.rename(first, second),
            Call::ReadLink => self.read_link(first, second, third),
            Call::Status => self.status(number, second, third as i32, words[4]),
            Call::Control => self.control(number, second, third),
            Call::Socket => self.socket(number, second as i32),
            Call::Bind => self.bind(number, second, third),
            Call::Connect => self.connect(number, second, third),
            Call::SocketName => self.socket_name(number, second, third),
            Call::SetOption => self.set_option(number, (second as i32, third as i32), fourth, words[4]),
            Call::SendTo => self.send(number, (second, third), (words[4], words[5])),
            Call::Send => self.send(number, (second, third), (0, 0)),
            Call::ReceiveFrom => self.receive(number, (second, third), fourth as i32, (words[4], words[5])),
            Call::Receive => self.receive(number, (second, third), fourth as i32, (0, 0)),
            Call::ReadClock => self.read_clock(number, second),
            Call::Limit => self.put(second, &[0xff; 16]),
            Call::Signal => Ok(0),
            Call::Exit => Err(Stop::Exits(number & 0xff)),
            Call::Abort => Err(Stop::Traps("abort".into())),
            Call::Allocate => self.allocate(first),
            Call::Reallocate => self.reallocate(first, second),
            Call::Free => self.free(first),
        }
    }

    /// Writes bytes into the process's memory.
    fn put(&mut self, address: usize, bytes: &[u8]) -> Answer {
        self.memory.put(address, bytes)?;
        Ok(0)
    }

    fn read_clock(&mut self, which: i32, place: usize) -> Answer {
        let now = self.clock.read(which, self.now, self.faults);
        let mut time = [0; 16];
        time[..8].copy_from_slice(&(now / SECOND).to_le_bytes());
        time[8..].copy_from_slice(&(now % SECOND).to_le_bytes());
        self.put(place, &time)
    }
}

/// The folder that a path begins in, and the rest of the path. `/proc/self/fd/3` is the file of the descriptor 3 itself.
fn path_at<'a>(address: usize, memory: &'a Memory, process: &Process) -> Result<(Option<FileId>, &'a [u8]), Errno> {
    let path = memory.text(address)?;
    if path.is_empty() {
        return Err(ENOENT);
    }
    let Some(rest) = path.strip_prefix(FOLDER_OF_DESCRIPTORS) else { return Ok((None, path)) };
    let digits = rest.iter().position(|byte| *byte == b'/').unwrap_or(rest.len());
    let number: usize = std::str::from_utf8(&rest[..digits]).ok().and_then(|digits| digits.parse().ok()).ok_or(ENOENT)?;
    match process.descriptors.get(number) {
        Some(Some(Descriptor::File(file))) => Ok((Some(*file), rest.get(digits + 1..).unwrap_or(&[]))),
        _ => Err(ENOENT),
    }
}

/// Files.
impl System<'_> {
    /// The file of a descriptor. If the descriptor is no file, the error is `otherwise`.
    fn file(&mut self, number: i32, otherwise: Errno) -> Result<FileId, Errno> {
        match self.process.descriptor(number)? {
            Descriptor::File(file) => Ok(*file),
            _ => Err(otherwise),
        }
    }

    fn open(&mut self, path: usize, flags: i32, mode: u32) -> Answer {
        self.process.free_place()?;
        let (at, path) = path_at(path, &self.memory, self.process)?;
        let file = self.disk.open(at, path, flags, mode, &mut Moment { now: self.now, faults: self.faults })?;
        Ok(self.process.add(Descriptor::File(file))?)
    }

    fn read(&mut self, number: i32, place: usize, size: usize) -> Answer {
        match self.process.descriptor(number)? {
            Descriptor::Input => {
                let rest = &self.process.input[self.process.taken..];
                let part = &rest[..rest.len().min(size)];
                self.memory.put(place, part)?;
                self.process.taken += part.len();
                Ok(part.len())
            }
            Descriptor::File(file) => {
                let file = *file;
                Ok(self.disk.read(file, self.memory.bytes_mut(place, size)?)?)
            }
            Descriptor::Socket(_) => self.receive(number, (place, size), 0, (0, 0)),
            Descriptor::Output | Descriptor::Errors => Err(EBADF.into()),
        }
    }

    fn write(&mut self, number: i32, place: usize, size: usize) -> Answer {
        let bytes = self.memory.bytes(place, size)?;
        match self.process.descriptor(number)? {
            Descriptor::Input => return Err(EBADF.into()),
            Descriptor::Output => self.process.output.extend(bytes),
            Descriptor::Errors => self.process.errors.extend(bytes),
            Descriptor::File(file) => return Ok(self.disk.write(*file, bytes, &mut Moment { now: self.now, faults: self.faults })?),
            Descriptor::Socket(_) => return self.send(number, (place, size), (0, 0)),
        }
        Ok(size)
    }

    fn seek(&mut self, number: i32, offset: i64, whence: i32) -> Answer {
        let file = self.file(number, ESPIPE)?;
        Ok(self.disk.seek(file, offset, whence)? as usize)
    }

    fn close(&mut self, number: i32) -> Answer {
        self.process.descriptor(number)?;
        self.net.settle(self.now);
        if let Some(descriptor) = self.process.descriptors[number as usize].take() {
            descriptor.close(self.net, self.disk);
        }
        Ok(0)
    }

    fn truncate(&mut self, number: i32, size: i64) -> Answer {
        let file = self.file(number, EINVAL)?;
        let size = u64::try_from(size).map_err(|_| EINVAL)?;
        self.disk.truncate(file, size, &mut Moment { now: self.now, faults: self.faults })?;
        Ok(0)
    }

    fn lock(&mut self, number: i32, operation: i32) -> Answer {
        let file = self.file(number, EBADF)?;
        match self.disk.lock(file, operation) {
            Err(EAGAIN) if operation & LOCK_NB == 0 => Err(Stop::Waits(Wait { socket: None, until: self.now + LOCK_PAUSE })),
            done => Ok(done.map(|()| 0)?),
        }
    }

    fn sync(&mut self, number: i32) -> Answer {
        let file = self.file(number, EINVAL)?;
        self.disk.sync(file, &mut Moment { now: self.now, faults: self.faults })?;
        Ok(0)
    }

    fn change_mode(&mut self, number: i32, mode: u32) -> Answer {
        let file = self.file(number, EINVAL)?;
        self.disk.chmod(file, mode)?;
        Ok(0)
    }

    fn unlink(&mut self, path: usize) -> Answer {
        let (at, path) = path_at(path, &self.memory, self.process)?;
        self.disk.unlink(at, path, &mut Moment { now: self.now, faults: self.faults })?;
        Ok(0)
    }

    fn rename(&mut self, from: usize, to: usize) -> Answer {
        let (from, to) = (path_at(from, &self.memory, self.process)?, path_at(to, &self.memory, self.process)?);
        self.disk.rename(from, to, &mut Moment { now: self.now, faults: self.faults })?;
        Ok(0)
    }

    fn read_link(&mut self, path: usize, place: usize, size: usize) -> Answer {
        let (at, path) = path_at(path, &self.memory, self.process)?;
        let target = self.disk.readlink(at, path, &mut Moment { now: self.now, faults: self.faults })?;
        let part = &target[..target.len().min(size)];
        self.memory.put(place, part)?;
        Ok(part.len())
    }

    fn status(&mut self, folder: i32, path: usize, flags: i32, place: usize) -> Answer {
        let is_itself = flags & EMPTY_PATH != 0 && self.memory.text(path)?.is_empty();
        let is_below = folder != CURRENT_FOLDER && self.memory.text(path)?.first() != Some(&b'/');
        let below = if is_itself || is_below { Some(self.file(folder, ENOTDIR)?) } else { None };
        let (at, path) = match below {
            Some(file) => (Some(file), self.memory.text(path)?),
            None => path_at(path, &self.memory, self.process)?,
        };
        let status = self.disk.stat(at, path, flags & NO_FOLLOW == 0, &mut Moment { now: self.now, faults: self.faults })?;
        self.put(place, &statx(&status))
    }
}

/// `struct statx` of a file.
fn statx(status: &Stat) -> [u8; 256] {
    /// The basic fields, and the time of birth.
    const MASK: u32 = 0xfff;
    const BLOCK: u32 = 4096;
    let mut bytes = [0; 256];
    let mut put = |at: usize, part: &[u8]| bytes[at..at + part.len()].copy_from_slice(part);
    put(0, &MASK.to_le_bytes());
    put(4, &BLOCK.to_le_bytes());
    put(16, &status.links.to_le_bytes());
    put(28, &(status.mode as u16).to_le_bytes());
    put(32, &status.inode.to_le_bytes());
    put(40, &status.size.to_le_bytes());
    put(48, &status.size.div_ceil(512).to_le_bytes());
    for (at, moment) in [(64, status.modified), (80, status.born), (96, status.changed), (112, status.modified)] {
        put(at, &((BEGIN + moment) / SECOND).to_le_bytes());
        put(at + 8, &((moment % SECOND) as u32).to_le_bytes());
    }
    put(128, &status.device.0.to_le_bytes());
    put(132, &status.device.1.to_le_bytes());
    bytes
}

/// Sockets.
impl System<'_> {
    fn socket_of(&mut self, number: i32) -> Result<&mut Socket, Errno> {
        match self.process.descriptor(number)? {
            Descriptor::Socket(socket) => Ok(socket),
            _ => Err(ENOTSOCK),
        }
    }

    /// The address at a place of the process's memory.
    fn address(&self, place: usize, size: usize) -> Result<Address, Errno> {
        if size < 16 {
            return Err(EINVAL);
        }
        let bytes = self.memory.bytes(place, 16)?;
        if u16::from_le_bytes([bytes[0], bytes[1]]) != INTERNET {
            return Err(EAFNOSUPPORT);
        }
        Ok((u32::from_be_bytes([bytes[4], bytes[5], bytes[6], bytes[7]]), u16::from_be_bytes([bytes[2], bytes[3]])))
    }

    /// Writes an address to a place. `size` is the address of the number of bytes that the place has.
    fn put_address(&mut self, (ip, port): Address, place: usize, size: usize) -> Result<(), Errno> {
        if place == 0 {
            return Ok(());
        }
        let mut bytes = [0; 16];
        bytes[..2].copy_from_slice(&INTERNET.to_le_bytes());
        bytes[2..4].copy_from_slice(&port.to_be_bytes());
        bytes[4..8].copy_from_slice(&ip.to_be_bytes());
        let room = self.memory.bytes(size, 4)?;
        let room = u32::from_le_bytes([room[0], room[1], room[2], room[3]]) as usize;
        self.memory.put(place, &bytes[..room.min(16)])?;
        self.memory.put(size, &16_u32.to_le_bytes())
    }

    fn socket(&mut self, family: i32, kind: i32) -> Answer {
        if family != i32::from(INTERNET) || kind & 0xf != DATAGRAMS {
            return Err(EAFNOSUPPORT.into());
        }
        self.process.free_place()?;
        let id = self.net.open(self.process.host);
        let socket = Socket { id, blocks: kind & TYPE_NON_BLOCKING == 0, patience: None, kept: VecDeque::new() };
        Ok(self.process.add(Descriptor::Socket(socket))?)
    }

    fn bind(&mut self, number: i32, place: usize, size: usize) -> Answer {
        let id = self.socket_of(number)?.id;
        let address = self.address(place, size)?;
        self.net.settle(self.now);
        self.net.bind(id, address)?;
        Ok(0)
    }

    fn connect(&mut self, number: i32, place: usize, size: usize) -> Answer {
        let id = self.socket_of(number)?.id;
        let address = self.address(place, size)?;
        self.net.settle(self.now);
        self.net.connect(id, address);
        Ok(0)
    }

    fn socket_name(&mut self, number: i32, place: usize, size: usize) -> Answer {
        let id = self.socket_of(number)?.id;
        let address = self.net.address(id);
        self.put_address(address, place, size)?;
        Ok(0)
    }

    /// Keeps the time for which a receive waits. Other options change nothing here.
    fn set_option(&mut self, number: i32, (level, option): (i32, i32), place: usize, size: usize) -> Answer {
        self.socket_of(number)?;
        if level == SOCKET_LEVEL && RECEIVE_TIME.contains(&option) {
            if size < 16 {
                return Err(EINVAL.into());
            }
            let (seconds, micros) = (self.memory.word(place)?, self.memory.word(place + 8)?);
            if micros >= 1_000_000 {
                return Err(EDOM.into());
            }
            let time = seconds.saturating_mul(SECOND).saturating_add(micros * 1000);
            self.socket_of(number)?.patience = Some(time).filter(|time| *time > 0);
        }
        Ok(0)
    }

    fn control(&mut self, number: i32, request: usize, place: usize) -> Answer {
        if request as u32 as usize != SET_NON_BLOCKING {
            self.process.descriptor(number)?;
            return Err(ENOTTY.into());
        }
        let is_set = self.memory.bytes(place, 4)?.iter().any(|byte| *byte != 0);
        if let Descriptor::Socket(socket) = self.process.descriptor(number)? {
            socket.blocks = !is_set;
        }
        Ok(0)
    }

    fn send(&mut self, number: i32, (place, size): (usize, usize), (to, to_size): (usize, usize)) -> Answer {
        let id = self.socket_of(number)?.id;
        let to = if to == 0 { None } else { Some(self.address(to, to_size as u32 as usize)?) };
        let bytes = self.memory.bytes(place, size)?;
        Ok(self.net.send(id, to, bytes, self.now, self.faults)?)
    }

    fn receive(&mut self, number: i32, (place, size): (usize, usize), flags: i32, from: (usize, usize)) -> Answer {
        let now = self.now;
        let socket = self.socket_of(number)?;
        let (id, waits) = (socket.id, socket.blocks && flags & DO_NOT_WAIT == 0);
        let until = socket.patience.map_or(u64::MAX, |patience| now.saturating_add(patience));
        let datagram = match socket.kept.pop_front() {
            Some(kept) => kept,
            None => match self.net.receive(id, now)? {
                Some(datagram) => datagram,
                None if !waits || self.process.wait.is_some_and(|wait| wait.until <= now) => return Err(EAGAIN.into()),
                None => return Err(Stop::Waits(self.process.wait.unwrap_or(Wait { socket: Some(id), until }))),
            },
        };
        let part = &datagram.bytes[..datagram.bytes.len().min(size)];
        self.memory.put(place, part)?;
        self.put_address(datagram.from, from.0, from.1)?;
        let count = if flags & WHOLE_LENGTH != 0 { datagram.bytes.len() } else { part.len() };
        if flags & PEEK != 0 {
            self.socket_of(number)?.kept.push_front(datagram);
        }
        Ok(count)
    }
}

/// Memory.
impl System<'_> {
    /// Whether the system refuses memory at this chance.
    fn refuses(&mut self) -> bool {
        self.faults.happens(FaultKind::Refused, self.now).is_some()
    }

    fn allocate(&mut self, size: usize) -> Answer {
        if self.refuses() {
            return Ok(self.no_memory());
        }
        let body = self.process.body.as_mut().ok_or(ENOMEM)?;
        match body.heap.take(size) {
            Some(block) => Ok(block),
            None => Ok(self.no_memory()),
        }
    }

    /// A null pointer, with the reason in `errno`.
    fn no_memory(&mut self) -> usize {
        if let Some(body) = &mut self.process.body {
            body.errno = ENOMEM;
        }
        0
    }

    fn reallocate(&mut self, block: usize, size: usize) -> Answer {
        if block == 0 {
            return self.allocate(size);
        }
        if size == 0 {
            return self.free(block);
        }
        if self.refuses() {
            return Ok(self.no_memory());
        }
        let body = self.process.body.as_mut().ok_or(ENOMEM)?;
        match body.heap.change(block, size) {
            Ok(Some(new)) => Ok(new),
            Ok(None) => Ok(self.no_memory()),
            Err(_) => Err(Stop::Traps(format!("realloc of {block:#x}, which is no block in use"))),
        }
    }

    fn free(&mut self, block: usize) -> Answer {
        let body = self.process.body.as_mut().ok_or(ENOMEM)?;
        match block == 0 || body.heap.give_back(block).is_ok() {
            true => Ok(0),
            false => Err(Stop::Traps(format!("free of {block:#x}, which is no block in use"))),
        }
    }
}

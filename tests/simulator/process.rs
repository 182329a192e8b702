//! A process: a run of the program on a host, with its memory, its descriptors, and what it wrote.

use crate::calls::Memory;
use crate::chance::Chance;
use crate::coroutine::{Asked, Coroutine};
use crate::disk::{Disk, FileId};
use crate::errno::{Errno, EBADF, EMFILE};
use crate::heap::Heap;
use crate::image::Image;
use crate::net::{Datagram, Host, Net, SocketId};
use std::collections::VecDeque;

/// How a process is begun.
#[derive(Clone, Debug, Default)]
pub struct Start {
    pub host: Host,
    /// The words after the program's name.
    pub words: Vec<String>,
    /// What it reads from its standard input.
    pub input: Vec<u8>,
    /// Names and values.
    pub environment: Vec<(String, String)>,
}

/// How a process ended.
#[derive(Clone, PartialEq, Eq, Debug)]
pub enum End {
    Status(i32),
    Killed,
    /// The processor or the C library ends it. The text says why, and where in the program.
    Trapped(String),
}

/// What a descriptor of a process stands for.
pub enum Descriptor {
    Input,
    Output,
    Errors,
    File(FileId),
    Socket(Socket),
}

/// A socket as a process has it.
pub struct Socket {
    pub id: SocketId,
    /// Whether a receive waits.
    pub blocks: bool,
    /// How long a receive waits at most.
    pub patience: Option<u64>,
    /// What was received with MSG_PEEK, and is received again.
    pub kept: VecDeque<Datagram>,
}

/// What a process that hasn't ended has.
pub struct Body {
    pub slot: usize,
    pub coroutine: Coroutine,
    pub heap: Heap,
    pub errno: Errno,
    pub environ: usize,
    /// The program's writable data.
    pub data: Vec<u8>,
}

/// What a call that isn't over waits for.
#[derive(Clone, Copy, Debug)]
pub struct Wait {
    /// A socket to which something may arrive.
    pub socket: Option<SocketId>,
    /// The moment at which it ends.
    pub until: u64,
}

pub struct Process {
    pub host: Host,
    /// None after its end.
    pub body: Option<Body>,
    /// Whether it has asked for anything yet.
    pub has_begun: bool,
    /// Its next call, which happens at `moment` if the process doesn't wait.
    pub asked: Asked,
    pub moment: u64,
    pub wait: Option<Wait>,
    /// How long its calls take.
    pub pace: Chance,
    pub descriptors: Vec<Option<Descriptor>>,
    pub input: Vec<u8>,
    /// How many bytes of the input it has read.
    pub taken: usize,
    pub output: Vec<u8>,
    pub errors: Vec<u8>,
    pub end: Option<End>,
    /// The most bytes of heap that it held, after its end.
    pub peak: usize,
}

/// How many descriptors a process can have.
const MOST_DESCRIPTORS: usize = 1024;

impl Process {
    /// A process that hasn't run yet.
    pub fn new(start: &Start, slot: usize, image: &'static Image, pace: Chance) -> Self {
        let words: Vec<Vec<u8>> = ["chaosd"].into_iter().chain(start.words.iter().map(String::as_str)).map(Vec::from).collect();
        let environment: Vec<Vec<u8>> = start.environment.iter().map(|(name, value)| format!("{name}={value}").into()).collect();
        let (coroutine, environ) = Coroutine::new(slot, image.entry, &words, &environment);
        let body = Body { slot, coroutine, heap: Heap::new(slot), errno: 0, environ, data: image.data.clone() };
        Process {
            host: start.host,
            body: Some(body),
            has_begun: false,
            asked: Asked::default(),
            moment: 0,
            wait: None,
            pace,
            descriptors: vec![Some(Descriptor::Input), Some(Descriptor::Output), Some(Descriptor::Errors)],
            input: start.input.clone(),
            taken: 0,
            output: Vec::new(),
            errors: Vec::new(),
            end: None,
            peak: 0,
        }
    }

    /// The memory that its calls can name, while it hasn't ended.
    pub fn memory(&self, image: &'static Image) -> Option<Memory> {
        self.body.as_ref().map(|body| Memory::new(image, body.coroutine.stack(), &body.heap))
    }

    pub fn descriptor(&mut self, number: i32) -> Result<&mut Descriptor, Errno> {
        let place = usize::try_from(number).map_err(|_| EBADF)?;
        self.descriptors.get_mut(place).and_then(Option::as_mut).ok_or(EBADF)
    }

    /// Gives a descriptor the least number that is free.
    pub fn add(&mut self, descriptor: Descriptor) -> Result<usize, Errno> {
        let place = self.free_place()?;
        if place == self.descriptors.len() {
            self.descriptors.push(None);
        }
        self.descriptors[place] = Some(descriptor);
        Ok(place)
    }

    /// The least number that is free.
    pub fn free_place(&self) -> Result<usize, Errno> {
        let place = self.descriptors.iter().position(Option::is_none).unwrap_or(self.descriptors.len());
        if place < MOST_DESCRIPTORS {
            Ok(place)
        } else {
            Err(EMFILE)
        }
    }

    /// Ends the process, if it hasn't ended: its memory, sockets, files and locks go. Gives the slot that it had.
    pub fn finish(&mut self, end: End, net: &mut Net, disk: &mut Disk) -> Option<usize> {
        for descriptor in self.descriptors.drain(..).flatten() {
            descriptor.close(net, disk);
        }
        let body = self.body.take()?;
        self.peak = body.heap.peak();
        self.end = Some(end);
        Some(body.slot)
    }

    /// Sets the `errno` of a call that failed.
    pub fn fail(&mut self, error: Errno) {
        if let Some(body) = &mut self.body {
            body.errno = error;
        }
    }

    /// The most bytes of heap that it held so far.
    pub fn peak(&self) -> usize {
        self.body.as_ref().map_or(self.peak, |body| body.heap.peak())
    }
}

impl Descriptor {
    pub fn close(self, net: &mut Net, disk: &mut Disk) {
        match self {
            Descriptor::File(file) => disk.close(file),
            Descriptor::Socket(socket) => net.close(socket.id),
            Descriptor::Input | Descriptor::Output | Descriptor::Errors => {}
        }
    }
}

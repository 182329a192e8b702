//! The functions that the program imports, and the memory that its calls name.
//!
//! Most of these functions hand their words over to the scheduler, and return its answer. Functions that use memory or the processor
//! alone are the real ones.

use crate::coroutine::{ask, Asked};
use crate::errno::{Errno, EFAULT, ENAMETOOLONG, ENOTTY};
use crate::heap::Heap;
use crate::image::Image;
use std::ffi::{c_char, c_int, c_void, CStr};
use std::fs::OpenOptions;
use std::io::Write;
use std::ops::Range;
use std::ptr::addr_of_mut;

type Words = *const *const c_char;
type Main = extern "C" fn(c_int, Words, Words) -> c_int;

/// The calls that the scheduler answers: the number of each, its name in C, and the kinds of its words. `i` is a number of 32 bits, `n`
/// one of 64 bits, `s` a path, `b` bytes, whose count is the next word, and `a` an address of a socket. What the call fills is `o`,
/// as many bytes as it returns, `t`, 16 bytes, or `x`, the 256 bytes of statx.
macro_rules! calls {
    ($($call:ident $name:ident $kinds:literal)*) => {
        #[derive(Clone, Copy, PartialEq, Eq, Debug)]
        pub enum Call { $($call,)* }

        impl Call {
            pub const ALL: &'static [(Call, &'static str, &'static str)] = &[$((Call::$call, stringify!($name), $kinds),)*];
        }

        // A function of C finds its first six words in registers. If it has fewer words, the other registers hold anything, and nobody
        // reads them.
        $(extern "C" fn $name(a: usize, b: usize, c: usize, d: usize, e: usize, f: usize) -> usize {
            ask(Asked { number: Call::$call as usize, words: [a, b, c, d, e, f] })
        })*

        fn asking() -> &'static [(&'static str, Import)] {
            &[$((stringify!($name), $name as Import),)*]
        }
    };
}

type Import = extern "C" fn(usize, usize, usize, usize, usize, usize) -> usize;

calls! {
    Open open "sii"
    Read read "ion"
    Write write "ibn"
    Seek lseek "ini"
    Close close "i"
    Truncate ftruncate "in"
    Lock flock "ii"
    Sync fsync "i"
    SyncData fdatasync "i"
    ChangeMode fchmod "ii"
    Unlink unlink "s"
    Rename rename "ss"
    ReadLink readlink "son"
    Status statx "isiix"
    Control ioctl "inn"
    Socket socket "iii"
    Bind bind "iai"
    Connect connect "iai"
    SocketName getsockname "itn"
    SetOption setsockopt "iiini"
    SendTo sendto "ibniai"
    Send send "ibni"
    ReceiveFrom recvfrom "ioninn"
    Receive recv "ioni"
    ReadClock clock_gettime "it"
    Limit getrlimit "it"
    Signal __sysv_signal "in"
    Exit exit "i"
    Abort abort ""
    Allocate malloc "n"
    Reallocate realloc "nn"
    Free free "n"
}

impl Call {
    /// The call of a number.
    pub fn of(number: usize) -> Option<Call> {
        Call::ALL.get(number).map(|(call, ..)| *call)
    }

    pub fn name(self) -> &'static str {
        Call::ALL[self as usize].1
    }

    /// The kinds of its words.
    pub fn kinds(self) -> &'static str {
        Call::ALL[self as usize].2
    }

    /// Whether the call reaches the world outside of the process, and so takes time.
    pub fn takes_time(self) -> bool {
        !matches!(self, Call::Allocate | Call::Reallocate | Call::Free)
    }
}

/// `errno` and `environ` of the process that runs.
static mut ERRNO: c_int = 0;
static mut ENVIRON: usize = 0;
/// The functions that run before `main`.
static mut INITIALIZERS: &[usize] = &[];
/// The markers that were reached, of a program that has markers.
static mut COVERED: [bool; 1 << 16] = [false; 1 << 16];

extern "C" {
    fn memcpy(to: *mut c_void, from: *const c_void, size: usize) -> *mut c_void;
    fn memmove(to: *mut c_void, from: *const c_void, size: usize) -> *mut c_void;
    fn memset(to: *mut c_void, byte: c_int, size: usize) -> *mut c_void;
    fn __xpg_strerror_r(number: c_int, to: *mut c_char, size: usize) -> c_int;
    fn __x86_get_cpuid_feature_leaf(leaf: u32) -> *const c_void;
}

/// The address of what the program imports by that name.
pub fn import(name: &str) -> Option<usize> {
    let address = match name {
        "memcpy" => memcpy as *const () as usize,
        "memmove" => memmove as *const () as usize,
        "memset" => memset as *const () as usize,
        "__xpg_strerror_r" => __xpg_strerror_r as *const () as usize,
        "__x86_get_cpuid_feature_leaf" => __x86_get_cpuid_feature_leaf as *const () as usize,
        "__write" => return import("write"),
        "__libc_start_main" => start as *const () as usize,
        "__cxa_finalize" => finalize as *const () as usize,
        "__errno_location" => error_number as *const () as usize,
        "getenv" => environment as *const () as usize,
        "isatty" => is_terminal as *const () as usize,
        "chaos_cover" => cover as *const () as usize,
        "environ" => addr_of_mut!(ENVIRON) as usize,
        _ => return asking().iter().find(|(other, _)| *other == name).map(|(_, import)| *import as usize),
    };
    Some(address)
}

/// Names the image whose initializers run when a process begins.
pub fn begin_with(image: &'static Image) {
    // Safety: the machine's lock guards the statics of this file, and no process runs now.
    unsafe { INITIALIZERS = &image.initializers }
}

/// Exchanges `errno` and `environ` with those of a process.
pub fn exchange(errno: &mut c_int, environ: &mut usize) {
    // Safety: as in `begin_with`.
    unsafe {
        std::ptr::swap(addr_of_mut!(ERRNO), errno);
        std::ptr::swap(addr_of_mut!(ENVIRON), environ);
    }
}

/// `__libc_start_main`: runs the program on its own stack to its end.
pub extern "C" fn start(main: Main, count: c_int, words: Words) {
    // Safety: `Coroutine::new` put the environment behind `count` words and a null. The image's functions have this form, and ran
    // through `start` alone; `begin_with` named them.
    let status = unsafe {
        let environment = words.add(count as usize + 1);
        for function in INITIALIZERS {
            std::mem::transmute::<usize, Main>(*function)(count, words, environment);
        }
        main(count, words, environment)
    };
    ask(Asked { number: Call::Exit as usize, words: [status as usize, 0, 0, 0, 0, 0] });
    unreachable!("a process that ended goes on");
}

/// `__cxa_finalize`: nothing was registered, and a process ends without it.
extern "C" fn finalize() {}

extern "C" fn error_number() -> *mut c_int {
    addr_of_mut!(ERRNO)
}

/// `isatty`: nothing is a terminal.
extern "C" fn is_terminal() -> c_int {
    // Safety: this runs on behalf of the process whose `errno` it is.
    unsafe { ERRNO = ENOTTY };
    0
}

/// `getenv`.
extern "C" fn environment(name: *const c_char) -> *const c_char {
    // Safety: `name` is a text as C has it, or the process traps. ENVIRON has the address of texts that end with a null.
    unsafe {
        let name = CStr::from_ptr(name).to_bytes();
        let mut entry = ENVIRON as Words;
        while !(*entry).is_null() {
            let text = CStr::from_ptr(*entry).to_bytes();
            if text.len() > name.len() && text.starts_with(name) && text[name.len()] == b'=' {
                return (*entry).add(name.len() + 1);
            }
            entry = entry.add(1);
        }
    }
    std::ptr::null()
}

/// A marker of a program with markers (tools/coverage). The first time that a marker is reached, its number is added to the file that
/// COVERED names in the environment of the simulator, to which each job of the simulator adds.
extern "C" fn cover(number: u32) {
    // Safety: one process runs at a time, and the machine's lock guards the statics of this file.
    let is_known = unsafe { std::mem::replace(&mut (*addr_of_mut!(COVERED))[usize::from(number as u16)], true) };
    if !is_known {
        note_marker(number);
    }
}

fn note_marker(number: u32) {
    if let Some(file) = std::env::var_os("COVERED") {
        let line = format!("{number}\n");
        let added = OpenOptions::new().create(true).append(true).open(file).and_then(|mut file| file.write_all(line.as_bytes()));
        added.expect("the file that COVERED names can be written");
    }
}

/// The memory that calls of a process can name. Other addresses give EFAULT, as in the kernel.
pub struct Memory {
    image: &'static Image,
    stack: Range<usize>,
    heap: Range<usize>,
}

/// The longest path, with its zero.
const MOST_PATH: usize = 4096;

impl Memory {
    pub fn new(image: &'static Image, stack: Range<usize>, heap: &Heap) -> Self {
        Memory { image, stack, heap: heap.memory() }
    }

    /// Whether an address lies in the pages without rights below the stack.
    pub fn is_below_stack(&self, address: usize) -> bool {
        (self.stack.start - self.stack.len()..self.stack.start).contains(&address)
    }

    pub fn bytes(&self, address: usize, size: usize) -> Result<&[u8], Errno> {
        if size == 0 {
            return Ok(&[]);
        }
        let own = [&self.stack, &self.heap].into_iter().chain(&self.image.readable);
        self.part(own, address, size)?;
        // Safety: the bytes are mapped memory of the process, which doesn't run while the scheduler has a `Memory`; only
        // `bytes_mut` writes to them.
        Ok(unsafe { std::slice::from_raw_parts(address as *const u8, size) })
    }

    pub fn bytes_mut(&mut self, address: usize, size: usize) -> Result<&mut [u8], Errno> {
        if size == 0 {
            return Ok(&mut []);
        }
        let own = [&self.stack, &self.heap].into_iter().chain(&self.image.writable);
        self.part(own, address, size)?;
        // Safety: as in `bytes`, and the memory can be written to.
        Ok(unsafe { std::slice::from_raw_parts_mut(address as *mut u8, size) })
    }

    fn part<'a>(&self, mut own: impl Iterator<Item = &'a Range<usize>>, address: usize, size: usize) -> Result<(), Errno> {
        let end = address.checked_add(size).ok_or(EFAULT)?;
        own.find(|part| part.start <= address && end <= part.end).map(|_| ()).ok_or(EFAULT)
    }

    /// The text at an address, up to its zero.
    pub fn text(&self, address: usize) -> Result<&[u8], Errno> {
        let own = [&self.stack, &self.heap].into_iter().chain(&self.image.readable);
        let end = own.filter(|part| part.contains(&address)).map(|part| part.end).max().ok_or(EFAULT)?;
        let bytes = self.bytes(address, (end - address).min(MOST_PATH))?;
        match bytes.iter().position(|byte| *byte == 0) {
            Some(size) => Ok(&bytes[..size]),
            None if bytes.len() < MOST_PATH => Err(EFAULT),
            None => Err(ENAMETOOLONG),
        }
    }

    /// The words of the stack from an address up.
    pub fn stack_from(&self, address: usize) -> impl Iterator<Item = usize> + '_ {
        let end = if self.stack.contains(&address) { self.stack.end } else { address };
        (address..end).step_by(8).map_while(|place| self.word(place).ok()).map(|word| word as usize)
    }

    /// The number of 64 bits at an address.
    pub fn word(&self, address: usize) -> Result<u64, Errno> {
        let bytes = self.bytes(address, 8)?;
        Ok(bytes.iter().rev().fold(0, |number, byte| number << 8 | u64::from(*byte)))
    }

    /// Writes bytes to an address.
    pub fn put(&mut self, address: usize, bytes: &[u8]) -> Result<(), Errno> {
        self.bytes_mut(address, bytes.len())?.copy_from_slice(bytes);
        Ok(())
    }
}

//! Each process of the program is a coroutine. It runs on its own stack until it calls the system. Then the scheduler takes over, and
//! resumes it later.
//!
//! One thread runs all processes of a machine. `Machine` holds a lock while it lives, which guards the statics of this file.

use crate::pages::{self, Rights};
use std::arch::naked_asm;
use std::cell::Cell;
use std::ffi::c_int;
use std::ops::Range;
use std::ptr::{addr_of, addr_of_mut};
use std::sync::{Mutex, MutexGuard, PoisonError};

/// The bytes of a stack. As many bytes below it have no rights, so a process traps that uses more.
const SIZE: usize = 1 << 20;
const STACKS: usize = 0x3000_0000_0000;
/// The part of a stack at its top that is cleared by writing, which is faster for pages that are used again. It's more than a server
/// uses.
const NEAR: usize = 256 << 10;
/// How many stacks there can be at a time.
pub const SLOTS: usize = 64;

/// What a process asks of the scheduler: the number of a call, and the six words that a call can have.
#[derive(Clone, Copy, Debug, Default)]
pub struct Asked {
    pub number: usize,
    pub words: [usize; 6],
}

/// The number of a call that stands for a trap. Its words are the signal, the address that was used, the address of the code, and the
/// stack pointer.
pub const TRAPPED: usize = usize::MAX;

/// The right to use the statics of the simulator. One machine has it at a time.
pub struct Alone {
    _guard: MutexGuard<'static, ()>,
}

static LOCK: Mutex<()> = Mutex::new(());
thread_local!(static HAS_LOCK: Cell<bool> = const { Cell::new(false) });

impl Alone {
    /// Waits until no other thread has a machine.
    pub fn new() -> Self {
        assert!(!HAS_LOCK.replace(true), "a thread has one machine at a time");
        Alone { _guard: LOCK.lock().unwrap_or_else(PoisonError::into_inner) }
    }
}

impl Drop for Alone {
    fn drop(&mut self) {
        HAS_LOCK.set(false);
    }
}

/// The stack of a process, and its stack pointer. Later processes use the memory again.
#[derive(Debug)]
pub struct Coroutine {
    slot: usize,
    stack_pointer: usize,
}

/// What the scheduler and the running process hand each other.
struct Gate {
    /// The stack pointers of the scheduler and of the process while they don't run.
    scheduler: usize,
    process: usize,
    /// The end of the running process's stack; 0 while the scheduler runs.
    top: usize,
    asked: Asked,
    result: usize,
    /// About how many seconds the process has run without a call.
    ticks: u32,
}

static mut GATE: Gate = Gate { scheduler: 0, process: 0, top: 0, asked: Asked { number: 0, words: [0; 6] }, result: 0, ticks: 0 };
/// Which stacks were mapped.
static mut MAPPED: [bool; SLOTS] = [false; SLOTS];

impl Coroutine {
    /// A process that begins at `entry` with these words and this environment (`NAME=VALUE`), and the address of its environment.
    pub fn new(slot: usize, entry: usize, words: &[Vec<u8>], environment: &[Vec<u8>]) -> (Self, usize) {
        let stack = stack(slot);
        // Safety: the machine's lock guards MAPPED.
        unsafe {
            if !MAPPED[slot] {
                let below = stack.start - SIZE..stack.start;
                pages::reserve(&(below.start..stack.end)).and_then(|()| pages::set_rights(&below, Rights::None)).expect("a stack");
                MAPPED[slot] = true;
            }
        }
        let (stack_pointer, environ) = Writer { at: stack.end }.start(entry, words, environment);
        (Coroutine { slot, stack_pointer }, environ)
    }

    /// The memory of its stack.
    pub fn stack(&self) -> Range<usize> {
        stack(self.slot)
    }

    /// Lets the process go on with the result of what it asked, until it asks again.
    pub fn resume(&mut self, result: usize) -> Asked {
        // Safety: the machine's lock guards GATE, and only one process runs at a time. The stack pointer was saved by `switch` or
        // made by `Writer::start`, so `switch` finds there what it needs.
        unsafe {
            GATE.result = result;
            GATE.ticks = 0;
            GATE.top = stack(self.slot).end;
            switch(addr_of_mut!(GATE.scheduler), self.stack_pointer);
            GATE.top = 0;
            self.stack_pointer = GATE.process;
            GATE.asked
        }
    }
}

impl Drop for Coroutine {
    /// Clears the stack, so that the next process doesn't see what this one left: a run depends on its seed alone.
    fn drop(&mut self) {
        let stack = stack(self.slot);
        pages::clear(&stack, &(stack.end - NEAR..stack.end));
    }
}

fn stack(slot: usize) -> Range<usize> {
    assert!(slot < SLOTS, "more than {SLOTS} processes run");
    let start = STACKS + (2 * slot + 1) * SIZE;
    start..start + SIZE
}

/// Hands over from a process to the scheduler. Returns the result when the scheduler resumes the process.
pub fn ask(asked: Asked) -> usize {
    // Safety: only the running process comes here, and the scheduler waits in `resume`.
    unsafe {
        GATE.asked = asked;
        switch(addr_of_mut!(GATE.process), GATE.scheduler);
        GATE.result
    }
}

/// Saves on the stack the registers that a function must keep, saves the stack pointer in `from`, and continues with the stack `to`.
#[unsafe(naked)]
unsafe extern "C" fn switch(from: *mut usize, to: usize) {
    naked_asm!(
        "push rbp",
        "push rbx",
        "push r12",
        "push r13",
        "push r14",
        "push r15",
        "sub rsp, 8",
        "stmxcsr [rsp]",
        "fnstcw [rsp + 4]",
        "mov [rdi], rsp",
        "mov rsp, rsi",
        "ldmxcsr [rsp]",
        "fldcw [rsp + 4]",
        "add rsp, 8",
        "pop r15",
        "pop r14",
        "pop r13",
        "pop r12",
        "pop rbx",
        "pop rbp",
        "ret",
    )
}

/// Writes the start of a stack, from its end down.
struct Writer {
    at: usize,
}

impl Writer {
    /// Writes what the kernel gives a program, and above it what `switch` takes off the stack before it returns to `entry`.
    /// Gives the stack pointer, and the address of the environment.
    fn start(&mut self, entry: usize, words: &[Vec<u8>], environment: &[Vec<u8>]) -> (usize, usize) {
        let words: Vec<usize> = words.iter().map(|word| self.text(word)).collect();
        let names: Vec<usize> = environment.iter().map(|name| self.text(name)).collect();
        let size = 8 * (words.len() + names.len() + 5);
        // `entry` needs a stack pointer that is a multiple of 16
        self.at = ((self.at - size) & !15) + size;
        // the end of the auxiliary vector
        self.word(0);
        self.word(0);
        self.word(0);
        names.iter().rev().for_each(|name| self.word(*name));
        let environ = self.at;
        self.word(0);
        words.iter().rev().for_each(|word| self.word(*word));
        self.word(words.len());
        self.word(entry);
        (0..6).for_each(|_| self.word(0));
        // the usual modes of the floating-point units: mxcsr, and the control word of the x87 above it
        self.word(0x037f_0000_1f80);
        (self.at, environ)
    }

    fn text(&mut self, text: &[u8]) -> usize {
        self.at -= text.len() + 1;
        // Safety: `start` writes to the top of a stack on which nothing runs yet, and its texts are far shorter than the stack.
        unsafe {
            std::ptr::copy_nonoverlapping(text.as_ptr(), self.at as *mut u8, text.len());
            *((self.at + text.len()) as *mut u8) = 0;
        }
        self.at
    }

    fn word(&mut self, word: usize) {
        self.at -= 8;
        // Safety: as in `text`; `start` made the place a multiple of 8.
        unsafe { *(self.at as *mut usize) = word };
    }
}

extern "C" {
    fn sigaction(signal: c_int, new: *const Action, old: *mut Action) -> c_int;
    fn setitimer(which: c_int, new: *const [i64; 4], old: *mut [i64; 4]) -> c_int;
    fn sigaltstack(new: *const AlternateStack, old: *mut AlternateStack) -> c_int;
}

/// `struct sigaction` of glibc for x86-64.
#[repr(C)]
struct Action {
    handler: usize,
    mask: [u64; 16],
    flags: c_int,
    restorer: usize,
}

/// `stack_t`.
#[repr(C)]
struct AlternateStack {
    start: usize,
    flags: c_int,
    size: usize,
}

/// The signals that end a process, and why.
const SIGNALS: [(c_int, &str); 6] =
    [(4, "SIGILL"), (5, "SIGTRAP"), (7, "SIGBUS"), (8, "SIGFPE"), (11, "SIGSEGV"), (TICK, "ten seconds without a call")];
/// The signal that comes with each second of the processor's time.
const TICK: c_int = 26;
/// A process that makes no call for so many of these seconds runs without an end.
const MOST_TICKS: u32 = 10;
/// Room for the handler and for all registers of the processor, which the kernel saves there.
const SIGNAL_STACK: usize = 64 << 10;

/// The name of a signal that ends a process.
pub fn signal_name(signal: usize) -> &'static str {
    SIGNALS.iter().find(|(number, _)| *number as usize == signal).map_or("a signal", |(_, name)| name)
}

/// Whether a signal says which address was used.
pub fn names_address(signal: usize) -> bool {
    matches!(signal, 7 | 11)
}

/// Installs the handler of signals. From then on a trap or a loop without an end ends the process alone. Each thread that has a machine
/// calls this.
pub fn catch_traps() {
    thread_local!(static IS_READY: Cell<bool> = const { Cell::new(false) });
    if IS_READY.replace(true) {
        return;
    }
    const INFORMED: c_int = 4;
    const ON_STACK: c_int = 0x0800_0000;
    const RESTART: c_int = 0x1000_0000;
    const NO_DEFER: c_int = 0x4000_0000;
    const OWN_TIME: c_int = 1;
    let flags = INFORMED | ON_STACK | RESTART | NO_DEFER;
    let handler = on_signal as extern "C" fn(c_int, *const u8, *mut u8) as usize;
    let stack = Box::leak(vec![0_u8; SIGNAL_STACK].into_boxed_slice());
    let alternate = AlternateStack { start: stack.as_ptr() as usize, flags: 0, size: SIGNAL_STACK };
    // Safety: `on_signal` has the form that the flags ask for, and its stack is never freed.
    let failed = unsafe {
        let mut failed = sigaltstack(&alternate, std::ptr::null_mut());
        for (signal, _) in SIGNALS {
            failed |= sigaction(signal, &Action { handler, mask: [0; 16], flags, restorer: 0 }, std::ptr::null_mut());
        }
        failed | setitimer(OWN_TIME, &[1, 0, 1, 0], std::ptr::null_mut())
    };
    assert_eq!(failed, 0, "no handler for signals: {}", std::io::Error::last_os_error());
}

/// Where `siginfo_t` has the address that was used, and `ucontext_t` the registers.
const ADDRESS: usize = 16;
const REGISTERS: usize = 40;
const STACK_POINTER: usize = 15;
const CODE: usize = 16;
const FLAGS: usize = 17;
const DIRECTION_FLAG: usize = 0x400;

/// The handler of signals. A process that trapped continues in `end_trapped`. A trap of the simulator ends the simulator.
extern "C" fn on_signal(signal: c_int, information: *const u8, context: *mut u8) {
    // Safety: the kernel calls this with structures of these forms. Where GATE.top isn't 0, `resume` waits for the process that
    // trapped, which never goes on: its stack can be overwritten.
    unsafe {
        let registers = context.add(REGISTERS).cast::<usize>();
        let stack_pointer = *registers.add(STACK_POINTER);
        if signal == TICK {
            GATE.ticks += 1;
            // `switch` may already have the scheduler's stack
            let is_process = (GATE.top.saturating_sub(SIZE)..GATE.top).contains(&stack_pointer);
            if !is_process || GATE.ticks < MOST_TICKS {
                return;
            }
        } else if GATE.top == 0 {
            let default = Action { handler: 0, mask: [0; 16], flags: 0, restorer: 0 };
            sigaction(signal, &default, std::ptr::null_mut());
            return;
        }
        let address = information.add(ADDRESS).cast::<usize>().read();
        GATE.asked = Asked { number: TRAPPED, words: [signal as usize, address, *registers.add(CODE), stack_pointer, 0, 0] };
        // a function finds its stack pointer 8 bytes off a multiple of 16
        *registers.add(STACK_POINTER) = GATE.top - 8;
        *registers.add(CODE) = end_trapped as extern "C" fn() as usize;
        *registers.add(FLAGS) &= !DIRECTION_FLAG;
    }
}

/// Hands over from a process that trapped to the scheduler, for the last time.
extern "C" fn end_trapped() {
    // Safety: the handler of signals left here what is asked.
    let asked = unsafe { addr_of!(GATE.asked).read() };
    ask(asked);
    unreachable!("a process that trapped goes on");
}

//! A small program for the tests of the machine. Its first word says what it does, and its status is the result.

use crate::calls;
use crate::image::Image;
use std::arch::naked_asm;
use std::ffi::{c_char, c_int, CStr};
use std::sync::OnceLock;

type Function = extern "C" fn(usize, usize, usize, usize, usize, usize) -> usize;

/// The program. Its calls may name all memory.
pub fn image() -> &'static Image {
    static IMAGE: OnceLock<Image> = OnceLock::new();
    let entry = begin as *const () as usize;
    let readable = vec![1..usize::MAX];
    IMAGE.get_or_init(|| Image { span: 0..0, entry, initializers: Vec::new(), readable, writable: Vec::new(), data: Vec::new() })
}

/// Begins as `_start` of the C library does.
#[unsafe(naked)]
extern "C" fn begin() {
    naked_asm!(
        "pop rsi",
        "mov rdx, rsp",
        "and rsp, -16",
        "lea rdi, [rip + {main}]",
        "call {start}",
        "hlt",
        main = sym main,
        start = sym calls::start,
    )
}

/// Calls what the program imports by that name.
fn call(name: &str, words: &[usize]) -> isize {
    let mut all = [0; 6];
    all[..words.len()].copy_from_slice(words);
    let address = calls::import(name).expect("an import");
    // Safety: each import of the scheduler has this form, and others take words of a register each.
    let function = unsafe { std::mem::transmute::<usize, Function>(address) };
    function(all[0], all[1], all[2], all[3], all[4], all[5]) as c_int as isize
}

/// The `errno` of a call that failed.
fn error(result: isize) -> c_int {
    assert_eq!(result, -1);
    // Safety: `__errno_location` takes nothing and gives the address of a number.
    unsafe { *std::mem::transmute::<usize, extern "C" fn() -> *const c_int>(calls::import("__errno_location").expect("an import"))() }
}

extern "C" fn main(count: c_int, words: *const *const c_char, _environment: *const *const c_char) -> c_int {
    assert_eq!(count, 2);
    // Safety: the simulator gives the words as the kernel does.
    let word = unsafe { CStr::from_ptr(*words.add(1)) };
    match word.to_bytes() {
        b"receive" => receive(5_000),
        b"hold" => receive(0),
        b"send" => send(),
        b"null" => call("read", &[0, 0, 0]) as c_int + null(),
        b"deep" => deep(0),
        b"twice" => twice(),
        b"fault" => error(call("write", &[1, 0, 10])),
        b"files" => files(),
        b"echo" => echo(),
        b"dirty" => dirty(),
        _ => 100,
    }
}

/// The number of bytes of a datagram that came within so many microseconds to port 9.
fn receive(patience: u64) -> c_int {
    let socket = call("socket", &[2, 2, 0]) as usize;
    let time = [0, patience];
    if call("bind", &[socket, address(9).as_ptr() as usize, 16]) < 0 {
        return error(-1);
    }
    call("setsockopt", &[socket, 1, 20, time.as_ptr() as usize, 16]);
    let mut bytes = [0_u8; 100];
    let count = call("recvfrom", &[socket, bytes.as_mut_ptr() as usize, 100, 0, 0, 0]);
    if count < 0 {
        error(count)
    } else {
        count as c_int
    }
}

fn send() -> c_int {
    let socket = call("socket", &[2, 2, 0]) as usize;
    call("sendto", &[socket, b"hello".as_ptr() as usize, 5, 0, address(9).as_ptr() as usize, 16]) as c_int
}

/// A port of the host 0, as C has it.
fn address(port: u8) -> [u8; 16] {
    [2, 0, 0, port, 10, 0, 0, 1, 0, 0, 0, 0, 0, 0, 0, 0]
}

#[inline(never)]
fn null() -> c_int {
    let place = std::hint::black_box(16) as *const c_int;
    // Safety: none: a process that does this traps, as the test wants it.
    unsafe { std::ptr::read_volatile(place) }
}

#[inline(never)]
#[allow(unconditional_recursion)]
fn deep(depth: u64) -> c_int {
    let room = std::hint::black_box([depth; 100]);
    deep(room[50] + 1) + room[7] as c_int
}

fn twice() -> c_int {
    // Safety: `malloc` gives an address.
    let block = unsafe { std::mem::transmute::<usize, extern "C" fn(usize) -> usize>(calls::import("malloc").expect("an import"))(10) };
    call("free", &[block]);
    call("free", &[block]) as c_int
}

/// Writes a file, renames it over its folder's descriptor, and finds it.
fn files() -> c_int {
    let path = |text: &'static CStr| text.as_ptr() as usize;
    let file = call("open", &[path(c"new"), 0o102, 0o666]) as usize;
    let written = call("write", &[file, b"hello".as_ptr() as usize, 5]);
    let folder = call("open", &[path(c"/"), 0o200_000, 0]);
    assert_eq!((file, written, folder), (3, 5, 4));
    call("rename", &[path(c"/proc/self/fd/4/new"), path(c"/proc/self/fd/4/old")]);
    assert_eq!(call("close", &[3]), 0);
    assert_eq!(error(call("close", &[3])), 9);
    let mut status = [0_u8; 256];
    assert_eq!(call("statx", &[4, path(c"old"), 0, 0, status.as_mut_ptr() as usize]), 0);
    assert_eq!(call("open", &[path(c"old"), 0, 0]), 3);
    c_int::from(status[40])
}

/// Writes its input to its output and its errors, and gives the last byte.
fn echo() -> c_int {
    let mut bytes = [0_u8; 10];
    let mut last = 0;
    while let count @ 1.. = call("read", &[0, bytes.as_mut_ptr() as usize, 10]) as usize {
        call("write", &[1, bytes.as_ptr() as usize, count]);
        call("write", &[2, bytes.as_ptr() as usize, 1]);
        last = bytes[count - 1].into();
    }
    last
}

/// Gives 0 if a new block is zeros, and then fills it.
fn dirty() -> c_int {
    const SIZE: usize = 3 << 20;
    // Safety: `malloc` gives the address of that many bytes.
    unsafe {
        let block = std::mem::transmute::<usize, extern "C" fn(usize) -> *mut u8>(calls::import("malloc").expect("an import"))(SIZE);
        let bytes = std::slice::from_raw_parts_mut(block, SIZE);
        let is_clean = bytes.iter().all(|byte| *byte == 0);
        bytes.fill(1);
        c_int::from(!is_clean)
    }
}

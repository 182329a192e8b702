//! Pages of memory at addresses that are the same in each run.

use std::ffi::{c_int, c_void};
use std::ops::Range;

/// What a page can be used for.
#[derive(Clone, Copy)]
pub enum Rights {
    None = 0,
    Read = 1,
    ReadWrite = 3,
    ReadExecute = 5,
}

extern "C" {
    fn mmap(address: *mut c_void, size: usize, rights: c_int, flags: c_int, file: c_int, offset: i64) -> *mut c_void;
    fn mprotect(address: *mut c_void, size: usize, rights: c_int) -> c_int;
    fn madvise(address: *mut c_void, size: usize, advice: c_int) -> c_int;
}

/// Maps pages of zeros at addresses that nothing uses yet. Only pages that are written to take memory.
pub fn reserve(span: &Range<usize>) -> Result<(), String> {
    const PRIVATE: c_int = 2;
    const ANONYMOUS: c_int = 0x20;
    const NO_RESERVE: c_int = 0x4000;
    const FIXED_NEW: c_int = 0x10_0000;
    let flags = PRIVATE | ANONYMOUS | NO_RESERVE | FIXED_NEW;
    // Safety: the kernel refuses addresses that are in use, so no memory of the simulator changes.
    let given = unsafe { mmap(span.start as *mut c_void, span.len(), Rights::ReadWrite as c_int, flags, -1, 0) };
    if given as usize == span.start {
        return Ok(());
    }
    Err(format!("no memory at {:#x}: {}", span.start, std::io::Error::last_os_error()))
}

/// Sets the rights of pages that `reserve` mapped.
pub fn set_rights(part: &Range<usize>, rights: Rights) -> Result<(), String> {
    // Safety: the caller reserved these pages, and no Rust value lies in them.
    match unsafe { mprotect(part.start as *mut c_void, part.len(), rights as c_int) } {
        0 => Ok(()),
        _ => Err(format!("no rights to the memory at {:#x}: {}", part.start, std::io::Error::last_os_error())),
    }
}

/// Fills pages that `reserve` mapped with zeros. The pages of `near`, a part of them, stay mapped, and so are fast to use again.
pub fn clear(part: &Range<usize>, near: &Range<usize>) {
    const DONT_NEED: c_int = 4;
    // Safety: the caller reserved these pages, no process uses them now, and no Rust value lies in them. Private pages that
    // the kernel takes back read as zeros.
    unsafe {
        std::ptr::write_bytes(near.start as *mut u8, 0, near.len());
        for far in [part.start..near.start, near.end..part.end] {
            if !far.is_empty() {
                madvise(far.start as *mut c_void, far.len(), DONT_NEED);
            }
        }
    }
}

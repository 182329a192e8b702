//! The heap of a process, at an address that is the same in each run.
//!
//! A block has a header of 16 bytes in front: the size that was asked for, and a mark that says if the block is in use. Free blocks are
//! kept in lists by size. The last block that was given back is taken first.

use crate::pages;
use std::ops::Range;

/// The bytes of a heap.
const SIZE: usize = 256 << 20;
const HEAPS: usize = 0x4000_0000_0000;
const HEADER: usize = 16;
/// The first part of a heap is cleared by writing, and the rest by the kernel.
const NEAR: usize = 1 << 20;
const IN_USE: u64 = 0x6b63_6f6c_625f_6e69;
const FREE: u64 = 0x6b63_6f6c_625f_6f6e;
/// Sizes up to this one have a class for each 16 bytes. From there on each double of the size has four classes.
const SMALL: usize = 1024;
const CLASSES: usize = SMALL / 16 + 4 * 18 + 1;
/// How many heaps there can be at a time.
const SLOTS: usize = crate::coroutine::SLOTS;

/// Which heaps were mapped. The machine's lock guards it.
static mut MAPPED: [bool; SLOTS] = [false; SLOTS];

/// The heap of a process. Later processes use the memory again.
#[derive(Debug)]
pub struct Heap {
    start: usize,
    /// How many bytes at its start have been part of a block.
    used: usize,
    /// For each class the last block that was given back, or 0. The first word of a free block is the block before.
    free: [usize; CLASSES],
    /// How many bytes are in use, without headers.
    held: usize,
    /// The most that `held` was.
    peak: usize,
}

/// An address isn't that of a block in use, or the block's header was overwritten.
#[derive(Clone, Copy, Debug, PartialEq, Eq)]
pub struct Corrupt;

impl Heap {
    pub fn new(slot: usize) -> Self {
        assert!(slot < SLOTS, "more than {SLOTS} processes run");
        let start = HEAPS + slot * 2 * SIZE;
        // Safety: the machine's lock guards MAPPED.
        unsafe {
            if !MAPPED[slot] {
                pages::reserve(&(start..start + SIZE)).expect("a heap");
                MAPPED[slot] = true;
            }
        }
        Heap { start, used: 0, free: [0; CLASSES], held: 0, peak: 0 }
    }

    /// The memory that has been part of a block.
    pub fn memory(&self) -> Range<usize> {
        self.start..self.start + self.used
    }

    /// The most bytes that were in use at a time.
    pub fn peak(&self) -> usize {
        self.peak
    }

    /// A block of `size` bytes, if there is room.
    pub fn take(&mut self, size: usize) -> Option<usize> {
        let class = class(size)?;
        let block = match self.free[class] {
            0 => {
                let whole = HEADER + class_size(class);
                if whole > SIZE - self.used {
                    return None;
                }
                self.used += whole;
                self.start + self.used - whole + HEADER
            }
            block => {
                self.free[class] = self.word(block);
                block
            }
        };
        self.mark(block, size, IN_USE);
        self.held += size;
        self.peak = self.peak.max(self.held);
        Some(block)
    }

    /// Takes a block back.
    pub fn give_back(&mut self, block: usize) -> Result<(), Corrupt> {
        let size = self.size(block)?;
        let class = class(size).ok_or(Corrupt)?;
        self.mark(block, size, FREE);
        self.set_word(block, self.free[class]);
        self.free[class] = block;
        self.held -= size;
        Ok(())
    }

    /// Changes the size of a block, which may move, and keeps its bytes. Without room it gives none, and the block stays.
    pub fn change(&mut self, block: usize, size: usize) -> Result<Option<usize>, Corrupt> {
        let old = self.size(block)?;
        if class(size) == class(old) {
            self.mark(block, size, IN_USE);
            self.held = self.held - old + size;
            self.peak = self.peak.max(self.held);
            return Ok(Some(block));
        }
        let Some(new) = self.take(size) else { return Ok(None) };
        // Safety: both blocks lie in the heap, are apart, and have that many bytes.
        unsafe { std::ptr::copy_nonoverlapping(block as *const u8, new as *mut u8, old.min(size)) };
        self.give_back(block)?;
        Ok(Some(new))
    }

    /// The size of a block in use.
    fn size(&self, block: usize) -> Result<usize, Corrupt> {
        let is_inside = block % 16 == 0 && block >= self.start + HEADER && block < self.start + self.used;
        if !is_inside || self.word(block - 8) as u64 != IN_USE {
            return Err(Corrupt);
        }
        match self.word(block - HEADER) {
            size if size <= self.start + self.used - block => Ok(size),
            _ => Err(Corrupt),
        }
    }

    fn mark(&mut self, block: usize, size: usize, mark: u64) {
        self.set_word(block - HEADER, size);
        self.set_word(block - 8, mark as usize);
    }

    fn word(&self, at: usize) -> usize {
        debug_assert!(at >= self.start && at + 8 <= self.start + SIZE);
        // Safety: callers name a place of the heap that is a multiple of 8: a block's header, or its first word.
        unsafe { *(at as *const usize) }
    }

    fn set_word(&mut self, at: usize, word: usize) {
        debug_assert!(at >= self.start && at + 8 <= self.start + SIZE);
        // Safety: as in `word`. The process whose heap this is doesn't run now.
        unsafe { *(at as *mut usize) = word };
    }
}

impl Drop for Heap {
    /// Clears what was used, so that the next process doesn't see what this one left: a run depends on its seed alone.
    fn drop(&mut self) {
        let used = self.start..(self.start + self.used).next_multiple_of(4096);
        pages::clear(&used, &(used.start..used.end.min(used.start + NEAR)));
    }
}

/// The class of a size, if the heap is that large.
fn class(size: usize) -> Option<usize> {
    if size <= SMALL {
        return Some(size.max(1).div_ceil(16) - 1);
    }
    if size > SIZE {
        return None;
    }
    // the top three bits of the last byte's offset say which double, and which quarter of it
    let last = size - 1;
    let double = last.ilog2() - SMALL.ilog2();
    Some(SMALL / 16 + 4 * double as usize + ((last >> (last.ilog2() - 2)) & 3))
}

/// The largest size of a class.
fn class_size(class: usize) -> usize {
    match class.checked_sub(SMALL / 16) {
        None => 16 * (class + 1),
        Some(beyond) => ((SMALL / 4) * (5 + beyond % 4)) << (beyond / 4),
    }
}

#[cfg(test)]
mod tests {
    use super::*;

    #[test]
    fn a_class_has_room_for_each_of_its_sizes() {
        for size in (0..70_000).chain([1 << 20, (1 << 20) + 1, SIZE - 1, SIZE]) {
            let class = class(size).unwrap();
            assert!(class < CLASSES && class_size(class) >= size, "{size}");
            assert!(class == 0 || class_size(class - 1) < size.max(1), "{size}");
        }
        assert_eq!(class(SIZE + 1), None);
    }

    #[test]
    fn a_heap_keeps_what_is_in_use_and_finds_what_is_not() {
        let _alone = crate::coroutine::Alone::new();
        let mut heap = Heap::new(0);
        let (first, second) = (heap.take(20).unwrap(), heap.take(5000).unwrap());
        assert_eq!(heap.memory().start % 16 + first % 16 + second % 16, 0);
        heap.set_word(first, 7);
        let moved = heap.change(first, 100).unwrap().unwrap();
        assert_eq!((heap.word(moved), heap.change(moved, 99), heap.peak()), (7, Ok(Some(moved)), 5120));
        assert_eq!([first, second + 16, 8].map(|block| heap.give_back(block)), [Err(Corrupt); 3]);
        assert_eq!((heap.give_back(second), heap.give_back(second), heap.take(4900)), (Ok(()), Err(Corrupt), Some(second)));
        heap.set_word(moved - 8, 0);
        assert_eq!((heap.change(moved, 10), heap.take(SIZE)), (Err(Corrupt), None));
        drop(heap);
        let mut heap = Heap::new(0);
        assert_eq!(heap.take(20).map(|block| heap.word(block)), Some(0));
    }
}

//! The program's ELF file, loaded at an address that is the same in each run.
//!
//! The file is the one that is proved and installed. Each symbol that it imports is bound to a function of the simulator, so its calls
//! don't reach the real system. All processes share the code. Each process has its own copy of the data that stays writable after
//! relocation. `Image::exchange` puts this copy in place before the process runs.

use crate::pages::{self, Rights};
use std::ops::Range;

/// The address in memory of the file's address 0.
pub const BASE: usize = 0x2000_0000_0000;
const PAGE: usize = 4096;

/// A program that is loaded. It stays until the simulator ends.
#[derive(Debug)]
pub struct Image {
    /// All of its memory.
    pub span: Range<usize>,
    pub entry: usize,
    /// The functions that run before `main`.
    pub initializers: Vec<usize>,
    /// The memory that can be read.
    pub readable: Vec<Range<usize>>,
    /// The memory that can be written to.
    pub writable: Vec<Range<usize>>,
    /// What this memory holds at the start of a process.
    pub data: Vec<u8>,
}

/// What the headers of the file say.
struct File<'a> {
    bytes: &'a [u8],
    loads: Vec<Segment>,
    protected: Range<usize>,
    /// Values of the dynamic section, by tag.
    dynamic: [u64; 64],
    /// A tag of the dynamic section that the loader lacks.
    refused: Option<u64>,
}

struct Segment {
    flags: u32,
    offset: usize,
    in_file: usize,
    memory: Range<usize>,
}

const LOAD: u32 = 1;
const DYNAMIC: u32 = 2;
const THREAD_LOCAL: u32 = 7;
const RELRO: u32 = 0x6474_e552;
const EXECUTE: u32 = 1;
const WRITE: u32 = 2;

const PLT_SIZE: usize = 2;
const STRINGS: usize = 5;
const SYMBOLS: usize = 6;
const RELOCATIONS: usize = 7;
const RELOCATIONS_SIZE: usize = 8;
const INITIALIZER: usize = 12;
const PLT: usize = 23;
const INITIALIZERS: usize = 25;
const INITIALIZERS_SIZE: usize = 27;
/// Tags whose meaning the loader lacks: other forms of relocations, code that is written to, and functions that run before all others.
const REFUSED_TAGS: [u64; 4] = [17, 22, 32, 36];

impl Image {
    /// Loads a program. `resolve` gives the address of an imported symbol. A process of the simulator loads one program.
    pub fn load(bytes: &[u8], resolve: &dyn Fn(&str) -> Option<usize>) -> Result<&'static Image, String> {
        let file = File::parse(bytes)?;
        let memory = file.memory(resolve)?;
        let span = BASE..BASE + memory.0.len();
        pages::reserve(&span)?;
        // Safety: `span` was mapped now for this, writable, and has the size of `memory`.
        unsafe { std::ptr::copy_nonoverlapping(memory.0.as_ptr(), span.start as *mut u8, span.len()) };
        file.protect(&span)?;
        let initializers = file.initializers(&memory)?;
        let readable = file.loads.iter().map(|load| based(&load.memory)).collect();
        let writable = file.writable();
        let data = writable.iter().flat_map(|part| &memory.0[part.clone()]).copied().collect();
        let writable = writable.iter().map(based).collect();
        Ok(Box::leak(Box::new(Image { span, entry: BASE + file.entry()?, initializers, readable, writable, data })))
    }

    /// Exchanges the program's writable data with `data`, which has the size of `Image::data`.
    pub fn exchange(&self, data: &mut [u8]) {
        let mut rest = data;
        for part in &self.writable {
            let (own, later) = rest.split_at_mut(part.len());
            // Safety: `part` is mapped writable memory of the program, which doesn't run now, and `own` has its length.
            unsafe { std::ptr::swap_nonoverlapping(part.start as *mut u8, own.as_mut_ptr(), part.len()) };
            rest = later;
        }
    }
}

/// The addresses in memory of a part of the file's addresses.
fn based(part: &Range<usize>) -> Range<usize> {
    BASE + part.start..BASE + part.end
}

impl<'a> File<'a> {
    fn parse(bytes: &'a [u8]) -> Result<Self, String> {
        let mut file = File { bytes, loads: Vec::new(), protected: 0..0, dynamic: [0; 64], refused: None };
        let is_known = file.part(0, 7)? == b"\x7fELF\x02\x01\x01" && file.number::<2>(16)? == 3 && file.number::<2>(18)? == 62;
        if !is_known {
            return Err("the program is no position-independent ELF file for x86-64".into());
        }
        let (headers, size, count) = (file.number::<8>(32)? as usize, file.number::<2>(54)? as usize, file.number::<2>(56)? as usize);
        for place in 0..count {
            file.header(headers + place * size)?;
        }
        match file.refused {
            Some(tag) => Err(format!("the program's dynamic section has the tag {tag}, which the loader lacks")),
            None => Ok(file),
        }
    }

    /// Reads the program header at an offset.
    fn header(&mut self, at: usize) -> Result<(), String> {
        let start = self.number::<8>(at + 16)? as usize;
        let (in_file, size) = (self.number::<8>(at + 32)? as usize, self.number::<8>(at + 40)? as usize);
        let (flags, offset) = (self.number::<4>(at + 4)? as u32, self.number::<8>(at + 8)? as usize);
        if in_file > size || start.checked_add(size).is_none_or(|end| end > 1 << 30) {
            return Err("the program has a segment of a wrong size".into());
        }
        match self.number::<4>(at)? as u32 {
            LOAD => self.loads.push(Segment { flags, offset, in_file, memory: start..start + size }),
            DYNAMIC => self.dynamic(offset, in_file)?,
            RELRO => self.protected = start / PAGE * PAGE..(start + size) / PAGE * PAGE,
            THREAD_LOCAL => return Err("the program has thread-local data, which the loader lacks".into()),
            _ => {}
        }
        Ok(())
    }

    fn dynamic(&mut self, offset: usize, size: usize) -> Result<(), String> {
        for at in (offset..offset + size).step_by(16) {
            let (tag, value) = (self.number::<8>(at)?, self.number::<8>(at + 8)?);
            if REFUSED_TAGS.contains(&tag) {
                self.refused = Some(tag);
            }
            if let Some(place) = self.dynamic.get_mut(tag as usize) {
                *place = value;
            }
        }
        Ok(())
    }

    fn entry(&self) -> Result<usize, String> {
        Ok(self.number::<8>(24)? as usize)
    }

    /// The program's memory as it is when it begins.
    fn memory(&self, resolve: &dyn Fn(&str) -> Option<usize>) -> Result<Memory, String> {
        let end = self.loads.iter().map(|load| load.memory.end).max().ok_or("the program has nothing to load")?;
        let mut memory = Memory(vec![0; end.next_multiple_of(PAGE)]);
        for load in &self.loads {
            memory.0[load.memory.start..][..load.in_file].copy_from_slice(self.part(load.offset, load.in_file)?);
        }
        for (table, size) in [(RELOCATIONS, RELOCATIONS_SIZE), (PLT, PLT_SIZE)] {
            let start = self.dynamic[table] as usize;
            for at in (start..start + self.dynamic[size] as usize).step_by(24) {
                self.relocate(at, &mut memory, resolve)?;
            }
        }
        Ok(memory)
    }

    /// Applies the relocation at an address.
    fn relocate(&self, at: usize, memory: &mut Memory, resolve: &dyn Fn(&str) -> Option<usize>) -> Result<(), String> {
        let (place, info, addend) = (memory.word(at)?, memory.word(at + 8)?, memory.word(at + 16)?);
        let value = match info as u32 {
            8 => BASE.wrapping_add(addend),
            1 => self.symbol(memory, info >> 32, resolve)?.wrapping_add(addend),
            6 | 7 => self.symbol(memory, info >> 32, resolve)?,
            kind => return Err(format!("the program has a relocation of the kind {kind}, which the loader lacks")),
        };
        memory.part_mut(place)?.copy_from_slice(&value.to_le_bytes());
        Ok(())
    }

    /// The address of a symbol. A weak symbol that nobody has is at 0.
    fn symbol(&self, memory: &Memory, index: usize, resolve: &dyn Fn(&str) -> Option<usize>) -> Result<usize, String> {
        let entry = self.dynamic[SYMBOLS] as usize + index * 24;
        let words = memory.word(entry)?;
        let (name, is_weak, section) = (words & 0xffff_ffff, (words >> 36) & 15 == 2, (words >> 48) & 0xffff);
        if section != 0 {
            return Ok(BASE + memory.word(entry + 8)?);
        }
        let name = memory.text(self.dynamic[STRINGS] as usize + name)?;
        match resolve(&name) {
            Some(address) => Ok(address),
            None if is_weak => Ok(0),
            None => Err(format!("the program imports {name}, which the simulator lacks")),
        }
    }

    fn initializers(&self, memory: &Memory) -> Result<Vec<usize>, String> {
        let mut all = Vec::new();
        if self.dynamic[INITIALIZER] != 0 {
            all.push(BASE + self.dynamic[INITIALIZER] as usize);
        }
        let start = self.dynamic[INITIALIZERS] as usize;
        for at in (start..start + self.dynamic[INITIALIZERS_SIZE] as usize).step_by(8) {
            all.push(memory.word(at)?);
        }
        Ok(all)
    }

    /// Gives each page the rights that the file asks for, and none to pages between segments.
    fn protect(&self, span: &Range<usize>) -> Result<(), String> {
        pages::set_rights(span, Rights::None)?;
        for load in &self.loads {
            let rights = match load.flags & (WRITE | EXECUTE) {
                0 => Rights::Read,
                WRITE => Rights::ReadWrite,
                EXECUTE => Rights::ReadExecute,
                _ => return Err("the program has code that it can write to".into()),
            };
            let pages = load.memory.start / PAGE * PAGE..load.memory.end.next_multiple_of(PAGE);
            pages::set_rights(&based(&pages), rights)?;
        }
        pages::set_rights(&based(&self.protected), Rights::Read)
    }

    /// The memory that stays writable, by the file's addresses.
    fn writable(&self) -> Vec<Range<usize>> {
        let writable = self.loads.iter().filter(|load| load.flags & WRITE != 0);
        let parts = writable.flat_map(|load| {
            let (start, end) = (load.memory.start, load.memory.end);
            [start..end.min(self.protected.start), start.max(self.protected.end)..end]
        });
        parts.filter(|part| !part.is_empty()).collect()
    }

    /// A part of the file.
    fn part(&self, offset: usize, size: usize) -> Result<&'a [u8], String> {
        let end = offset.checked_add(size).ok_or("the program's file is too short")?;
        self.bytes.get(offset..end).ok_or("the program's file is too short".into())
    }

    /// The number of `SIZE` bytes at an offset of the file.
    fn number<const SIZE: usize>(&self, offset: usize) -> Result<u64, String> {
        Ok(self.part(offset, SIZE)?.iter().rev().fold(0, |number, byte| number << 8 | u64::from(*byte)))
    }
}

/// The program's memory, from address 0 of its file on.
struct Memory(Vec<u8>);

impl Memory {
    fn word(&self, at: usize) -> Result<usize, String> {
        let word = self.0.get(at..).and_then(|rest| rest.first_chunk::<8>()).ok_or_else(|| outside(at))?;
        Ok(usize::from_le_bytes(*word))
    }

    fn part_mut(&mut self, at: usize) -> Result<&mut [u8; 8], String> {
        self.0.get_mut(at..).and_then(|rest| rest.first_chunk_mut::<8>()).ok_or_else(|| outside(at))
    }

    /// The text at an address, up to its zero.
    fn text(&self, at: usize) -> Result<String, String> {
        let rest = self.0.get(at..).ok_or_else(|| outside(at))?;
        let text = rest.split(|byte| *byte == 0).next().unwrap_or_default();
        Ok(String::from_utf8_lossy(text).into_owned())
    }
}

fn outside(at: usize) -> String {
    format!("the program has the address {at:#x}, which lies outside")
}

#[cfg(test)]
mod tests {
    use super::*;

    const DATA: usize = 0x2000;

    /// A program whose only segment has no code: at 0x1000 its dynamic section, at 0x1200 symbols, at 0x1280 names, at 0x1300
    /// relocations, and at 0x2000 the words that these are about.
    fn program(relocations: &[[u64; 3]], tag: u64) -> Vec<u8> {
        let mut bytes = vec![0; 0x3000];
        let mut put = |at: usize, size: usize, value: u64| bytes[at..at + size].copy_from_slice(&value.to_le_bytes()[..size]);
        let header = [(0, 8, 0x0001_0102_464c_457f), (16, 2, 3), (18, 2, 62), (24, 8, 0x1800), (32, 8, 64), (54, 2, 56), (56, 2, 2)];
        header.into_iter().for_each(|(at, size, value)| put(at, size, value));
        // the type, rights, place and size of the segment and of the dynamic section
        for (at, kind, start, size) in [(64, LOAD, 0, 0x3000), (120, DYNAMIC, 0x1000, 0x80)] {
            put(at, 8, u64::from(kind) | u64::from(WRITE) << 32);
            (1..3).for_each(|word| put(at + 8 * word, 8, start));
            (4..6).for_each(|word| put(at + 8 * word, 8, size));
        }
        let tags = [(SYMBOLS as u64, 0x1200), (STRINGS as u64, 0x1280), (7, 0x1300), (8, 24 * relocations.len() as u64), (tag, 1)];
        for (place, (tag, value)) in tags.into_iter().enumerate() {
            put(0x1000 + 16 * place, 8, tag);
            put(0x1008 + 16 * place, 8, value);
        }
        // symbol 1 is imported, 2 is weak, 3 lies at 0x123
        for (symbol, name, kind, section, value) in [(1, 1, 0x10, 0, 0), (2, 6, 0x20, 0, 0), (3, 1, 0x10, 1, 0x123)] {
            put(0x1200 + 24 * symbol, 8, name | kind << 32 | section << 48);
            put(0x1208 + 24 * symbol, 8, value);
        }
        put(0x1280, 8, u64::from_le_bytes(*b"\0read\0ma"));
        for (place, word) in relocations.iter().flatten().enumerate() {
            put(0x1300 + 8 * place, 8, *word);
        }
        bytes
    }

    fn memory_of(relocations: &[[u64; 3]]) -> Result<Memory, String> {
        let bytes = program(relocations, 0);
        File::parse(&bytes)?.memory(&|name| (name == "read").then_some(0x7000))
    }

    #[test]
    fn relocations_bind_what_is_imported_and_move_the_rest() {
        let place = DATA as u64;
        let relocations = [[place, 8, 0x55], [place + 8, 1 << 32 | 6, 9], [place + 16, 2 << 32 | 7, 0], [place + 24, 3 << 32 | 1, 2]];
        let memory = memory_of(&relocations).expect("a program");
        let words = [0, 8, 16, 24].map(|at| memory.word(DATA + at).expect("a word"));
        assert_eq!(words, [BASE + 0x55, 0x7000, 0, BASE + 0x125]);
    }

    #[test]
    fn what_the_loader_lacks_is_refused() {
        let why = |relocation| memory_of(&[relocation]).map(|_| ()).expect_err("it is refused");
        assert!(why([DATA as u64, 5, 0]).contains("relocation of the kind 5"));
        assert!(why([0x10_0000, 8, 0]).contains("lies outside"));
        let bytes = program(&[[DATA as u64, 1 << 32 | 7, 0]], 0);
        let unknown = File::parse(&bytes).and_then(|file| file.memory(&|_| None).map(|_| ()));
        assert_eq!(unknown, Err("the program imports read, which the simulator lacks".into()));
        let parsed = |bytes: &[u8]| File::parse(bytes).map(|_| ());
        assert!(parsed(&program(&[], 36)).is_err_and(|why| why.contains("the tag 36")));
        assert!(parsed(b"#!/bin/sh").is_err() && parsed(&program(&[], 0)[..0x1010]).is_err());
    }

    #[test]
    fn data_behind_the_protected_pages_is_each_process_s() {
        let bytes = program(&[], 0);
        let mut file = File::parse(&bytes).expect("a program");
        assert_eq!(file.writable(), [0..0x3000]);
        file.protected = 0x1000..0x2000;
        assert_eq!(file.writable(), [0..0x1000, 0x2000..0x3000]);
    }
}

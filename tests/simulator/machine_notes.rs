//! What is kept of a call: its part of the digest, and its text.

use crate::calls::{Call, Memory};
use crate::system::{Answer, Stop};

/// A call that is over.
pub struct Made<'a> {
    pub call: Call,
    pub words: &'a [usize; 6],
    /// What `result` gives.
    pub result: u64,
    pub memory: &'a Memory,
}

/// The value that a call returned, or less than 0 if it failed. None while it waits.
pub fn result(answer: &Answer) -> Option<u64> {
    match answer {
        Ok(result) => Some(*result as u64),
        Err(Stop::Fails(error)) => Some((-i64::from(*error)) as u64),
        Err(Stop::Exits(status)) => Some(*status as u64),
        Err(Stop::Traps(_)) => Some(u64::MAX),
        Err(Stop::Waits(_)) => None,
    }
}

impl Made<'_> {
    /// A sum of the call, of all that it names, and of an earlier sum.
    pub fn sum(&self, sum: u64) -> u64 {
        let mut sum = mix(mix(sum, self.call as u64), self.result);
        for (place, kind) in self.call.kinds().bytes().enumerate() {
            // the upper half of a register is undefined where C has a number of 32 bits
            let word = if kind == b'i' { self.words[place] as u32 as usize } else { self.words[place] };
            sum = mix(sum, word as u64);
            if let Some(bytes) = self.named(place, kind) {
                sum = mix_bytes(sum, bytes);
            }
        }
        sum
    }

    /// A sum of the first word and of the result alone, which is fast: most calls ask for memory.
    pub fn short_sum(&self, sum: u64) -> u64 {
        mix(mix(sum, self.words[0] as u64), self.result)
    }

    /// The bytes that a word of the call points to, if it's a pointer to memory of the process.
    fn named(&self, place: usize, kind: u8) -> Option<&[u8]> {
        let is_done = i64::try_from(self.result).is_ok();
        let address = self.words[place];
        match kind {
            b's' => self.memory.text(address).ok(),
            b'b' => self.memory.bytes(address, self.words[place + 1]).ok(),
            b'a' => self.memory.bytes(address, 16).ok(),
            b'o' if is_done => self.memory.bytes(address, (self.result as usize).min(self.words[place + 1])).ok(),
            b't' if is_done => self.memory.bytes(address, 16).ok(),
            b'x' if is_done => self.memory.bytes(address, 256).ok(),
            _ => None,
        }
    }

    /// The call as text.
    pub fn text(&self) -> String {
        let word = |(place, kind): (usize, u8)| match self.named(place, kind) {
            Some([_, _, high, low, a, b, c, d, ..]) if kind == b'a' => format!("{a}.{b}.{c}.{d}:{}", u16::from_be_bytes([*high, *low])),
            Some(bytes) if kind == b't' => format!("{}, {}", number(&bytes[..8]), number(&bytes[8..])),
            Some(bytes) if kind == b'x' => format!("size {}", number(&bytes[40..48])),
            Some(bytes) => format!("\"{}\"", bytes.escape_ascii()),
            None if kind == b'i' => format!("{}", self.words[place] as i32),
            None => format!("{:#x}", self.words[place]),
        };
        let list: Vec<String> = self.call.kinds().bytes().enumerate().map(word).collect();
        let end = match i32::try_from(-(self.result as i64)) {
            Ok(error) if error > 0 => std::io::Error::from_raw_os_error(error).to_string(),
            _ if self.call.takes_time() => self.result.to_string(),
            _ => format!("{:#x}", self.result),
        };
        format!("{}({}) = {end}", self.call.name(), list.join(", "))
    }
}

/// The number that these bytes are.
fn number(bytes: &[u8]) -> u64 {
    bytes.iter().rev().fold(0, |number, byte| number << 8 | u64::from(*byte))
}

/// A sum of a sum and a number.
pub fn mix(sum: u64, number: u64) -> u64 {
    (sum.rotate_left(5) ^ number).wrapping_mul(0x517c_c1b7_2722_0a95)
}

/// A sum of a sum and bytes.
pub fn mix_bytes(sum: u64, bytes: &[u8]) -> u64 {
    let words = bytes.chunks_exact(8);
    let rest = number(words.remainder());
    let sum = words.fold(sum, |sum, word| mix(sum, u64::from_le_bytes(word.try_into().unwrap_or_default())));
    mix(mix(sum, rest), bytes.len() as u64)
}

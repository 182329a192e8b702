//! The same receive window in plain Rust, written for speed: a ring of 64 places that keep their memory, each with a bit that says
//! whether its item is held, so that a body is copied once and nothing else is written.
//!
//! It has one window, its greatest, and can neither announce another nor tell a receipt.
use std::hint::black_box;
use std::time::Instant;

const WINDOW: u16 = 64;
const FILLS: u32 = 5_000;

struct Item {
    #[allow(dead_code)]
    op: u8,
    len: u16,
    body: [u8; 488],
}

impl Item {
    fn fill(&mut self, op: u8, bytes: &[u8]) {
        self.op = op;
        self.body[..bytes.len()].copy_from_slice(bytes);
        self.len = bytes.len() as u16;
    }

    fn bytes(&self) -> &[u8] {
        &self.body[..usize::from(self.len)]
    }
}

#[derive(PartialEq)]
enum Arrived {
    Took,
    Duplicate,
    Outside,
}

struct Window {
    read: u16,
    /// The place of the next item.
    first: u16,
    /// Which offsets are held, the first in the lowest bit.
    held: u64,
    items: Box<[Item]>,
}

impl Window {
    fn new() -> Self {
        let empty = |_| Item { op: 0, len: 0, body: [0; 488] };
        Window { read: 0, first: 0, held: 0, items: (0..WINDOW).map(empty).collect() }
    }

    fn arrive_lent(&mut self, num: u16, op: u8, bytes: &[u8]) -> Arrived {
        let offset = num.wrapping_sub(self.read);
        if (1..=WINDOW).contains(&offset) {
            let bit = 1u64 << (offset - 1);
            if self.held & bit != 0 {
                return Arrived::Duplicate;
            }
            self.held |= bit;
            let place = (self.first + offset - 1) % WINDOW;
            self.items[usize::from(place)].fill(op, bytes);
            Arrived::Took
        } else if offset > WINDOW && offset < 32768 {
            Arrived::Outside
        } else {
            Arrived::Duplicate
        }
    }

    fn front(&self) -> Option<&Item> {
        (self.held & 1 != 0).then(|| &self.items[usize::from(self.first)])
    }

    fn discard(&mut self) -> bool {
        if self.held & 1 == 0 {
            return false;
        }
        self.held >>= 1;
        self.first = (self.first + 1) % WINDOW;
        self.read = self.read.wrapping_add(1);
        true
    }
}

/// Takes an item with the number that far past the number last read, and counts it where it was taken.
fn arrives(window: &mut Window, offset: u16, bytes: &[u8]) -> u32 {
    let num = window.read.wrapping_add(offset);
    u32::from(window.arrive_lent(num, 0o200, bytes) == Arrived::Took)
}

/// Reads the items that are held, and adds up their first bytes.
fn drained(window: &mut Window) -> u32 {
    let mut sum = 0u32;
    for _ in 0..WINDOW {
        let first = window.front().and_then(|item| item.bytes().first().copied());
        sum = sum.wrapping_add(u32::from(first.unwrap_or(0)));
        window.discard();
    }
    sum
}

/// Fills, from the front on or from the end, and drains, and adds up what was taken and what was read.
fn fills(window: &mut Window, bytes: &mut [u8; 448], from_end: bool) -> (u32, u32) {
    let (mut took, mut sum) = (0u32, 0u32);
    for fill in 0..FILLS {
        bytes[0] = (fill % 256) as u8;
        // A length that the compiler doesn't know, as there.
        let length = black_box(448);
        for step in 0..WINDOW {
            let offset = if from_end { WINDOW - step } else { step + 1 };
            took = took.wrapping_add(arrives(window, offset, &bytes[..length]));
        }
        sum = sum.wrapping_add(drained(window));
    }
    (took, sum)
}

fn main() {
    let mut window = Window::new();
    let mut bytes = [0x5A; 448];
    for (name, from_end) in [("item_in_order", false), ("item_reversed", true)] {
        let start = Instant::now();
        let (took, sum) = fills(&mut window, &mut bytes, from_end);
        println!("{name} {took} {} {sum}", start.elapsed().as_nanos());
    }
}

//! What a host seals and opens with, whatever makes its tags: the form of a sealed datagram, the counters and the window.

pub const KEY: usize = 32;
const TAG: usize = 16;
const HEAD: usize = 32;
const ROOM: usize = 2048;
const WINDOW: u64 = 256;
const ROUNDS: u32 = 100_000;
const HERE: u16 = 0o402;
const THERE: u16 = 0o401;

/// Makes the tags of one key.
pub trait Tags {
    fn new(key: &[u8; KEY]) -> Self;
    fn tag(&mut self, text: &[u8]) -> [u8; TAG];
}

/// A host that knows one other.
struct Host<T> {
    me: u16,
    other: u16,
    session: u64,
    theirs: u64,
    sent: u64,
    greatest: u64,
    slots: [u64; WINDOW as usize],
    tags: T,
}

fn u16_at(bytes: &[u8], at: usize) -> u16 {
    u16::from_be_bytes(bytes[at..at + 2].try_into().unwrap())
}

fn u64_at(bytes: &[u8], at: usize) -> u64 {
    u64::from_be_bytes(bytes[at..at + 8].try_into().unwrap())
}

impl<T: Tags> Host<T> {
    fn new(me: u16, session: u64, other: u16) -> Self {
        let key: [u8; KEY] = std::array::from_fn(|i| (i * 7) as u8);
        Host { me, other, session, theirs: 0, sent: 0, greatest: 0, slots: [0; WINDOW as usize], tags: T::new(&key) }
    }

    fn seal(&mut self, peer: u64, payload: &[u8], room: &mut [u8; ROOM]) -> usize {
        self.sent += 1;
        let end = HEAD + payload.len();
        room[..4].copy_from_slice(&[0x43, 0x48, 3, 0]);
        room[4..6].copy_from_slice(&self.other.to_be_bytes());
        room[6..8].copy_from_slice(&self.me.to_be_bytes());
        room[8..16].copy_from_slice(&self.session.to_be_bytes());
        room[16..24].copy_from_slice(&peer.to_be_bytes());
        room[24..32].copy_from_slice(&self.sent.to_be_bytes());
        room[HEAD..end].copy_from_slice(payload);
        let tag = self.tags.tag(&room[..end]);
        room[end..end + TAG].copy_from_slice(&tag);
        end + TAG
    }

    fn is_taken(&mut self, session: u64, counter: u64) -> bool {
        if session < self.theirs {
            return false;
        }
        if session > self.theirs {
            self.theirs = session;
            self.greatest = 0;
            self.slots = [0; WINDOW as usize];
        }
        let slot = (counter % WINDOW) as usize;
        if counter <= self.slots[slot] || self.greatest.saturating_sub(counter) >= WINDOW {
            return false;
        }
        self.slots[slot] = counter;
        self.greatest = self.greatest.max(counter);
        true
    }

    /// The payload's length, in the front of the room.
    fn open(&mut self, room: &mut [u8; ROOM], count: usize) -> Option<usize> {
        if count < HEAD + TAG || room[..4] != [0x43, 0x48, 3, 0] || u16_at(room, 4) != self.me || u16_at(room, 6) != self.other {
            return None;
        }
        let end = count - TAG;
        let tag = self.tags.tag(&room[..end]);
        let differ = tag.iter().zip(&room[end..count]).fold(0, |differ, (a, b)| differ | (a ^ b));
        if differ != 0 || u64_at(room, 16) != self.session || !self.is_taken(u64_at(room, 8), u64_at(room, 24)) {
            return None;
        }
        let length = end - HEAD;
        room.copy_within(HEAD..end, 0);
        (is_packet_from(&room[..length], self.other) || length == 0).then_some(length)
    }
}

/// Whether the bytes are a datagram of version 1, whose packet has this source.
fn is_packet_from(bytes: &[u8], source: u16) -> bool {
    if bytes.len() < 20 || bytes[..4] != [0x43, 0x48, 1, 0] {
        return false;
    }
    let data = usize::from(u16_at(bytes, 6) & 0xfff);
    data <= 488 && bytes.len() == 20 + data.div_ceil(2) * 2 && u16_at(bytes, 12) == source
}

/// A datagram of version 1 with the greatest packet.
fn datagram() -> Vec<u8> {
    let mut bytes = vec![0x43, 0x48, 1, 0];
    for word in [0x8000, 488, THERE, 1, HERE, 2, 3, 4] {
        bytes.extend_from_slice(&u16::to_be_bytes(word));
    }
    let data: Vec<u8> = (0..488u32).map(|i| (i % 251) as u8).collect();
    bytes.extend(data.chunks_exact(2).flat_map(|pair| [pair[1], pair[0]]));
    bytes
}

pub fn run<T: Tags>() {
    let payload = datagram();
    let (mut here, mut there) = (Host::<T>::new(HERE, 5, THERE), Host::<T>::new(THERE, 6, HERE));
    let mut room = [0; ROOM];
    for _ in 0..2 {
        let end = there.seal(5, &[], &mut room);
        here.open(&mut room, end);
    }
    let start = std::time::Instant::now();
    let mut sealed = 0u32;
    for _ in 0..ROUNDS {
        let end = here.seal(here.theirs, &payload, &mut room);
        sealed = sealed.wrapping_add(room[end - 1].into());
    }
    let sealing = start.elapsed().as_nanos();
    let start = std::time::Instant::now();
    let mut passed = 0u32;
    for _ in 0..ROUNDS {
        let end = here.seal(here.theirs, &payload, &mut room);
        if let Some(count) = there.open(&mut room, end) {
            passed = passed.wrapping_add(room[count - 1].into()).wrapping_add(count as u32);
        }
    }
    let passing = start.elapsed().as_nanos();
    println!("seal_of_508_bytes {ROUNDS} {sealing} {sealed}");
    println!("seal_and_open_of_508_bytes {ROUNDS} {passing} {passed}");
}

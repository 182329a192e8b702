//! Packets of 448 data bytes read from datagrams and written to them, in plain Rust, written for speed: beside chaos_link's codec, as a
//! turn uses it. A packet is read into a place that is kept, and a datagram is written into a buffer that is lent.
//!
//! It has version 1 of the carriage alone, one packet a datagram.
use std::time::Instant;

const ROUNDS: u32 = 1_000_000;
const BYTES: usize = 448;
const PACKETS: usize = 16;
const MAX_DATA: usize = 488;
const MAX_DATAGRAM: usize = 508;
const HEADER_END: usize = 20;
const MARK: [u8; 4] = [0x43, 0x48, 0x01, 0x00];

/// Bytes in place, so many of which count.
struct Bytes<const N: usize> {
    len: usize,
    all: [u8; N],
}

impl<const N: usize> Bytes<N> {
    fn new() -> Self {
        Bytes { len: 0, all: [0; N] }
    }

    fn as_slice(&self) -> &[u8] {
        &self.all[..self.len]
    }
}

struct Packet {
    op: u8,
    fwd: u8,
    dst: u16,
    dst_index: u16,
    src: u16,
    src_index: u16,
    num: u16,
    ack: u16,
    body: Bytes<MAX_DATA>,
}

#[derive(Debug)]
enum Fault {
    Short,
    BadMark,
    BadVersion,
    ShortHeader,
    BadCount,
    Truncated,
    Trailing,
}

/// Copies pairs of bytes, each turned round: by whole words, which vectors turn at once.
fn swap_pairs(to: &mut [u8], from: &[u8]) {
    for (to, from) in to.chunks_exact_mut(2).zip(from.chunks_exact(2)) {
        to.copy_from_slice(&u16::from_be_bytes([from[0], from[1]]).to_le_bytes());
    }
}

/// The header of the one packet that a datagram carries, as words, and its bytes with those of its filling.
#[inline(always)]
fn opened(bytes: &[u8]) -> Result<(&[u8; 16], &[u8], usize), Fault> {
    if bytes.len() < MARK.len() {
        return Err(Fault::Short);
    }
    if bytes[..2] != MARK[..2] {
        return Err(Fault::BadMark);
    }
    if bytes[2..4] != MARK[2..] {
        return Err(Fault::BadVersion);
    }
    let Some(header) = bytes.get(4..).and_then(|rest| rest.first_chunk::<16>()) else {
        return Err(Fault::ShortHeader);
    };
    let count = usize::from(word(header, 1) % 4096);
    if count > MAX_DATA {
        return Err(Fault::BadCount);
    }
    let rest = &bytes[HEADER_END..];
    let even = count + count % 2;
    if rest.len() < even {
        return Err(Fault::Truncated);
    }
    if rest.len() > even {
        return Err(Fault::Trailing);
    }
    Ok((header, rest, count))
}

#[inline(always)]
fn word(header: &[u8; 16], i: usize) -> u16 {
    u16::from_be_bytes([header[2 * i], header[2 * i + 1]])
}

/// Reads the datagram's packet into a place that is kept.
#[inline(never)]
fn read_into(bytes: &[u8], packet: &mut Packet) -> Result<(), Fault> {
    let (header, rest, count) = opened(bytes)?;
    packet.op = header[0];
    packet.fwd = (word(header, 1) / 4096) as u8;
    packet.dst = word(header, 2);
    packet.dst_index = word(header, 3);
    packet.src = word(header, 4);
    packet.src_index = word(header, 5);
    packet.num = word(header, 6);
    packet.ack = word(header, 7);
    swap_pairs(&mut packet.body.all[..rest.len()], rest);
    packet.body.len = count;
    Ok(())
}

/// Writes the datagram to the front of the buffer, and says where it ends.
#[inline(never)]
fn write_datagram(packet: &Packet, buffer: &mut [u8; MAX_DATAGRAM]) -> usize {
    let data = packet.body.as_slice();
    let header = [
        u16::from(packet.op) << 8,
        u16::from(packet.fwd) << 12 | data.len() as u16,
        packet.dst,
        packet.dst_index,
        packet.src,
        packet.src_index,
        packet.num,
        packet.ack,
    ];
    let even = data.len() + data.len() % 2;
    let (front, rest) = buffer.split_at_mut(HEADER_END);
    front[..4].copy_from_slice(&MARK);
    for (to, word) in front[4..].chunks_exact_mut(2).zip(header) {
        to.copy_from_slice(&word.to_be_bytes());
    }
    swap_pairs(rest, data);
    if let [last] = data.chunks_exact(2).remainder() {
        rest[even - 2..even].copy_from_slice(&[0, *last]);
    }
    HEADER_END + even
}

fn numbered(num: u16) -> Packet {
    let mut body = Bytes::new();
    for (i, byte) in body.all[..BYTES].iter_mut().enumerate() {
        *byte = num as u8 ^ i as u8;
    }
    body.len = BYTES;
    Packet { op: 0o200, fwd: 0, dst: 0o401, dst_index: 1, src: 0o402, src_index: 2, num, ack: 0, body }
}

fn sum_of(packet: &Packet, place: usize) -> u32 {
    let byte = packet.body.as_slice().get(place % MAX_DATA).copied().unwrap_or(0);
    u32::from(packet.num) + u32::from(byte)
}

/// Reads the datagrams in turn into one packet, and says what the packets come to.
fn read_all(datagrams: &[Bytes<MAX_DATAGRAM>]) -> u32 {
    let mut sum = 0u32;
    let mut packet = numbered(0);
    for round in 0..ROUNDS as usize {
        if read_into(datagrams[round % PACKETS].as_slice(), &mut packet).is_ok() {
            sum = sum.wrapping_add(sum_of(&packet, round));
        }
    }
    sum
}

/// Writes the packets in turn into one buffer, and says what the datagrams come to.
fn write_all(packets: &[Packet]) -> u32 {
    let mut sum = 0u32;
    let mut buffer = [0; MAX_DATAGRAM];
    for round in 0..ROUNDS as usize {
        let end = write_datagram(&packets[round % PACKETS], &mut buffer);
        let byte = buffer[..end].get(round % MAX_DATAGRAM).copied().unwrap_or(0);
        sum = sum.wrapping_add(u32::from(byte));
    }
    sum
}

fn datagram_of(packet: &Packet) -> Bytes<MAX_DATAGRAM> {
    let mut datagram = Bytes::new();
    datagram.len = write_datagram(packet, &mut datagram.all);
    datagram
}

fn main() {
    let packets: Vec<Packet> = (0..PACKETS as u16).map(numbered).collect();
    let datagrams: Vec<_> = packets.iter().map(datagram_of).collect();
    let start = Instant::now();
    let read = read_all(&datagrams);
    let reading = start.elapsed().as_nanos();
    let start = Instant::now();
    let written = write_all(&packets);
    let writing = start.elapsed().as_nanos();
    println!("decode_of_448_bytes_in_place {ROUNDS} {reading} {read}");
    println!("encode_of_448_bytes_in_place {ROUNDS} {writing} {written}");
}

//! Round trips of 508-byte datagrams between two sockets of one process, in plain Rust: beside the links of chaos_link, and of chaos_chudp
//! over them. A round trip is four calls of the system, and its buffers are made once. In CHUDP each datagram is checked and framed before
//! it is sent, and checked and unframed in place when it came; the sum goes by four bytes at a time, which vectors add at once.
//!
//! It has no peers, of which one would have to be found by its address, can't poll, tells no loss from a failure, and counts none.
use std::net::{SocketAddr, UdpSocket};
use std::time::{Duration, Instant};

const ROUNDS: u32 = 10_000;
const ADDRESS: u16 = 1;
const ROOM: usize = 2048;
const HEAD: usize = 4;
const HEADER: usize = 16;
const TRAILER: usize = 6;
const MAX_DATA: usize = 488;
const MAX_CHUDP: usize = 514;
const MARK: [u8; HEAD] = [0x43, 0x48, 0x01, 0x00];
const CHUDP: [u8; HEAD] = [1, 1, 0, 0];

/// A socket, and where the other end is.
struct End {
    socket: UdpSocket,
    to: SocketAddr,
    framed: [u8; MAX_CHUDP],
}

/// The Internet checksum of an even number of bytes. The sum of words with their bytes turned is the sum with its bytes turned.
fn checksum(bytes: &[u8]) -> u16 {
    let fours = bytes.chunks_exact(4);
    let mut total: u64 = match *fours.remainder() {
        [high, low] => u16::from_ne_bytes([high, low]).into(),
        _ => 0,
    };
    for four in fours {
        total += u64::from(u32::from_ne_bytes([four[0], four[1], four[2], four[3]]));
    }
    while total >> 16 != 0 {
        total = (total & 0xFFFF) + (total >> 16);
    }
    !u16::from_be(total as u16)
}

/// Whether the words of a packet are as many bytes as its header counts, and no others.
fn is_packet(words: &[u8]) -> bool {
    if words.len() < HEADER {
        return false;
    }
    let count = usize::from(u16::from_be_bytes([words[2], words[3]]) & 0xFFF);
    count <= MAX_DATA && words.len() == HEADER + (count + 1) / 2 * 2
}

impl End {
    fn send(&self, datagram: &[u8]) -> std::io::Result<bool> {
        Ok(self.socket.send_to(datagram, self.to)? == datagram.len())
    }

    fn receive(&self, buffer: &mut [u8; ROOM]) -> std::io::Result<usize> {
        Ok(self.socket.recv_from(buffer)?.0)
    }

    fn send_in_chudp(&mut self, datagram: &[u8]) -> std::io::Result<bool> {
        if datagram.len() < HEAD || datagram[..HEAD] != MARK || !is_packet(&datagram[HEAD..]) {
            return Ok(false);
        }
        let (end, all) = (datagram.len(), datagram.len() + TRAILER);
        self.framed[..HEAD].copy_from_slice(&CHUDP);
        self.framed[HEAD..end].copy_from_slice(&datagram[HEAD..]);
        self.framed[end..end + 2].copy_from_slice(&ADDRESS.to_be_bytes());
        self.framed[end + 2..end + 4].copy_from_slice(&ADDRESS.to_be_bytes());
        let sum = checksum(&self.framed[HEAD..end + 4]);
        self.framed[end + 4..all].copy_from_slice(&sum.to_be_bytes());
        Ok(self.socket.send_to(&self.framed[..all], self.to)? == all)
    }

    /// The bytes of the datagram that came, or none where it has a fault.
    fn receive_in_chudp(&self, buffer: &mut [u8; ROOM]) -> std::io::Result<usize> {
        let count = self.socket.recv_from(buffer)?.0;
        let bytes = &buffer[..count];
        let is_whole = count >= HEAD + HEADER + TRAILER && count % 2 == 0;
        if !is_whole || bytes[..2] != CHUDP[..2] || checksum(&bytes[HEAD..]) != 0 || !is_packet(&bytes[HEAD..count - TRAILER]) {
            return Ok(0);
        }
        buffer[..HEAD].copy_from_slice(&MARK);
        Ok(count - TRAILER)
    }
}

fn pair() -> std::io::Result<[End; 2]> {
    let (near, far) = (UdpSocket::bind("127.0.0.1:0")?, UdpSocket::bind("127.0.0.1:0")?);
    let (near_at, far_at) = (near.local_addr()?, far.local_addr()?);
    for socket in [&near, &far] {
        socket.set_read_timeout(Some(Duration::from_millis(10)))?;
    }
    let framed = [0; MAX_CHUDP];
    Ok([End { socket: near, to: far_at, framed }, End { socket: far, to: near_at, framed }])
}

fn datagram() -> [u8; 508] {
    let mut bytes = [0x5A; 508];
    bytes[..HEAD].copy_from_slice(&MARK);
    bytes[HEAD..8].copy_from_slice(&[0x80, 0x00, 0x01, 0xE8]);
    bytes
}

fn plain() -> std::io::Result<()> {
    let ([near, far], datagram) = (pair()?, datagram());
    let (mut buffer, mut whole) = ([0; ROOM], 0);
    let start = Instant::now();
    for _ in 0..ROUNDS {
        let mut is_whole = near.send(&datagram)?;
        let count = far.receive(&mut buffer)?;
        is_whole &= far.send(&buffer[..count])?;
        whole += u32::from(is_whole && near.receive(&mut buffer)? == 508);
    }
    println!("round_trip_of_508_bytes {whole} {}", start.elapsed().as_nanos());
    Ok(())
}

fn in_chudp() -> std::io::Result<()> {
    let ([mut near, mut far], datagram) = (pair()?, datagram());
    let (mut buffer, mut whole) = ([0; ROOM], 0);
    let start = Instant::now();
    for _ in 0..ROUNDS {
        let mut is_whole = near.send_in_chudp(&datagram)?;
        let count = far.receive_in_chudp(&mut buffer)?;
        is_whole &= far.send_in_chudp(&buffer[..count])?;
        whole += u32::from(is_whole && near.receive_in_chudp(&mut buffer)? == 508);
    }
    println!("round_trip_of_508_bytes_in_CHUDP {whole} {}", start.elapsed().as_nanos());
    Ok(())
}

fn main() -> std::io::Result<()> {
    plain()?;
    in_chudp()
}

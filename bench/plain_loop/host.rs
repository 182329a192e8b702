//! Packets, connections and a host: the protocol without a socket. After a host is made no packet takes memory: both windows are
//! rings whose places are kept, data are lent where they lie, and what goes out is written as its datagram at once.
const RETRANSMIT: u64 = 500;
const PROBE: u64 = 10_000;
const DOWN: u64 = 90_000;
const WINDOW: u16 = 13;
const PLACES: usize = WINDOW as usize;
const MARK: [u8; 4] = [0x43, 0x48, 1, 0];
pub const MOST_DATA: usize = 488;
pub const MOST_DATAGRAM: usize = 508;
/// The bytes of a datagram of version 2, and how many packets one has at most.
const MOST_BUNDLE: usize = 2020;
const MOST_PACKETS: u8 = 8;
const PACKET_HEADER: usize = 16;

const RFC: u8 = 0o1;
const OPN: u8 = 0o2;
const CLS: u8 = 0o3;
const FWD: u8 = 0o4;
const ANS: u8 = 0o5;
const SNS: u8 = 0o6;
const STS: u8 = 0o7;
const LOS: u8 = 0o11;
pub const EOF: u8 = 0o14;
const UNC: u8 = 0o15;
pub const DATA: u8 = 0o200;

/// Bytes in a place that is kept, so many of which count.
pub struct Body {
    len: usize,
    all: [u8; MOST_DATA],
}

impl Body {
    pub fn new() -> Self {
        Body { len: 0, all: [0; MOST_DATA] }
    }

    pub fn bytes(&self) -> &[u8] {
        &self.all[..self.len]
    }

    pub fn clear(&mut self) {
        self.len = 0;
    }

    /// Puts bytes behind those that are there; they have to fit.
    pub fn put(&mut self, bytes: &[u8]) {
        self.all[self.len..self.len + bytes.len()].copy_from_slice(bytes);
        self.len += bytes.len();
    }

    pub fn put_number(&mut self, number: usize) {
        let mut digits = [0; 20];
        let (mut place, mut left) = (digits.len(), number);
        loop {
            place -= 1;
            digits[place] = b'0' + (left % 10) as u8;
            left /= 10;
            if left == 0 {
                break;
            }
        }
        self.put(&digits[place..]);
    }

    fn fill(&mut self, bytes: &[u8]) {
        self.clear();
        self.put(bytes);
    }
}

/// A packet whose data lie elsewhere: in the buffer of its datagram, or with the item that is sent.
pub struct Packet<'a> {
    pub op: u8,
    pub dst: u16,
    pub dst_index: u16,
    pub src: u16,
    pub src_index: u16,
    pub num: u16,
    pub ack: u16,
    pub body: &'a [u8],
}

/// Turns each pair of bytes round: by whole words, which vectors turn at once.
fn swap_pairs(bytes: &mut [u8]) {
    for pair in bytes.chunks_exact_mut(2) {
        pair.copy_from_slice(&u16::from_be_bytes([pair[0], pair[1]]).to_le_bytes());
    }
}

/// Copies pairs of bytes, each turned round.
fn copy_swapped(to: &mut [u8], from: &[u8]) {
    for (to, from) in to.chunks_exact_mut(2).zip(from.chunks_exact(2)) {
        to.copy_from_slice(&u16::from_be_bytes([from[0], from[1]]).to_le_bytes());
    }
}

impl<'a> Packet<'a> {
    /// The packet of a datagram, whose data are turned round where they lie.
    pub fn read(bytes: &'a mut [u8]) -> Option<Packet<'a>> {
        if !bytes.starts_with(&MARK) {
            return None;
        }
        let (header, words) = bytes[MARK.len()..].split_first_chunk_mut::<16>()?;
        let word = |n: usize| u16::from_be_bytes([header[2 * n], header[2 * n + 1]]);
        let count = usize::from(word(1) & 0xFFF);
        if count > MOST_DATA || words.len() != count.next_multiple_of(2) {
            return None;
        }
        swap_pairs(words);
        let [dst, dst_index, src, src_index, num, ack] = [2, 3, 4, 5, 6, 7].map(word);
        Some(Packet { op: header[0], dst, dst_index, src, src_index, num, ack, body: &words[..count] })
    }

    /// Hands on each packet of a datagram of either version.
    #[inline]
    pub fn each(bytes: &mut [u8], mut take: impl FnMut(&Packet)) {
        if bytes.starts_with(&MARK) {
            if let Some(packet) = Packet::read(bytes) {
                take(&packet);
            }
        } else if Packet::is_bundle(bytes) {
            Packet::each_of_bundle(&mut bytes[MARK.len()..], take);
        }
    }

    /// Whether it is a datagram of version 2: one with a fault carries none, so all are looked through first.
    fn is_bundle(bytes: &[u8]) -> bool {
        let [0x43, 0x48, 2, count @ 1..=MOST_PACKETS, words @ ..] = bytes else { return false };
        let mut rest = words;
        for _ in 0..*count {
            let Some([_, _, high, low, ..]) = rest.first_chunk::<PACKET_HEADER>() else { return false };
            let count = usize::from(u16::from_be_bytes([*high, *low]) & 0xFFF);
            let end = PACKET_HEADER + count.next_multiple_of(2);
            if count > MOST_DATA || rest.len() < end {
                return false;
            }
            rest = &rest[end..];
        }
        rest.is_empty()
    }

    fn each_of_bundle(mut rest: &mut [u8], mut take: impl FnMut(&Packet)) {
        while let Some((header, words)) = rest.split_first_chunk_mut::<PACKET_HEADER>() {
            let word = |n: usize| u16::from_be_bytes([header[2 * n], header[2 * n + 1]]);
            let count = usize::from(word(1) & 0xFFF);
            let [dst, dst_index, src, src_index, num, ack] = [2, 3, 4, 5, 6, 7].map(word);
            let (words, others) = words.split_at_mut(count.next_multiple_of(2));
            swap_pairs(words);
            take(&Packet { op: header[0], dst, dst_index, src, src_index, num, ack, body: &words[..count] });
            rest = others;
        }
    }

    /// The bytes that the packet takes in a datagram.
    fn room(&self) -> usize {
        PACKET_HEADER + self.body.len().next_multiple_of(2)
    }

    /// Writes the packet's datagram of version 1 to the front of the place, and says where it ends.
    pub fn write(&self, place: &mut [u8; MOST_DATAGRAM]) -> usize {
        place[..MARK.len()].copy_from_slice(&MARK);
        self.write_words(&mut place[MARK.len()..]);
        MARK.len() + self.room()
    }

    /// Writes the packet's words to the front of the place.
    #[inline]
    fn write_words(&self, place: &mut [u8]) {
        let count = self.body.len();
        let words =
            [u16::from(self.op) << 8, count as u16, self.dst, self.dst_index, self.src, self.src_index, self.num, self.ack];
        let (header, rest) = place.split_at_mut(PACKET_HEADER);
        for (to, word) in header.chunks_exact_mut(2).zip(words) {
            to.copy_from_slice(&word.to_be_bytes());
        }
        copy_swapped(rest, self.body);
        let even = count.next_multiple_of(2);
        if let [last] = self.body.chunks_exact(2).remainder() {
            rest[even - 2..even].copy_from_slice(&[0, *last]);
        }
    }

    /// The receipt and the window that an OPN or STS tells.
    pub fn status(&self) -> Option<(u16, u16)> {
        let word = |n: usize| u16::from_le_bytes([self.body[n], self.body[n + 1]]);
        (self.body.len() >= 4).then(|| (word(0), word(2)))
    }

    fn contact(&self) -> &[u8] {
        self.body.split(|&b| b == b' ').next().unwrap_or(&[])
    }
}

/// A datagram that waits to be sent.
pub struct Datagram {
    pub to: u16,
    len: usize,
    all: [u8; MOST_BUNDLE],
}

impl Datagram {
    pub fn bytes(&self) -> &[u8] {
        &self.all[..self.len]
    }
}

/// The versions of the carriage: one packet a datagram, or as many as fit of those that go to one host at once.
#[derive(Clone, Copy, PartialEq)]
pub enum Carriage {
    One,
    Two,
}

/// What waits to be sent, in places that are kept: a packet is written as its datagram as soon as it goes out.
pub struct Out {
    pub carriage: Carriage,
    places: Vec<Datagram>,
    count: usize,
}

impl Out {
    pub fn new(carriage: Carriage) -> Self {
        Out { carriage, places: Vec::new(), count: 0 }
    }

    pub fn is_empty(&self) -> bool {
        self.count == 0
    }

    pub fn datagrams(&self) -> &[Datagram] {
        &self.places[..self.count]
    }

    pub fn clear(&mut self) {
        self.count = 0;
    }

    fn put(&mut self, packet: &Packet) {
        if self.carriage == Carriage::Two && self.bundle(packet) {
            return;
        }
        if self.count == self.places.len() {
            self.places.push(Datagram { to: 0, len: 0, all: [0; MOST_BUNDLE] });
        }
        let place = &mut self.places[self.count];
        place.to = packet.dst;
        place.len = packet.write(place.all.first_chunk_mut().unwrap());
        self.count += 1;
    }

    /// Puts the packet behind those of the last datagram, where it goes to the same host and fits.
    fn bundle(&mut self, packet: &Packet) -> bool {
        let Some(last) = self.places[..self.count].last_mut() else { return false };
        let packets = if last.all[2] == 2 { last.all[3] } else { 1 };
        if last.to != packet.dst || packets == MOST_PACKETS || last.len + packet.room() > MOST_BUNDLE {
            return false;
        }
        packet.write_words(&mut last.all[last.len..]);
        last.all[2..4].copy_from_slice(&[2, packets + 1]);
        last.len += packet.room();
        true
    }
}

#[derive(Clone, Copy, PartialEq)]
pub enum State {
    Inactive,
    RfcSent,
    RfcReceived,
    Open,
    Ended,
}

pub struct Item {
    pub op: u8,
    pub body: Body,
}

fn items() -> Box<[Item]> {
    (0..WINDOW).map(|_| Item { op: 0, body: Body::new() }).collect()
}

/// The place that is so far behind the first.
fn place_of(first: usize, behind: usize) -> usize {
    let place = first + behind;
    if place < PLACES {
        place
    } else {
        place - PLACES
    }
}

/// Items that were sent and not yet receipted.
struct Kept {
    first: usize,
    count: usize,
    items: Box<[Item]>,
}

impl Kept {
    /// The place behind the last item.
    fn next(&mut self) -> &mut Item {
        &mut self.items[place_of(self.first, self.count)]
    }
}

/// Items that came and were not yet read.
struct Held {
    first: usize,
    /// Which of those behind the first are there, the first in the lowest bit.
    bits: u16,
    items: Box<[Item]>,
}

pub struct Conn {
    pub state: State,
    asked: bool,
    request: u16,
    address: u16,
    index: u16,
    peer: u16,
    peer_index: Option<u16>,
    last: u64,
    heard: u64,
    resent: u64,
    probed: u64,
    untold: u16,
    sent: u16,
    receipted: u16,
    acknowledged: u16,
    window: u16,
    kept: Kept,
    read: u16,
    held: Held,
}

impl Conn {
    fn new(address: u16) -> Self {
        Conn {
            state: State::Inactive,
            asked: false,
            request: 0,
            address,
            index: 0,
            peer: 0,
            peer_index: None,
            last: 0,
            heard: 0,
            resent: 0,
            probed: 0,
            untold: 0,
            sent: 0,
            receipted: 0,
            acknowledged: 0,
            window: WINDOW,
            kept: Kept { first: 0, count: 0, items: items() },
            read: 0,
            held: Held { first: 0, bits: 0, items: items() },
        }
    }

    /// Makes it as new, but for its moments.
    fn clear(&mut self) {
        (self.state, self.asked, self.request, self.index) = (State::Inactive, false, 0, 0);
        (self.peer, self.peer_index, self.untold) = (0, None, 0);
        (self.sent, self.receipted, self.acknowledged, self.window) = (0, 0, 0, WINDOW);
        (self.kept.count, self.read, self.held.bits) = (0, 0, 0);
    }

    pub fn outstanding(&self) -> u16 {
        self.sent.wrapping_sub(self.acknowledged)
    }

    pub fn can_write(&self) -> bool {
        self.state == State::Open && self.outstanding() < self.window
    }

    /// Whether there is something to serve, and room for its reply.
    pub fn can_be_served(&self) -> bool {
        self.state == State::Open && self.front().is_some_and(|item| item.op == EOF || self.can_write())
    }

    /// The first moment at which a tick sends something or ends the connection, unless something happens before. plain_turn_2 asks this.
    #[allow(dead_code)]
    pub fn due(&self) -> u64 {
        if !matches!(self.state, State::RfcSent | State::Open) {
            return u64::MAX;
        }
        let again = if self.kept.count > 0 { self.resent + RETRANSMIT } else { u64::MAX };
        let probe = if self.state == State::Open { self.heard.max(self.probed) + PROBE } else { u64::MAX };
        again.min(probe).min(self.heard + DOWN)
    }

    fn hear(&mut self, now: u64) {
        self.last = self.last.max(now);
        self.heard = self.last;
    }

    fn packet<'a>(&self, op: u8, num: u16, ack: u16, body: &'a [u8]) -> Packet<'a> {
        let dst_index = if op == RFC { 0 } else { self.peer_index.unwrap_or(0) };
        Packet { op, dst: self.peer, dst_index, src: self.address, src_index: self.index, num, ack, body }
    }

    fn status(&self) -> [u8; 4] {
        let run = self.held.bits.trailing_ones() as u16;
        let ([r0, r1], [w0, w1]) = (self.read.wrapping_add(run).to_le_bytes(), WINDOW.to_le_bytes());
        [r0, r1, w0, w1]
    }

    fn put_sts(&mut self, out: &mut Out) {
        self.untold = 0;
        out.put(&self.packet(STS, 0, self.read, &self.status()));
    }

    fn put_again(&mut self, num: u16, behind: usize, out: &mut Out) {
        let item = &self.kept.items[place_of(self.kept.first, behind)];
        let ack = if item.op == RFC { 0 } else { self.read };
        out.put(&self.packet(item.op, num, ack, item.body.bytes()));
        if item.op != RFC {
            self.untold = 0;
        }
    }

    /// Sends the item whose data lie behind the last.
    fn put_next(&mut self, op: u8, out: &mut Out) {
        if self.kept.count == 0 {
            self.resent = self.last;
        }
        self.sent = self.sent.wrapping_add(1);
        self.kept.next().op = op;
        self.kept.count += 1;
        self.put_again(self.sent, self.kept.count - 1, out);
    }

    fn put_item(&mut self, op: u8, bytes: &[u8], out: &mut Out) {
        self.kept.next().body.fill(bytes);
        self.put_next(op, out);
    }

    fn begin(&mut self, start: u16) {
        self.sent = start.wrapping_sub(1);
        self.receipted = self.sent;
        self.acknowledged = self.sent;
    }

    pub fn request(&mut self, index: u16, peer: u16, contact: &[u8], start: u16, now: u64, out: &mut Out) {
        (self.state, self.asked, self.index, self.peer) = (State::RfcSent, true, index, peer);
        self.hear(now);
        self.begin(start);
        self.put_item(RFC, contact, out);
    }

    fn take_request(&mut self, index: u16, rfc: &Packet, now: u64) {
        (self.state, self.index, self.peer, self.peer_index) = (State::RfcReceived, index, rfc.src, Some(rfc.src_index));
        self.hear(now);
        self.request = rfc.num;
        self.read = rfc.num.wrapping_sub(1);
        self.hold(0, RFC, rfc.body);
    }

    pub fn accept(&mut self, start: u16, now: u64, out: &mut Out) {
        self.hear(now);
        (self.state, self.probed) = (State::Open, self.last);
        self.take_front();
        self.begin(start);
        self.put_item(OPN, &self.status(), out);
    }

    pub fn write(&mut self, op: u8, bytes: &[u8], now: u64, out: &mut Out) -> bool {
        if !self.can_write() {
            return false;
        }
        self.last = self.last.max(now);
        self.put_item(op, bytes, out);
        true
    }

    /// Reads the item in front, and writes what is made of its data, where that is kept to be sent again. There has to be an item, and
    /// room to write.
    pub fn reply(&mut self, now: u64, out: &mut Out, make: impl FnOnce(&[u8], &mut Body)) {
        let reply = &mut self.kept.next().body;
        reply.clear();
        make(self.held.items[self.held.first].body.bytes(), reply);
        self.read_done(out);
        self.last = self.last.max(now);
        self.put_next(DATA, out);
    }

    pub fn front(&self) -> Option<&Item> {
        let is_read = matches!(self.state, State::Open | State::Ended);
        (is_read && self.held.bits & 1 != 0).then(|| &self.held.items[self.held.first])
    }

    /// Holds an item so far behind the first.
    fn hold(&mut self, behind: usize, op: u8, bytes: &[u8]) {
        let item = &mut self.held.items[place_of(self.held.first, behind)];
        item.op = op;
        item.body.fill(bytes);
        self.held.bits |= 1 << behind;
    }

    fn take_front(&mut self) {
        self.held.bits >>= 1;
        self.held.first = place_of(self.held.first, 1);
        self.read = self.read.wrapping_add(1);
    }

    /// Lets the item in front go, which is there.
    pub fn read_done(&mut self, out: &mut Out) {
        self.take_front();
        if self.state == State::Open {
            self.untold += 1;
            if 3 * self.untold >= WINDOW {
                self.put_sts(out);
            }
        }
    }

    pub fn close(&mut self, text: &[u8], out: &mut Out) {
        if matches!(self.state, State::Open | State::RfcReceived) {
            out.put(&self.packet(CLS, 0, 0, text));
        }
        self.clear();
    }

    #[inline]
    pub fn tick(&mut self, now: u64, out: &mut Out) {
        if self.state == State::Inactive {
            return;
        }
        self.last = self.last.max(now);
        if matches!(self.state, State::RfcSent | State::Open) {
            self.wait(out);
        }
    }

    #[inline]
    fn wait(&mut self, out: &mut Out) {
        if self.last - self.heard >= DOWN {
            self.state = State::Ended;
        } else if self.kept.count > 0 && self.last - self.resent >= RETRANSMIT {
            self.resent = self.last;
            for behind in 0..self.kept.count {
                self.put_again(self.receipted.wrapping_add(behind as u16 + 1), behind, out);
            }
        } else if self.state == State::Open && self.last - self.heard.max(self.probed) >= PROBE {
            (self.probed, self.untold) = (self.last, 0);
            out.put(&self.packet(SNS, 0, self.read, &[]));
        }
    }

    fn receipt(&mut self, num: u16) {
        let count = num.wrapping_sub(self.receipted);
        if count <= self.sent.wrapping_sub(self.receipted) {
            self.kept.first = place_of(self.kept.first, usize::from(count));
            self.kept.count -= usize::from(count);
            self.receipted = num;
        }
    }

    fn acknowledge(&mut self, num: u16) {
        if num.wrapping_sub(self.acknowledged) <= self.outstanding() {
            self.receipt(num);
            self.acknowledged = num;
        }
    }

    fn hear_status(&mut self, ack: u16, (receipt, window): (u16, u16)) {
        self.acknowledge(ack);
        self.receipt(receipt);
        self.window = window.min(WINDOW);
    }

    fn arrive(&mut self, packet: &Packet, out: &mut Out) {
        self.acknowledge(packet.ack);
        let offset = packet.num.wrapping_sub(self.read);
        if (1..=WINDOW).contains(&offset) && self.held.bits & 1 << (offset - 1) == 0 {
            let bytes = if packet.op == EOF { &[] } else { packet.body };
            self.hold(usize::from(offset) - 1, packet.op, bytes);
        } else {
            self.put_sts(out);
        }
    }

    fn deliver_rfc(&mut self, packet: &Packet, now: u64, out: &mut Out) {
        if !self.asked && self.peer_index == Some(packet.src_index) && packet.num == self.request {
            self.hear(now);
            if self.state == State::Open {
                self.put_sts(out);
            }
        }
    }

    fn deliver(&mut self, packet: &Packet, now: u64, out: &mut Out) {
        if !matches!(self.state, State::RfcSent | State::RfcReceived | State::Open) {
            return;
        }
        if packet.dst != self.address || packet.src != self.peer {
            return;
        }
        if packet.op == RFC {
            return self.deliver_rfc(packet, now, out);
        }
        if packet.dst_index != self.index || self.peer_index.is_some_and(|index| index != packet.src_index) {
            return;
        }
        let is_heard = match (self.state, packet.op) {
            (_, CLS | LOS) | (State::RfcSent, ANS | FWD) | (State::Open, SNS | UNC | EOF | DATA..) => true,
            (State::RfcSent, OPN) | (State::Open, OPN | STS) => packet.status().is_some(),
            _ => false,
        };
        if !is_heard {
            return;
        }
        self.hear(now);
        match packet.op {
            OPN if self.state == State::RfcSent => {
                (self.state, self.probed) = (State::Open, self.last);
                (self.peer_index, self.read) = (Some(packet.src_index), packet.num);
                self.hear_status(packet.ack, packet.status().unwrap_or_default());
                self.put_sts(out);
            }
            OPN => {
                self.hear_status(packet.ack, packet.status().unwrap_or_default());
                self.put_sts(out);
            }
            STS => self.hear_status(packet.ack, packet.status().unwrap_or_default()),
            SNS => {
                self.acknowledge(packet.ack);
                self.put_sts(out);
            }
            EOF | DATA.. => self.arrive(packet, out),
            UNC => {}
            _ => {
                if self.state == State::RfcReceived {
                    self.held.bits &= !1;
                }
                self.state = State::Ended;
            }
        }
    }
}

/// A connection's place, and how often it was freed.
pub struct Slot {
    pub generation: u8,
    pub conn: Conn,
}

impl Slot {
    pub fn close(&mut self, out: &mut Out) {
        self.conn.close(b"", out);
        self.generation = self.generation.wrapping_add(1);
    }
}

pub struct Host {
    address: u16,
    listens: bool,
    pub slots: Vec<Slot>,
}

impl Host {
    pub fn new(address: u16, conns: usize, listens: bool) -> Self {
        Host { address, listens, slots: (0..conns).map(|_| Slot { generation: 0, conn: Conn::new(address) }).collect() }
    }

    pub fn index(&self, slot: usize) -> u16 {
        u16::from_be_bytes([self.slots[slot].generation, slot as u8 + 1])
    }

    fn free_slot(&self) -> Option<usize> {
        self.slots.iter().position(|slot| slot.conn.state == State::Inactive)
    }

    fn reply(&self, packet: &Packet, op: u8, src_index: u16, text: &[u8], out: &mut Out) {
        let (dst, dst_index) = (packet.src, packet.src_index);
        out.put(&Packet { op, dst, dst_index, src: self.address, src_index, num: 0, ack: 0, body: text });
    }

    /// Delivers a packet, and answers the slot that took a new request.
    pub fn deliver(&mut self, packet: &Packet, now: u64, out: &mut Out) -> Option<usize> {
        if packet.dst != self.address || packet.src == 0 {
            return None;
        }
        let is_from = |conn: &Conn| conn.peer == packet.src && conn.peer_index == Some(packet.src_index);
        if packet.op == RFC {
            let is_known = |conn: &Conn| conn.state != State::Inactive && !conn.asked && is_from(conn);
            if let Some(slot) = self.slots.iter_mut().find(|slot| is_known(&slot.conn)) {
                slot.conn.deliver(packet, now, out);
            } else if !self.listens || packet.contact() != b"FILE" {
                self.reply(packet, CLS, 0, b"No server for this contact name.", out);
            } else if let Some(slot) = self.free_slot() {
                let index = self.index(slot);
                self.slots[slot].conn.take_request(index, packet, now);
                return Some(slot);
            } else {
                self.reply(packet, CLS, 0, b"Connection table full.", out);
            }
            return None;
        }
        let slot = usize::from(packet.dst_index & 0xFF).wrapping_sub(1);
        if slot < self.slots.len() && self.index(slot) == packet.dst_index {
            let conn = &mut self.slots[slot].conn;
            let is_peer = conn.peer == packet.src && (conn.peer_index.is_none() || is_from(conn));
            if conn.state != State::Inactive && is_peer {
                conn.deliver(packet, now, out);
                return None;
            }
        }
        if matches!(packet.op, OPN | SNS | STS | EOF | DATA..) {
            self.reply(packet, LOS, packet.dst_index, b"No such connection.", out);
        }
        None
    }
}

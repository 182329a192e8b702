//! The network: UDP sockets, and datagrams that are lost, late, repeated, damaged or refused.
//!
//! A datagram flies towards a port. Only when it arrives is it decided who has that port, since a server may end and begin again meanwhile.
//! The net has no clock: each call that has a moment first lets arrive what has arrived by then.

use crate::chance::{Chance, FaultKind, Faults};
use crate::errno::*;
use crate::repeats::Repeats;
use std::cmp::Ordering;
use std::collections::{BinaryHeap, VecDeque};

/// A machine of the world; 0 is the server's.
pub type Host = usize;
/// An IPv4 address and a UDP port.
pub type Address = (u32, u16);
/// A socket of the net. A number isn't given twice.
pub type SocketId = usize;

/// The most bytes that a datagram over IPv4 can have.
const MOST_BYTES: usize = 65_507;
/// The bytes of the headers of IP and UDP, which a line with a rate also carries.
const HEADERS: usize = 28;
/// The room that Linux gives a socket for what it hasn't received yet (net.core.rmem_default).
const ROOM: usize = 212_992;
/// The ports that Linux gives to sockets that ask for any (net.ipv4.ip_local_port_range).
const FREE_PORTS: (u16, u16) = (32_768, 60_999);
/// One report of a closed port in so many is lost, also in a network without faults: Linux sends only so many in a second.
const REPORTS_LOST: u64 = 4;
const MILLISECOND: u64 = 1_000_000;
const SECOND: u64 = 1_000 * MILLISECOND;

/// The IPv4 address of a host: 10.0.0.1 is the server's.
pub const fn ip(host: Host) -> u32 {
    0x0a00_0001 + host as u32
}

/// The host that has this IPv4 address.
pub fn host_of(ip_address: u32) -> Host {
    ip_address.wrapping_sub(ip(0)) as Host
}

/// How long a datagram takes where nothing goes wrong: a number of nanoseconds from `least` up to and without `most`.
#[derive(Clone, Copy, Debug)]
pub struct Pace {
    pub least: u64,
    pub most: u64,
}

/// How fast each way between two hosts carries datagrams, one after another, and how many wait at most for their turn. One that finds the
/// queue full is lost.
#[derive(Clone, Copy, PartialEq, Eq, Debug)]
pub struct Line {
    pub bytes_a_second: u64,
    pub queue: usize,
}

impl Line {
    /// The nanoseconds that a packet of data takes.
    pub fn packet_time(self) -> u64 {
        536 * SECOND / self.bytes_a_second
    }
}

/// A way between two hosts, with a rate.
struct Way {
    from: Host,
    to: Host,
    /// When each datagram that waits for its turn has gone.
    gone: VecDeque<u64>,
}

/// A datagram that a socket received.
#[derive(Clone, PartialEq, Eq, Debug)]
pub struct Datagram {
    pub from: Address,
    pub bytes: Vec<u8>,
}

/// A datagram that was sent, for a picture: its bytes as they were sent, the moments of its arrivals, and the worst that happened to it.
#[derive(Clone, PartialEq, Eq, Debug)]
pub struct Sent {
    pub at: u64,
    pub from: Address,
    pub to: Address,
    pub bytes: Vec<u8>,
    pub arrivals: Vec<u64>,
    pub fate: Option<FaultKind>,
}

/// A datagram in flight.
struct Flight {
    at: u64,
    /// How many flights began before this one, so that no two are equal.
    order: u64,
    sender: SocketId,
    datagram: Datagram,
    /// How long the report takes that the port is closed; the report is lost where there is none.
    report: Option<u64>,
}

impl Ord for Flight {
    /// The flight that arrives first is the greatest, as a heap has its greatest on top.
    fn cmp(&self, other: &Self) -> Ordering {
        (other.at, other.order).cmp(&(self.at, self.order))
    }
}

impl PartialOrd for Flight {
    fn partial_cmp(&self, other: &Self) -> Option<Ordering> {
        Some(self.cmp(other))
    }
}

impl PartialEq for Flight {
    fn eq(&self, other: &Self) -> bool {
        self.order == other.order
    }
}

impl Eq for Flight {}

/// A port that a socket has, or that datagrams fly to.
struct Port {
    host: Host,
    number: u16,
    socket: Option<SocketId>,
    flights: BinaryHeap<Flight>,
}

struct Socket {
    host: Host,
    /// 0 where it receives at each address of its host.
    ip: u32,
    /// 0 where it isn't bound.
    port: u16,
    /// The place of its port, where it is bound.
    place: usize,
    peer: Option<Address>,
    is_open: bool,
    /// What arrived, each with its moment.
    queue: VecDeque<(u64, Datagram)>,
    /// The room that the queue takes.
    taken: usize,
    /// When it hears that the port of its peer is closed.
    refused: Option<u64>,
}

/// From this host nothing reaches that host up to this moment.
struct Wall {
    from: Host,
    to: Host,
    until: u64,
}

/// What goes wrong with a datagram. Each kind has its chance at each datagram, so leaving one fault out doesn't shift the others.
struct Luck {
    fails: Option<Chance>,
    wall: Option<Chance>,
    loss: Option<Chance>,
    cut: Option<Chance>,
    flip: Option<Chance>,
    delay: Option<Chance>,
    repeat: Option<Chance>,
}

impl Luck {
    fn of(now: u64, faults: &mut Faults) -> Self {
        Luck {
            fails: faults.happens(FaultKind::SendFails, now),
            wall: faults.happens(FaultKind::Partition, now),
            loss: faults.happens(FaultKind::Loss, now),
            cut: faults.happens(FaultKind::Cut, now),
            flip: faults.happens(FaultKind::Flip, now),
            delay: faults.happens(FaultKind::Delay, now),
            repeat: faults.happens(FaultKind::Repeat, now),
        }
    }

    /// The worst of what goes wrong with a datagram that arrives.
    fn fate(&self) -> Option<FaultKind> {
        let kinds = [
            (&self.cut, FaultKind::Cut),
            (&self.flip, FaultKind::Flip),
            (&self.delay, FaultKind::Delay),
            (&self.repeat, FaultKind::Repeat),
        ];
        kinds.iter().find(|(chance, _)| chance.is_some()).map(|(_, kind)| *kind)
    }

    /// The bytes as they arrive.
    fn damage(&mut self, bytes: &[u8]) -> Vec<u8> {
        let mut bytes = bytes.to_vec();
        if bytes.is_empty() {
            return bytes;
        }
        if let Some(chance) = &mut self.flip {
            for _ in 0..=chance.below(3) {
                let bit = chance.below(8 * bytes.len() as u64) as usize;
                bytes[bit / 8] ^= 1 << (bit % 8);
            }
        }
        if let Some(chance) = &mut self.cut {
            bytes.truncate(chance.below(bytes.len() as u64) as usize);
        }
        bytes
    }
}

/// The network of all hosts.
pub struct Net {
    pace: Pace,
    /// No rate bounds the ways where there is none.
    line: Option<Line>,
    ways: Vec<Way>,
    /// How many datagrams found their queue full.
    pub overflown: u64,
    /// What was sent more than once, where that is counted.
    pub repeats: Option<Repeats>,
    sockets: Vec<Socket>,
    ports: Vec<Port>,
    /// How many of the ports have no socket.
    closed: usize,
    walls: Vec<Wall>,
    /// How many flights began.
    begun: u64,
    /// How many free ports were given.
    given: u64,
    /// Whether `trace` keeps what is sent.
    pub traced: bool,
    pub trace: Vec<Sent>,
}

impl Net {
    pub fn new(pace: Pace, line: Option<Line>) -> Self {
        let (ways, sockets, ports, walls, trace) = (Vec::new(), Vec::new(), Vec::new(), Vec::new(), Vec::new());
        let (overflown, repeats, closed, begun, given) = (0, None, 0, 0, 0);
        Net { pace, line, ways, overflown, repeats, sockets, ports, closed, walls, begun, given, traced: false, trace }
    }

    /// A new socket of a host.
    pub fn open(&mut self, host: Host) -> SocketId {
        let (ip, port, place, peer, is_open, queue, taken, refused) = (0, 0, 0, None, true, VecDeque::new(), 0, None);
        self.sockets.push(Socket { host, ip, port, place, peer, is_open, queue, taken, refused });
        self.sockets.len() - 1
    }

    /// Binds a socket. Port 0 asks for a free port; IP address 0 stands for each address of the host.
    pub fn bind(&mut self, socket: SocketId, at: Address) -> Result<(), Errno> {
        let end = self.sockets.get(socket).filter(|end| end.is_open).ok_or(EBADF)?;
        let host = end.host;
        if end.port != 0 {
            return Err(EINVAL);
        }
        if at.0 != 0 && at.0 != ip(host) {
            return Err(EADDRNOTAVAIL);
        }
        let number = if at.1 == 0 { self.free_port(host) } else { at.1 };
        let place = self.place(host, number);
        if self.ports[place].socket.is_some() {
            return Err(EADDRINUSE);
        }
        self.ports[place].socket = Some(socket);
        self.closed -= 1;
        let end = &mut self.sockets[socket];
        (end.ip, end.port, end.place) = (at.0, number, place);
        Ok(())
    }

    /// Where a socket is bound; port 0 where it isn't.
    pub fn address(&self, socket: SocketId) -> Address {
        (self.sockets[socket].ip, self.sockets[socket].port)
    }

    /// Binds a socket that isn't bound yet to a free port. From now on it receives only what comes from that address, and hears that the
    /// port is closed.
    pub fn connect(&mut self, socket: SocketId, to: Address) {
        self.bind_anywhere(socket);
        let end = &mut self.sockets[socket];
        end.ip = ip(end.host);
        end.peer = Some(to);
        end.refused = None;
    }

    /// Closes a socket. What it hasn't received is gone, and its port is free.
    pub fn close(&mut self, socket: SocketId) {
        let Some(end) = self.sockets.get_mut(socket).filter(|end| end.is_open) else { return };
        end.is_open = false;
        end.queue = VecDeque::new();
        if std::mem::take(&mut end.port) == 0 {
            return;
        }
        let place = end.place;
        self.ports[place].socket = None;
        self.closed += 1;
        self.drop_idle(place);
    }

    /// Sends a datagram, to the socket's peer where no address is given.
    pub fn send(&mut self, socket: SocketId, to: Option<Address>, bytes: &[u8], now: u64, faults: &mut Faults) -> Result<usize, Errno> {
        let end = self.sockets.get(socket).filter(|end| end.is_open).ok_or(EBADF)?;
        let to = to.or(end.peer).ok_or(EDESTADDRREQ)?;
        if to.1 == 0 {
            return Err(EINVAL);
        }
        if bytes.len() > MOST_BYTES {
            return Err(EMSGSIZE);
        }
        self.bind_anywhere(socket);
        self.settle(now);
        self.take_refusal(socket, now)?;
        let from = (ip(self.sockets[socket].host), self.sockets[socket].port);
        let mut luck = Luck::of(now, faults);
        if let Some(chance) = &mut luck.fails {
            self.note(now, (from, to), bytes, &[], Some(FaultKind::SendFails));
            return Err(*chance.pick(&[ENOBUFS, EPERM, EMSGSIZE, ENETUNREACH, EHOSTUNREACH, EAGAIN, EIO]));
        }
        self.raise_wall((host_of(from.0), host_of(to.0)), now, &mut luck, faults.until);
        if self.is_walled(host_of(from.0), host_of(to.0), now) {
            self.note(now, (from, to), bytes, &[], Some(FaultKind::Partition));
        } else if luck.loss.is_some() {
            self.note(now, (from, to), bytes, &[], Some(FaultKind::Loss));
        } else if let Some(wait) = self.queue_up((host_of(from.0), host_of(to.0)), bytes.len(), now) {
            self.launch(socket, (from, to), bytes, (now, wait), luck);
        } else {
            self.overflown += 1;
            self.note(now, (from, to), bytes, &[], Some(FaultKind::Loss));
        }
        Ok(bytes.len())
    }

    /// What has arrived by now, or nothing. A connected socket hears once that its peer's port is closed.
    pub fn receive(&mut self, socket: SocketId, now: u64) -> Result<Option<Datagram>, Errno> {
        if !self.sockets.get(socket).is_some_and(|end| end.is_open) {
            return Err(EBADF);
        }
        self.settle(now);
        self.take_refusal(socket, now)?;
        let end = &mut self.sockets[socket];
        let Some((_, datagram)) = end.queue.pop_front() else { return Ok(None) };
        end.taken -= room_of(datagram.bytes.len());
        Ok(Some(datagram))
    }

    /// When a receive may give something: never before, and perhaps later. Once a receive gave nothing, this moment lies behind it.
    pub fn next_arrival(&self, socket: SocketId) -> Option<u64> {
        let end = &self.sockets[socket];
        if let Some((at, _)) = end.queue.front() {
            return Some(*at);
        }
        let port = if end.port == 0 { None } else { self.ports.get(end.place) };
        let flight = port.and_then(|port| port.flights.peek()).map(|flight| flight.at);
        let known = [flight, end.refused].into_iter().flatten().min();
        if end.peer.is_none() || self.closed == 0 {
            return known;
        }
        let closed = self.ports.iter().filter(|port| port.socket.is_none());
        let refused = closed.flat_map(|port| &port.flights).filter(|flight| flight.sender == socket);
        refused.filter_map(|flight| Some(flight.at + flight.report?)).chain(known).min()
    }

    /// Lets arrive what arrives by now, at each port. A machine may call this before it binds or closes a socket: what arrived before
    /// then meets who had the port before.
    pub fn settle(&mut self, now: u64) {
        for place in (0..self.ports.len()).rev() {
            while self.ports[place].flights.peek().is_some_and(|flight| flight.at <= now) {
                if let Some(flight) = self.ports[place].flights.pop() {
                    self.arrive(place, flight);
                }
            }
            self.drop_idle(place);
        }
    }

    /// The place of a port, which is made where there is none.
    fn place(&mut self, host: Host, number: u16) -> usize {
        if let Some(place) = self.ports.iter().position(|port| port.number == number && port.host == host) {
            return place;
        }
        self.ports.push(Port { host, number, socket: None, flights: BinaryHeap::new() });
        self.closed += 1;
        self.ports.len() - 1
    }

    /// Forgets a port that nobody has and nothing flies to.
    fn drop_idle(&mut self, place: usize) {
        if self.ports[place].socket.is_none() && self.ports[place].flights.is_empty() {
            self.ports.swap_remove(place);
            self.closed -= 1;
            if let Some(moved) = self.ports.get(place).and_then(|port| port.socket) {
                self.sockets[moved].place = place;
            }
        }
    }

    fn free_port(&mut self, host: Host) -> u16 {
        let (first, last) = FREE_PORTS;
        loop {
            self.given += 1;
            let number = Chance::new(self.given, "port", host as u64).between(first.into(), u64::from(last) + 1) as u16;
            if !self.ports.iter().any(|port| (port.host, port.number) == (host, number)) {
                return number;
            }
        }
    }

    /// Binds a socket that isn't bound yet, to a free port.
    fn bind_anywhere(&mut self, socket: SocketId) {
        if self.sockets[socket].port == 0 {
            // A free port at each address is never refused.
            let _ = self.bind(socket, (0, 0));
        }
    }

    /// A refusal that a socket has heard by now is the error of its next call.
    fn take_refusal(&mut self, socket: SocketId, now: u64) -> Result<(), Errno> {
        match self.sockets[socket].refused {
            Some(at) if at <= now => {
                self.sockets[socket].refused = None;
                Err(ECONNREFUSED)
            }
            _ => Ok(()),
        }
    }

    /// A datagram reaches a port. One that doesn't fit into the queue is dropped.
    fn arrive(&mut self, place: usize, flight: Flight) {
        let receiver = self.ports[place].socket.map(|socket| &mut self.sockets[socket]);
        match receiver {
            Some(end) if end.peer.is_none_or(|peer| peer == flight.datagram.from) => {
                let room = room_of(flight.datagram.bytes.len());
                if end.taken <= ROOM {
                    if let Some(repeats) = &mut self.repeats {
                        repeats.note((flight.datagram.from, (ip(end.host), end.port)), &flight.datagram.bytes);
                    }
                    end.taken += room;
                    end.queue.push_back((flight.at, flight.datagram));
                }
            }
            _ => self.refuse(place, &flight),
        }
    }

    /// Reports to the sender of a datagram that nobody has the port. Only a socket that is connected to that port hears the report.
    fn refuse(&mut self, place: usize, flight: &Flight) {
        let (host, number) = (self.ports[place].host, self.ports[place].number);
        let Some(travel) = flight.report else { return };
        if self.is_walled(host, host_of(flight.datagram.from.0), flight.at) {
            return;
        }
        let end = &mut self.sockets[flight.sender];
        if end.is_open && end.peer == Some((ip(host), number)) {
            let at = flight.at + travel;
            end.refused = Some(end.refused.map_or(at, |earlier| earlier.min(at)));
        }
    }

    /// Where a partition begins, nothing goes one way between two hosts for a while.
    fn raise_wall(&mut self, (from, to): (Host, Host), now: u64, luck: &mut Luck, end: u64) {
        if let Some(chance) = &mut luck.wall {
            let most = *chance.pick(&[200 * MILLISECOND, 3 * SECOND, 20 * SECOND]);
            self.walls.retain(|wall| now < wall.until);
            self.walls.push(Wall { from, to, until: (now + 1 + chance.below(most)).min(end) });
        }
    }

    /// Nothing goes wrong any more: each host reaches each other again.
    pub fn calm(&mut self) {
        self.walls.clear();
    }

    fn is_walled(&self, from: Host, to: Host, now: u64) -> bool {
        self.walls.iter().any(|wall| (wall.from, wall.to) == (from, to) && now < wall.until)
    }

    /// How long a datagram waits until the line has carried it, or nothing where it finds the queue full.
    fn queue_up(&mut self, (from, to): (Host, Host), size: usize, now: u64) -> Option<u64> {
        let Some(line) = self.line else { return Some(0) };
        let place = self.ways.iter().position(|way| (way.from, way.to) == (from, to)).unwrap_or_else(|| {
            self.ways.push(Way { from, to, gone: VecDeque::new() });
            self.ways.len() - 1
        });
        let gone = &mut self.ways[place].gone;
        while gone.front().is_some_and(|&at| at <= now) {
            gone.pop_front();
        }
        if gone.len() >= line.queue {
            return None;
        }
        let takes = (size + HEADERS) as u64 * SECOND / line.bytes_a_second;
        let at = gone.back().copied().unwrap_or(now) + takes;
        gone.push_back(at);
        Some(at - now)
    }

    /// Lets a datagram fly, and what it is repeated by. The damage is to the first alone. It has waited so long for the line.
    fn launch(&mut self, sender: SocketId, (from, to): (Address, Address), bytes: &[u8], (now, wait): (u64, u64), mut luck: Luck) {
        let way = u64::from(from.0) << 32 | u64::from(to.0);
        let mut travel = Chance::new(now, "travel", way ^ u64::from(from.1) << 24 ^ u64::from(to.1) << 8);
        let fate = luck.fate();
        let damaged = luck.damage(bytes);
        let mut arrivals = Vec::new();
        let mut first = now + wait + self.pace.travel(&mut travel);
        if let Some(chance) = &mut luck.delay {
            let most = *chance.pick(&[20 * MILLISECOND, 20 * MILLISECOND, 200 * MILLISECOND, 5 * SECOND]);
            first += chance.below(most);
        }
        self.fly(sender, (from, to), damaged, (first, &mut travel));
        arrivals.push(first);
        if let Some(mut chance) = luck.repeat {
            for _ in 0..=chance.below(3) {
                let most = *chance.pick(&[2 * MILLISECOND, 200 * MILLISECOND, 200 * MILLISECOND, 30 * SECOND]);
                let again = now + wait + self.pace.travel(&mut travel) + chance.below(most);
                self.fly(sender, (from, to), bytes.to_vec(), (again, &mut travel));
                arrivals.push(again);
            }
        }
        self.note(now, (from, to), bytes, &arrivals, fate);
    }

    fn fly(&mut self, sender: SocketId, (from, to): (Address, Address), bytes: Vec<u8>, (at, travel): (u64, &mut Chance)) {
        let report = if travel.one_in(REPORTS_LOST) { None } else { Some(self.pace.travel(travel)) };
        let place = self.place(host_of(to.0), to.1);
        self.begun += 1;
        self.ports[place].flights.push(Flight { at, order: self.begun, sender, datagram: Datagram { from, bytes }, report });
    }

    fn note(&mut self, at: u64, (from, to): (Address, Address), bytes: &[u8], arrivals: &[u64], fate: Option<FaultKind>) {
        if self.traced {
            self.trace.push(Sent { at, from, to, bytes: bytes.to_vec(), arrivals: arrivals.to_vec(), fate });
        }
    }
}

impl Pace {
    fn travel(&self, chance: &mut Chance) -> u64 {
        if self.least < self.most {
            chance.between(self.least, self.most)
        } else {
            self.least
        }
    }
}

/// The room that Linux takes for a datagram of so many bytes in a queue: its headers, rounded up to a power of two, and its record.
fn room_of(bytes: usize) -> usize {
    (bytes + 64 + 320).next_power_of_two() + 256
}

#[cfg(test)]
mod tests {
    use super::*;
    use std::collections::BTreeSet;

    const PACE: Pace = Pace { least: 1_000, most: 200_000 };
    const SERVER: Address = (ip(0), 42_042);
    const CLIENT: Address = (ip(1), 9_401);
    const LATE: u64 = 100 * SECOND;

    fn faults(seed: u64, kinds: &[FaultKind], rate: u64, until: u64) -> Faults {
        let mut rates = [0; 16];
        kinds.iter().for_each(|kind| rates[*kind as usize] = rate);
        Faults::new(seed, rates, until, BTreeSet::new())
    }

    /// A net with a server's socket and a client's.
    fn pair() -> (Net, SocketId, SocketId) {
        let mut net = Net::new(PACE, None);
        let (server, client) = (net.open(0), net.open(1));
        net.bind(server, SERVER).unwrap();
        net.bind(client, CLIENT).unwrap();
        (net, server, client)
    }

    /// The bytes that have arrived by a moment, in their order.
    fn arrived(net: &mut Net, socket: SocketId, now: u64) -> Vec<Vec<u8>> {
        std::iter::from_fn(|| net.receive(socket, now).unwrap()).map(|datagram| datagram.bytes).collect()
    }

    /// What the server receives of 400 datagrams that a client sends, 10 microseconds apart, each with its number and 28 zeros.
    fn carried(seed: u64, kinds: &[FaultKind], rate: u64) -> (Vec<Vec<u8>>, Vec<Sent>) {
        let (mut net, server, client) = pair();
        net.traced = true;
        let (mut faults, mut seen) = (faults(seed, kinds, rate, u64::MAX), Vec::new());
        for number in 0..400u32 {
            let (mut bytes, now) = ([0; 32], u64::from(number) * 10_000);
            bytes[..4].copy_from_slice(&number.to_be_bytes());
            let _ = net.send(client, Some(SERVER), &bytes, now, &mut faults);
            seen.extend(arrived(&mut net, server, now));
        }
        while let Some(at) = net.next_arrival(server) {
            seen.extend(arrived(&mut net, server, at));
        }
        (seen, net.trace)
    }

    fn bits(bytes: &[u8]) -> u32 {
        bytes.iter().map(|byte| byte.count_ones()).sum()
    }

    #[test]
    fn without_faults_all_arrives_once_within_the_pace_and_not_in_order() {
        let (seen, trace) = carried(1, &[], 0);
        assert_eq!((seen.len(), seen.iter().collect::<BTreeSet<_>>().len(), trace.len()), (400, 400, 400));
        assert!(!seen.is_sorted());
        for sent in &trace {
            let [at] = sent.arrivals[..] else { panic!("{sent:?}") };
            assert!((PACE.least..PACE.most).contains(&(at - sent.at)) && sent.fate.is_none());
        }
    }

    #[test]
    fn each_fault_shows_in_what_arrives_and_in_the_trace() {
        let (seen, trace) = carried(1, &[FaultKind::Loss], 4);
        assert_eq!(seen.len(), trace.iter().filter(|sent| sent.fate.is_none()).count());
        assert!((250..350).contains(&seen.len()), "{}", seen.len());
        let (seen, trace) = carried(1, &[FaultKind::Repeat], 4);
        assert_eq!((seen.iter().collect::<BTreeSet<_>>().len(), seen.len() > 450), (400, true));
        assert!(trace.iter().any(|sent| sent.arrivals.iter().any(|at| at - sent.at > SECOND)), "long after");
        let (seen, trace) = carried(1, &[FaultKind::Delay], 4);
        assert!(seen.len() == 400 && trace.iter().any(|sent| sent.arrivals[0] - sent.at > SECOND));
        let (seen, trace) = carried(1, &[FaultKind::Cut], 4);
        assert!(seen.len() == 400 && seen.iter().filter(|bytes| bytes.len() < 32).count() > 50);
        assert!(trace.iter().all(|sent| sent.bytes.len() == 32));
        let (seen, trace) = carried(1, &[FaultKind::SendFails], 4);
        assert_eq!(seen.len(), trace.iter().filter(|sent| sent.fate != Some(FaultKind::SendFails)).count());
    }

    #[test]
    fn one_to_three_bits_flip() {
        let (mut net, server, client) = pair();
        let mut faults = faults(2, &[FaultKind::Flip], 1, u64::MAX);
        for now in 0..100 {
            net.send(client, Some(SERVER), &[0; 40], now, &mut faults).unwrap();
        }
        let flipped: BTreeSet<u32> = arrived(&mut net, server, LATE).iter().map(|bytes| bits(bytes)).collect();
        assert!(flipped.contains(&1) && flipped.contains(&3) && flipped.last() == Some(&3), "{flipped:?}");
    }

    #[test]
    fn a_partition_goes_one_way_and_ends() {
        let (mut net, server, client) = pair();
        let mut raised = faults(1, &[FaultKind::Partition], 1, 50 * MILLISECOND);
        let mut none = faults(1, &[], 0, 0);
        net.send(client, Some(SERVER), b"1", 0, &mut raised).unwrap();
        net.send(client, Some(SERVER), b"2", 10, &mut none).unwrap();
        net.send(server, Some(CLIENT), b"3", 10, &mut none).unwrap();
        assert_eq!(arrived(&mut net, client, MILLISECOND), [b"3"]);
        net.send(client, Some(SERVER), b"4", 50 * MILLISECOND, &mut none).unwrap();
        assert_eq!(arrived(&mut net, server, LATE), [b"4"], "no partition outlives the faults");
    }

    #[test]
    fn a_queue_has_a_bound() {
        let (mut net, server, client) = pair();
        let mut none = faults(1, &[], 0, 0);
        for now in 0..1_000 {
            net.send(client, Some(SERVER), &[1; 1_424], now, &mut none).unwrap();
        }
        assert_eq!(arrived(&mut net, server, SECOND).len(), 93);
        net.send(client, Some(SERVER), b"more", SECOND, &mut none).unwrap();
        assert_eq!(arrived(&mut net, server, LATE), [b"more"]);
        assert_eq!(net.send(client, Some(SERVER), &[0; 65_508], LATE, &mut none), Err(EMSGSIZE));
    }

    #[test]
    fn a_line_with_a_rate_carries_one_datagram_after_another_and_its_queue_overflows() {
        let line = Line { bytes_a_second: 100_000, queue: 20 };
        let mut net = Net::new(Pace { least: 0, most: 0 }, Some(line));
        let (server, client) = (net.open(0), net.open(1));
        net.bind(server, SERVER).unwrap();
        net.bind(client, CLIENT).unwrap();
        let mut none = faults(1, &[], 0, 0);
        for _ in 0..30 {
            net.send(client, Some(SERVER), &[0; 472], 0, &mut none).unwrap();
        }
        // 500 bytes with their headers take 5 ms
        assert_eq!(arrived(&mut net, server, 5 * MILLISECOND - 1).len(), 0);
        assert_eq!(arrived(&mut net, server, 25 * MILLISECOND).len(), 5);
        assert_eq!((arrived(&mut net, server, LATE).len(), net.overflown), (15, 10));
        net.send(server, Some(CLIENT), &[0; 472], 0, &mut none).unwrap();
        assert_eq!(arrived(&mut net, client, 5 * MILLISECOND).len(), 1, "the other way is free");
        net.send(client, Some(SERVER), &[0; 472], SECOND, &mut none).unwrap();
        assert_eq!(arrived(&mut net, server, SECOND + 5 * MILLISECOND).len(), 1, "the queue is empty again");
    }

    #[test]
    fn a_connected_socket_hears_once_that_a_port_is_closed() {
        let mut none = faults(1, &[], 0, 0);
        let mut heard = 0;
        for now in 1..40 {
            let mut net = Net::new(PACE, None);
            let (probe, other) = (net.open(1), net.open(1));
            net.connect(probe, SERVER);
            net.bind(other, CLIENT).unwrap();
            net.send(probe, None, b"", now, &mut none).unwrap();
            net.send(other, Some(SERVER), b"", now, &mut none).unwrap();
            assert_eq!(net.receive(probe, now), Ok(None));
            let Some(at) = net.next_arrival(probe) else { continue };
            assert!(at > now);
            assert_eq!((net.receive(probe, at - 1), net.next_arrival(probe)), (Ok(None), Some(at)));
            assert_eq!((net.receive(probe, at), net.receive(probe, LATE)), (Err(ECONNREFUSED), Ok(None)));
            assert_eq!((net.receive(other, LATE), net.next_arrival(probe)), (Ok(None), None));
            heard += 1;
        }
        assert!((20..39).contains(&heard), "a report can be lost: {heard}");
    }

    #[test]
    fn a_connected_socket_takes_only_its_peers_datagrams() {
        let (mut net, server, client) = pair();
        let mut none = faults(1, &[], 0, 0);
        let third = net.open(2);
        net.connect(client, SERVER);
        assert_eq!(net.address(client), CLIENT);
        net.send(third, Some(CLIENT), b"no", 0, &mut none).unwrap();
        assert_eq!((net.address(third).0, net.address(third).1 >= FREE_PORTS.0), (0, true));
        net.send(server, Some(CLIENT), b"yes", 0, &mut none).unwrap();
        assert_eq!(arrived(&mut net, client, LATE), [b"yes"]);
        assert_eq!(net.send(server, None, b"", 0, &mut none), Err(EDESTADDRREQ));
    }

    #[test]
    fn a_port_can_be_bound_again_and_gets_what_is_in_flight() {
        let (mut net, server, client) = pair();
        let mut none = faults(1, &[], 0, 0);
        let next = net.open(0);
        assert_eq!((net.bind(next, SERVER), net.bind(next, (0, 42_042))), (Err(EADDRINUSE), Err(EADDRINUSE)));
        assert_eq!((net.bind(next, CLIENT), net.bind(server, (0, 0))), (Err(EADDRNOTAVAIL), Err(EINVAL)));
        net.send(client, Some(SERVER), b"late", 0, &mut none).unwrap();
        net.close(server);
        net.close(server);
        assert_eq!((net.receive(server, 0), net.send(server, Some(CLIENT), b"", 0, &mut none)), (Err(EBADF), Err(EBADF)));
        net.bind(next, (0, 42_042)).unwrap();
        assert_eq!(arrived(&mut net, next, LATE), [b"late"]);
        net.close(next);
        net.close(client);
        assert!(net.ports.is_empty() && net.closed == 0);
    }

    #[test]
    fn the_same_seed_gives_the_same_network() {
        let kinds = [FaultKind::Loss, FaultKind::Repeat, FaultKind::Delay, FaultKind::Flip, FaultKind::Cut, FaultKind::Partition];
        assert_eq!(carried(7, &kinds, 9), carried(7, &kinds, 9));
        assert_ne!(carried(7, &kinds, 9), carried(8, &kinds, 9));
    }
}

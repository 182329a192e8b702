//! What `show` prints, in plain Rust, written for speed: lines cut from one buffer, digits by tables, a packet's words and data read
//! where they lie, and one fixed buffer of text. It takes no memory.
//!
//! It has no limit of its input, counts neither lines nor faults for its exit status, tells no fault of its reader from one of its
//! writer, and asks a reader that is interrupted again for ever.
use std::io::{self, ErrorKind, Read, Write};

const LINE_LIMIT: usize = 8_192;
const CHUNK: usize = 16_384;
const TEXT: usize = 16_384;

/// No report has more bytes, with the empty line in front of it; nor has that of a short line more than the second.
const ROOM: usize = 8_192;
const SHORT_ROOM: usize = 2_048;
const SHORT_LINE: usize = 1_080;

/// The most packets of a datagram, and its most bytes.
const MAX_PACKETS: u8 = 8;
const MAX_BYTES: usize = 2_020;

/// The value of each byte as a hexadecimal digit, and what is none.
const NO_DIGIT: u8 = 0xFF;
static VALUES: [u8; 256] = values();

/// A space and two digits for each byte.
static TRIPLES: [[u8; 3]; 256] = triples();

const fn values() -> [u8; 256] {
    let mut table = [NO_DIGIT; 256];
    let mut n = 0;
    while n < 10 {
        table[b'0' as usize + n] = n as u8;
        n += 1;
    }
    let mut n = 0;
    while n < 6 {
        table[b'A' as usize + n] = 10 + n as u8;
        table[b'a' as usize + n] = 10 + n as u8;
        n += 1;
    }
    table
}

const fn triples() -> [[u8; 3]; 256] {
    let digits = *b"0123456789ABCDEF";
    let mut table = [[b' '; 3]; 256];
    let mut n = 0;
    while n < 256 {
        table[n][1] = digits[n / 16];
        table[n][2] = digits[n % 16];
        n += 1;
    }
    table
}

/// Text that waits to be written.
struct Text {
    bytes: [u8; TEXT],
    len: usize,
}

impl Text {
    fn put(&mut self, text: &[u8]) {
        self.bytes[self.len..self.len + text.len()].copy_from_slice(text);
        self.len += text.len();
    }

    fn decimal(&mut self, mut n: u16) {
        let mut digits = [0; 5];
        let mut at = digits.len();
        loop {
            at -= 1;
            digits[at] = b'0' + (n % 10) as u8;
            n /= 10;
            if n == 0 {
                break;
            }
        }
        self.put(&digits[at..]);
    }

    fn octal(&mut self, n: u16) {
        self.put(&[15, 12, 9, 6, 3, 0].map(|shift| b'0' + (n >> shift & 7) as u8));
    }

    /// So many data bytes, of which each pair stands turned round.
    fn data(&mut self, words: &[u8], count: usize) {
        let even = count - count % 2;
        let end = self.len + 3 * even;
        for (place, pair) in self.bytes[self.len..end].chunks_exact_mut(6).zip(words.chunks_exact(2)) {
            place[..3].copy_from_slice(&TRIPLES[usize::from(pair[1])]);
            place[3..].copy_from_slice(&TRIPLES[usize::from(pair[0])]);
        }
        self.len = end;
        if even < count {
            self.put(&TRIPLES[usize::from(words[even + 1])]);
        }
    }

    fn hand_on(&mut self) -> io::Result<()> {
        io::stdout().write_all(&self.bytes[..self.len])?;
        self.len = 0;
        io::stdout().flush()
    }
}

enum Fault {
    Line,
    Short,
    BadMark,
    BadVersion,
    Packet(PacketFault),
    Trailing,
    BadNumber,
    TooLong,
    PacketAt(u8, PacketFault),
}

enum PacketFault {
    Short,
    BadCount,
    Truncated,
}

/// The packets of a datagram without a fault.
enum Datagram<'a> {
    One(&'a [u8]),
    Several(u8, &'a [u8]),
}

/// The bytes that a line stands for, at the front of `bytes`.
fn hex(line: &[u8], bytes: &mut [u8; LINE_LIMIT / 2]) -> Option<usize> {
    let mut count = 0;
    let mut i = 0;
    while i < line.len() {
        let high = VALUES[usize::from(line[i])];
        if high == NO_DIGIT {
            if line[i] != b' ' && line[i] != b'\t' {
                return None;
            }
            i += 1;
            continue;
        }
        let low = VALUES[usize::from(*line.get(i + 1)?)];
        if low == NO_DIGIT {
            return None;
        }
        bytes[count] = 16 * high + low;
        count += 1;
        i += 2;
    }
    Some(count)
}

fn word(words: &[u8], at: usize) -> u16 {
    u16::from_be_bytes([words[2 * at], words[2 * at + 1]])
}

fn count(words: &[u8]) -> usize {
    usize::from(word(words, 1) % 4096)
}

/// How many bytes the packet takes at the front of the words.
fn packet_len(words: &[u8]) -> Result<usize, PacketFault> {
    if words.len() < 16 {
        return Err(PacketFault::Short);
    }
    let count = count(words);
    if count > 488 {
        return Err(PacketFault::BadCount);
    }
    let used = 16 + 2 * count.div_ceil(2);
    if words.len() < used {
        return Err(PacketFault::Truncated);
    }
    Ok(used)
}

fn open(bytes: &[u8]) -> Result<Datagram<'_>, Fault> {
    let [first, second, version, number, words @ ..] = bytes else {
        return Err(Fault::Short);
    };
    if [*first, *second] != [0x43, 0x48] {
        return Err(Fault::BadMark);
    }
    match (*version, *number) {
        (1, 0) => {
            let used = packet_len(words).map_err(Fault::Packet)?;
            if words.len() > used {
                return Err(Fault::Trailing);
            }
            Ok(Datagram::One(words))
        }
        (2, 1..=MAX_PACKETS) => {
            if bytes.len() > MAX_BYTES {
                return Err(Fault::TooLong);
            }
            let mut rest = words;
            for k in 1..=*number {
                let used = packet_len(rest).map_err(|fault| Fault::PacketAt(k, fault))?;
                rest = &rest[used..];
            }
            if !rest.is_empty() {
                return Err(Fault::Trailing);
            }
            Ok(Datagram::Several(*number, words))
        }
        (2, _) => Err(Fault::BadNumber),
        _ => Err(Fault::BadVersion),
    }
}

fn name(op: u8) -> &'static [u8] {
    match op {
        0o1 => b" RFC\n",
        0o2 => b" OPN\n",
        0o3 => b" CLS\n",
        0o4 => b" FWD\n",
        0o5 => b" ANS\n",
        0o6 => b" SNS\n",
        0o7 => b" STS\n",
        0o11 => b" LOS\n",
        0o12 => b" LSN\n",
        0o14 => b" EOF\n",
        0o15 => b" UNC\n",
        0o200..=0o277 => b" DAT\n",
        0o300..=0o377 => b" DWD\n",
        _ => b"\n",
    }
}

/// The report of the packet at the front of words that were looked through.
fn print(text: &mut Text, words: &[u8]) {
    let (op, count) = (words[0], count(words));
    text.put(b"op ");
    text.put(&[6, 3, 0].map(|shift| b'0' + (op >> shift & 7)));
    text.put(name(op));
    text.put(b"fwd ");
    text.decimal(u16::from(words[2] >> 4));
    text.put(b" count ");
    text.decimal(count as u16);
    text.put(b"\nto ");
    text.octal(word(words, 2));
    text.put(b" ");
    text.octal(word(words, 3));
    text.put(b"\nfrom ");
    text.octal(word(words, 4));
    text.put(b" ");
    text.octal(word(words, 5));
    text.put(b"\nnum ");
    text.decimal(word(words, 6));
    text.put(b" ack ");
    text.decimal(word(words, 7));
    text.put(b"\n");
    if (op == 2 || op == 7) && count >= 4 {
        text.put(b"receipt ");
        text.decimal(word(words, 8));
        text.put(b" window ");
        text.decimal(word(words, 9));
        text.put(b"\n");
    } else if count > 0 {
        text.put(b"data");
        text.data(&words[16..], count);
        text.put(b"\n");
    }
}

fn packet_fault(f: PacketFault) -> &'static [u8] {
    match f {
        PacketFault::Short => b"1 Short\n",
        PacketFault::BadCount => b"2 BadCount\n",
        PacketFault::Truncated => b"3 Truncated\n",
    }
}

fn print_fault(text: &mut Text, f: Fault) {
    match f {
        Fault::Line => text.put(b"fault 0 Line\n"),
        Fault::Short => text.put(b"fault 1 Short\n"),
        Fault::BadMark => text.put(b"fault 2 BadMark\n"),
        Fault::BadVersion => text.put(b"fault 3 BadVersion\n"),
        Fault::Packet(fault) => {
            text.put(b"fault 4 Packet ");
            text.put(packet_fault(fault));
        }
        Fault::Trailing => text.put(b"fault 5 Trailing\n"),
        Fault::BadNumber => text.put(b"fault 6 BadNumber\n"),
        Fault::TooLong => text.put(b"fault 7 TooLong\n"),
        Fault::PacketAt(k, fault) => {
            text.put(b"fault 8 PacketAt ");
            text.decimal(u16::from(k));
            text.put(b" ");
            text.put(packet_fault(fault));
        }
    }
}

fn print_several(text: &mut Text, number: u8, words: &[u8]) {
    text.put(b"carriage 2 packets ");
    text.decimal(u16::from(number));
    text.put(b"\n");
    let mut rest = words;
    for _ in 0..number {
        let used = 16 + 2 * count(rest).div_ceil(2);
        let (front, behind) = rest.split_at(used);
        text.put(b"\n");
        print(text, front);
        rest = behind;
    }
}

/// The reports so far, and the bytes of the line that is reported.
struct Reporter {
    text: Text,
    bytes: [u8; LINE_LIMIT / 2],
    is_first: bool,
}

impl Reporter {
    fn report(&mut self, line: &[u8]) -> io::Result<()> {
        let Reporter { text, bytes, is_first } = self;
        let room = if line.len() > SHORT_LINE { ROOM } else { SHORT_ROOM };
        if TEXT - text.len < room {
            text.hand_on()?;
        }
        if !*is_first {
            text.put(b"\n");
        }
        *is_first = false;
        let line = line.strip_suffix(b"\r").unwrap_or(line);
        let read = if line.len() > LINE_LIMIT {
            Err(Fault::Line)
        } else {
            hex(line, bytes).ok_or(Fault::Line).and_then(|count| open(&bytes[..count]))
        };
        match read {
            Ok(Datagram::One(words)) => print(text, words),
            Ok(Datagram::Several(number, words)) => print_several(text, number, words),
            Err(f) => print_fault(text, f),
        }
        Ok(())
    }
}

/// Where the line ends that begins the bytes.
fn newline(bytes: &[u8]) -> Option<usize> {
    bytes.iter().position(|byte| *byte == b'\n')
}

fn main() -> io::Result<()> {
    let mut reporter = Reporter {
        text: Text { bytes: [0; TEXT], len: 0 },
        bytes: [0; LINE_LIMIT / 2],
        is_first: true,
    };
    let mut input = io::stdin().lock();
    let mut chunk = [0; CHUNK + LINE_LIMIT + 2];
    let mut kept = 0;
    loop {
        reporter.text.hand_on()?;
        let end = match input.read(&mut chunk[kept..]) {
            Ok(0) => break,
            Ok(count) => kept + count,
            Err(error) if error.kind() == ErrorKind::Interrupted => continue,
            Err(error) => return Err(error),
        };
        let mut start = 0;
        while let Some(at) = newline(&chunk[start..end]) {
            reporter.report(&chunk[start..start + at])?;
            start += at + 1;
        }
        // A line of which so much is kept is too long, whatever comes.
        kept = (end - start).min(LINE_LIMIT + 2);
        chunk.copy_within(start..start + kept, 0);
    }
    if kept > 0 {
        reporter.report(&chunk[..kept])?;
    }
    reporter.text.hand_on()
}

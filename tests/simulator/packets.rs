//! What a datagram says, in a few words.

/// A packet of a datagram, as a picture names it.
#[derive(Clone, PartialEq, Eq, Debug)]
pub struct Packet {
    pub kind: &'static str,
    /// Its kind, its number or status, and the text of its data.
    pub text: String,
    /// The index of the connection at the host that sent it; 0 where that can't be read.
    pub index: u16,
}

/// The longest text of a packet's data that is shown.
const LONGEST: usize = 36;

fn word(bytes: &[u8], place: usize) -> u16 {
    u16::from_be_bytes([bytes[2 * place], bytes[2 * place + 1]])
}

fn kind_of(opcode: u8) -> &'static str {
    match opcode {
        1 => "RFC",
        2 => "OPN",
        3 => "CLS",
        5 => "ANS",
        6 => "SNS",
        7 => "STS",
        9 => "LOS",
        12 => "EOF",
        128..=191 => "DAT",
        _ => "packet",
    }
}

/// A packet of these words, and how many bytes it has.
fn packet(bytes: &[u8]) -> Option<(Packet, usize)> {
    if bytes.len() < 16 {
        return None;
    }
    let count = usize::from(word(bytes, 1) & 0xfff);
    let size = 16 + count.div_ceil(2) * 2;
    let data: Vec<u8> = bytes.get(16..size)?.chunks(2).flat_map(|pair| [pair[1], pair[0]]).take(count).collect();
    let (kind, number, ack) = (kind_of(bytes[0]), word(bytes, 6), word(bytes, 7));
    let text = match kind {
        "STS" if count >= 4 => {
            format!("STS receipt {} window {}", u16::from_le_bytes([data[0], data[1]]), u16::from_le_bytes([data[2], data[3]]))
        }
        "RFC" => format!("RFC {number} {}", shown(&data)),
        "DAT" => format!("DAT {number} ack {ack} {}", shown(&data)),
        "OPN" | "EOF" => format!("{kind} {number} ack {ack}"),
        _ => format!("{kind} {}", shown(&data)),
    };
    Some((Packet { kind, text: text.trim_end().into(), index: word(bytes, 5) }, size))
}

/// A text of FILE as its scripts write it, cut.
fn shown(data: &[u8]) -> String {
    let text = crate::script::spelled(data);
    if text.chars().count() <= LONGEST {
        text
    } else {
        text.chars().take(LONGEST - 2).chain("..".chars()).collect()
    }
}

/// The packets of a datagram.
pub fn packets(datagram: &[u8]) -> Vec<Packet> {
    let alone = |kind: &'static str| vec![Packet { kind, text: kind.into(), index: 0 }];
    match datagram {
        [] => alone("empty"),
        [0x43, 0x48, 1, 0, words @ ..] => packet(words).map_or(alone("damaged"), |(packet, _)| vec![packet]),
        [1, 1, 0, 0, words @ ..] => packet(words).map_or(alone("damaged"), |(packet, _)| vec![packet]),
        [0x43, 0x48, 2, _, words @ ..] => {
            let (mut rest, mut list) = (words, Vec::new());
            while let Some((packet, size)) = packet(rest) {
                list.push(packet);
                rest = &rest[size..];
            }
            list
        }
        [0x43, 0x48, 3, 0, ..] => alone("sealed"),
        _ => alone("damaged"),
    }
}

/// The data packets and EOFs of a datagram in clear: the index that each is for, the index that sent it, and its number.
pub fn numbered(datagram: &[u8]) -> Vec<[u16; 3]> {
    let (mut rest, mut list) = (datagram.get(4..).unwrap_or_default(), Vec::new());
    while rest.len() >= 16 {
        if matches!(kind_of(rest[0]), "DAT" | "EOF") {
            list.push([word(rest, 3), word(rest, 5), word(rest, 6)]);
        }
        let size = 16 + usize::from(word(rest, 1) & 0xfff).div_ceil(2) * 2;
        rest = rest.get(size..).unwrap_or_default();
    }
    list
}

#[cfg(test)]
mod tests {
    use super::*;

    #[test]
    fn packets_are_named() {
        let request = [0x43, 0x48, 1, 0, 1, 0, 0, 4, 1, 1, 0, 0, 1, 2, 0, 1, 0xff, 0xfe, 0, 0, 0x49, 0x46, 0x45, 0x4c];
        assert_eq!((packets(&request)[0].text.as_str(), packets(&request)[0].index), ("RFC 65534 FILE", 1));
        let mut two = vec![0x43, 0x48, 2, 2];
        two.extend([&request[4..], &request[4..]].concat());
        assert_eq!((packets(&two).len(), numbered(&two).len()), (2, 0));
        let mut data = request.to_vec();
        data[4] = 128;
        assert_eq!(numbered(&data), [[0, 1, 0xfffe]]);
        assert_eq!(
            (packets(b"CH\x03\x00")[0].kind, packets(b"C")[0].kind, packets(&request[..20])[0].kind),
            ("sealed", "damaged", "damaged")
        );
    }
}

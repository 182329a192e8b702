//! Scripts of `ask`: their commands as lines, and what the replies to them say.

use crate::contents::Contents;
use crate::linear::Content;

/// A command carries at most so many bytes of a file.
pub const PIECE: usize = 448;

/// A command of a script. Names are the places of names.
#[derive(Clone, PartialEq, Eq, Debug)]
pub enum Command {
    Login,
    OpenWrite(&'static str, usize),
    OpenRead(&'static str, usize),
    /// These bytes of a content are written, from the first place up to and without the second.
    Write(&'static str, Content, usize, usize),
    Read(&'static str),
    Close(&'static str),
    Delete(usize),
    Rename(usize, usize),
}

impl Command {
    /// The line of a script that has this command as its command of that number.
    pub fn line(&self, number: usize, names: &[&str], contents: &Contents) -> String {
        match *self {
            Command::Login => format!("T{number}  LOGIN LISPM"),
            Command::OpenWrite(handle, name) => format!("T{number} {handle} OPEN WRITE^{}", names[name]),
            Command::OpenRead(handle, name) => format!("T{number} {handle} OPEN READ^{}", names[name]),
            Command::Write(handle, content, from, to) => {
                format!("T{number} {handle} WRITE^{}", spelled(&contents.bytes(content)[from..to]))
            }
            Command::Read(handle) => format!("T{number} {handle} READ"),
            Command::Close(handle) => format!("T{number} {handle} CLOSE"),
            Command::Delete(name) => format!("T{number}  DELETE^{}", names[name]),
            Command::Rename(old, new) => format!("T{number}  RENAME^{}^{}", names[old], names[new]),
        }
    }

    /// The handle of this command; none where it has none.
    fn handle(&self) -> &'static str {
        match self {
            Command::Login | Command::Delete(_) | Command::Rename(..) => "",
            Command::OpenWrite(handle, _) | Command::OpenRead(handle, _) | Command::Write(handle, ..) => handle,
            Command::Read(handle) | Command::Close(handle) => handle,
        }
    }

    /// What a line of output says in answer to this command of that number: nothing where it answers another.
    pub fn answer<'l>(&self, number: usize, line: &'l str) -> Option<&'l str> {
        line.strip_prefix(&format!("T{number} {} ", self.handle()))
    }
}

/// Bytes as a script writes them.
pub fn spelled(bytes: &[u8]) -> String {
    let mut text = String::new();
    for &byte in bytes {
        match byte {
            0x8d => text.push('^'),
            b'^' | b'\\' => text.push_str(&format!("\\{byte:02x}")),
            0x20..=0x7e => text.push(byte as char),
            _ => text.push_str(&format!("\\{byte:02x}")),
        }
    }
    text
}

/// The bytes that a text of a script stands for; none where it is no such text.
pub fn read_spelled(text: &str) -> Option<Vec<u8>> {
    let mut bytes = Vec::new();
    let mut rest = text.bytes();
    while let Some(byte) = rest.next() {
        match byte {
            b'^' => bytes.push(0x8d),
            b'\\' => {
                let digits = [rest.next()?, rest.next()?];
                bytes.push(u8::from_str_radix(std::str::from_utf8(&digits).ok()?, 16).ok()?);
            }
            0x20..=0x7e => bytes.push(byte),
            _ => return None,
        }
    }
    Some(bytes)
}

#[cfg(test)]
mod tests {
    use super::*;

    #[test]
    fn every_byte_is_read_back_and_answers_are_those_of_their_command() {
        let all: Vec<u8> = (0..=255).collect();
        assert_eq!(read_spelled(&spelled(&all)), Some(all));
        assert_eq!((spelled(b"a\n^\x8d"), read_spelled("\\x"), read_spelled("\t")), ("a\\0a\\5e^".into(), None, None));
        let mut contents = Contents::default();
        let content = contents.add(b"0123456789".to_vec());
        let write = Command::Write("H1", content, 2, 5);
        assert_eq!(write.line(3, &["A"], &contents), "T3 H1 WRITE^234");
        assert_eq!((write.answer(3, "T3 H1 WRITE 3"), write.answer(3, "T4 H1 WRITE 3")), (Some("WRITE 3"), None));
        assert_eq!(Command::Delete(0).answer(9, "T9  ERROR FNF No such file."), Some("ERROR FNF No such file."));
    }
}

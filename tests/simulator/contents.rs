//! The contents of a run's files. Each put has a content of its own, which says its number again and again: so a mixture is seen.

use crate::linear::Content;
use std::collections::HashMap;

/// The contents that a run knows, by their numbers from 1 on.
#[derive(Default, Clone)]
pub struct Contents {
    bytes: Vec<Vec<u8>>,
    numbers: HashMap<Vec<u8>, Content>,
}

impl Contents {
    /// The number of these bytes, which are known from now on.
    pub fn add(&mut self, bytes: Vec<u8>) -> Content {
        if let Some(&number) = self.numbers.get(&bytes) {
            return number;
        }
        self.bytes.push(bytes.clone());
        let number = self.bytes.len() as Content;
        self.numbers.insert(bytes, number);
        number
    }

    /// The number of these bytes, if they are a whole content.
    pub fn find(&self, bytes: &[u8]) -> Option<Content> {
        self.numbers.get(bytes).copied()
    }

    pub fn bytes(&self, content: Content) -> &[u8] {
        &self.bytes[usize::from(content) - 1]
    }

    /// The contents of this size that begin with these bytes.
    pub fn with_prefix(&self, size: usize, prefix: &[u8]) -> Vec<Content> {
        let is_such = |bytes: &[u8]| bytes.len() == size && bytes.starts_with(prefix);
        (1..=self.bytes.len() as Content).filter(|&number| is_such(self.bytes(number))).collect()
    }

    /// What a picture says of a content.
    pub fn shown(&self, content: Content) -> String {
        format!("content {content} of {} bytes", self.bytes(content).len())
    }
}

/// So many bytes that say a number again and again, each time with the bytes behind it.
pub fn repeated(number: usize, behind: &[u8], size: usize) -> Vec<u8> {
    let mut word = number.to_string().into_bytes();
    word.extend_from_slice(behind);
    word.into_iter().cycle().take(size).collect()
}

#[cfg(test)]
mod tests {
    use super::*;

    #[test]
    fn contents_are_known_by_their_bytes_and_prefixes() {
        let mut contents = Contents::default();
        let (first, second) = (contents.add(repeated(7, b", ", 10)), contents.add(repeated(71, b"\n", 10)));
        assert_eq!((first, second, contents.add(repeated(7, b", ", 10))), (1, 2, 1));
        assert_eq!((contents.find(b"7, 7, 7, 7"), contents.find(b"7, 7, 71\n7")), (Some(1), None));
        assert_eq!((contents.with_prefix(10, b"7"), contents.with_prefix(10, b"71")), (vec![1, 2], vec![2]));
    }
}

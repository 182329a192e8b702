//! What a power failure leaves of a disk.

use super::nodes::{replace, Kind};
use super::{Disk, ROOT};
use crate::chance::Chance;

impl Disk {
    /// The power fails: what isn't durable may be lost, and all descriptions end. Of the changes of entries a prefix has reached the disk.
    pub fn lose_power(&mut self, chance: &mut Chance) {
        self.descriptions.iter_mut().for_each(|description| *description = None);
        self.full = None;
        self.replay(chance);
        for node in &mut self.nodes {
            node.lose_power(chance);
        }
        self.count_links();
        self.sweep();
    }

    /// A prefix of the journal reaches the disk, and programs see what is there from now on.
    fn replay(&mut self, chance: &mut Chance) {
        let mut numbers: Vec<u64> = self.journal.iter().map(|change| change.number).collect();
        numbers.dedup();
        let kept = match chance.below(4) {
            0 => 0,
            1 => numbers.len(),
            _ => chance.below(numbers.len() as u64 + 1) as usize,
        };
        let end = numbers.get(kept).copied().unwrap_or(u64::MAX);
        for change in std::mem::take(&mut self.journal) {
            if let Kind::Folder(inner) = &mut self.nodes[change.folder].kind {
                if change.number < end {
                    replace(&mut inner.stable, &change.name, change.to);
                }
            }
        }
        for node in &mut self.nodes {
            if let Kind::Folder(inner) = &mut node.kind {
                inner.entries = inner.stable.clone();
            }
        }
    }

    /// Counts the links of each file and folder again, and finds the folder above each folder.
    fn count_links(&mut self) {
        self.nodes.iter_mut().for_each(|node| node.links = 0);
        self.nodes[ROOT].links = 1;
        for folder in 0..self.nodes.len() {
            let Kind::Folder(inner) = &self.nodes[folder].kind else { continue };
            for (_, node) in inner.entries.clone() {
                self.nodes[node].links += 1;
                if let Kind::Folder(below) = &mut self.nodes[node].kind {
                    below.parent = folder;
                }
            }
        }
    }

    /// Frees the place of each file that nobody can reach any more, now or behind a power failure. Its inode number may come again.
    pub(super) fn sweep(&mut self) {
        let mut reached = vec![false; self.nodes.len()];
        reached[ROOT] = true;
        for node in &self.nodes {
            if let Kind::Folder(inner) = &node.kind {
                inner.entries.iter().chain(&inner.stable).for_each(|(_, node)| reached[*node] = true);
            }
        }
        self.journal.iter().filter_map(|change| change.to).for_each(|node| reached[node] = true);
        for (node, is_reached) in self.nodes.iter_mut().zip(reached) {
            if !is_reached && node.opens == 0 {
                node.kind = Kind::Free;
            }
        }
    }
}

#[cfg(test)]
mod tests {
    use super::*;
    use crate::chance::{FaultKind, Faults};
    use crate::disk::{Moment, O_CREAT, O_RDWR};
    use crate::errno::EIO;
    use std::collections::{BTreeMap, BTreeSet};

    type Files = BTreeMap<Vec<u8>, Vec<u8>>;

    const SEEDS: u64 = 400;

    fn named(files: &[(&str, &[u8])]) -> Files {
        files.iter().map(|(name, bytes)| (name.as_bytes().to_vec(), bytes.to_vec())).collect()
    }

    /// What each of many power failures leaves of a disk.
    fn left(disk: &Disk) -> BTreeSet<Files> {
        let each = (0..SEEDS).map(|seed| {
            let mut disk = disk.clone();
            disk.lose_power(&mut Chance::new(seed, "power", 0));
            disk.files(b"/")
        });
        each.collect()
    }

    fn with_moment(rates: [u64; 16], run: impl FnOnce(&mut Disk, &mut Moment)) -> Disk {
        let mut faults = Faults::new(0, rates, u64::MAX, BTreeSet::new());
        let mut disk = Disk::new();
        run(&mut disk, &mut Moment { now: 0, faults: &mut faults });
        disk
    }

    /// Writes a file of these bytes, flushes it where that is asked for, and closes it.
    fn write(disk: &mut Disk, path: &[u8], bytes: &[u8], is_flushed: bool, when: &mut Moment) {
        let file = disk.open(None, path, O_RDWR | O_CREAT, 0o600, when).unwrap();
        disk.truncate(file, 0, when).unwrap();
        disk.write(file, bytes, when).unwrap();
        if is_flushed {
            disk.sync(file, when).unwrap();
        }
        disk.close(file);
    }

    fn flush(disk: &mut Disk, folder: &[u8], when: &mut Moment) {
        let folder = disk.open(None, folder, 0, 0, when).unwrap();
        disk.sync(folder, when).unwrap();
    }

    #[test]
    fn what_was_flushed_stays() {
        let disk = with_moment([0; 16], |disk, when| {
            disk.put_file(b"A", b"old");
            write(disk, b"B", b"two", true, when);
            disk.rename((None, b"B"), (None, b"C"), when).unwrap();
            disk.unlink(None, b"A", when).unwrap();
            flush(disk, b"/", when);
        });
        assert_eq!(left(&disk), BTreeSet::from([named(&[("C", b"two")])]));
    }

    #[test]
    fn of_changes_of_names_a_prefix_stays() {
        let disk = with_moment([0; 16], |disk, when| {
            disk.put_file(b"A", b"a");
            write(disk, b".new", b"b", true, when);
            disk.rename((None, b".new"), (None, b"A"), when).unwrap();
            disk.rename((None, b"A"), (None, b"B"), when).unwrap();
            write(disk, b"A", b"c", true, when);
            disk.unlink(None, b"B", when).unwrap();
            flush(disk, b"/dev", when);
        });
        let prefixes = [
            named(&[("A", b"a")]),
            named(&[("A", b"a"), (".new", b"b")]),
            named(&[("A", b"b")]),
            named(&[("B", b"b")]),
            named(&[("A", b"c"), ("B", b"b")]),
            named(&[("A", b"c")]),
        ];
        assert_eq!(left(&disk), BTreeSet::from(prefixes));
    }

    #[test]
    fn bytes_that_were_not_flushed_tear() {
        let (old, new) = (vec![b'o'; 1_500], vec![b'n'; 1_300]);
        let disk = with_moment([0; 16], |disk, when| {
            disk.put_file(b"A", &old);
            write(disk, b"A", &new, false, when);
        });
        let seen = left(&disk);
        assert!(seen.contains(&named(&[("A", &old)])) && seen.contains(&named(&[("A", &new)])));
        let sizes: BTreeSet<usize> = seen.iter().map(|files| files[b"A".as_slice()].len()).collect();
        assert!(sizes.len() > 50 && sizes.range(..100).next().is_some() && sizes.last() <= Some(&1_500), "{sizes:?}");
        for bytes in seen.iter().map(|files| &files[b"A".as_slice()]) {
            for block in bytes.chunks(512) {
                let first = block[0];
                let rest = block.iter().position(|byte| *byte != first).map_or(&[][..], |end| &block[end..]);
                assert!(b"on\0".contains(&first) && rest.iter().all(|byte| *byte == 0), "a block is whole, and zeros end it");
            }
        }
        let begins = |bytes: &[u8]| bytes.chunks(512).map(|block| block[0]).collect::<Vec<_>>();
        let seen: BTreeSet<Vec<u8>> = seen.iter().map(|files| begins(&files[b"A".as_slice()])).collect();
        assert!([b"ono", b"\0no", b"n\0n"].iter().all(|mixture| seen.contains(&mixture[..])), "{seen:?}");
    }

    #[test]
    fn a_file_that_was_never_flushed_may_be_empty_though_it_has_its_name() {
        let disk = with_moment([0; 16], |disk, when| {
            write(disk, b".new", b"bytes", false, when);
            disk.rename((None, b".new"), (None, b"A"), when).unwrap();
            flush(disk, b"/", when);
        });
        let seen = left(&disk);
        assert!(seen.iter().all(|files| files.keys().eq([b"A"])));
        assert!(seen.contains(&named(&[("A", b"")])) && seen.contains(&named(&[("A", b"bytes")])));
        assert!(seen.contains(&named(&[("A", &[0; 5])])));
    }

    #[test]
    fn what_a_failed_flush_had_to_write_stays_unsure() {
        let mut rates = [0; 16];
        rates[FaultKind::FlushFails as usize] = 1;
        let mut disk = with_moment(rates, |disk, when| {
            disk.put_file(b"A", b"old");
            let file = disk.open(None, b"A", O_RDWR, 0, when).unwrap();
            disk.write(file, b"new", when).unwrap();
            assert_eq!(disk.sync(file, when), Err(EIO));
            let root = disk.open(None, b"/", 0, 0, when).unwrap();
            disk.unlink(None, b"dev/../A", when).unwrap();
            assert_eq!(disk.sync(root, when), Err(EIO));
        });
        assert!([named(&[]), named(&[("A", b"old")]), named(&[("A", b"new")])].iter().all(|files| left(&disk).contains(files)));
        // A later flush of the file succeeds and writes nothing, as under Linux; a later flush of the folder writes its changes.
        let mut none = Faults::new(0, [0; 16], 0, BTreeSet::new());
        disk.sync(0, &mut Moment { now: 0, faults: &mut none }).unwrap();
        assert!(left(&disk).contains(&named(&[("A", b"old")])));
        disk.sync(1, &mut Moment { now: 0, faults: &mut none }).unwrap();
        assert_eq!(left(&disk), BTreeSet::from([named(&[])]));
    }

    #[test]
    fn a_power_failure_ends_descriptions_and_is_the_same_for_the_same_seed() {
        let mut disk = with_moment([0; 16], |disk, when| {
            write(disk, b"A", &[1; 4_000], false, when);
            let root = disk.open(None, b"/", 0, 0, when).unwrap();
            disk.lock(root, 2).unwrap();
        });
        let mut again = disk.clone();
        disk.lose_power(&mut Chance::new(5, "power", 0));
        again.lose_power(&mut Chance::new(5, "power", 0));
        assert_eq!(disk.files(b"/"), again.files(b"/"));
        assert!(disk.lock(1, 2).is_err());
        let mut none = Faults::new(0, [0; 16], 0, BTreeSet::new());
        let root = disk.open(None, b"/", 0, 0, &mut Moment { now: 0, faults: &mut none }).unwrap();
        assert_eq!(disk.lock(root, 2), Ok(()));
        disk.lose_power(&mut Chance::new(6, "power", 0));
        assert_eq!(disk.files(b"/"), again.files(b"/"), "a second failure loses nothing more");
    }
}

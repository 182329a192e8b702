//! How paths lead to files, and what may be done there.

use super::nodes::Kind;
use super::{Disk, FileId, NodeId, O_ACCMODE, O_CREAT, O_DIRECTORY, O_RDWR, O_WRONLY, ROOT};
use crate::errno::*;

const MOST_NAME: usize = 255;
const MOST_PATH: usize = 4_095;

/// Where a path leads.
#[derive(Clone, Copy)]
pub(super) struct Place<'p> {
    /// The folder that the last name is in.
    pub(super) folder: NodeId,
    pub(super) name: &'p [u8],
    pub(super) node: Option<NodeId>,
    /// Whether the path ends with a slash, and so names a folder.
    pub(super) names_folder: bool,
}

impl Place<'_> {
    /// Whether the last name is an entry, and not the folder itself or the folder above.
    pub(super) fn is_entry(&self) -> bool {
        !matches!(self.name, b"" | b"." | b"..")
    }
}

impl Disk {
    pub(super) fn walk<'p>(&self, at: Option<FileId>, path: &'p [u8]) -> Result<Place<'p>, Errno> {
        if path.len() > MOST_PATH {
            return Err(ENAMETOOLONG);
        }
        let begin = match at {
            Some(f) if path.first() != Some(&b'/') => self.description(f)?.node,
            None if path.is_empty() => return Err(ENOENT),
            _ => ROOT,
        };
        let names_folder = path.last() == Some(&b'/');
        let mut place = Place { folder: begin, name: b"", node: Some(begin), names_folder };
        for name in path.split(|byte| *byte == b'/').filter(|name| !name.is_empty()) {
            let folder = place.node.ok_or(ENOENT)?;
            let Kind::Folder(inner) = &self.nodes[folder].kind else { return Err(ENOTDIR) };
            if name.len() > MOST_NAME {
                return Err(ENAMETOOLONG);
            }
            let node = match name {
                b"." => Some(folder),
                b".." => Some(inner.parent),
                _ => inner.find(name),
            };
            place = Place { folder, name, node, names_folder };
        }
        match place.node {
            Some(node) if names_folder && !matches!(self.nodes[node].kind, Kind::Folder(_)) => Err(ENOTDIR),
            _ => Ok(place),
        }
    }

    /// Whether what is there can be opened by its owner.
    pub(super) fn may_open(&self, node: NodeId, flags: i32) -> Result<(), Errno> {
        let access = flags & O_ACCMODE;
        let is_folder = matches!(self.nodes[node].kind, Kind::Folder(_));
        if is_folder && (access != 0 || flags & O_CREAT != 0) {
            return Err(EISDIR);
        }
        if !is_folder && flags & O_DIRECTORY != 0 {
            return Err(ENOTDIR);
        }
        let wanted = if access == O_WRONLY { 0o200 } else { 0o400 } | if access == O_RDWR { 0o200 } else { 0 };
        if self.nodes[node].mode & wanted == wanted {
            Ok(())
        } else {
            Err(EACCES)
        }
    }

    /// Whether a rename of a file or folder can take that place.
    pub(super) fn may_replace(&self, node: NodeId, target: Place) -> Result<(), Errno> {
        let is_folder = |node: NodeId| matches!(self.nodes[node].kind, Kind::Folder(_));
        let mut above = target.folder;
        while is_folder(node) && above != ROOT {
            if above == node {
                return Err(EINVAL);
            }
            let Kind::Folder(inner) = &self.nodes[above].kind else { return Err(ENOTDIR) };
            above = inner.parent;
        }
        match target.node.map(|other| (other, &self.nodes[other].kind)) {
            None if target.names_folder && !is_folder(node) => Err(ENOTDIR),
            Some((_, Kind::Folder(_))) if !is_folder(node) => Err(EISDIR),
            Some((other, Kind::Folder(inner))) if other != node && !inner.entries.is_empty() => Err(ENOTEMPTY),
            Some((_, Kind::File(_))) if is_folder(node) => Err(ENOTDIR),
            Some((_, Kind::Null | Kind::Random)) => Err(EACCES),
            _ => Ok(()),
        }
    }
}

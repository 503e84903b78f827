//! What a line says: a transaction or a report.

use std::borrow::Cow;

use smallvec::SmallVec;

use crate::fault::Fault;

#[derive(Clone, Copy, Debug, PartialEq, Eq)]
pub struct Block {
    pub id: u64,
    pub stamp: u64,
    pub len: u64,
}

pub type BlockList = SmallVec<[Block; 2]>;

/// A text that is a path.
#[derive(Debug)]
pub struct PathText<'a>(Cow<'a, str>);

impl<'a> PathText<'a> {
    pub fn parse(text: Cow<'a, str>) -> Result<Self, Fault> {
        if is_path(text.as_bytes()) {
            Ok(PathText(text))
        } else {
            Err(Fault::BadPath)
        }
    }

    /// The text without its leading slash. That of the root is empty.
    pub fn below_root(&self) -> &str {
        &self.0[1..]
    }

    /// The parent, without its leading slash and empty for the root, and the last name. The root has neither.
    pub fn split_last(&self) -> Option<(&str, &str)> {
        let text = &self.0[1..];
        if text.is_empty() {
            return None;
        }
        Some(match memchr::memrchr(b'/', text.as_bytes()) {
            Some(at) => (&text[..at], &text[at + 1..]),
            None => ("", text),
        })
    }

    pub fn is_root(&self) -> bool {
        self.0.len() == 1
    }

    pub fn is_proper_prefix_of(&self, other: &PathText) -> bool {
        let (a, b) = (self.0.as_bytes(), other.0.as_bytes());
        b.len() > a.len() && b.starts_with(a) && (b[a.len()] == b'/' || a.len() == 1)
    }
}

fn is_path(text: &[u8]) -> bool {
    if text.len() > 8000 || text.first() != Some(&b'/') {
        return false;
    }
    if text.len() == 1 {
        return true;
    }
    let mut names = 0;
    let mut start = 1;
    loop {
        let end = text[start..].iter().position(|&b| b == b'/' || b == b':');
        let (name, next) = match end {
            Some(n) if text[start + n] == b':' => return false,
            Some(n) => (&text[start..start + n], Some(start + n + 1)),
            None => (&text[start..], None),
        };
        names += 1;
        if name.is_empty() || name.len() > 255 || names > 1000 || name == b"." || name == b".." {
            return false;
        }
        match next {
            Some(at) => start = at,
            None => return true,
        }
    }
}

#[derive(Debug)]
pub struct Tx<'a> {
    pub txid: u64,
    pub edit: Edit<'a>,
}

#[derive(Debug)]
pub enum Edit<'a> {
    StartSegment {
        profile: u8,
    },
    EndSegment,
    Mkdir {
        path: PathText<'a>,
    },
    Add {
        path: PathText<'a>,
        replication: u64,
    },
    AddBlock {
        path: PathText<'a>,
        id: u64,
        stamp: u64,
    },
    UpdateBlocks {
        path: PathText<'a>,
        blocks: BlockList,
    },
    Close {
        path: PathText<'a>,
        blocks: BlockList,
    },
    Append {
        path: PathText<'a>,
    },
    Rename {
        src: PathText<'a>,
        dst: PathText<'a>,
    },
    Delete {
        path: PathText<'a>,
    },
    SetReplication {
        path: PathText<'a>,
        replication: u64,
    },
    AllocateBlockId {
        id: u64,
    },
    SetGenstamp {
        stamp: u64,
    },
}

#[derive(Clone, Copy, Debug, PartialEq, Eq)]
pub enum Kind {
    Receiving,
    Received,
    Deleted,
    Begin,
    Listed,
    Finish,
}

#[derive(Clone, Copy, Debug)]
pub struct Report {
    pub dn: u16,
    pub kind: Kind,
    pub block: u64,
    pub stamp: u64,
    pub len: u64,
}

#[derive(Debug)]
pub enum Line<'a> {
    Edit(Tx<'a>),
    Report(Report),
}

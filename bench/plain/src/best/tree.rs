//! The namespace tree: one table of (parent, name), nodes in an arena, names in one buffer, children as lists.
use hashbrown::raw::RawTable;
use smallvec::SmallVec;

use crate::fault::Fault;
use crate::hash::{fold, Seeded};
use crate::line::{Block, PathText};

pub type NodeId = u32;
pub const ROOT: NodeId = 0;
const NONE: u32 = u32::MAX;

#[derive(Debug)]
pub struct File {
    pub replication: u16,
    pub closed: bool,
    pub blocks: SmallVec<[Block; 1]>,
}

pub enum Node {
    Dir,
    File(File),
}

impl Node {
    pub fn dir() -> Node {
        Node::Dir
    }
}

pub enum Seen<'a> {
    Dir,
    File(&'a File),
}

struct Inode {
    hash: u64,
    parent: u32,
    next: u32,
    prev: u32,
    /// The first child, or the file.
    below: u32,
    name: u32,
    len: u8,
    dir: bool,
}

pub struct Tree {
    nodes: Vec<Inode>,
    free: Vec<u32>,
    files: Vec<File>,
    free_files: Vec<u32>,
    names: Vec<u8>,
    dead: usize,
    table: RawTable<u32>,
    seed: u64,
}

#[inline(always)]
fn w8(b: &[u8], at: usize) -> u64 {
    u64::from_le_bytes(b[at..at + 8].try_into().unwrap())
}

#[inline(always)]
fn hash_name(seed: u64, parent: u32, name: &[u8]) -> u64 {
    let n = name.len();
    let mut h = seed ^ u64::from(parent) ^ (n as u64) << 40;
    if n >= 8 {
        let mut at = 0;
        while at + 16 <= n {
            h = fold(h ^ w8(name, at), 0x9e37_79b9_7f4a_7c15 ^ w8(name, at + 8));
            at += 16;
        }
        if at + 8 < n {
            h = fold(h ^ w8(name, at), 0x9e37_79b9_7f4a_7c15);
        }
        fold(h ^ w8(name, n - 8), 0x9e37_79b9_7f4a_7c15)
    } else {
        let w = if n >= 4 {
            let a = u32::from_le_bytes(name[..4].try_into().unwrap());
            let b = u32::from_le_bytes(name[n - 4..].try_into().unwrap());
            u64::from(a) << 32 | u64::from(b)
        } else if n > 0 {
            u64::from(name[0]) << 16 | u64::from(name[n / 2]) << 8 | u64::from(name[n - 1])
        } else {
            0
        };
        fold(h ^ w, 0x9e37_79b9_7f4a_7c15)
    }
}

impl Tree {
    pub fn new() -> Self {
        let root = Inode {
            hash: 0,
            parent: 0,
            next: NONE,
            prev: NONE,
            below: NONE,
            name: 0,
            len: 0,
            dir: true,
        };
        Tree {
            nodes: vec![root],
            free: Vec::new(),
            files: Vec::new(),
            free_files: Vec::new(),
            names: Vec::new(),
            dead: 0,
            table: RawTable::new(),
            seed: Seeded::default().0,
        }
    }

    fn name(&self, id: u32) -> &[u8] {
        let node = &self.nodes[id as usize];
        &self.names[node.name as usize..node.name as usize + usize::from(node.len)]
    }

    #[inline]
    fn child(&self, dir: NodeId, name: &[u8]) -> Result<(u64, Option<NodeId>), Fault> {
        if !self.nodes[dir as usize].dir {
            return Err(Fault::NotDirectory);
        }
        let hash = hash_name(self.seed, dir, name);
        let found = self.table.get(hash, |&id| {
            let node = &self.nodes[id as usize];
            node.hash == hash && node.parent == dir && self.name(id) == name
        });
        Ok((hash, found.copied()))
    }

    /// The last directory on the way and the last name.
    #[inline]
    fn walk<'p>(&self, path: &PathText<'p>) -> Result<(NodeId, &'p [u8]), Fault> {
        if path.is_root() {
            return Err(Fault::IsRoot);
        }
        let text = path.text.as_bytes();
        let mut at = ROOT;
        let mut start = 1;
        if text.len() <= 64 {
            let mut rest = path.slashes & !1;
            while rest != 0 {
                let end = rest.trailing_zeros() as usize;
                at = self.child(at, &text[start..end])?.1.ok_or(Fault::Missing)?;
                start = end + 1;
                rest &= rest - 1;
            }
        } else {
            while let Some(n) = memchr::memchr(b'/', &text[start..]) {
                at = self
                    .child(at, &text[start..start + n])?
                    .1
                    .ok_or(Fault::Missing)?;
                start += n + 1;
            }
        }
        if !self.nodes[at as usize].dir {
            return Err(Fault::NotDirectory);
        }
        Ok((at, &text[start..]))
    }

    fn link(&mut self, id: u32, parent: u32) {
        let first = self.nodes[parent as usize].below;
        if first != NONE {
            self.nodes[first as usize].prev = id;
        }
        self.nodes[parent as usize].below = id;
        let node = &mut self.nodes[id as usize];
        node.parent = parent;
        node.next = first;
        node.prev = NONE;
        let nodes = &self.nodes;
        self.table
            .insert(nodes[id as usize].hash, id, |&id| nodes[id as usize].hash);
    }

    fn unlink(&mut self, id: u32) {
        let Inode {
            hash,
            parent,
            next,
            prev,
            ..
        } = self.nodes[id as usize];
        if prev == NONE {
            self.nodes[parent as usize].below = next
        } else {
            self.nodes[prev as usize].next = next
        }
        if next != NONE {
            self.nodes[next as usize].prev = prev
        }
        self.table.remove_entry(hash, |&other| other == id);
    }

    fn keep_name(&mut self, name: &[u8]) -> u32 {
        if self.dead > 4096 && self.dead > self.names.len() / 2 {
            let mut names = Vec::with_capacity(self.names.len());
            for node in &mut self.nodes {
                let at = names.len();
                names.extend_from_slice(
                    &self.names[node.name as usize..node.name as usize + usize::from(node.len)],
                );
                node.name = at as u32;
            }
            self.names = names;
            self.dead = 0;
        }
        let at = self.names.len();
        self.names.extend_from_slice(name);
        at as u32
    }

    pub fn insert(&mut self, path: &PathText, node: Node) -> Result<(), Fault> {
        let (parent, name) = self.walk(path)?;
        let (hash, found) = self.child(parent, name)?;
        if found.is_some() {
            return Err(Fault::Exists);
        }
        let at = self.keep_name(name);
        let (dir, below) = match node {
            Node::Dir => (true, NONE),
            Node::File(file) => (
                false,
                match self.free_files.pop() {
                    Some(n) => {
                        self.files[n as usize] = file;
                        n
                    }
                    None => {
                        self.files.push(file);
                        self.files.len() as u32 - 1
                    }
                },
            ),
        };
        let inode = Inode {
            hash,
            parent,
            next: NONE,
            prev: NONE,
            below,
            name: at,
            len: name.len() as u8,
            dir,
        };
        let id = match self.free.pop() {
            Some(id) => {
                self.nodes[id as usize] = inode;
                id
            }
            None => {
                self.nodes.push(inode);
                self.nodes.len() as u32 - 1
            }
        };
        self.link(id, parent);
        Ok(())
    }

    pub fn mkdir(&mut self, path: &PathText) -> Result<(), Fault> {
        self.insert(path, Node::Dir)
    }

    pub fn add(&mut self, path: &PathText, replication: u64) -> Result<(), Fault> {
        let replication = read_replication(path, replication)?;
        self.insert(
            path,
            Node::File(File {
                replication,
                closed: false,
                blocks: SmallVec::new(),
            }),
        )
    }

    pub fn file_mut(&mut self, path: &PathText) -> Result<&mut File, Fault> {
        if path.is_root() {
            return Err(Fault::IsRoot);
        }
        let (parent, name) = self.walk(path)?;
        let id = self.child(parent, name)?.1.ok_or(Fault::Missing)?;
        let node = &self.nodes[id as usize];
        if node.dir {
            Err(Fault::NotFile)
        } else {
            Ok(&mut self.files[node.below as usize])
        }
    }

    pub fn open_file_mut(&mut self, path: &PathText) -> Result<&mut File, Fault> {
        let file = self.file_mut(path)?;
        if file.closed {
            Err(Fault::NotOpen)
        } else {
            Ok(file)
        }
    }

    pub fn set_replication(&mut self, path: &PathText, replication: u64) -> Result<(), Fault> {
        let replication = read_replication(path, replication)?;
        self.file_mut(path)?.replication = replication;
        Ok(())
    }

    pub fn rename(&mut self, src: &PathText, dst: &PathText) -> Result<(), Fault> {
        if dst.is_root() {
            return Err(Fault::IsRoot);
        }
        let (src_parent, src_name) = self.walk(src)?;
        let moved = self.child(src_parent, src_name)?.1.ok_or(Fault::Missing)?;
        if src.is_proper_prefix_of(dst) {
            return Err(Fault::IntoItself);
        }
        let (dst_parent, dst_name) = self.walk(dst)?;
        let (hash, found) = self.child(dst_parent, dst_name)?;
        if found.is_some() {
            return Err(Fault::Exists);
        }
        self.unlink(moved);
        if self.name(moved) != dst_name {
            self.dead += usize::from(self.nodes[moved as usize].len);
            self.nodes[moved as usize].len = 0;
            let at = self.keep_name(dst_name);
            let node = &mut self.nodes[moved as usize];
            node.name = at;
            node.len = dst_name.len() as u8;
        }
        self.nodes[moved as usize].hash = hash;
        self.link(moved, dst_parent);
        Ok(())
    }

    pub fn delete(&mut self, path: &PathText, mut retire: impl FnMut(u64)) -> Result<(), Fault> {
        let (parent, name) = self.walk(path)?;
        let gone = self.child(parent, name)?.1.ok_or(Fault::Missing)?;
        self.unlink(gone);
        let mut stack = vec![gone];
        while let Some(id) = stack.pop() {
            let Inode {
                below, dir, len, ..
            } = self.nodes[id as usize];
            self.dead += usize::from(len);
            self.nodes[id as usize].len = 0;
            if dir {
                let mut child = below;
                while child != NONE {
                    let Inode { hash, next, .. } = self.nodes[child as usize];
                    self.table.remove_entry(hash, |&other| other == child);
                    stack.push(child);
                    child = next;
                }
            } else {
                let file = std::mem::replace(
                    &mut self.files[below as usize],
                    File {
                        replication: 0,
                        closed: false,
                        blocks: SmallVec::new(),
                    },
                );
                file.blocks.iter().for_each(|block| retire(block.id));
                self.free_files.push(below);
            }
            self.free.push(id);
        }
        Ok(())
    }

    /// Visits every path in path order, the root first as `/`; paths come as JSON text without quotes.
    pub fn visit<E>(&self, mut visit: impl FnMut(&[u8], Seen) -> Result<(), E>) -> Result<(), E> {
        let sorted = |id: u32| {
            let mut list = Vec::new();
            let node = &self.nodes[id as usize];
            if node.dir {
                let mut child = node.below;
                while child != NONE {
                    let name = self.name(child);
                    let mut head = [0; 8];
                    let n = name.len().min(8);
                    head[..n].copy_from_slice(&name[..n]);
                    list.push((u64::from_be_bytes(head), child));
                    child = self.nodes[child as usize].next;
                }
                list.reverse();
                list.sort_unstable_by(|a, b| {
                    a.0.cmp(&b.0)
                        .then_with(|| self.name(a.1).cmp(self.name(b.1)))
                });
            }
            list
        };
        visit(b"/", Seen::Dir)?;
        let mut path = Vec::new();
        let mut stack = vec![(sorted(ROOT).into_iter(), 0)];
        while let Some((children, len)) = stack.last_mut() {
            path.truncate(*len);
            let Some((_, id)) = children.next() else {
                stack.pop();
                continue;
            };
            path.push(b'/');
            push_escaped(&mut path, self.name(id));
            let node = &self.nodes[id as usize];
            if node.dir {
                visit(&path, Seen::Dir)?;
                if node.below != NONE {
                    stack.push((sorted(id).into_iter(), path.len()));
                }
            } else {
                visit(&path, Seen::File(&self.files[node.below as usize]))?;
            }
        }
        Ok(())
    }
}

/// Root before replication, replication before the walk.
fn read_replication(path: &PathText, replication: u64) -> Result<u16, Fault> {
    match (path.is_root(), replication) {
        (true, _) => Err(Fault::IsRoot),
        (false, 1..=512) => Ok(replication as u16),
        _ => Err(Fault::BadReplication),
    }
}

fn push_escaped(path: &mut Vec<u8>, name: &[u8]) {
    if name.iter().fold(true, |good, &b| {
        good & (b >= 0x20) & (b != b'"') & (b != b'\\')
    }) {
        path.extend_from_slice(name);
    } else {
        let name = std::str::from_utf8(name).expect("names come from texts");
        let text = serde_json::to_vec(name).expect("a text is JSON");
        path.extend_from_slice(&text[1..text.len() - 1]);
    }
}

//! The same structure as nn_tree in plain Rust: a tree of ordered maps, an index of the blocks of all files, and the
//! ids that wait. It checks what nn_tree checks, and an edit tells what it touched. `tree WORK` times one work of edits.
use std::collections::{BTreeMap, BTreeSet};
use std::time::Instant;

#[derive(Debug)]
enum Fault {
    Exists,
    Missing,
    NotDirectory,
    NotFile,
    IsRoot,
    IntoItself,
    NotOpen,
    WrongBlocks,
    BadGeneration,
    BadBlockId,
    BadReplication,
}

#[derive(Clone, Copy)]
struct Block {
    id: u64,
    stamp: u64,
    len: u64,
}

#[derive(Clone, Copy)]
#[allow(dead_code)]
struct BlockRow {
    block: Block,
    closed: bool,
}

#[allow(dead_code)]
struct FileRow {
    replication: u16,
    closed: bool,
    blocks: Vec<Block>,
}

enum Node {
    Folder(BTreeMap<String, Node>),
    Leaf(FileRow),
}

type Path = Vec<String>;

enum Edit {
    Mkdir { path: Path },
    Add { path: Path, replication: u16 },
    AddBlock { path: Path, id: u64, stamp: u64 },
    Close { path: Path, blocks: Vec<Block> },
    Rename { src: Path, dst: Path },
    AllocateBlockId { id: u64 },
    SetGenstamp { stamp: u64 },
}

#[derive(Default)]
#[allow(dead_code)]
struct Touched {
    changed: Vec<Block>,
    retired: Vec<u64>,
    skipped: Option<(u64, u64)>,
}

impl Node {
    // Walks the parents of a path, and then gives what stands at it.
    fn reach(&self, names: &[String]) -> Result<Option<&Node>, Fault> {
        let Some((first, rest)) = names.split_first() else {
            return Ok(Some(self));
        };
        let Node::Folder(children) = self else {
            return Err(Fault::NotDirectory);
        };
        match children.get(first) {
            Some(child) => child.reach(rest),
            None if rest.is_empty() => Ok(None),
            None => Err(Fault::Missing),
        }
    }

    fn file_mut(&mut self, names: &[String]) -> Result<&mut FileRow, Fault> {
        let Some((first, rest)) = names.split_first() else {
            return match self {
                Node::Leaf(file) => Ok(file),
                Node::Folder(_) => Err(Fault::NotFile),
            };
        };
        let Node::Folder(children) = self else {
            return Err(Fault::NotDirectory);
        };
        children.get_mut(first).ok_or(Fault::Missing)?.file_mut(rest)
    }

    // The children of the directory that the path lies in, and its last name.
    fn parent<'a>(&mut self, names: &'a [String]) -> Result<(&mut BTreeMap<String, Node>, &'a String), Fault> {
        let Node::Folder(children) = self else {
            return Err(Fault::NotDirectory);
        };
        let (first, rest) = names.split_first().ok_or(Fault::IsRoot)?;
        if rest.is_empty() {
            return Ok((children, first));
        }
        children.get_mut(first).ok_or(Fault::Missing)?.parent(rest)
    }

    fn make(&mut self, path: &[String], node: Node) -> Result<(), Fault> {
        let (children, name) = self.parent(path)?;
        if children.contains_key(name) {
            return Err(Fault::Exists);
        }
        children.insert(name.clone(), node);
        Ok(())
    }
}

struct Namespace {
    root: Node,
    index: BTreeMap<u64, BlockRow>,
    waiting: BTreeSet<u64>,
    last_block: u64,
    last_stamp: u64,
}

impl Namespace {
    fn new() -> Namespace {
        Namespace {
            root: Node::Folder(BTreeMap::new()),
            index: BTreeMap::new(),
            waiting: BTreeSet::new(),
            last_block: 1_073_741_824,
            last_stamp: 1000,
        }
    }

    fn apply(&mut self, edit: &Edit) -> Result<Touched, Fault> {
        match edit {
            Edit::Mkdir { path } => {
                self.root.make(path, Node::Folder(BTreeMap::new()))?;
                Ok(Touched::default())
            }
            Edit::Add { path, replication } => self.add(path, *replication),
            Edit::AddBlock { path, id, stamp } => self.add_block(path, *id, *stamp),
            Edit::Close { path, blocks } => self.close(path, blocks),
            Edit::Rename { src, dst } => self.rename(src, dst),
            Edit::AllocateBlockId { id } => self.allocate(*id),
            Edit::SetGenstamp { stamp } => {
                if *stamp <= self.last_stamp {
                    return Err(Fault::BadGeneration);
                }
                self.last_stamp = *stamp;
                Ok(Touched::default())
            }
        }
    }

    fn add(&mut self, path: &Path, replication: u16) -> Result<Touched, Fault> {
        if !(1..=512).contains(&replication) {
            return Err(Fault::BadReplication);
        }
        let file = FileRow { replication, closed: false, blocks: Vec::new() };
        self.root.make(path, Node::Leaf(file))?;
        Ok(Touched::default())
    }

    fn add_block(&mut self, path: &Path, id: u64, stamp: u64) -> Result<Touched, Fault> {
        let file = self.root.file_mut(path)?;
        if file.closed {
            return Err(Fault::NotOpen);
        }
        if !self.waiting.contains(&id) {
            return Err(Fault::BadBlockId);
        }
        if stamp <= 1000 || self.last_stamp < stamp {
            return Err(Fault::BadGeneration);
        }
        let block = Block { id, stamp, len: 0 };
        file.blocks.push(block);
        self.index.insert(id, BlockRow { block, closed: false });
        self.waiting.remove(&id);
        Ok(Touched { changed: vec![block], ..Touched::default() })
    }

    fn close(&mut self, path: &Path, blocks: &[Block]) -> Result<Touched, Fault> {
        let file = self.root.file_mut(path)?;
        if file.closed {
            return Err(Fault::NotOpen);
        }
        let old = &file.blocks;
        let kept = old.iter().zip(blocks).all(|(a, b)| a.id == b.id);
        if !kept || blocks.len() > old.len() || old.len() > blocks.len() + 1 {
            return Err(Fault::WrongBlocks);
        }
        if old.iter().zip(blocks).any(|(a, b)| b.stamp < a.stamp || self.last_stamp < b.stamp) {
            return Err(Fault::BadGeneration);
        }
        let retired: Vec<u64> = old[blocks.len()..].iter().map(|b| b.id).collect();
        for id in &retired {
            self.index.remove(id);
        }
        for block in blocks {
            if let Some(row) = self.index.get_mut(&block.id) {
                *row = BlockRow { block: *block, closed: true };
            }
        }
        file.blocks = blocks.to_vec();
        file.closed = true;
        Ok(Touched { changed: blocks.to_vec(), retired, skipped: None })
    }

    fn rename(&mut self, src: &Path, dst: &Path) -> Result<Touched, Fault> {
        if src.is_empty() || dst.is_empty() {
            return Err(Fault::IsRoot);
        }
        if self.root.reach(src)?.is_none() {
            return Err(Fault::Missing);
        }
        if src.len() < dst.len() && dst.starts_with(src) {
            return Err(Fault::IntoItself);
        }
        if self.root.reach(dst)?.is_some() {
            return Err(Fault::Exists);
        }
        let (children, name) = self.root.parent(src)?;
        let node = children.remove(name).ok_or(Fault::Missing)?;
        self.root.make(dst, node)?;
        Ok(Touched::default())
    }

    fn allocate(&mut self, id: u64) -> Result<Touched, Fault> {
        if id <= self.last_block {
            return Err(Fault::BadBlockId);
        }
        let skipped = (id > self.last_block + 1).then_some((self.last_block + 1, id - 1));
        self.waiting.insert(id);
        self.last_block = id;
        Ok(Touched { skipped, ..Touched::default() })
    }
}

fn path_of(text: &str) -> Path {
    text.split('/').skip(1).map(str::to_string).collect()
}

fn directories(above: &str, tops: u32) -> Vec<Edit> {
    let mut edits = Vec::new();
    for top in 0..tops {
        edits.push(Edit::Mkdir { path: path_of(&format!("{above}/directory-{top}")) });
        for inner in 0..999 {
            let text = format!("{above}/directory-{top}/directory-{inner}");
            edits.push(Edit::Mkdir { path: path_of(&text) });
        }
    }
    edits
}

fn files() -> Vec<Edit> {
    let mut edits = vec![Edit::SetGenstamp { stamp: 1001 }];
    let mut id = 1_073_741_825;
    for top in 0..300 {
        edits.push(Edit::Mkdir { path: path_of(&format!("/directory-{top}")) });
        for inner in 0..1000 {
            let text = format!("/directory-{top}/file-{inner}");
            edits.push(Edit::Add { path: path_of(&text), replication: 3 });
            let mut blocks = Vec::new();
            for _ in 0..3 {
                edits.push(Edit::AllocateBlockId { id });
                edits.push(Edit::AddBlock { path: path_of(&text), id, stamp: 1001 });
                blocks.push(Block { id, stamp: 1001, len: 134_217_728 });
                id += 1;
            }
            edits.push(Edit::Close { path: path_of(&text), blocks });
        }
    }
    edits
}

// 100,000 paths below /big, and a file beside it.
fn subtree() -> Vec<Edit> {
    let mut edits = vec![
        Edit::Add { path: path_of("/file"), replication: 3 },
        Edit::Mkdir { path: path_of("/big") },
    ];
    edits.extend(directories("/big", 100));
    edits
}

// A move there and back, again and again.
fn renames(one: &str, other: &str) -> Vec<Edit> {
    let mut edits = Vec::new();
    for _ in 0..250_000 {
        edits.push(Edit::Rename { src: path_of(one), dst: path_of(other) });
        edits.push(Edit::Rename { src: path_of(other), dst: path_of(one) });
    }
    edits
}

fn main() {
    let word = std::env::args().nth(1).expect("a work");
    let (before, edits) = match word.as_str() {
        "mkdirs" => (Vec::new(), directories("", 1000)),
        "files" => (Vec::new(), files()),
        "move_directory" => (subtree(), renames("/big", "/moved")),
        _ => (subtree(), renames("/file", "/gone")),
    };
    let mut namespace = Namespace::new();
    for edit in &before {
        namespace.apply(edit).unwrap();
    }
    let start = Instant::now();
    for edit in &edits {
        namespace.apply(edit).unwrap();
    }
    println!("{word} {} edits {} us", edits.len(), start.elapsed().as_micros());
    let blocks: u64 = namespace.index.values().map(|row| row.block.len).sum();
    assert!(blocks < u64::MAX);
}

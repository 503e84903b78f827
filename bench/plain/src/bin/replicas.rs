//! The work of nn_replicas in plain Rust: 300,000 blocks of closed files, and 1,000,000 reports of them by DataNodes
//! from 1 to 256, three of each block, with running counters. It prints how many blocks there are, and how many of
//! them are safe.
use smallvec::SmallVec;
use std::collections::BTreeMap;

const FIRST: u64 = 1_073_741_825;
const BLOCKS: u64 = 300_000;
const PUTS: u64 = 1_000_000;

#[derive(Clone, Copy)]
struct Block {
    #[allow(dead_code)]
    id: u64,
    stamp: u64,
    len: u64,
}

#[derive(Clone, Copy)]
struct Row {
    block: Block,
    closed: bool,
}

#[derive(Clone, Copy, PartialEq)]
enum Kind {
    #[allow(dead_code)]
    Receiving,
    Received,
}

#[derive(Clone, Copy)]
struct Replica {
    stamp: u64,
    len: u64,
    kind: Kind,
}

#[derive(Clone, Copy, Default)]
struct Cell {
    replica: Option<Replica>,
    ordered: bool,
}

#[derive(Default)]
struct Entry {
    row: Option<Row>,
    cells: SmallVec<[(u16, Cell); 3]>,
}

impl Entry {
    fn is_safe(&self, min: u16) -> bool {
        let Some(row) = self.row else {
            return false;
        };
        let is_live = |cell: &&(u16, Cell)| {
            cell.1.replica.is_some_and(|replica| {
                replica.stamp == row.block.stamp
                    && replica.kind == Kind::Received
                    && replica.len == row.block.len
            })
        };
        row.closed && usize::from(min) <= self.cells.iter().filter(is_live).count()
    }
}

struct Replicas {
    min: u16,
    entries: BTreeMap<u64, Entry>,
    total: u64,
    safe: u64,
}

impl Replicas {
    fn set_block(&mut self, block: Block, closed: bool) {
        let entry = self.entries.entry(block.id).or_default();
        let was_closed = entry.row.is_some_and(|row| row.closed);
        let was_safe = entry.is_safe(self.min);
        entry.row = Some(Row { block, closed });
        self.total = self.total - u64::from(was_closed) + u64::from(closed);
        self.safe = self.safe - u64::from(was_safe) + u64::from(entry.is_safe(self.min));
    }

    fn put(&mut self, dn: u16, block: u64, replica: Replica) {
        let entry = self.entries.entry(block).or_default();
        let was_safe = entry.is_safe(self.min);
        let place = entry.cells.iter().position(|cell| cell.0 >= dn);
        let place = place.unwrap_or(entry.cells.len());
        if entry.cells.get(place).is_none_or(|cell| cell.0 != dn) {
            entry.cells.insert(place, (dn, Cell::default()));
        }
        let cell = &mut entry.cells[place].1;
        if entry.row.is_some() {
            cell.replica = Some(replica);
        } else {
            cell.ordered = true;
        }
        self.safe = self.safe - u64::from(was_safe) + u64::from(entry.is_safe(self.min));
    }
}

fn main() {
    let mut table = Replicas {
        min: 1,
        entries: BTreeMap::new(),
        total: 0,
        safe: 0,
    };
    for n in 0..BLOCKS {
        let block = Block {
            id: FIRST + n,
            stamp: 1001,
            len: 5,
        };
        table.set_block(block, true);
    }
    for i in 0..PUTS {
        let n = i * 7919 % BLOCKS;
        let dn = (n * 31 + i / BLOCKS % 3) % 256 + 1;
        let replica = Replica {
            stamp: 1001,
            len: 5,
            kind: Kind::Received,
        };
        table.put(dn as u16, FIRST + n, replica);
    }
    println!("{} {}", table.total, table.safe);
}

//! The blocks with their replicas, the delete orders, and the counts of safe mode.
use std::collections::{btree_map, BTreeMap};

use hashbrown::raw::RawTable;
use smallvec::SmallVec;

use crate::hash::{fold, Seeded};
use crate::line::Block;

#[derive(Clone, Copy, Debug, PartialEq, Eq)]
pub enum State {
    Receiving,
    Received,
    Deleted,
}

#[derive(Clone, Copy, Debug)]
pub struct Item {
    pub stamp: u64,
    pub len: u64,
    pub dn: u16,
    pub state: State,
}

pub type Replica = Item;

#[derive(Clone, Copy, Debug, PartialEq, Eq)]
pub enum Class {
    Live,
    Building,
    Stale,
    Ahead,
    WrongLength,
}

#[derive(Debug)]
pub struct Row {
    /// 0: none
    id: u64,
    pub stamp: u64,
    pub len: u64,
    closed: bool,
    live: u16,
    replicas: SmallVec<[Replica; 3]>,
}

impl Row {
    #[inline]
    pub fn class(&self, replica: &Replica) -> Class {
        if replica.stamp < self.stamp {
            Class::Stale
        } else if replica.stamp > self.stamp {
            Class::Ahead
        } else if replica.state == State::Receiving {
            Class::Building
        } else if replica.len == self.len {
            Class::Live
        } else {
            Class::WrongLength
        }
    }

    #[inline]
    fn is_live(&self, replica: &Replica) -> bool {
        replica.state == State::Received && replica.stamp == self.stamp && replica.len == self.len
    }

    #[inline]
    fn counts_as_safe(&self, min: u16) -> bool {
        self.closed && self.live >= min
    }

    pub fn replicas(&self) -> &[Replica] {
        &self.replicas
    }
}

pub struct BlockTable {
    min: u16,
    index: RawTable<(u64, u32)>,
    rows: Vec<Row>,
    free: Vec<u32>,
    seed: u64,
    orders: BTreeMap<u64, SmallVec<[u16; 8]>>,
    total: u64,
    safe: u64,
}

pub struct RowMut<'a> {
    row: &'a mut Row,
    min: u16,
    total: &'a mut u64,
    safe: &'a mut u64,
}

impl RowMut<'_> {
    pub fn stamp(&self) -> u64 {
        self.row.stamp
    }

    #[inline]
    fn change(&mut self, change: impl FnOnce(&mut Row)) {
        *self.total -= u64::from(self.row.closed);
        *self.safe -= u64::from(self.row.counts_as_safe(self.min));
        change(self.row);
        *self.total += u64::from(self.row.closed);
        *self.safe += u64::from(self.row.counts_as_safe(self.min));
    }

    #[inline]
    fn set(&mut self, block: Block, closed: bool) {
        self.change(|row| {
            row.closed = closed;
            if (row.stamp, row.len) != (block.stamp, block.len) {
                row.stamp = block.stamp;
                row.len = block.len;
                row.live = row
                    .replicas
                    .iter()
                    .filter(|replica| row.is_live(replica))
                    .count() as u16;
            }
        });
    }

    #[inline]
    pub fn process(&mut self, item: Item) {
        self.change(|row| {
            let n = row.replicas.len();
            let at = if n <= 8 {
                let mut i = 0;
                while i < n && row.replicas[i].dn < item.dn {
                    i += 1;
                }
                if i < n && row.replicas[i].dn == item.dn {
                    Ok(i)
                } else {
                    Err(i)
                }
            } else {
                row.replicas
                    .binary_search_by_key(&item.dn, |replica| replica.dn)
            };
            if let Ok(at) = at {
                row.live -= u16::from(row.is_live(&row.replicas[at]));
            }
            row.live += u16::from(row.is_live(&item));
            match (at, item.state) {
                (Ok(at), State::Deleted) => drop(row.replicas.remove(at)),
                (Ok(at), _) => row.replicas[at] = item,
                (Err(_), State::Deleted) => {}
                (Err(at), _) if at == n => row.replicas.push(item),
                (Err(at), _) => row.replicas.insert(at, item),
            }
        });
    }
}

impl BlockTable {
    pub fn new(min: u16) -> Self {
        BlockTable {
            min,
            index: RawTable::new(),
            rows: Vec::new(),
            free: Vec::new(),
            seed: Seeded::default().0,
            orders: BTreeMap::new(),
            total: 0,
            safe: 0,
        }
    }

    #[inline(always)]
    fn hash(&self, id: u64) -> u64 {
        fold(id ^ self.seed, 0x9e37_79b9_7f4a_7c15)
    }

    #[inline]
    pub fn row_mut(&mut self, id: u64) -> Option<RowMut<'_>> {
        let &(_, at) = self.index.get(self.hash(id), |e| e.0 == id)?;
        Some(RowMut {
            row: &mut self.rows[at as usize],
            min: self.min,
            total: &mut self.total,
            safe: &mut self.safe,
        })
    }

    #[inline]
    pub fn set_block(&mut self, block: Block, closed: bool) -> RowMut<'_> {
        let hash = self.hash(block.id);
        let at = match self.index.get(hash, |e| e.0 == block.id) {
            Some(&(_, at)) => at,
            None => {
                let row = Row {
                    id: block.id,
                    stamp: block.stamp,
                    len: block.len,
                    closed: false,
                    live: 0,
                    replicas: SmallVec::new(),
                };
                let at = match self.free.pop() {
                    Some(at) => {
                        self.rows[at as usize] = row;
                        at
                    }
                    None => {
                        self.rows.push(row);
                        self.rows.len() as u32 - 1
                    }
                };
                let seed = self.seed;
                self.index.insert(hash, (block.id, at), |e| {
                    fold(e.0 ^ seed, 0x9e37_79b9_7f4a_7c15)
                });
                at
            }
        };
        let mut row = RowMut {
            row: &mut self.rows[at as usize],
            min: self.min,
            total: &mut self.total,
            safe: &mut self.safe,
        };
        row.set(block, closed);
        row
    }

    pub fn retire(&mut self, id: u64) {
        let hash = self.hash(id);
        let Some((_, at)) = self.index.remove_entry(hash, |e| e.0 == id) else {
            return;
        };
        let gone = Row {
            id: 0,
            stamp: 0,
            len: 0,
            closed: false,
            live: 0,
            replicas: SmallVec::new(),
        };
        let row = std::mem::replace(&mut self.rows[at as usize], gone);
        self.free.push(at);
        self.total -= u64::from(row.closed);
        self.safe -= u64::from(row.counts_as_safe(self.min));
        if !row.replicas.is_empty() {
            let dns = row.replicas.iter().map(|replica| replica.dn).collect();
            self.orders.insert(id, dns);
        }
    }

    pub fn process_order(&mut self, id: u64, item: Item) {
        if item.state != State::Deleted {
            let dns = self.orders.entry(id).or_default();
            if let Err(at) = dns.binary_search(&item.dn) {
                dns.insert(at, item.dn);
            }
        } else if let btree_map::Entry::Occupied(mut entry) = self.orders.entry(id) {
            if let Ok(at) = entry.get().binary_search(&item.dn) {
                entry.get_mut().remove(at);
                if entry.get().is_empty() {
                    entry.remove();
                }
            }
        }
    }

    pub fn standing(&self, dn: u16) -> impl Iterator<Item = u64> + '_ {
        let rows = self
            .rows
            .iter()
            .filter(move |row| row.id != 0 && row.replicas.iter().any(|replica| replica.dn == dn));
        let orders = self
            .orders
            .iter()
            .filter(move |(_, dns)| dns.binary_search(&dn).is_ok());
        rows.map(|row| row.id).chain(orders.map(|(&id, _)| id))
    }

    pub fn sorted_rows(&self) -> Vec<(u64, &Row)> {
        let mut rows: Vec<_> = self
            .rows
            .iter()
            .filter(|row| row.id != 0)
            .map(|row| (row.id, row))
            .collect();
        rows.sort_unstable_by_key(|&(id, _)| id);
        rows
    }

    pub fn orders(&self) -> impl Iterator<Item = (u64, u16)> + '_ {
        self.orders
            .iter()
            .flat_map(|(&id, dns)| dns.iter().map(move |&dn| (id, dn)))
    }

    pub fn total(&self) -> u64 {
        self.total
    }

    pub fn safe(&self) -> u64 {
        self.safe
    }
}

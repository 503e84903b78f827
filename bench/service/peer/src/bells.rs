//! What the threads of a service share beside its channels.

use std::sync::atomic::{AtomicBool, AtomicU64, AtomicUsize, Ordering::SeqCst};
use std::thread::{self, Thread};
use std::time::Duration;

use crossbeam_utils::CachePadded;

/// Who has something for the standby, and who sleeps.
///
/// The standby says that it is asleep, looks once more, and then parks. Whoever brings something brings it first, and then
/// looks whether it is asleep. Bit i % 64 of word i / 64 is of worker i.
pub struct Bells {
    standby: Thread,
    is_asleep: CachePadded<AtomicBool>,
    is_closed: CachePadded<AtomicBool>,
    ended: CachePadded<AtomicUsize>,
    reported: Vec<CachePadded<AtomicU64>>,
    /// Whether each worker waits at a full lane.
    waiting: Vec<CachePadded<AtomicBool>>,
}

impl Bells {
    /// For so many workers of the standby that is this thread.
    pub fn new(workers: usize) -> Bells {
        Bells {
            standby: thread::current(),
            is_asleep: CachePadded::default(),
            is_closed: CachePadded::default(),
            ended: CachePadded::default(),
            reported: (0..workers.div_ceil(64))
                .map(|_| CachePadded::default())
                .collect(),
            waiting: (0..workers).map(|_| CachePadded::default()).collect(),
        }
    }

    /// Wakes the standby where it sleeps.
    pub fn wake(&self) {
        if self.is_asleep.load(SeqCst) && self.is_asleep.swap(false, SeqCst) {
            self.standby.unpark();
        }
    }

    /// This worker has sent something.
    pub fn report(&self, worker: usize) {
        let word = &self.reported[worker / 64];
        let bit = 1 << (worker % 64);
        if word.load(SeqCst) & bit == 0 {
            word.fetch_or(bit, SeqCst);
            self.wake();
        }
    }

    /// A worker has ended.
    pub fn end(&self) {
        self.ended.fetch_add(1, SeqCst);
        self.wake();
    }

    /// How many workers have.
    pub fn ended(&self) -> usize {
        self.ended.load(SeqCst)
    }

    /// The standby takes no more reports.
    pub fn close(&self) {
        self.is_closed.store(true, SeqCst);
    }

    pub fn is_closed(&self) -> bool {
        self.is_closed.load(SeqCst)
    }

    /// How many words there are.
    pub fn words(&self) -> usize {
        self.reported.len()
    }

    /// The workers of this word that have reported since they were last taken.
    pub fn take(&self, word: usize) -> u64 {
        if self.reported[word].load(SeqCst) == 0 {
            return 0;
        }
        self.reported[word].swap(0, SeqCst)
    }

    /// Sleeps until it is woken, for so long at most, unless a worker has reported or something else was brought.
    pub fn sleep(&self, at_most: Duration, is_brought: impl Fn() -> bool) {
        self.is_asleep.store(true, SeqCst);
        let has_report = self.reported.iter().any(|word| word.load(SeqCst) != 0);
        if !has_report && !is_brought() {
            thread::park_timeout(at_most);
        }
        self.is_asleep.store(false, SeqCst);
    }

    /// This worker found its lane full: it says so, looks again, and parks.
    pub fn wait(&self, worker: usize) {
        self.waiting[worker].store(true, SeqCst);
    }

    pub fn wait_no_more(&self, worker: usize) {
        self.waiting[worker].store(false, SeqCst);
    }

    /// There is room in the lane of this worker, whose thread this is.
    pub fn has_room(&self, worker: usize, thread: &Thread) {
        if self.waiting[worker].load(SeqCst) && self.waiting[worker].swap(false, SeqCst) {
            thread.unpark();
        }
    }
}

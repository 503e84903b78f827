//! DataNodes that report their one replica at a pace, and a log with a segment each second: what `source` says, and does of the
//! proved standby.

use std::error::Error;
use std::fmt::Write;
use std::num::NonZeroU64;
use std::sync::atomic::{AtomicBool, AtomicU64, Ordering::SeqCst};
use std::sync::Arc;
use std::thread;
use std::time::Duration;
use std::vec;

use plain::engine::{FIRST_BLOCK, FIRST_STAMP};
use plain::line::{Kind, Report};

use crate::clock::{now, Used};
use crate::history::Event;
use crate::log::{read_segment, Segment, SegmentSource};
use crate::service::{serve, Operator, Request, Standby};
use crate::worker::ReportSource;

const SECOND: u64 = 1_000_000;

/// When the first reports are given, and the time that is measured, from the start.
const FIRST_REPORTS: u64 = SECOND;
const BEGIN: u64 = 2 * SECOND;
const END: u64 = 12 * SECOND;

/// More segments than are given by then, and how many edits each has.
const SEGMENTS: u64 = 16;
const EDITS: u64 = 100;

/// The first segment names the block that all DataNodes have.
const FIRST_SEGMENT: &str = r#"{"op":"OP_START_LOG_SEGMENT","txid":1}
{"op":"OP_SET_GENSTAMP_V2","gen":1001,"txid":2}
{"op":"OP_ALLOCATE_BLOCK_ID","id":1073741825,"txid":3}
{"op":"OP_ADD","path":"/f","replication":2,"txid":4}
{"op":"OP_ADD_BLOCK","gen":1001,"id":1073741825,"path":"/f","txid":5}
{"op":"OP_CLOSE","blocks":[{"gen":1001,"id":1073741825,"len":5}],"path":"/f","txid":6}
{"op":"OP_END_LOG_SEGMENT","txid":7}
"#;

/// The numbers that `source` tells of so many DataNodes, with so many microseconds between two reports of each, and the
/// promoted standby.
pub fn run(datanodes: usize, period: NonZeroU64) -> Result<(Vec<u64>, Standby), Box<dyn Error>> {
    let period = period.get();
    let shared = Shared::new(datanodes, period);
    let log = Log::new(&shared).ok_or("a segment is refused")?;
    let nodes = DataNode::all(&shared, datanodes, period);
    let mut observer = Observer::new(&shared);
    let served = serve(log, nodes, &mut observer)?;
    for worker in served.workers {
        worker.join().map_err(|_| "a worker panicked")?;
    }
    Ok((observer.numbers()?, served.standby))
}

struct Shared {
    start: u64,
    /// When each report was given, from the start: so many of each DataNode, in order of the DataNodes.
    given: Vec<AtomicU64>,
    reports: usize,
    has_ended: AtomicBool,
}

impl Shared {
    fn new(datanodes: usize, period: u64) -> Arc<Shared> {
        let reports = (END / period + 16) as usize;
        Arc::new(Shared {
            start: now(),
            given: (0..datanodes * reports)
                .map(|_| AtomicU64::new(0))
                .collect(),
            reports,
            has_ended: AtomicBool::new(false),
        })
    }

    /// When this DataNode gave its message with this number.
    fn given(&self, dn: u16, number: u64) -> Option<u64> {
        let place = (usize::from(dn) - 1) * self.reports + number as usize - 1;
        self.given.get(place).map(|given| given.load(SeqCst))
    }
}

/// Reports its one replica, again and again.
struct DataNode {
    shared: Arc<Shared>,
    due: u64,
    period: u64,
    /// Where the time of its next report is noted.
    place: usize,
}

impl DataNode {
    fn all(shared: &Arc<Shared>, datanodes: usize, period: u64) -> Vec<DataNode> {
        let apart = period / datanodes as u64;
        let node = |place| DataNode {
            shared: shared.clone(),
            due: shared.start + FIRST_REPORTS + place as u64 * apart,
            period,
            place: place * shared.reports,
        };
        (0..datanodes).map(node).collect()
    }
}

impl ReportSource for DataNode {
    fn next(&mut self) -> Option<Report> {
        let left = self.due.saturating_sub(now());
        thread::sleep(Duration::from_micros(left));
        self.due += self.period;
        if let Some(given) = self.shared.given.get(self.place) {
            given.store(now() - self.shared.start, SeqCst);
        }
        self.place += 1;
        Some(Report {
            dn: 1,
            block: FIRST_BLOCK,
            stamp: FIRST_STAMP,
            len: 5,
            kind: Kind::Received,
        })
    }
}

/// Gives a segment each second; once the run has ended, the rest at once.
struct Log {
    shared: Arc<Shared>,
    segments: vec::IntoIter<Segment>,
    due: u64,
}

impl Log {
    fn new(shared: &Arc<Shared>) -> Option<Log> {
        let mut segments = vec![read_segment(FIRST_SEGMENT)?];
        let mut last = segments[0].len() as u64;
        for _ in 0..SEGMENTS {
            segments.push(read_segment(&directories(last + 1, last + EDITS))?);
            last += EDITS;
        }
        Some(Log {
            shared: shared.clone(),
            segments: segments.into_iter(),
            due: shared.start,
        })
    }
}

impl SegmentSource for Log {
    fn next(&mut self) -> Option<Segment> {
        loop {
            let left = self.due.saturating_sub(now());
            if left == 0 || self.shared.has_ended.load(SeqCst) {
                break;
            }
            thread::sleep(Duration::from_micros(left.min(SECOND)));
        }
        self.due += SECOND;
        self.segments.next()
    }
}

fn directories(first: u64, last: u64) -> String {
    let mut text = format!("{{\"op\":\"OP_START_LOG_SEGMENT\",\"txid\":{first}}}\n");
    for txid in first + 1..last {
        writeln!(
            text,
            r#"{{"op":"OP_MKDIR","path":"/new{txid}","txid":{txid}}}"#
        )
        .expect("a text grows");
    }
    text + &format!("{{\"op\":\"OP_END_LOG_SEGMENT\",\"txid\":{last}}}\n")
}

/// Measures, and requests the promotion.
struct Observer {
    shared: Arc<Shared>,
    /// How many events of the history were seen, and how long the reports of those that are measured took.
    seen: usize,
    waits: Vec<u64>,
    rotations: u64,
    begin: Option<Used>,
    end: Option<Used>,
}

impl Operator for Observer {
    fn ask(&mut self, standby: &Standby, _running: usize) -> Request {
        let time = now() - self.shared.start;
        self.note(standby.history.all(), time);
        if time < BEGIN {
            return Request::GoOn;
        }
        if time >= END {
            self.end = Some(Used::read());
            self.shared.has_ended.store(true, SeqCst);
            return Request::Promote;
        }
        self.begin.get_or_insert_with(Used::read);
        self.rotations += 1;
        Request::GoOn
    }
}

impl Observer {
    fn new(shared: &Arc<Shared>) -> Observer {
        Observer {
            shared: shared.clone(),
            seen: 0,
            waits: Vec::new(),
            rotations: 0,
            begin: None,
            end: None,
        }
    }

    /// Notes the events that came since the last rotation.
    fn note(&mut self, history: &[Event], time: u64) {
        for event in &history[self.seen..] {
            let Event::Processed { dn, number, .. } = *event else {
                continue;
            };
            let Some(given) = self.shared.given(dn, number) else {
                continue;
            };
            if (BEGIN..END).contains(&time) {
                self.waits.push(time.saturating_sub(given));
            }
        }
        self.seen = history.len();
    }

    fn numbers(mut self) -> Result<Vec<u64>, &'static str> {
        let (Some(begin), Some(end)) = (self.begin, self.end) else {
            return Err("nothing was measured");
        };
        self.waits.sort_unstable();
        Ok(vec![
            self.waits.len() as u64,
            self.rotations,
            end.time - begin.time,
            end.process - begin.process,
            end.thread - begin.thread,
            at(&self.waits, 50),
            at(&self.waits, 99),
            at(&self.waits, 100),
        ])
    }
}

/// The least number that so many in a hundred of them do not exceed.
fn at(sorted: &[u64], percent: usize) -> u64 {
    let place = (sorted.len() * percent).div_ceil(100);
    sorted.get(place.saturating_sub(1)).copied().unwrap_or(0)
}

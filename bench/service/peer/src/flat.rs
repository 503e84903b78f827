//! A fixed amount of work, as fast as the standby takes it: what flat.source says, and does of the proved standby.

use std::error::Error;
use std::fmt::{Arguments, Write};
use std::sync::atomic::{AtomicU64, Ordering::SeqCst};
use std::sync::Arc;
use std::thread;
use std::time::Duration;

use plain::engine::{FIRST_BLOCK, FIRST_STAMP};
use plain::line::{Kind, Report};

use crate::clock::{now, Used};
use crate::log::{read_segment, Segment, SegmentSource};
use crate::service::{serve, Operator, Request, Standby};
use crate::worker::ReportSource;

/// The DataNodes of each file.
const REPLICAS: u64 = 4;

/// The bytes of each file.
const LENGTH: u64 = 5;

/// Every so many epochs a DataNode reports all that it has.
const BETWEEN: u64 = 4;

/// How many segments the log may be ahead of the slowest DataNode.
const AHEAD: u64 = 10;

/// How long the log sleeps that waits for a DataNode, and a DataNode that waits for the log.
const LOG_NAP: Duration = Duration::from_micros(50);
const NODE_NAP: Duration = Duration::from_micros(500);

/// How much work there is.
#[derive(Clone, Copy)]
pub struct Work {
    pub datanodes: usize,
    pub epochs: u64,
    pub is_full: bool,
}

impl Work {
    /// The files that are there at a time.
    fn live(self) -> u64 {
        self.datanodes as u64 * 125 / 2
    }

    /// Those that a segment makes.
    fn files(self) -> u64 {
        self.datanodes as u64 * 7 / 8
    }
}

/// The numbers that flat.source tells, and the promoted standby.
pub fn run(work: Work) -> Result<(Vec<u64>, Standby), Box<dyn Error>> {
    let mut operator = Forgetful::default();
    let begin = Used::read();
    let shared = Shared::new(work.datanodes);
    let log = Log::new(&shared, work);
    let nodes = DataNode::all(&shared, work);
    let served = serve(log, nodes, &mut operator)?;
    let end = Used::read();
    let mut sent = 0;
    for worker in served.workers {
        sent += worker.join().map_err(|_| "a worker panicked")?;
    }
    if sent != served.taken {
        return Err("a report was lost".into());
    }
    let numbers = vec![
        served.taken,
        operator.rotations,
        end.time - begin.time,
        end.process - begin.process,
        end.thread - begin.thread,
        end.time - operator.requested,
    ];
    Ok((numbers, served.standby))
}

struct Shared {
    /// How many segments the log has given.
    given: AtomicU64,
    /// How many epochs each DataNode has ended.
    ended: Vec<AtomicU64>,
}

impl Shared {
    fn new(datanodes: usize) -> Arc<Shared> {
        Arc::new(Shared {
            given: AtomicU64::new(0),
            ended: (0..datanodes).map(|_| AtomicU64::new(0)).collect(),
        })
    }

    fn have_all_ended(&self, epochs: u64) -> bool {
        self.ended.iter().all(|ended| ended.load(SeqCst) >= epochs)
    }
}

struct Log {
    shared: Arc<Shared>,
    work: Work,
    /// How many segments it has given, and their last transaction.
    given: u64,
    last: u64,
}

impl SegmentSource for Log {
    fn next(&mut self) -> Option<Segment> {
        if self.given == self.work.epochs {
            return None;
        }
        self.await_nodes();
        let files = self.work.files();
        let from = self.given * files;
        let segment = read_segment(&self.segment(from, from + files));
        self.given += 1;
        self.shared.given.store(self.given, SeqCst);
        segment
    }
}

impl Log {
    fn new(shared: &Arc<Shared>, work: Work) -> Log {
        Log {
            shared: shared.clone(),
            work,
            given: 0,
            last: 0,
        }
    }

    fn await_nodes(&self) {
        let epochs = self.given.saturating_sub(AHEAD);
        while !self.shared.have_all_ended(epochs) {
            thread::sleep(LOG_NAP);
        }
    }

    /// A segment that makes these files, and deletes as many once there are enough.
    fn segment(&mut self, from: u64, to: u64) -> String {
        let mut text = String::new();
        self.push(&mut text, "OP_START_LOG_SEGMENT", format_args!(""));
        for file in from..to {
            self.push_file(&mut text, file);
            if let Some(old) = file.checked_sub(self.work.live()) {
                let path = format_args!(r#""path":"/f{old:012}","#);
                self.push(&mut text, "OP_DELETE", path);
            }
        }
        self.push(&mut text, "OP_END_LOG_SEGMENT", format_args!(""));
        text
    }

    /// The edits that make a file: under another name, until it is closed.
    #[rustfmt::skip]
    fn push_file(&mut self, text: &mut String, file: u64) {
        let stamp = FIRST_STAMP + file;
        let id = FIRST_BLOCK + file;
        let path = format!("/f{file:012}._COPYING_");
        self.push(text, "OP_ADD", format_args!(r#""path":"{path}","replication":{REPLICAS},"#));
        self.push(text, "OP_SET_GENSTAMP_V2", format_args!(r#""gen":{stamp},"#));
        self.push(text, "OP_ALLOCATE_BLOCK_ID", format_args!(r#""id":{id},"#));
        self.push(text, "OP_ADD_BLOCK", format_args!(r#""gen":{stamp},"id":{id},"path":"{path}","#));
        self.push(text, "OP_CLOSE", format_args!(r#""blocks":[{{"gen":{stamp},"id":{id},"len":{LENGTH}}}],"path":"{path}","#));
        self.push(text, "OP_RENAME", format_args!(r#""dst":"/f{file:012}","src":"{path}","#));
    }

    fn push(&mut self, text: &mut String, operation: &str, words: Arguments) {
        self.last += 1;
        let txid = self.last;
        writeln!(text, r#"{{"op":"{operation}",{words}"txid":{txid}}}"#).expect("a text grows");
    }
}

/// What a DataNode is at in its epoch.
#[derive(Clone, Copy, PartialEq, Eq)]
enum Stage {
    Begin,
    Receive,
    Confirm,
    List,
    End,
    Over,
}

struct DataNode {
    shared: Arc<Shared>,
    work: Work,
    place: usize,
    epoch: u64,
    stage: Stage,
    /// How many files it is from one of its files to the next.
    step: u64,
    /// The first of its files that it has not received, and whether it has said that it is written.
    received: u64,
    is_written: bool,
    /// The first of its files of which it has not confirmed the delete.
    deleted: u64,
    /// Once it reports all that it has, the next of its files.
    listed: Option<u64>,
}

impl ReportSource for DataNode {
    fn next(&mut self) -> Option<Report> {
        while self.stage != Stage::Over {
            let report = self.go_on();
            if report.is_some() {
                return report;
            }
        }
        None
    }
}

impl DataNode {
    fn all(shared: &Arc<Shared>, work: Work) -> Vec<DataNode> {
        let node = |place| DataNode {
            shared: shared.clone(),
            work,
            place,
            epoch: 0,
            stage: Stage::Begin,
            step: work.datanodes as u64 / REPLICAS,
            received: place as u64 / REPLICAS,
            is_written: false,
            deleted: place as u64 / REPLICAS,
            listed: None,
        };
        (0..work.datanodes).map(node).collect()
    }

    /// A step of its epoch, with the report that it gives, if it gives one.
    fn go_on(&mut self) -> Option<Report> {
        match self.stage {
            Stage::Begin => self.begin_epoch(),
            Stage::Receive => self.receive(),
            Stage::Confirm => self.confirm(),
            Stage::List => self.list(),
            Stage::End => self.end_epoch(),
            Stage::Over => None,
        }
    }

    fn begin_epoch(&mut self) -> Option<Report> {
        if self.epoch == self.work.epochs {
            self.stage = Stage::Over;
            return None;
        }
        while self.shared.given.load(SeqCst) <= self.epoch {
            thread::sleep(NODE_NAP);
        }
        self.stage = Stage::Receive;
        None
    }

    fn receive(&mut self) -> Option<Report> {
        let file = self.received;
        if file >= self.end_of_epoch() {
            self.stage = Stage::Confirm;
            return None;
        }
        if !self.is_written {
            self.is_written = true;
            return self.report(file, Kind::Receiving);
        }
        self.is_written = false;
        self.received += self.step;
        self.report(file, Kind::Received)
    }

    fn confirm(&mut self) -> Option<Report> {
        let file = self.deleted;
        let is_last = self.epoch + 1 == self.work.epochs;
        if is_last || file + self.work.live() >= self.end_of_epoch() {
            let lists = self.epoch % BETWEEN == self.place as u64 % BETWEEN;
            self.stage = if lists { Stage::List } else { Stage::End };
            return None;
        }
        self.deleted += self.step;
        self.report(file, Kind::Deleted)
    }

    fn list(&mut self) -> Option<Report> {
        let Some(file) = self.listed else {
            self.listed = Some(self.deleted);
            return self.mark(Kind::Begin);
        };
        if file >= self.received {
            self.listed = None;
            self.stage = Stage::End;
            return self.mark(Kind::Finish);
        }
        self.listed = Some(file + self.step);
        let kind = if self.work.is_full {
            Kind::Listed
        } else {
            Kind::Received
        };
        self.report(file, kind)
    }

    fn end_epoch(&mut self) -> Option<Report> {
        self.epoch += 1;
        self.shared.ended[self.place].store(self.epoch, SeqCst);
        self.stage = Stage::Begin;
        None
    }

    /// Behind the files of its epoch.
    fn end_of_epoch(&self) -> u64 {
        (self.epoch + 1) * self.work.files()
    }

    fn report(&self, file: u64, kind: Kind) -> Option<Report> {
        let is_wrong = file % 10 == 3 && self.place as u64 % REPLICAS == 1;
        Some(Report {
            dn: 1,
            block: FIRST_BLOCK + file,
            stamp: FIRST_STAMP + file,
            len: LENGTH + u64::from(is_wrong),
            kind,
        })
    }

    /// A mark of a full report, where it gives full reports.
    fn mark(&self, kind: Kind) -> Option<Report> {
        if !self.work.is_full {
            return None;
        }
        self.report(0, kind)
    }
}

/// Lets the history be forgotten, until no worker runs any more.
#[derive(Default)]
struct Forgetful {
    rotations: u64,
    /// When it requested the promotion.
    requested: u64,
}

impl Operator for Forgetful {
    fn ask(&mut self, _standby: &Standby, running: usize) -> Request {
        self.rotations += 1;
        if running == 0 {
            self.requested = now();
            return Request::Promote;
        }
        Request::Forget
    }
}

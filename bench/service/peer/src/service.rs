//! The service: a standby that takes reports out of its lanes and edits out of its log, and asks its operator.

use std::sync::Arc;
use std::thread::JoinHandle;
use std::time::Duration;

use plain::engine::{Engine, Settings};
use plain::fault::Refusal;
use plain::line::Report;

use crate::bells::Bells;
use crate::history::Events;
use crate::log::{Log, SegmentSource};
use crate::worker::{self, Lane, ReportSource};

pub type Standby = Engine<Events>;

/// How long the standby sleeps at most: its operator is asked at least as often.
pub const SLEEP: Duration = Duration::from_millis(10);

/// How many messages a visit of a lane takes at most.
const VISIT: usize = 64;

const SETTINGS: Settings = Settings {
    permille: 999,
    min: 1,
};

pub enum Request {
    GoOn,
    Forget,
    Promote,
}

pub trait Operator {
    /// Asked once each rotation. So many workers were not yet seen to have ended.
    fn ask(&mut self, standby: &Standby, running: usize) -> Request;
}

/// A promoted standby.
pub struct Served {
    pub standby: Standby,
    /// How many reports were taken.
    pub taken: u64,
    /// The threads of the workers. Each answers how many reports it sent.
    pub workers: Vec<JoinHandle<u64>>,
}

/// Serves until the operator requests the promotion, which waits for no worker.
///
/// A channel can't be closed while what it holds is still taken. So a report that is sent while the lanes are emptied for the
/// promotion may be lost. Errors are not told to a worker, and the process ends where memory is refused.
pub fn serve<S: ReportSource>(
    log: impl SegmentSource,
    sources: Vec<S>,
    operator: &mut impl Operator,
) -> Result<Served, Refusal> {
    let bells = Arc::new(Bells::new(sources.len()));
    let log = Log::start(log, &bells);
    let (lanes, workers) = sources
        .into_iter()
        .enumerate()
        .map(|(place, source)| worker::start(source, place, &bells))
        .unzip();
    let mut service = Service {
        standby: Standby::new(SETTINGS),
        log,
        lanes,
        left: vec![0; bells.words()],
        bells,
        taken: 0,
    };
    service.follow(operator)?;
    service.promote()?;
    Ok(Served {
        standby: service.standby,
        taken: service.taken,
        workers,
    })
}

struct Service {
    standby: Standby,
    log: Log,
    lanes: Vec<Lane>,
    bells: Arc<Bells>,
    /// Lanes that gave all that a visit takes: a bit for each, as the bells have them.
    left: Vec<u64>,
    taken: u64,
}

impl Service {
    fn follow(&mut self, operator: &mut impl Operator) -> Result<(), Refusal> {
        let mut is_left = true;
        loop {
            let ended = self.bells.ended();
            match operator.ask(&self.standby, self.lanes.len() - ended) {
                Request::GoOn => {}
                Request::Forget => self.standby.history.forget(),
                Request::Promote => return Ok(()),
            }
            if !is_left {
                self.bells.sleep(SLEEP, || {
                    self.log.is_at_hand() || self.bells.ended() != ended
                });
            }
            is_left = self.take_round()?;
        }
    }

    /// Steps of the log, and then the lanes that rang, with as many steps behind each as it gave messages. Answers whether a
    /// lane gave all that a visit takes.
    fn take_round(&mut self) -> Result<bool, Refusal> {
        self.log.take(&mut self.standby, self.lanes.len())?;
        let mut is_left = false;
        for word in 0..self.left.len() {
            let mut bits = self.left[word] | self.bells.take(word);
            self.left[word] = 0;
            while bits != 0 {
                let bit = bits.trailing_zeros() as usize;
                bits &= bits - 1;
                let taken = self.visit(word * 64 + bit);
                if taken == VISIT {
                    self.left[word] |= 1 << bit;
                    is_left = true;
                }
                self.log.take(&mut self.standby, taken)?;
            }
        }
        Ok(is_left)
    }

    /// Takes from a lane until it is empty, or gave all that a visit takes. Answers how many messages came.
    fn visit(&mut self, place: usize) -> usize {
        let Lane { reports, thread } = &self.lanes[place];
        let dn = place as u16 + 1;
        let mut taken = 0;
        while taken < VISIT {
            let Ok(report) = reports.try_recv() else {
                break;
            };
            self.standby.hand(Report { dn, ..report });
            taken += 1;
        }
        if taken > 0 {
            self.bells.has_room(place, thread);
        }
        self.taken += taken as u64;
        taken
    }

    /// Closes the lanes and empties them, reads the log to its end and flushes.
    fn promote(&mut self) -> Result<(), Refusal> {
        self.bells.close();
        for place in 0..self.lanes.len() {
            while self.visit(place) > 0 {}
        }
        self.log.finish(&mut self.standby)?;
        self.standby.flush();
        Ok(())
    }
}

//! A DataNode's thread, which reports into a lane of its own.

use std::sync::Arc;
use std::thread::{self, JoinHandle, Thread};

use crossbeam_channel::{bounded, Receiver, Sender, TrySendError};
use plain::line::Report;

use crate::bells::Bells;
use crate::service::SLEEP;

/// How many reports a lane holds.
const CAPACITY: usize = 64;

pub trait ReportSource: Send + 'static {
    /// The next report. The standby fills in its DataNode.
    fn next(&mut self) -> Option<Report>;
}

/// The standby's end of a lane, and the thread at the other end.
pub struct Lane {
    pub reports: Receiver<Report>,
    pub thread: Thread,
}

/// Starts the thread of a source. It answers how many reports it sent.
pub fn start(
    source: impl ReportSource,
    worker: usize,
    bells: &Arc<Bells>,
) -> (Lane, JoinHandle<u64>) {
    let (lane, reports) = bounded(CAPACITY);
    let bells = bells.clone();
    let handle = thread::spawn(move || report_all(source, &lane, worker, &bells));
    let thread = handle.thread().clone();
    (Lane { reports, thread }, handle)
}

/// Sends all that a source gives, until the lane is closed. Answers how many were sent.
fn report_all(
    mut source: impl ReportSource,
    lane: &Sender<Report>,
    worker: usize,
    bells: &Bells,
) -> u64 {
    let mut sent = 0;
    while let Some(report) = source.next() {
        if bells.is_closed() || !send(report, lane, worker, bells) {
            break;
        }
        sent += 1;
        bells.report(worker);
    }
    bells.end();
    sent
}

/// Sends a report, and parks while the lane is full. Answers whether it was sent.
fn send(report: Report, lane: &Sender<Report>, worker: usize, bells: &Bells) -> bool {
    if lane.try_send(report).is_ok() {
        return true;
    }
    loop {
        bells.wait(worker);
        match lane.try_send(report) {
            Ok(()) => {
                bells.wait_no_more(worker);
                return true;
            }
            Err(TrySendError::Full(_)) if !bells.is_closed() => thread::park_timeout(SLEEP),
            Err(_) => return false,
        }
    }
}

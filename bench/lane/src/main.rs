//! What bench/README.md compares the lane with: crossbeam's bounded channel, in plain Rust. `lane CAPACITY WAY` sends
//! 20,000,000 messages from one thread to another; the way is `try` (ask and give way, as a lane's ends do) or `block`.
use crossbeam_channel::{bounded, Receiver, Sender};
use std::thread;

const COUNT: u64 = 20_000_000;

#[derive(Clone, Copy)]
#[allow(dead_code)]
enum Kind {
    Receiving,
    Received,
    Deleted,
}

#[derive(Clone, Copy)]
#[allow(dead_code)]
struct Message {
    dn: u16,
    number: u64,
    block: u64,
    stamp: u64,
    len: u64,
    kind: Kind,
}

fn message(block: u64) -> Message {
    Message { dn: 1, number: block + 1, block, stamp: 1001, len: 5, kind: Kind::Received }
}

fn send_all(sender: Sender<Message>, blocks: bool) {
    for block in 0..COUNT {
        if blocks {
            sender.send(message(block)).unwrap();
        } else {
            while sender.try_send(message(block)).is_err() {
                thread::yield_now();
            }
        }
    }
}

fn take_all(receiver: Receiver<Message>, blocks: bool) -> u64 {
    let mut sum = 0u64;
    for _ in 0..COUNT {
        if blocks {
            sum += receiver.recv().unwrap().block;
            continue;
        }
        loop {
            if let Ok(message) = receiver.try_recv() {
                sum += message.block;
                break;
            }
            thread::yield_now();
        }
    }
    sum
}

fn main() {
    let words: Vec<String> = std::env::args().collect();
    let capacity = words[1].parse().unwrap();
    let blocks = words[2] == "block";
    let (sender, receiver) = bounded(capacity);
    let sending = thread::spawn(move || send_all(sender, blocks));
    assert_eq!(take_all(receiver, blocks), COUNT * (COUNT - 1) / 2);
    sending.join().unwrap();
}

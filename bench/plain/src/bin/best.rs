//! The standby as fast as plain Rust makes it: the one to beat. It reads plain lines by hand, 16 bytes at a time and behind the
//! line too, and all others as `typed` does. The tree is one table of hashes, and its nodes, rows and held messages lie in arenas.
//! It has `unsafe`, and dies where memory is refused.

#[path = "../best/blocks.rs"]
mod blocks;
#[path = "../engine.rs"]
mod engine;
#[path = "../best/fast.rs"]
mod fast;
#[path = "../fault.rs"]
mod fault;
#[path = "../fields.rs"]
mod fields;
#[path = "../hash.rs"]
mod hash;
#[path = "../best/held.rs"]
mod held;
#[path = "../history.rs"]
mod history;
#[path = "../image.rs"]
mod image;
#[path = "../best/line.rs"]
mod line;
#[path = "../best/print.rs"]
mod print;
#[path = "../program.rs"]
mod program;
#[path = "../best/scenario.rs"]
mod scenario;
#[path = "../best/tree.rs"]
mod tree;
#[path = "../typed.rs"]
mod typed;

fn main() {
    program::run(typed::read)
}

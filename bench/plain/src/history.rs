//! What is kept of what a standby did.

/// Why a message was processed.
#[derive(Clone, Copy, Debug, PartialEq, Eq)]
pub enum Cause {
    Due,
    Flush,
}

pub trait History: Default {
    /// What a held message keeps of its number among those of its DataNode.
    type Number: Copy;
    fn number(number: u64) -> Self::Number;
    fn applied(&mut self, txid: u64);
    fn processed(&mut self, dn: u16, number: Self::Number, block: u64, cause: Cause);
}

/// Keeps nothing, and costs nothing.
#[derive(Default)]
pub struct NoHistory;

impl History for NoHistory {
    type Number = ();
    fn number(_: u64) {}
    fn applied(&mut self, _: u64) {}
    fn processed(&mut self, _: u16, (): (), _: u64, _: Cause) {}
}

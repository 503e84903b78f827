//! The events that an operator sees.

use plain::history::{Cause, History};

/// What was done. It has the fields of an event of the proved standby, and as many bytes.
#[derive(Clone, Copy, Debug)]
#[allow(dead_code)]
pub enum Event {
    Applied {
        txid: u64,
    },
    Processed {
        dn: u16,
        cause: Cause,
        number: u64,
        block: u64,
    },
}

/// All that was done since it was last forgotten.
#[derive(Default)]
pub struct Events(Vec<Event>);

impl Events {
    pub fn all(&self) -> &[Event] {
        &self.0
    }

    pub fn forget(&mut self) {
        self.0.clear();
    }
}

impl History for Events {
    type Number = u64;

    fn number(number: u64) -> u64 {
        number
    }

    fn applied(&mut self, txid: u64) {
        self.0.push(Event::Applied { txid });
    }

    fn processed(&mut self, dn: u16, number: u64, block: u64, cause: Cause) {
        self.0.push(Event::Processed {
            dn,
            cause,
            number,
            block,
        });
    }
}

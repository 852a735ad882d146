//! The library's five calls as an engine of the reference's networks with power cuts. Every call is made on memory at the edge of closed pages
//! and compared with the in-place vault's.
use std::cell::RefCell;

use reference::cuts::Engine;
use reference::record::{Record, Settings};
use reference::rng::Rng;

use crate::compared::{Compared, Harm, Seen};
use crate::pages::Edge;
use crate::random;
use crate::records::{class, contents, Class, LEN};
use crate::remnants::Host;
use crate::sides::{Answer, Call};

pub struct RattleEngine(RefCell<Pages>);

struct Pages {
    compared: Compared,
    host: Host,
    /// For the edges alone.
    rng: Rng,
}

impl RattleEngine {
    pub fn new(harm: Harm) -> RattleEngine {
        RattleEngine(RefCell::new(Pages { compared: Compared::new(harm), host: Host::new(harm), rng: Rng(1) }))
    }

    /// What came of starts, frames and timers.
    pub fn seen(&self) -> Seen {
        self.0.borrow().compared.seen.clone()
    }

    fn call(&self, rec: &mut [u8], call: &Call, out: &mut [u8]) -> Answer {
        let Pages { compared, rng, .. } = &mut *self.0.borrow_mut();
        compared.call(rng.pick(&[Edge::Before, Edge::After]), rec, call, out)
    }
}

impl Engine for RattleEngine {
    fn record_size(&self) -> usize {
        LEN
    }

    fn blank(&self, rng: &mut Rng) -> Vec<u8> {
        random::blank(rng)
    }

    /// A sound record, damaged until it is unsound, or too long.
    fn unsound(&self, rng: &mut Rng) -> Vec<u8> {
        let mut rec = random::sound(rng);
        if rng.one_in(4) {
            rec.push(0);
        }
        while class(&rec) != Class::Unsound {
            random::harm(rng, &mut rec);
        }
        rec
    }

    fn contents(&self, rec: &[u8]) -> Option<Record> {
        contents(rec)
    }

    fn start(&self, rec: &mut [u8], settings: Settings, plan: u64, out: &mut [u8]) -> Answer {
        self.call(rec, &Call::Start { settings, plan }, out)
    }

    fn frame(&self, rec: &mut [u8], link: u8, bytes: &[u8], out: &mut [u8]) -> Answer {
        self.call(rec, &Call::Frame { link, bytes: bytes.to_vec() }, out)
    }

    fn timer(&self, rec: &mut [u8], view: u32, out: &mut [u8]) -> Answer {
        self.call(rec, &Call::Timer { view }, out)
    }

    fn write_remnant(&self, rec: &[u8], out: &mut [u8]) -> Answer {
        let Pages { host, rng, .. } = &mut *self.0.borrow_mut();
        host.write(rng, rec, out)
    }

    fn restart(&self, rec: &mut [u8], remnant: &[u8], out: &mut [u8]) -> Answer {
        let Pages { host, rng, .. } = &mut *self.0.borrow_mut();
        host.restart(rng, rec, remnant, out)
    }
}

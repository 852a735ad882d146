//! The calls that the simulator makes (src/sim.rs of the reference, compiled here): the library's, compared with the in-place vault's.
use std::cell::RefCell;

use reference::record::Settings;
use reference::rng::Rng;

use crate::compared::{Compared, Harm, Seen};
use crate::pages::Edge;
use crate::sides::{Answer, Call};

struct Made {
    compared: Compared,
    /// For the edges alone, so that the network's choices stay the same.
    rng: Rng,
}

thread_local! {
    static MADE: RefCell<Made> = RefCell::new(Made { compared: Compared::new(Harm::None), rng: Rng(1) });
}

/// Begins anew: from now on calls are counted from 0, and the library is harmed like this.
pub fn begin(harm: Harm) {
    MADE.set(Made { compared: Compared::new(harm), rng: Rng(1) });
}

pub fn seen() -> Seen {
    MADE.with_borrow(|made| made.compared.seen.clone())
}

fn made(rec: &mut [u8], call: &Call, out: &mut [u8]) -> Answer {
    MADE.with_borrow_mut(|made| {
        let edge = made.rng.pick(&[Edge::Before, Edge::After]);
        made.compared.call(edge, rec, call, out)
    })
}

pub fn start(rec: &mut [u8], n: u8, f: u8, id: u8, class: u8, plan: u64, out: &mut [u8]) -> Answer {
    made(rec, &Call::Start { settings: Settings { n, f, id, class }, plan }, out)
}

pub fn frame(rec: &mut [u8], link: u8, bytes: &[u8], out: &mut [u8]) -> Answer {
    made(rec, &Call::Frame { link, bytes: bytes.to_vec() }, out)
}

pub fn timer(rec: &mut [u8], view: u32, out: &mut [u8]) -> Answer {
    made(rec, &Call::Timer { view }, out)
}

//! Random calls at a vault: on blank, sound, contested and damaged records, one at a time and in rows from many senders.
use reference::rng::Rng;

use crate::compared::{Compared, Harm};
use crate::expected::{self, Lent};
use crate::pages::Edge;
use crate::random::{self, blank, contested, harm, size, start, view_of};
use crate::records::{frame_slot, get, LEN};
use crate::sides::{Answer, Call};

/// How record and output are lent to a call: the edge that is closed, and an output's length and contents.
#[derive(Clone, Copy)]
pub struct Terms {
    pub edge: Edge,
    pub space: usize,
    pub filler: u8,
}

pub struct Driver {
    rng: Rng,
    pub compared: Compared,
    /// Each call is compared with the reference too.
    by_contents: bool,
}

impl Driver {
    pub fn new(seed: u64, harm: Harm, by_contents: bool) -> Driver {
        Driver { rng: Rng(seed), compared: Compared::new(harm), by_contents }
    }

    /// Makes the call. The record becomes the one that it leaves.
    fn call(&mut self, rec: &mut [u8], call: &Call) -> Answer {
        let rng = &mut self.rng;
        let space = if rng.one_in(50) { rng.below(400) } else { 256 + 60 * rng.below(3) } as usize;
        let terms = Terms { edge: rng.pick(&[Edge::Before, Edge::After]), space, filler: rng.next() as u8 };
        self.call_on(terms, rec, call)
    }

    pub fn call_on(&mut self, terms: Terms, rec: &mut [u8], call: &Call) -> Answer {
        let Terms { edge, space, filler } = terms;
        let mut out = vec![filler; space];
        if !self.by_contents {
            return self.compared.call(edge, rec, call, &mut out);
        }
        let before = Lent { rec: rec.to_vec(), out: out.clone() };
        let answer = self.compared.call(edge, rec, call, &mut out);
        let _ = expected::check(&before, call, &Lent { rec: rec.to_vec(), out }, answer);
        answer
    }

    fn frame(&mut self, rec: &mut [u8], kind: u8, sender: u8, view: u32, plan: u64) {
        let (n, id) = if rec.len() > 4 { (rec[0].max(1), rec[2]) } else { (4, 0) };
        let mut bytes = random::frame(&mut self.rng, n, id, kind, sender, view, plan);
        if self.rng.one_in(100) && bytes.len() > 1 {
            bytes[1] = self.rng.next() as u8;
        }
        let _ = self.call(rec, &Call::Frame { link: sender, bytes });
    }

    /// One frame from many senders: the leader's plan or another, a view that comes soon or that this vault leads; view-changes for scattered
    /// views too.
    fn frames(&mut self, rec: &mut [u8]) {
        let (n, id, view) = known(rec);
        let rng = &mut self.rng;
        let kind = rng.pick(&[1, 2, 2, 3, 3, 4, 4, 5, 5, 6, 6, 7, 7, 8, 8]);
        let leader = (view % n) as usize;
        let proposed = if rec.len() == LEN && leader < 64 { get(rec, frame_slot(1, leader)).2 } else { 0 };
        let plan = if rng.one_in(4) { random::plan(rng) } else { proposed };
        let at = match kind {
            6 if rng.one_in(3) => (view / n + 1).saturating_mul(n).saturating_add(id),
            6 => view.saturating_add(1 + rng.below(2) as u32),
            _ if rng.one_in(12) => view.saturating_add(1),
            _ => view,
        };
        let spread = if kind == 6 && rng.one_in(2) { 9 } else { 1 };
        let (first, mixed) = (rng.below(u64::from(n)) as u32, rng.one_in(3));
        let count = if rng.one_in(3) { rng.below(u64::from(n) + 1) as u32 } else { n };
        for s in 0..count {
            let plan = if mixed && self.rng.one_in(4) { random::plan(&mut self.rng) } else { plan };
            let at = at.saturating_add(self.rng.below(spread) as u32);
            self.frame(rec, kind, ((first + s) % n) as u8, at, plan);
        }
    }

    fn any_frame(&mut self, rec: &mut [u8]) {
        let (n, _, view) = known(rec);
        let rng = &mut self.rng;
        let kind = if rng.one_in(60) { rng.next() as u8 } else { 1 + rng.below(8) as u8 };
        let sender = if rng.one_in(40) { rng.next() as u8 } else { rng.below(u64::from(n)) as u8 };
        let at = match rng.below(8) {
            0 => rng.next() as u32,
            1 => view.saturating_sub(1),
            2..=5 => view,
            _ => view.saturating_add(1 + rng.below(2 * u64::from(n)) as u32),
        };
        let plan = random::plan(rng);
        self.frame(rec, kind, sender, at, plan);
    }

    /// A call of any kind.
    fn any(&mut self, rec: &mut [u8]) {
        match self.rng.below(11) {
            0 => {
                let call = any_start(&mut self.rng);
                let _ = self.call(rec, &call);
            }
            1 => {
                let view = if self.rng.one_in(4) { self.rng.below(5) as u32 } else { known(rec).2 };
                let _ = self.call(rec, &Call::Timer { view });
            }
            _ => self.any_frame(rec),
        }
    }

    /// A vote on a record at which C or D searches.
    fn search(&mut self) {
        let mut rec = contested(&mut self.rng);
        let sender = (rec[2] + 1) % rec[0];
        let vote = [&[3, sender][..], &u32::MAX.to_be_bytes(), &[0; 8]].concat();
        let answer = self.call(&mut rec, &Call::Frame { link: sender, bytes: vote });
        assert!(matches!(answer, Ok(_) | Err(1)), "{answer:?}");
    }

    /// A sound record: made at once (mostly sound), or a blank one that is started, after other calls at it.
    fn sound(&mut self) -> Vec<u8> {
        if self.rng.one_in(3) {
            return random::sound(&mut self.rng);
        }
        let mut rec = blank(&mut self.rng);
        for _ in 0..self.rng.below(6) {
            self.any(&mut rec.clone());
            let call = any_start(&mut self.rng);
            let _ = self.call(&mut rec.clone(), &call);
        }
        let started = start(random::settings(&mut self.rng), random::plan(&mut self.rng));
        let _ = self.call(&mut rec, &started);
        rec
    }

    /// Calls on a copy that is damaged or of a wrong length, or on any bytes.
    fn damaged(&mut self, rec: &[u8]) {
        let mut copy = rec.to_vec();
        for _ in 0..1 + self.rng.below(3) {
            harm(&mut self.rng, &mut copy);
        }
        match self.rng.below(80) {
            0 | 1 => copy.resize(LEN + 3 - self.rng.below(7) as usize, 0),
            2 => {
                copy.resize(self.rng.below(2 * LEN as u64) as usize, 0);
                self.rng.fill(&mut copy);
            }
            3 => self.rng.fill(&mut copy),
            _ => {}
        }
        for _ in 0..4 {
            self.any(&mut copy);
        }
    }

    /// Searches, then calls of all kinds at a record from its start on, and at damaged copies of it.
    pub fn round(&mut self) {
        (0..60).for_each(|_| self.search());
        let mut rec = self.sound();
        for _ in 0..1 + self.rng.below(60) {
            if self.rng.one_in(4) {
                self.frames(&mut rec);
            }
            self.any(&mut rec);
            if self.rng.one_in(6) {
                self.damaged(&rec);
            }
        }
    }
}

/// n, the vault's number and the current view, as far as the bytes tell.
fn known(rec: &[u8]) -> (u32, u32, u32) {
    match rec.len() {
        0..8 => (4, 0, 0),
        _ => (u32::from(rec[0].max(1)), u32::from(rec[2]), view_of(rec)),
    }
}

/// A start, with one of the settings wrong as often as not.
fn any_start(rng: &mut Rng) -> Call {
    let (n, f) = size(rng);
    let mut settings = [n, f, rng.below(u64::from(n)) as u8, rng.below(8) as u8];
    if rng.one_in(2) {
        settings[rng.below(4) as usize] = rng.next() as u8;
    }
    start(settings, random::plan(rng))
}

//! A sound record within an accepted call: what is kept, the steps, and the entries.

use crate::asked::Asked;
use crate::layout::*;
use crate::safe::Reports;
use crate::scan::{at_view, with_plan, Ones};
use crate::sound::Present;

const DELAYS: [u32; 8] = [20, 50, 100, 200, 500, 1000, 2000, 5000];
const TO_ALL: u8 = 0xff;
const TO_HOST: u8 = 0xfe;
const VIEW_CHANGE: u8 = 6;

pub struct Vault<'a> {
    pub rec: &'a mut Record,
    pub out: &'a mut [u8; 256],
    /// The bytes written so far.
    pub count: usize,
    pub present: Present,
    pub n: usize,
    f: usize,
    pub id: usize,
    pub view: u32,
}

/// The kind of the frames of a row.
#[inline(always)]
fn kind_of(row: usize) -> u8 {
    if row >= PROPOSALS {
        (row - PROPOSALS) as u8 + 1
    } else {
        row as u8 + 7
    }
}

impl<'a> Vault<'a> {
    #[inline(always)]
    pub fn new(rec: &'a mut Record, out: &'a mut [u8; 256], present: Present) -> Vault<'a> {
        let [n, f, id] = [rec.n, rec.f, rec.id & 63].map(usize::from);
        let view = rec.view();
        Vault { rec, out, count: 0, present, n, f, id, view }
    }

    #[inline(always)]
    pub fn holds(&self, row: usize, s: usize) -> bool {
        self.present.rows[row] >> s & 1 == 1
    }

    /// Whether a frame of a sender is kept at the current view.
    #[inline(always)]
    fn now(&self, row: usize, s: usize) -> bool {
        self.holds(row, s) && self.rec.rows[row][s].view() == self.view
    }

    #[inline(always)]
    pub fn put(&mut self, row: usize, s: usize, view: u32, plan: u64) {
        self.present.rows[row] |= 1 << s;
        self.rec.rows[row][s] = Slot::new(view, plan);
    }

    #[inline(always)]
    pub fn put_change(&mut self, s: usize, view: u32) {
        self.present.changes |= 1 << s;
        self.rec.changes[s] = Slot::new(view, 0);
    }

    /// A suggest or proof with its reports.
    #[inline(always)]
    pub fn put_reports(&mut self, row: usize, s: usize, view: u32, reports: &[Slot; 3]) {
        self.put(row, s, view, 0);
        for (i, report) in reports.iter().enumerate() {
            let place = reports_of(row) + i;
            let others = self.present.rows[place] & !(1 << s);
            self.present.rows[place] = others | u64::from(report.mark) << s;
            self.rec.rows[place][s] = *report;
        }
    }

    #[inline(always)]
    fn write<const N: usize>(&mut self, bytes: [u8; N]) {
        self.out[self.count..][..N].copy_from_slice(&bytes);
        self.count += N;
    }

    /// A recipient, and the head of a frame.
    #[inline(always)]
    fn head(&mut self, to: u8, kind: u8, view: u32) {
        let [a, b, c, d] = view.to_be_bytes();
        self.write([to, kind, self.id as u8, a, b, c, d]);
    }

    pub fn timer_entry(&mut self) {
        let millis = 9 * DELAYS[usize::from(self.rec.class & 7)];
        self.write([TO_HOST, 0x0b]);
        self.write(self.view.to_be_bytes());
        self.write(millis.to_be_bytes());
    }

    /// Broadcasts a view-change.
    pub fn ask(&mut self, w: u32) {
        self.put_change(self.id, w);
        self.head(TO_ALL, VIEW_CHANGE, w);
    }

    /// Broadcasts a proposal or vote of the current view.
    pub fn cast(&mut self, row: usize, plan: u64) {
        let s = self.id;
        let old = self.rec.rows[row][s];
        let reported = row == VOTES_1 || row == VOTES_2;
        if reported && self.holds(row, s) && old.plan() != plan {
            self.present.last |= 1 << (row - VOTES_1);
            self.rec.last[row - VOTES_1] = old;
        }
        self.put(row, s, self.view, plan);
        self.head(TO_ALL, kind_of(row), self.view);
        self.write(plan.to_be_bytes());
    }

    /// The own highest and previous vote-1 (0) or vote-2 (1), and the lock.
    fn own_reports(&self, vote: usize, lock: usize) -> [Slot; 3] {
        let s = self.id;
        [self.rec.rows[VOTES_1 + vote][s], self.rec.last[vote], self.rec.rows[lock][s]]
    }

    fn write_reports(&mut self, to: u8, row: usize, reports: &[Slot; 3]) {
        self.head(to, kind_of(row), self.view);
        for report in reports {
            self.write(report.bytes());
        }
    }

    fn enter(&mut self, w: u32) {
        self.view = w;
        self.rec.set_view(w);
        self.timer_entry();
        let proof = self.own_reports(0, VOTES_4);
        self.put_reports(PROOFS, self.id, w, &proof);
        self.write_reports(TO_ALL, PROOFS, &proof);
        let suggest = self.own_reports(1, VOTES_3);
        let to = leader(w, self.n);
        if to == self.id {
            self.put_reports(SUGGESTS, to, w, &suggest);
        } else {
            self.write_reports(to as u8, SUGGESTS, &suggest);
        }
    }

    /// A and B. Fewer than f + 1 view-changes are too few for both.
    #[inline(always)]
    pub fn change_view(&mut self) {
        if (self.present.changes.count_ones() as usize) <= self.f {
            return;
        }
        let mut asked = Asked::of(self.rec, self.n, self.view);
        // A quorum has f + 1 askers besides this vault.
        let Some(w) = asked.highest(self.f + 1, self.view) else {
            return;
        };
        // An absent view-change has view 0.
        if w > self.rec.changes[self.id].view() {
            self.ask(w);
            asked = Asked::of(self.rec, self.n, self.view);
        }
        if let Some(w) = asked.highest(self.n - self.f, self.view) {
            self.enter(w);
        }
    }

    #[inline(always)]
    fn propose(&mut self) {
        if leader(self.view, self.n) != self.id || self.now(PROPOSALS, self.id) {
            return;
        }
        let reports = Reports::of(self.rec, &self.present, SUGGESTS);
        if let Some(p) = reports.choose(self.rec.plan()) {
            self.cast(PROPOSALS, p);
        }
    }

    #[inline(always)]
    fn approve(&mut self) {
        let leader = leader(self.view, self.n);
        if self.now(VOTES_1, self.id) || !self.now(PROPOSALS, leader) {
            return;
        }
        let p = self.rec.rows[PROPOSALS][leader & 63].plan();
        if Reports::of(self.rec, &self.present, PROOFS).safe(p) {
            self.cast(VOTES_1, p);
        }
    }

    /// The plan that a quorum of a row's votes of the current view is for.
    #[inline(always)]
    fn agreed(&self, row: usize) -> Option<u64> {
        let (present, quorum) = (self.present.rows[row], self.n - self.f);
        if (present.count_ones() as usize) < quorum {
            return None;
        }
        let kept = &self.rec.rows[row];
        let votes = present & at_view(kept, self.n, self.view);
        if (votes.count_ones() as usize) < quorum {
            return None;
        }
        let for_plan = |plan| (votes & with_plan(kept, self.n, plan)).count_ones() as usize;
        // Mostly all votes are for the first one's plan.
        let mut plan = kept[votes.trailing_zeros() as usize & 63].raw_plan();
        if for_plan(plan) < quorum {
            plan = leading(kept, votes);
            if for_plan(plan) < quorum {
                return None;
            }
        }
        Some(u64::from_be_bytes(plan.to_ne_bytes()))
    }

    /// C to H.
    #[inline(always)]
    pub fn go_on(&mut self) {
        self.propose();
        self.approve();
        for row in VOTES_1..VOTES_4 {
            if !self.now(row + 1, self.id) {
                if let Some(p) = self.agreed(row) {
                    self.cast(row + 1, p);
                }
            }
        }
        if self.present.last >> DECISION & 1 == 0 {
            if let Some(p) = self.agreed(VOTES_4) {
                self.rec.last[DECISION] = Slot::new(self.view, p);
                self.write([TO_HOST, 0x0a]);
                self.write(self.view.to_be_bytes());
                self.write(p.to_be_bytes());
            }
        }
    }
}

/// The plan that more than half of the votes are for, if there is one.
#[cold]
fn leading(kept: &Row, votes: u64) -> u64 {
    let (mut plan, mut lead) = (0, 0);
    for s in Ones(votes) {
        let x = kept[s].raw_plan();
        if lead == 0 {
            plan = x;
        }
        lead = if x == plan { lead + 1 } else { lead - 1 };
    }
    plan
}

//! Random questions of how high a claim reaches (document 02, wish 7): reports sound and damaged,
//! other lengths, plans from the reports and not. They are bytes, so any vault can be asked them.

pub use crate::reach_cover::Coverage;

use crate::frame::{write_report, Report, PROOF, REPORT_LEN, SUGGEST};
use crate::reach::{claim_reach, REPORTS_LEN};
use crate::rng::Rng;
use crate::rules::Reports;

#[derive(Clone, PartialEq, Eq, Debug)]
pub struct ReachQuestion {
    /// Mostly the 39 bytes of three reports: highest, previous, lock.
    pub bytes: Vec<u8>,
    pub plan: u64,
}

impl ReachQuestion {
    /// The view, or a refusal.
    pub fn answer(&self) -> Result<u32, u8> {
        claim_reach(&self.bytes, self.plan)
    }
}

/// A random question. The same seed gives the same question.
pub fn reach_question(seed: u64) -> ReachQuestion {
    let mut rng = Rng(seed);
    let reports = sound(&mut rng);
    let plan = asked_plan(&mut rng, &reports);
    let mut bytes = spelled(&reports).to_vec();
    // Several faults at once are common, so that the order of the refusals counts.
    for _ in 0..rng.pick(&[0, 0, 0, 0, 0, 1, 1, 2, 2, 3]) {
        damage(&mut rng, &mut bytes);
    }
    if rng.one_in(6) {
        change_length(&mut rng, &mut bytes);
    }
    ReachQuestion { bytes, plan }
}

/// The 39 bytes of a suggest or proof after its view.
pub fn spelled(reports: &Reports) -> [u8; REPORTS_LEN] {
    let mut bytes = [0; REPORTS_LEN];
    for (&report, out) in reports.iter().zip(bytes.chunks_exact_mut(REPORT_LEN)) {
        write_report(report, out);
    }
    bytes
}

/// Reports that pass 14 and 22. The lock may be at any view, above both votes too.
fn sound(rng: &mut Rng) -> Reports {
    let [low, high] = two_votes(rng);
    let [highest, previous] = match rng.below(4) {
        0 => [None, None],
        1 => [Some(high), None],
        _ if low.view == high.view || low.plan == high.plan => [Some(high), None],
        _ => [Some(high), Some(low)],
    };
    let lock = vote(rng);
    [highest, previous, (!rng.one_in(3)).then_some(lock)]
}

/// Two votes, the later one second; their views and plans may be the same.
fn two_votes(rng: &mut Rng) -> [Report; 2] {
    let mut votes = [vote(rng), vote(rng)];
    votes.sort_by_key(|vote| vote.view);
    votes
}

/// Small numbers, the ends of the ranges, and any others.
fn vote(rng: &mut Rng) -> Report {
    let (small, any) = (rng.below(5) as u32, rng.next() as u32);
    let view = rng.pick(&[small, small, small, 0, u32::MAX, u32::MAX - 1, any]);
    Report { view, plan: any_plan(rng) }
}

/// Plans that differ in their upper or lower half only are among them.
fn any_plan(rng: &mut Rng) -> u64 {
    let (small, any) = (rng.below(5), rng.next());
    rng.pick(&[small, small, small, small + (1 << 32), small + (1 << 63), u64::MAX, any])
}

/// The plan of one of the reports, the highest vote's plan but for one bit, or any.
fn asked_plan(rng: &mut Rng, reports: &Reports) -> u64 {
    let [highest, previous, lock] = reports.map(|report| report.map(|report| report.plan));
    let one_bit_off = highest.map(|plan| plan ^ (1 << rng.below(64)));
    let plan = rng.pick(&[highest, highest, previous, lock, one_bit_off, None]);
    plan.unwrap_or_else(|| any_plan(rng))
}

/// One cause of 14 in any of the three reports, or one of 22.
fn damage(rng: &mut Rng, bytes: &mut [u8]) {
    let report = rng.pick(&[0, 1, 2]) * REPORT_LEN;
    match rng.below(4) {
        // a bad mark
        0 => bytes[report] = rng.pick(&[2, 3, 16, 128, 255]),
        // a nonzero byte in an absent report
        1 => {
            bytes[report..report + REPORT_LEN].fill(0);
            bytes[report + 1 + rng.below(12) as usize] = 1 << rng.below(8);
        }
        _ => {
            let at_odds = spelled(&at_odds(rng));
            bytes[..2 * REPORT_LEN].copy_from_slice(&at_odds[..2 * REPORT_LEN]);
        }
    }
}

/// "previous without highest, not below it, or for its plan"
fn at_odds(rng: &mut Rng) -> Reports {
    let [low, high] = two_votes(rng);
    match rng.below(5) {
        0 => [None, Some(low), None],
        1 => [Some(low), Some(high), None],
        2 => [Some(high), Some(Report { view: high.view, ..low }), None],
        3 => [Some(high), Some(Report { plan: high.plan, ..low }), None],
        _ => [Some(high), Some(high), None],
    }
}

/// Fewer bytes, more bytes, or the whole frame.
fn change_length(rng: &mut Rng, bytes: &mut Vec<u8>) {
    let any = rng.below(100) as usize;
    match rng.pick(&[0, 2, 13, 38, 40, 45, any]) {
        45 => {
            let view = rng.next() as u32;
            let kind_and_sender = [rng.pick(&[SUGGEST, PROOF]), rng.below(64) as u8];
            bytes.splice(..0, [kind_and_sender.as_slice(), &view.to_be_bytes()].concat());
        }
        length => bytes.resize(length, rng.pick(&[0, 1, 255])),
    }
}

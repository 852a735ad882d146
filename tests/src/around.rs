//! Report sets whose locks and votes lie about one view u, so that walks end at u + 1, at u and nowhere.
use crate::rows::{random, Reports};
use reference::frame::Report;
use reference::rng::Rng;

pub fn vote(view: u32, plan: u64) -> Option<Report> {
    Some(Report { view, plan })
}

/// An f that fits n.
pub fn liars(rng: &mut Rng, n: usize) -> usize {
    1 + rng.below(((n - 1) / 3) as u64) as usize
}

/// What a set of reports is drawn for: view v of n vaults, the view u that its locks and votes lie about, and the plan that most of them are for.
#[derive(Clone, Copy)]
pub struct Shape {
    pub n: usize,
    pub f: usize,
    pub v: u32,
    u: u32,
    pub plans: u64,
    common: u64,
}

/// A shape, often at an edge: few vaults, u = 0, u + 1 = v, the last views.
fn shape(rng: &mut Rng) -> Shape {
    let span = rng.pick(&[4, 61]);
    let n = 4 + rng.below(span) as usize;
    let u = match rng.below(8) {
        0 => 0,
        1 => u32::MAX - 1 - rng.below(3) as u32,
        _ => 1 + rng.below(4) as u32,
    };
    let v = if rng.one_in(12) { u32::MAX } else { u.saturating_add(1 + rng.below(4) as u32) };
    let plans = 2 + rng.below(4);
    Shape { n, f: liars(rng, n), v, u, plans, common: rng.below(plans) }
}

/// One of the views next to u, below the limit.
fn view_about(rng: &mut Rng, u: u32, limit: u32) -> u32 {
    u.saturating_add(rng.below(4) as u32).saturating_sub(1).min(limit - 1)
}

/// A highest and a previous vote about u, or votes that claim little.
fn votes_about(rng: &mut Rng, shape: Shape, busy: bool) -> [Option<Report>; 2] {
    let Shape { v, u, plans, common, .. } = shape;
    let plan = if rng.one_in(2) { common } else { rng.below(plans) };
    if !busy {
        return [vote(u.saturating_sub(1), plan).filter(|_| rng.one_in(2)), None];
    }
    let view = view_about(rng, u, v);
    if view == 0 || rng.one_in(2) {
        return [vote(view, plan), None];
    }
    // Every second one lies at u, where it can.
    let before = if rng.one_in(2) { u.min(view - 1) } else { view_about(rng, u, view) };
    [vote(view, plan), vote(before, (plan + 1 + rng.below(plans - 1)) % plans)]
}

/// How many locks stand above u and how many at u, so that u is the lowest view above which some quorum of the reporters has no lock.
fn lock_counts(rng: &mut Rng, shape: Shape, reporters: usize) -> (usize, usize) {
    let spare = reporters.saturating_sub(shape.n - shape.f);
    let above = if shape.u + 1 < shape.v { rng.below(spare as u64 + 1) as usize } else { 0 };
    let more = rng.below((reporters - spare) as u64) as usize;
    (above, spare + 1 - above + more)
}

/// Reports that pass 14, 21 and 22 in view v, with views about u. One set in twenty has no quorum.
fn around(rng: &mut Rng, shape: Shape) -> Reports {
    let Shape { n, f, v, u, plans, common } = shape;
    let reporters = if rng.one_in(20) { n - f - 1 } else { n - f + rng.below(f as u64 + 1) as usize };
    let (above, at) = lock_counts(rng, shape, reporters);
    let mixed = rng.one_in(3);
    // About as many claimers as a blocking set needs, shared among the plans.
    let busy = rng.below(6 * (f as u64 + 1));
    let mut reports: Reports = vec![None; n];
    for (i, reporter) in reports.iter_mut().take(reporters).enumerate() {
        let plan = if mixed { rng.below(plans) } else { common };
        let lock = match i {
            _ if i < above => vote(u + 1 + rng.below(u64::from(v - u - 1)) as u32, plan),
            _ if i < above + at => vote(u, plan),
            _ => u.checked_sub(1).filter(|_| rng.one_in(2)).and_then(|view| vote(view, plan)),
        };
        let about = rng.below(reporters as u64) < busy;
        let [highest, previous] = votes_about(rng, shape, about);
        *reporter = Some([highest, previous, lock]);
    }
    shuffle(rng, &mut reports);
    reports
}

fn shuffle(rng: &mut Rng, reports: &mut Reports) {
    for i in 1..reports.len() {
        reports.swap(i, rng.below(i as u64 + 1) as usize);
    }
}

/// A set in which some reporter has a previous vote.
pub fn with_previous(rng: &mut Rng) -> (Shape, Reports) {
    loop {
        let shape = shape(rng);
        let reports = around(rng, shape);
        if reports.iter().flatten().any(|three| three[1].is_some()) {
            return (shape, reports);
        }
    }
}

/// A set in which no reporter has one.
pub fn without_previous(rng: &mut Rng) -> (Shape, Reports) {
    let shape = shape(rng);
    let mut reports = if rng.one_in(2) { random(rng, shape.n, shape.v, shape.plans) } else { around(rng, shape) };
    for three in reports.iter_mut().flatten() {
        three[1] = None;
    }
    (shape, reports)
}

//! When a plan is safe (01, "When a plan is safe in view v above 0"; 002, Rules 1 to 4), by counting.

use crate::frame::Report;

/// Rule 1 reads suggests and is the leader's; Rule 3 reads proofs and is the voter's.
#[derive(Clone, Copy, PartialEq, Eq, Debug, Hash)]
pub enum Rule {
    One,
    Three,
}

/// What made the plan safe, tried in this order.
#[derive(Clone, Copy, PartialEq, Eq, Debug, Hash)]
pub enum Clause {
    ViewZero,
    NoLock,
    OneSet { at: u32 },
    TwoSets { at: u32 },
}

/// One reporter's three reports: highest, previous, lock.
pub type Reports = [Option<Report>; 3];

/// What is asked about: view v of n vaults of which f may lie. reports[i] is Some where the report
/// frame of view v from vault i is kept, for i in 0..n.
#[derive(Clone, Copy, PartialEq, Eq, Debug)]
pub struct Question<'a> {
    pub n: usize,
    pub f: usize,
    pub v: u32,
    pub reports: &'a [Option<Reports>],
}

/// "A quorum is n - f or more vaults, a blocking set f + 1 or more."
#[derive(Clone, Copy, PartialEq, Eq, Debug)]
pub struct Sizes {
    pub quorum: usize,
    pub blocking: usize,
}

impl Sizes {
    pub fn of(n: usize, f: usize) -> Sizes {
        Sizes { quorum: n - f, blocking: f + 1 }
    }
}

/// Whether the plan is safe in view v, and by which clause.
pub fn safe(rule: Rule, question: &Question, plan: u64) -> Option<Clause> {
    let Question { n, f, v, reports } = *question;
    safe_by(rule, Sizes::of(n, f), v, &reports[..n], plan)
}

/// Step C: "its starting plan if that is safe by Rule 1, else the smallest safe plan, else waits".
pub fn choose(question: &Question, start: u64) -> Option<u64> {
    let Question { n, f, v, reports } = *question;
    choose_by(Sizes::of(n, f), v, &reports[..n], start)
}

/// `safe`, with the sizes given (the simulator breaks the quorum's size on purpose).
pub fn safe_by(
    rule: Rule,
    sizes: Sizes,
    v: u32,
    reports: &[Option<Reports>],
    plan: u64,
) -> Option<Clause> {
    // "in view 0 every plan is safe"
    if v == 0 {
        return Some(Clause::ViewZero);
    }
    // "some quorum q of reporters has no lock at all"
    if count(reports, |reporter| lock(reporter).is_none()) >= sizes.quorum {
        return Some(Clause::NoLock);
    }
    let candidates = Candidates::of(v, reports);
    // "or some v' below v has: no lock in q above v'; every lock in q at v' is for p; and a
    // blocking set claiming p at v'"
    for &at in candidates.views() {
        if locks_allow(sizes, reports, plan, at) && claimed(sizes, reports, plan, at) {
            return Some(Clause::OneSet { at });
        }
    }
    // "Rule 3 also accepts, instead of the last, blocking sets claiming p1 at view a and another
    // plan p2 at view b, with v' <= a < b < v"
    if rule == Rule::Three {
        for &at in candidates.views() {
            if locks_allow(sizes, reports, plan, at) && two_claimed(sizes, reports, at, v) {
                return Some(Clause::TwoSets { at });
            }
        }
    }
    None
}

/// `choose`, with the sizes given.
pub fn choose_by(sizes: Sizes, v: u32, reports: &[Option<Reports>], start: u64) -> Option<u64> {
    if safe_by(Rule::One, sizes, v, reports, start).is_some() {
        return Some(start);
    }
    // A plan that no highest vote and no lock names is safe only where every plan is safe, the
    // starting plan with them. So the smallest safe plan is a named one.
    let mut smallest = None;
    for plan in named_plans(reports) {
        if smallest.is_none_or(|found| plan < found)
            && safe_by(Rule::One, sizes, v, reports, plan).is_some()
        {
            smallest = Some(plan);
        }
    }
    smallest
}

fn highest(reporter: &Reports) -> Option<Report> {
    reporter[0]
}

fn previous(reporter: &Reports) -> Option<Report> {
    reporter[1]
}

/// "The lock is vote-3 in a suggest, vote-4 in a proof": the third report of both.
fn lock(reporter: &Reports) -> Option<Report> {
    reporter[2]
}

/// How many reporters are as the condition says.
fn count(reports: &[Option<Reports>], condition: impl Fn(&Reports) -> bool) -> usize {
    reports.iter().flatten().filter(|reporter| condition(reporter)).count()
}

/// Some quorum q of reporters has "no lock in q above v'; every lock in q at v' is for p": the
/// reporters that may all be in q together are a quorum.
fn locks_allow(sizes: Sizes, reports: &[Option<Reports>], plan: u64, at: u32) -> bool {
    let may_be_in_q = |reporter: &Reports| match lock(reporter) {
        None => true,
        Some(lock) => lock.view < at || (lock.view == at && lock.plan == plan),
    };
    count(reports, may_be_in_q) >= sizes.quorum
}

/// "A reporter claims p at v' if v' is 0, or its highest vote is for p at v' or later, or its
/// previous vote is at v' or later."
pub fn claims(reporter: &Reports, plan: u64, at: u32) -> bool {
    at == 0
        || highest(reporter).is_some_and(|vote| vote.plan == plan && vote.view >= at)
        || previous(reporter).is_some_and(|vote| vote.view >= at)
}

/// A reporter that claims every plan at v'.
fn claims_every_plan(reporter: &Reports, at: u32) -> bool {
    at == 0 || previous(reporter).is_some_and(|vote| vote.view >= at)
}

/// "a blocking set claiming p at v'"; "Blocking sets need not be in q."
fn claimed(sizes: Sizes, reports: &[Option<Reports>], plan: u64, at: u32) -> bool {
    count(reports, |reporter| claims(reporter, plan, at)) >= sizes.blocking
}

/// A blocking set that claims every plan at v'.
fn every_plan_claimed(sizes: Sizes, reports: &[Option<Reports>], at: u32) -> bool {
    count(reports, |reporter| claims_every_plan(reporter, at)) >= sizes.blocking
}

/// "blocking sets claiming p1 at view a and another plan p2 at view b, with v' <= a < b < v".
/// Who claims a plan at a view claims it at every earlier view too, so a = v' and b = v' + 1
/// serve whenever any a and b do.
fn two_claimed(sizes: Sizes, reports: &[Option<Reports>], at: u32, v: u32) -> bool {
    let a = at;
    let Some(b) = at.checked_add(1).filter(|&b| b < v) else {
        return false;
    };
    // Every plan claimed at b, and so at a as well: p1 and p2 are any two plans.
    if every_plan_claimed(sizes, reports, b) {
        return true;
    }
    // Otherwise a blocking set for p2 at b has a member whose highest vote is for p2.
    let any_p1 = every_plan_claimed(sizes, reports, a);
    highest_plans(reports).any(|p2| {
        claimed(sizes, reports, p2, b)
            && (any_p1
                || highest_plans(reports).any(|p1| p1 != p2 && claimed(sizes, reports, p1, a)))
    })
}

/// The plans that highest votes name.
fn highest_plans(reports: &[Option<Reports>]) -> impl Iterator<Item = u64> + '_ {
    reports.iter().flatten().filter_map(highest).map(|vote| vote.plan)
}

/// The plans that highest votes or locks name.
fn named_plans(reports: &[Option<Reports>]) -> impl Iterator<Item = u64> + '_ {
    let lock_plans = reports.iter().flatten().filter_map(lock).map(|lock| lock.plan);
    highest_plans(reports).chain(lock_plans)
}

/// The views v' worth trying, each once, lowest first: 0, each lock's view, and the view after
/// each lock's. Any other v' allows the same quorums as the lowest view between the same two lock
/// views, and claims only grow fewer as v' rises, so that lowest view serves where v' does.
struct Candidates {
    views: [u32; 129],
    count: usize,
}

impl Candidates {
    fn of(v: u32, reports: &[Option<Reports>]) -> Candidates {
        let mut candidates = Candidates { views: [0; 129], count: 0 };
        candidates.add(0, v);
        for lock in reports.iter().flatten().filter_map(lock) {
            candidates.add(u64::from(lock.view), v);
            candidates.add(u64::from(lock.view) + 1, v);
        }
        candidates.views[..candidates.count].sort_unstable();
        candidates
    }

    /// Adds a view that is below v and not there yet.
    fn add(&mut self, view: u64, v: u32) {
        if view < u64::from(v) && !self.views().contains(&(view as u32)) {
            self.views[self.count] = view as u32;
            self.count += 1;
        }
    }

    fn views(&self) -> &[u32] {
        &self.views[..self.count]
    }
}

//! When a plan is safe, read literally: every set of vaults is tried as quorum and as blocking
//! set, every view below v, every pair of views and of plans. For n up to 7 and small views.
//! Shares nothing with rules.rs but the types.

use crate::rules::{Question, Reports, Rule};

/// A set of vaults: bit i stands for vault i.
type Set = u8;

/// Whether the plan is safe in view v.
pub fn safe(rule: Rule, question: &Question, plan: u64) -> bool {
    assert!(question.n <= 7, "the literal reading is for n up to 7");
    question.safe(rule, plan)
}

/// The starting plan if it is safe by Rule 1, else the smallest safe plan of all, else none.
pub fn choose(question: &Question, start: u64) -> Option<u64> {
    if safe(Rule::One, question, start) {
        return Some(start);
    }
    // Plans that no report names are all alike, so the smallest two of them stand for all.
    let mut plans = plans_to_try(question.reports);
    plans.sort_unstable();
    plans.into_iter().find(|&plan| safe(Rule::One, question, plan))
}

impl Question<'_> {
    fn safe(&self, rule: Rule, plan: u64) -> bool {
        if self.v == 0 {
            return true;
        }
        // some quorum q of reporters has no lock at all
        if self.quorums().any(|q| self.members(q).all(|reporter| reporter[2].is_none())) {
            return true;
        }
        // or some v' below v has
        (0..self.v).any(|at| {
            // no lock in q above v'; every lock in q at v' is for p
            self.quorums().any(|q| self.locks_of_q_allow(q, at, plan))
                && (self.blocking_set_claims(plan, at)
                    || (rule == Rule::Three && self.two_blocking_sets(at)))
        })
    }

    fn locks_of_q_allow(&self, q: Set, at: u32, plan: u64) -> bool {
        let no_lock_above =
            self.members(q).all(|reporter| reporter[2].is_none_or(|lock| lock.view <= at));
        let every_lock_there_for_plan = self
            .members(q)
            .all(|reporter| reporter[2].is_none_or(|lock| lock.view != at || lock.plan == plan));
        no_lock_above && every_lock_there_for_plan
    }

    /// Some blocking set all of whose members claim the plan at the view.
    fn blocking_set_claims(&self, plan: u64, at: u32) -> bool {
        self.sets_of_reporters(self.f + 1)
            .any(|set| self.members(set).all(|reporter| claims(reporter, plan, at)))
    }

    /// Blocking sets claiming p1 at view a and another plan p2 at view b, with v' <= a < b < v.
    fn two_blocking_sets(&self, at: u32) -> bool {
        let plans = plans_to_try(self.reports);
        let claimed: Vec<Vec<bool>> = plans
            .iter()
            .map(|&plan| (0..self.v).map(|view| self.blocking_set_claims(plan, view)).collect())
            .collect();
        for a in at..self.v {
            for b in a + 1..self.v {
                for p1 in 0..plans.len() {
                    for p2 in 0..plans.len() {
                        if p1 != p2 && claimed[p1][a as usize] && claimed[p2][b as usize] {
                            return true;
                        }
                    }
                }
            }
        }
        false
    }

    /// Every quorum of reporters.
    fn quorums(&self) -> impl Iterator<Item = Set> + '_ {
        self.sets_of_reporters(self.n - self.f)
    }

    /// Every set of so many vaults or more that are all reporters.
    fn sets_of_reporters(&self, size: usize) -> impl Iterator<Item = Set> + '_ {
        (0..1u8 << self.n).filter(move |&set| {
            set.count_ones() as usize >= size
                && (0..self.n).all(|i| set & (1 << i) == 0 || self.reports[i].is_some())
        })
    }

    /// The reporters of a set.
    fn members(&self, set: Set) -> impl Iterator<Item = &Reports> + '_ {
        (0..self.n).filter(move |i| set & (1 << i) != 0).filter_map(|i| self.reports[i].as_ref())
    }
}

/// Rules 2 and 4: v' is 0, or the highest vote is for p at v' or later, or the previous vote is
/// at v' or later.
fn claims(reporter: &Reports, plan: u64, at: u32) -> bool {
    if at == 0 {
        return true;
    }
    if let Some(highest) = reporter[0] {
        if highest.plan == plan && highest.view >= at {
            return true;
        }
    }
    if let Some(previous) = reporter[1] {
        if previous.view >= at {
            return true;
        }
    }
    false
}

/// Every plan that a report names, each once, and the two smallest plans that none names.
fn plans_to_try(reports: &[Option<Reports>]) -> Vec<u64> {
    let mut plans: Vec<u64> =
        reports.iter().flatten().flatten().flatten().map(|report| report.plan).collect();
    plans.sort_unstable();
    plans.dedup();
    let unnamed: Vec<u64> = (0..).filter(|plan| !plans.contains(plan)).take(2).collect();
    plans.extend(unnamed);
    plans
}

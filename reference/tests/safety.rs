//! The rules by counting (rules.rs) against the rules read literally (literal.rs), on random valid
//! report sets; and against every view tried by counting, for many vaults.
mod common;
use common::*;
use reference::frame::Report;
use reference::rng::Rng;
use reference::rules::{Clause, Question, Reports, Rule};
use reference::{literal, rules};
use std::collections::BTreeMap;
use std::ops::RangeInclusive;

const SETS: usize = 100_000;

struct Case {
    n: usize,
    f: usize,
    v: u32,
    reports: Vec<Option<Reports>>,
}

impl Case {
    fn question(&self) -> Question<'_> {
        Question { n: self.n, f: self.f, v: self.v, reports: &self.reports }
    }

    fn assert_passes_14_21_and_22(&self) {
        for (sender, reports) in (0u8..).zip(&self.reports) {
            if let Some(reports) = reports {
                let id = (sender + 1) % self.n as u8;
                let bytes = reference::frame::write(&proof(sender, self.v, *reports));
                assert!(reference::frame::read(&bytes, sender, self.n as u8, id).is_ok());
            }
        }
    }
}

/// What the reports of one set have in common.
struct Habits {
    views: Vec<u32>,
    plans: u64,
    /// In some sets most votes of a view are for one plan, as among vaults that keep the rules.
    usual_plan: Vec<u64>,
    usual_rate: u64,
    /// In some locks are for early views, votes for late ones.
    apart: bool,
}

impl Habits {
    fn report(&self, rng: &mut Rng, rate: u64, late: bool) -> Option<Report> {
        let present = rng.below(8) < rate;
        let at = rng.below(self.views.len() as u64) as usize;
        let other = rng.below(self.views.len() as u64) as usize;
        let at = match (self.apart, late) {
            (false, _) => at,
            (true, true) => at.max(other),
            (true, false) => at.min(other),
        };
        let usual = rng.below(8) < self.usual_rate;
        let plan = if usual { self.usual_plan[at] } else { rng.below(self.plans) };
        present.then(|| Report { view: self.views[at], plan })
    }
}

/// A number of a range.
fn within(rng: &mut Rng, range: &RangeInclusive<u32>) -> u32 {
    range.start() + rng.below(u64::from(range.end() - range.start()) + 1) as u32
}

/// A report set that passes refusals 14, 21 and 22, of n vaults and for view v, with few views and
/// few plans.
fn random_case(
    rng: &mut Rng,
    n: RangeInclusive<u32>,
    v: RangeInclusive<u32>,
    views: &[u32],
) -> Case {
    let (n, v) = (within(rng, &n) as usize, within(rng, &v));
    let f = 1 + rng.below((n as u64 - 1) / 3) as usize;
    let views: Vec<u32> = views.iter().copied().filter(|&view| view < v).collect();
    let plans = 1 + rng.below(4);
    let (highest_rate, previous_rate, lock_rate) = (rng.below(9), rng.below(9), rng.below(9));
    let absent_rate = rng.pick(&[0, 0, 0, 1, 2]);
    let usual_plan = views.iter().map(|_| rng.below(plans)).collect();
    let usual_rate = rng.pick(&[0, 5, 7]);
    let habits = Habits { views, plans, usual_plan, usual_rate, apart: rng.one_in(2) };
    let three = |_| {
        let highest = habits.report(rng, highest_rate, true);
        let lock = habits.report(rng, lock_rate, false);
        let previous = habits.report(rng, previous_rate, false).filter(|previous| {
            highest.is_some_and(|h| previous.view < h.view && previous.plan != h.plan)
        });
        (rng.below(8) >= absent_rate).then_some([highest, previous, lock])
    };
    Case { n, f, v, reports: (0..n).map(three).collect() }
}

fn name(clause: Option<Clause>) -> &'static str {
    match clause {
        None => "not safe",
        Some(Clause::ViewZero) => "view 0",
        Some(Clause::NoLock) => "no lock",
        Some(Clause::OneSet { at: 0 }) => "one set at 0",
        Some(Clause::OneSet { .. }) => "one set above 0",
        Some(Clause::TwoSets { at: 0 }) => "two sets at 0",
        Some(Clause::TwoSets { .. }) => "two sets above 0",
    }
}

fn name_of_choice(chosen: Option<u64>, start: u64) -> &'static str {
    match chosen {
        None => "waits",
        Some(plan) if plan == start => "the starting plan",
        Some(plan) if plan < start => "a smaller plan",
        Some(_) => "a larger plan",
    }
}

#[derive(Default)]
struct Counts(BTreeMap<String, usize>);

impl Counts {
    fn add(&mut self, what: String) {
        *self.0.entry(what).or_default() += 1;
    }

    /// The rules by counting against another way to answer, and how often each clause served.
    fn compare(&mut self, question: &Question, plan: u64, other: impl Fn(Rule) -> bool) {
        for rule in [Rule::One, Rule::Three] {
            let clause = rules::safe(rule, question, plan);
            assert_eq!(clause.is_some(), other(rule), "{rule:?} plan {plan} {question:?}");
            self.add(format!("{rule:?}: {}", name(clause)));
        }
    }

    fn expect(&self, of: &str, whats: &[&str]) {
        for what in whats {
            assert!(
                self.0.contains_key(&format!("{of}: {what}")),
                "{of} never: {what}; {:?}",
                self.0
            );
        }
    }
}

/// 4 to 7 vaults. One set in 50 is for view 0, where nobody reports.
fn small_case(rng: &mut Rng, set: usize) -> Case {
    if set % 50 == 49 {
        let n = within(rng, &(4..=7)) as usize;
        return Case { n, f: 1, v: 0, reports: vec![None; n] };
    }
    random_case(rng, 4..=7, 1..=5, &[0, 1, 2, 3, 4])
}

#[test]
fn counting_agrees_with_every_set() {
    let mut rng = Rng(1);
    let mut counts = Counts::default();
    for set in 0..SETS {
        let case = small_case(&mut rng, set);
        if set < 5_000 {
            case.assert_passes_14_21_and_22();
        }
        let question = case.question();
        // plans 0 to 3 may be named; 4 and above never are
        let plan = rng.below(5);
        counts.compare(&question, plan, |rule| literal::safe(rule, &question, plan));
        let start = rng.pick(&[0, 1, 2, 3, 9]);
        let chosen = chosen_by_both(&question, start);
        counts.add(format!("choose: {}", name_of_choice(chosen, start)));
    }
    println!("{:#?}", counts.0);
    let both = ["view 0", "no lock", "one set at 0", "one set above 0", "not safe"];
    counts.expect("One", &both);
    counts.expect("Three", &both);
    counts.expect("Three", &["two sets above 0"]);
    counts.expect("choose", &["waits", "the starting plan", "a smaller plan", "a larger plan"]);
    // at view 0 every reporter claims, so the clause of one set always serves there first
    assert!(!counts.0.contains_key("Three: two sets at 0"));
    assert!(!counts.0.keys().any(|key| key.starts_with("One: two sets")));
}

/// The same reports moved to the end of the view range. Reports at views 1 and 2 are left out, so
/// that stretching the views between 0 and 3 changes nothing.
#[test]
fn the_last_views_answer_as_the_first() {
    let mut rng = Rng(2);
    let mut counts = Counts::default();
    for _ in 0..20_000 {
        let near = random_case(&mut rng, 4..=7, 4..=7, &[0, 3, 4, 5, 6]);
        let last = |view: u32| if view == 0 { 0 } else { u32::MAX - near.v + view };
        let moved = |report: Report| Report { view: last(report.view), plan: report.plan };
        let reports = near.reports.iter().map(|told| told.map(|three| three.map(|r| r.map(moved))));
        let far = Case { v: u32::MAX, reports: reports.collect(), ..near };
        let (near, far) = (near.question(), far.question());
        let plan = rng.below(5);
        counts.compare(&far, plan, |rule| literal::safe(rule, &near, plan));
        let start = rng.below(5);
        assert_eq!(rules::choose(&far, start), literal::choose(&near, start));
    }
    counts.expect("Three", &["two sets above 0", "one set above 0", "not safe"]);
}

/// Many vaults: every v', every a < b, every pair of plans, with sets counted.
fn by_every_view(rule: Rule, case: &Case, plan: u64) -> bool {
    let reporters: Vec<Reports> = case.reports.iter().flatten().copied().collect();
    let quorum = case.n - case.f;
    let claimed = |plan: u64, at: u32| {
        let claims = |r: &&Reports| {
            at == 0
                || r[0].is_some_and(|vote| vote.plan == plan && vote.view >= at)
                || r[1].is_some_and(|vote| vote.view >= at)
        };
        reporters.iter().filter(claims).count() > case.f
    };
    let two_sets = |from: u32| {
        (from..case.v).any(|a| {
            (a + 1..case.v).any(|b| {
                (0..6).any(|p1| (0..6).any(|p2| p1 != p2 && claimed(p1, a) && claimed(p2, b)))
            })
        })
    };
    let unlocked = reporters.iter().filter(|r| r[2].is_none()).count();
    unlocked >= quorum
        || (0..case.v).any(|at| {
            let allowed = |r: &&Reports| {
                r[2].is_none_or(|lock| lock.view < at || (lock.view == at && lock.plan == plan))
            };
            reporters.iter().filter(allowed).count() >= quorum
                && (claimed(plan, at) || (rule == Rule::Three && two_sets(at)))
        })
}

#[test]
fn many_vaults_agree_with_every_view_tried() {
    let mut rng = Rng(3);
    let mut counts = Counts::default();
    for _ in 0..3_000 {
        let mut case = random_case(&mut rng, 8..=64, 1..=9, &[0, 1, 2, 3, 4, 5, 6, 7, 8]);
        if rng.one_in(2) {
            case.f = (case.n - 1) / 3;
        }
        let plan = rng.below(5);
        counts.compare(&case.question(), plan, |rule| by_every_view(rule, &case, plan));
    }
    counts.expect("Three", &["two sets above 0", "one set above 0", "not safe"]);
}

#[test]
fn no_report_and_too_few_reports() {
    for rule in [Rule::One, Rule::Three] {
        for v in [1, 2, u32::MAX] {
            assert_eq!(rules::safe(rule, &of_four(v, &[None; 4]), 0), None);
            let two = [Some(NONE), Some(NONE), None, None];
            assert_eq!(rules::safe(rule, &of_four(v, &two), 0), None);
            let three = [Some(NONE), Some(NONE), None, Some(NONE)];
            assert_eq!(rules::safe(rule, &of_four(v, &three), 0), Some(Clause::NoLock));
        }
        assert_eq!(safe_by_both(rule, &of_four(0, &[None; 4]), 0), Some(Clause::ViewZero));
    }
    assert_eq!(chosen_by_both(&of_four(0, &[None; 4]), 5), Some(5));
    assert_eq!(chosen_by_both(&of_four(1, &[None; 4]), 5), None);
}

#[test]
fn the_smallest_safe_plan_and_plan_zero() {
    let choose = |reports, start| chosen_by_both(&of_four(1, reports), start);
    // locks at 0 for plan 8 in two of four: only 8 is safe
    let reports =
        [Some([None, None, rep(0, 8)]), Some([None, None, rep(0, 8)]), Some(NONE), Some(NONE)];
    assert_eq!(choose(&reports, 5), Some(8));
    assert_eq!(choose(&reports, 8), Some(8));
    // one lock for 8, one for 3: both are safe with three of the four, 5 is not
    let reports =
        [Some([None, None, rep(0, 8)]), Some([None, None, rep(0, 3)]), Some(NONE), Some(NONE)];
    assert_eq!(choose(&reports, 5), Some(3));
    assert_eq!(choose(&reports, 8), Some(8));
    // plan 0 is a plan like any other
    let reports =
        [Some([None, None, rep(0, 0)]), Some([None, None, rep(0, 0)]), Some(NONE), Some(NONE)];
    assert_eq!(choose(&reports, 5), Some(0));
    // and so is the largest
    let reports = [
        Some([None, None, rep(0, u64::MAX)]),
        Some([None, None, rep(0, u64::MAX)]),
        Some(NONE),
        None,
    ];
    assert_eq!(choose(&reports, 5), Some(u64::MAX));
}

#[test]
fn previous_votes_claim_every_plan() {
    // view 4: lock (1, 7) in two; two reporters have a previous vote at 2, none for plan 9
    let moved = |lock| Some([rep(3, 5), rep(2, 6), lock]);
    let reports = [moved(rep(1, 7)), moved(rep(1, 7)), Some(NONE), Some(NONE)];
    for plan in [0, 5, 6, 7, 9] {
        assert!(safe_by_both(Rule::One, &of_four(4, &reports), plan).is_some());
    }
    // with one of them only, 9 is not safe
    let reports = [moved(rep(1, 7)), Some([None, None, rep(1, 7)]), Some(NONE), Some(NONE)];
    assert_eq!(safe_by_both(Rule::One, &of_four(4, &reports), 9), None);
}

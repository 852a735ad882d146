//! The Rattle search for safe plans against the reference: by trying every set for n up to 7, by counting up to 64.
use comparison::around::{liars, vote, with_previous, without_previous, Shape};
use comparison::rows::{random, table_of, Reports, Table, COLUMN};
use comparison::{choose_plan, safe_plan};
use reference::frame::Report;
use reference::literal;
use reference::rng::Rng;
use reference::rules::{self, Clause, Question, Rule};

const SETS: u64 = 200_000;
const LARGE_SETS: u64 = 4_000;
const CARRIED_SETS: u64 = 20_000;

// The plans of document 01's marked edges.
const A: u64 = 10;
const B: u64 = 20;
const C: u64 = 30;
const D: u64 = 40;

/// Document 01, M7 to M10: the proofs of view 3.
fn halves() -> Reports {
    vec![Some([vote(1, A), None, vote(1, C)]), Some([vote(1, A), None, None]), Some([vote(2, B), None, vote(1, C)]), Some([vote(2, B), None, None])]
}

/// Which clause decided, or none.
fn index(clause: Option<Clause>) -> usize {
    match clause {
        None => 0,
        Some(Clause::ViewZero) => 1,
        Some(Clause::NoLock) => 2,
        Some(Clause::OneSet { .. }) => 3,
        Some(Clause::TwoSets { .. }) => 4,
    }
}

/// Whether every set of vaults, every view and every pair of views can be tried in little time.
fn quick(question: &Question) -> bool {
    question.n <= 7 && question.v <= 9
}

/// Both rules and the choice answer as counting does, and as trying every set does where that is quick. Gives the clauses of Rules 1 and 3.
fn agree(flat: &Table, question: &Question, plan: u64) -> [Option<Clause>; 2] {
    let Question { n, f, v, .. } = *question;
    let quick = quick(question);
    let chosen = rules::choose(question, plan);
    assert_eq!(choose_plan(flat, n, f, v, plan), chosen, "start {plan} {question:?}");
    assert!(!quick || literal::choose(question, plan) == chosen, "start {plan} {question:?}");
    [Rule::One, Rule::Three].map(|rule| {
        let clause = rules::safe(rule, question, plan);
        assert_eq!(safe_plan(flat, n, f, v, plan, rule), clause.is_some(), "{rule:?} plan {plan} {question:?}");
        assert!(!quick || literal::safe(rule, question, plan) == clause.is_some(), "{rule:?} plan {plan} {question:?}");
        clause
    })
}

#[test]
fn search_equals_trying_every_set() {
    let mut rng = Rng(4);
    let mut decided = [[0u32; 5]; 2];
    let mut chosen = [0u32; 3];
    for _ in 0..SETS {
        let n = 4 + rng.below(4) as usize;
        let f = if n == 7 && rng.below(3) > 0 { 2 } else { 1 };
        let v = if rng.below(50) == 0 { 0 } else { 1 + rng.below(6) as u32 };
        let plans = 2 + rng.below(3);
        let reports = if v == 0 { vec![None; n] } else { random(&mut rng, n, v, plans) };
        let flat = table_of(&mut rng, v, &reports);
        let plan = rng.below(plans + 1);
        let rule = rng.pick(&[Rule::Three, Rule::One]);
        let question = Question { n, f, v, reports: &reports };
        let expected = literal::safe(rule, &question, plan);
        assert_eq!(safe_plan(&flat, n, f, v, plan, rule), expected, "{rule:?} plan {plan} {question:?}");
        decided[usize::from(rule == Rule::Three)][index(rules::safe(rule, &question, plan))] += 1;
        if rng.below(4) == 0 {
            let start = rng.below(plans + 1);
            let expected = literal::choose(&question, start);
            assert_eq!(choose_plan(&flat, n, f, v, start), expected, "start {start} {question:?}");
            chosen[expected.map_or(0, |p| if p == start { 1 } else { 2 })] += 1;
        }
    }
    println!("Rule 1 by clause {:?}\nRule 3 by clause {:?}\nchoice: none, own, other {chosen:?}", decided[0], decided[1]);
    assert!(decided[0][..4].iter().all(|&count| count > 100) && decided[0][4] == 0, "{decided:?}");
    assert!(decided[1].iter().all(|&count| count > 100), "{decided:?}");
    assert!(chosen.iter().all(|&count| count > 100), "{chosen:?}");
}

#[test]
fn search_equals_counting_up_to_64_vaults() {
    let mut rng = Rng(64);
    let mut decided = [0u32; 5];
    for round in 0..LARGE_SETS {
        let n = if round % 2 == 0 { 64 } else { 4 + rng.below(61) as usize };
        let f = liars(&mut rng, n);
        let v = match rng.below(3) {
            0 => u32::MAX,
            1 => 1 + rng.below(200) as u32,
            _ => 1 + rng.below(5) as u32,
        };
        let plans = 2 + rng.below(5);
        let reports = random(&mut rng, n, v, plans);
        let flat = table_of(&mut rng, v, &reports);
        let plan = rng.below(plans + 1);
        let question = Question { n, f, v, reports: &reports };
        for clause in agree(&flat, &question, plan) {
            decided[index(clause)] += 1;
        }
    }
    println!("by clause {decided:?}");
}

/// Every plan that a report names, each once, and one that none names.
fn plans_asked(reports: &Reports, unnamed: u64) -> Vec<u64> {
    let mut plans: Vec<u64> = reports.iter().flatten().flatten().flatten().map(|report| report.plan).collect();
    plans.push(unnamed);
    plans.sort_unstable();
    plans.dedup();
    plans
}

/// The lowest view above which some quorum of reporters has no lock.
fn lowest(question: &Question) -> Option<u32> {
    let mut views: Vec<u32> = question.reports.iter().flatten().map(|three| three[2].map_or(0, |lock| lock.view)).collect();
    views.sort_unstable();
    views.get(question.n - question.f - 1).copied()
}

/// How many reporters are as the condition says.
fn count(question: &Question, condition: impl Fn(&rules::Reports) -> bool) -> usize {
    question.reports.iter().flatten().filter(|three| condition(three)).count()
}

/// How many reporters claim a plan at a view: those whose reach is not below it.
fn claimers(question: &Question, plan: u64, at: u32) -> usize {
    count(question, |[highest, previous, _]| {
        let own = highest.filter(|vote| vote.plan == plan).map_or(0, |vote| vote.view);
        at <= own.max(previous.map_or(0, |vote| vote.view))
    })
}

/// How many reporters have their highest vote above u, for this plan or for another, and their previous vote at u.
/// They claim their own plan at u + 1, and every other plan only from u downwards.
fn turned(question: &Question, plan: u64, own: bool, u: u32) -> usize {
    count(question, |[highest, previous, _]| {
        highest.is_some_and(|vote| vote.view > u && (vote.plan == plan) == own) && previous.is_some_and(|vote| vote.view == u)
    })
}

/// What was met: edges by sets, and the rest by walks, one for each plan asked about in a set.
#[derive(Default, Debug)]
struct Met {
    every_set_tried: u32,
    u_is_0: u32,
    u_is_last: u32,
    v_is_top: u32,
    stale_rows: u32,
    ends_at_next: u32,
    ends_at_u: u32,
    ends_nowhere: u32,
    comes_in: u32,
    // The answer would differ if those that come in at u were left out, or if a claimer at u + 1 were counted again at u.
    told_if_left_out: u32,
    told_if_counted_twice: u32,
    rule_3_by_clause: [u32; 5],
}

impl Met {
    fn set(&mut self, question: &Question, flat: &Table) {
        let u = lowest(question);
        self.every_set_tried += u32::from(quick(question));
        self.u_is_0 += u32::from(u == Some(0));
        self.u_is_last += u32::from(u == Some(question.v - 1));
        self.v_is_top += u32::from(question.v == u32::MAX);
        self.stale_rows += u32::from((0..question.n).any(|i| flat[i] == 0 && (1..7).any(|j| flat[j * COLUMN + i] > 0)));
    }

    /// Down from u + 1 to u, to the answer of Rule 1. Without a quorum, and where some quorum has no lock, there is no walk.
    fn walk(&mut self, question: &Question, plan: u64, safe: bool) {
        let Question { n, f, v, .. } = *question;
        let Some(u) = lowest(question).filter(|_| count(question, |three| three[2].is_none()) < n - f) else { return };
        if u + 1 < v && claimers(question, plan, u + 1) > f {
            self.ends_at_next += 1;
            return assert!(safe, "plan {plan} {question:?}");
        }
        let here = claimers(question, plan, u);
        let late = turned(question, plan, false, u);
        // At view 0 everybody comes in.
        self.comes_in += u32::from(u > 0 && late > 0);
        let allowed = count(question, |three| three[2].is_none_or(|lock| lock.view < u || lock == Report { view: u, plan })) >= n - f;
        assert_eq!(allowed && here > f, safe, "plan {plan} {question:?}");
        if here > f {
            self.ends_at_u += 1;
            self.told_if_left_out += u32::from(allowed && u > 0 && here - late <= f);
        } else {
            self.ends_nowhere += 1;
            self.told_if_counted_twice += u32::from(allowed && here + turned(question, plan, true, u) > f);
        }
    }

    fn assert_enough(&self) {
        let walks = [self.ends_at_next, self.ends_at_u, self.ends_nowhere];
        assert!(walks.iter().all(|&count| count > 1_000), "{self:?}");
        let sets = [self.every_set_tried, self.u_is_0, self.u_is_last, self.v_is_top, self.stale_rows];
        assert!(sets.iter().all(|&count| count > 1_000), "{self:?}");
        let turns = [self.comes_in, self.told_if_left_out, self.told_if_counted_twice];
        assert!(turns.iter().all(|&count| count > 100), "{self:?}");
        // No set is of view 0.
        assert!([0, 2, 3, 4].iter().all(|&clause| self.rule_3_by_clause[clause] > 100), "{self:?}");
    }
}

/// Document 02, wish 4: the count of claimers that is carried from u + 1 down to u changes no answer.
#[test]
fn carried_counts_agree_with_both_engines() {
    let mut rng = Rng(402);
    let mut met = Met::default();
    for round in 0..CARRIED_SETS {
        let (shape, reports) = if round % 2 == 0 { with_previous(&mut rng) } else { without_previous(&mut rng) };
        let Shape { n, f, v, plans, .. } = shape;
        let flat = table_of(&mut rng, v, &reports);
        let question = Question { n, f, v, reports: &reports };
        met.set(&question, &flat);
        for plan in plans_asked(&reports, plans) {
            let [one, three] = agree(&flat, &question, plan);
            met.walk(&question, plan, one.is_some());
            met.rule_3_by_clause[index(three)] += 1;
        }
    }
    println!("{met:?}");
    met.assert_enough();
}

/// Wish 4 by hand: the claimers of plans a to d at view 2 and at view 1, which is u. Plans b and c are safe by Rule 3.
fn assert_worked(reports: &Reports, counts: [[usize; 2]; 4]) {
    let question = Question { n: 4, f: 1, v: 3, reports };
    let flat = table_of(&mut Rng(1), 3, reports);
    assert_eq!(lowest(&question), Some(1));
    for (plan, expected) in [A, B, C, D].into_iter().zip(counts) {
        assert_eq!([2, 1].map(|at| claimers(&question, plan, at)), expected, "plan {plan}");
        let [_, three] = agree(&flat, &question, plan);
        assert_eq!(three.is_some(), [B, C].contains(&plan), "plan {plan}");
    }
}

#[test]
fn worked_carried_counts() {
    let mut reports = halves();
    assert_worked(&reports, [[0, 2], [2, 2], [0, 0], [0, 0]]);
    for three in reports[2..].iter_mut().flatten() {
        three[1] = vote(1, A);
    }
    assert_worked(&reports, [[0, 4], [2, 2], [0, 2], [0, 2]]);
}

/// Document 01, M4 to M10, in the same table.
#[test]
fn marked_edges() {
    let bare = Some([None, None, None]);
    let locked = Some([None, None, vote(0, A)]);
    let halves = halves();
    let safe = |reports: &Vec<_>, v, plan| safe_plan(&table_of(&mut Rng(1), v, reports), 4, 1, v, plan, Rule::Three);
    assert!(safe(&vec![bare, bare, bare, None], 1, D));
    assert!(safe(&vec![locked, bare, bare, None], 1, A));
    assert!(!safe(&vec![locked, bare, bare, None], 1, B));
    assert!(safe(&vec![locked, bare, bare, bare], 1, B));
    assert!(safe(&halves, 3, C));
    assert!(safe(&halves, 3, B));
    assert!(!safe(&halves, 3, A));
    assert!(!safe(&halves, 3, D));
}

/// A run in which only the two-set clause serves: vault 1 lies; the proofs of view 6 of vaults 0, 2 and 3.
#[test]
fn two_set_clause_alone_serves() {
    const A: u64 = 1;
    const B: u64 = 2;
    const C: u64 = 3;
    let locked = Some([vote(1, B), vote(0, A), vote(0, A)]);
    let moved = Some([vote(5, A), vote(1, B), None]);
    let late = Some([vote(5, A), None, None]);
    let flat = table_of(&mut Rng(1), 6, &vec![locked, None, moved, late]);
    assert!(safe_plan(&flat, 4, 1, 6, C, Rule::Three));
    assert!(!safe_plan(&flat, 4, 1, 6, C, Rule::One));
}

/// Where lengths or sizes are out of range the answer is 2, and nothing is read or written.
#[test]
fn bad_sizes_are_refused() {
    let table = table_of(&mut Rng(1), 1, &vec![None; 4]);
    let ask = |table: &[u64], n, f| comparison::safe_plan_raw(table, n, f, 1, 0, 1);
    assert_eq!(ask(&table[1..], 4, 1), 2);
    assert_eq!(ask(&[], 4, 1), 2);
    assert_eq!(ask(&table, 65, 1), 2);
    assert_eq!(ask(&table, 4, 4), 2);
    assert_eq!(ask(&table, 4, 1), 0);
}

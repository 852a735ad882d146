//! Whole networks under the adversary of sim.rs: the claim of document 01 over runs, and that the
//! check finds vaults which break a rule.

use std::cell::RefCell;

use reference::frame::Report;
use reference::literal;
use reference::rules::{Clause, Question, Reports, Rule};
use reference::sim::{
    self, Accepted, Act, LossRun, Mode, Setup, Style, Tally, Wrong, LOCKED, MADE_UP, SWITCHED,
};
use reference::vault::Fault;

/// A debug build is slower, so it runs fewer seeds.
fn seeds(release: u64) -> u64 {
    if cfg!(debug_assertions) {
        release.div_ceil(6)
    } else {
        release
    }
}

/// Runs the seeds 0.. of one setup; any finding ends the test with the setup that shows it.
fn hold(n: u8, f: u8, liars: u8, mode: Mode, style: Style, count: u64) -> Tally {
    let mut tally = Tally::default();
    for seed in 0..seeds(count) {
        let setup = Setup { n, f, liars, mode, fault: Fault::None, style, seed };
        let outcome = sim::run(&setup);
        assert_eq!(outcome.wrong, None, "{setup:?}");
        tally.add(&outcome.tally);
    }
    tally
}

/// So many seeds of each style, with f liars.
fn hold_styles(n: u8, f: u8, styles: &[(Style, u64)]) -> Tally {
    let mut tally = Tally::default();
    for &(style, count) in styles {
        tally.add(&hold(n, f, f, Mode::Contents, style, count));
    }
    tally
}

/// All that must have happened for the check to mean something.
fn assert_eventful(tally: &Tally) {
    println!("{tally:?}");
    assert!(tally.decisions > tally.runs, "{tally:?}");
    assert!(tally.late_decisions > 0, "{tally:?}");
    assert!(tally.views_entered > tally.runs, "{tally:?}");
    assert!(tally.locks_reported > 0, "{tally:?}");
    assert!(tally.previous_reported > 0, "{tally:?}");
    assert!(tally.plans_changed > 0, "{tally:?}");
    assert!(tally.two_plans_locked > 0, "{tally:?}");
    assert!(tally.view_zero > 0, "{tally:?}");
    assert!(tally.no_lock > 0, "{tally:?}");
    assert!(tally.one_set > 0, "{tally:?}");
    assert!(tally.two_sets > 0, "{tally:?}");
    assert!(tally.later_backed > 0 && tally.mixed_entries > 0, "{tally:?}");
}

#[test]
fn agreement_holds_with_four_vaults_and_a_liar() {
    let styles = [
        (Style::Rounds, 2500),
        (Style::Feints, 700),
        (Style::Partitions, 700),
        (Style::Chaos, 700),
        (Style::Camps, 700),
    ];
    assert_eventful(&hold_styles(4, 1, &styles));
}

#[test]
fn agreement_holds_with_seven_vaults_and_two_liars() {
    let styles =
        [(Style::Rounds, 500), (Style::Feints, 300), (Style::Partitions, 150), (Style::Chaos, 150)];
    let mut tally = hold_styles(7, 2, &styles);
    tally.add(&hold(7, 2, 1, Mode::Contents, Style::Rounds, 150));
    assert_eventful(&tally);
    assert!(tally.moves_apart > 0, "{tally:?}");
}

#[test]
fn agreement_holds_with_ten_vaults_and_three_liars() {
    let styles =
        [(Style::Rounds, 100), (Style::Feints, 60), (Style::Partitions, 40), (Style::Chaos, 40)];
    let tally = hold_styles(10, 3, &styles);
    assert!(tally.late_decisions > 0 && tally.one_set > 0 && tally.two_sets > 0, "{tally:?}");
}

/// More vaults than 3f + 1 make quorums larger than twice the blocking set.
#[test]
fn agreement_holds_with_more_vaults_than_needed() {
    let mut tally = Tally::default();
    for (n, f) in [(5, 1), (6, 1), (9, 2)] {
        tally.add(&hold_styles(n, f, &[(Style::Rounds, 100), (Style::Feints, 60)]));
    }
    assert!(tally.late_decisions > 0 && tally.one_set > 0, "{tally:?}");
}

/// Without liars the check also claims validity.
#[test]
fn validity_holds_where_nobody_lies() {
    let mut tally = Tally::default();
    for (n, f, count) in [(4, 1, 500), (7, 2, 150), (10, 3, 20)] {
        for style in [Style::Rounds, Style::Partitions, Style::Chaos] {
            tally.add(&hold(n, f, 0, Mode::Contents, style, count));
        }
    }
    println!("{tally:?}");
    assert!(tally.late_decisions > 0 && tally.plans_changed > 0 && tally.one_set > 0, "{tally:?}");
}

/// The calls over bytes, in step with the vault by contents and alone.
#[test]
fn the_calls_over_bytes_do_the_same() {
    let mut both = Tally::default();
    for (n, f, liars, count) in [(4, 1, 1, 100), (4, 1, 0, 40), (7, 2, 2, 30)] {
        for style in [Style::Rounds, Style::Feints, Style::Partitions, Style::Chaos] {
            both.add(&hold(n, f, liars, Mode::Both, style, count));
        }
    }
    assert_eventful(&both);
    let alone = hold(4, 1, 1, Mode::Bytes, Style::Rounds, 60);
    let contents = hold(4, 1, 1, Mode::Contents, Style::Rounds, 60);
    // What bytes do not show: clauses, and what steps A and B did.
    let shown = Tally {
        view_zero: 0,
        no_lock: 0,
        one_set: 0,
        two_sets: 0,
        moves_apart: 0,
        mixed_entries: 0,
        later_backed: 0,
        ..contents
    };
    assert_eq!(alone, shown);
}

/// Lossless links in order and liars who keep silent: every vault decides.
#[test]
fn calm_networks_decide() {
    for (n, f, count) in [(4, 1, 200), (7, 2, 100), (10, 3, 40), (5, 1, 40)] {
        for liars in 0..=f {
            for seed in 0..seeds(count) {
                let setup = Setup {
                    n,
                    f,
                    liars,
                    mode: Mode::Contents,
                    fault: Fault::None,
                    style: Style::Calm,
                    seed,
                };
                let outcome = sim::run(&setup);
                assert_eq!(outcome.wrong, None, "{setup:?}");
                assert_eq!(outcome.decisions.len(), usize::from(n - liars), "{setup:?}");
            }
        }
    }
}

// ---------------------------------------------------------------------------------------------
// Wish 3 of document 02: vaults that have lost view-changes find each other again.

/// Many more rounds than views that could have a silent leader.
const ROUNDS: u32 = 40;
const SIZES: [(u8, u8); 5] = [(4, 1), (5, 1), (7, 2), (10, 3), (13, 4)];

/// A setup for runs that read no style.
fn losing(n: u8, f: u8, liars: u8, mode: Mode, fault: Fault, seed: u64) -> Setup {
    Setup { n, f, liars, mode, fault, style: Style::Calm, seed }
}

/// The run that hung, twice: where a view-change counts for its own view only the vaults stay apart for
/// ever and nothing is decided; where it backs the earlier views too, all decide.
#[test]
fn the_run_that_hung_goes_on() {
    for (n, f) in SIZES {
        for (liars, seed) in [(0, 1), (f, 2), (f, 3)] {
            let played =
                |mode, fault| sim::hang_run(&losing(n, f, liars, mode, fault, seed), ROUNDS);
            let hung = played(Mode::Contents, Fault::OwnViewOnly);
            assert_eq!(hung.outcome.wrong, None);
            assert_eq!(hung.outcome.started, usize::from(n - f));
            assert_eq!(hung.outcome.decisions, []);
            // the last is in view 1, and all the others are still in view 0
            let views: Vec<u32> = hung.views.iter().map(|&(_, view)| view).collect();
            let mut apart = vec![0; usize::from(n - f)];
            *apart.last_mut().expect("vaults") = 1;
            assert_eq!(views, apart);
            for mode in [Mode::Contents, Mode::Bytes, Mode::Both] {
                let run = played(mode, Fault::None);
                assert_recovered(&run);
                assert!(run.in_one_view(), "{run:?}");
            }
        }
    }
}

thread_local! {
    /// The acts that runs on this thread were told of.
    static ACTS: RefCell<Vec<(u8, Act)>> = const { RefCell::new(Vec::new()) };
}

/// The very calls of the run that hung bring all vaults into view 1 under the new count.
#[test]
fn the_calls_of_the_run_that_hung() {
    let hung = losing(4, 1, 0, Mode::Contents, Fault::OwnViewOnly, 5);
    let told = |id, act: &Act| ACTS.with_borrow_mut(|acts| acts.push((id, act.clone())));
    let run = sim::hang_run_told(&hung, ROUNDS, told);
    assert_eq!(run.outcome.tally.views_entered, 1);
    let acts = ACTS.take();
    for (mode, fault, entered) in [
        (Mode::Contents, Fault::OwnViewOnly, 1),
        (Mode::Contents, Fault::None, 3),
        (Mode::Both, Fault::None, 3),
    ] {
        let outcome = sim::replay(&Setup { mode, fault, ..hung }, &acts);
        assert_eq!((outcome.wrong, outcome.tally.views_entered), (None, entered), "{mode:?}");
    }
}

fn assert_recovered(run: &LossRun) {
    assert_eq!(run.outcome.wrong, None);
    assert!(run.all_decided(), "{run:?}");
}

/// Frames lost at random. Afterwards every network decides; under the old count some never do.
#[test]
fn vaults_that_lost_frames_decide() {
    for sizes in [&SIZES[..1], &SIZES[1..]] {
        let (mut hung, mut tally) = (0, Tally::default());
        for &(n, f) in sizes {
            for seed in 0..seeds(60) {
                let liars = (seed % u64::from(f + 1)) as u8;
                let setup = losing(n, f, liars, Mode::Contents, Fault::None, seed);
                let run = sim::loss_run(&setup, ROUNDS);
                assert_recovered(&run);
                tally.add(&run.outcome.tally);
                let old = sim::loss_run(&Setup { fault: Fault::OwnViewOnly, ..setup }, ROUNDS);
                hung += u64::from(!old.all_decided());
            }
        }
        println!("{sizes:?}: {hung} hung under the old count; {tally:?}");
        assert!(hung > 0 && tally.later_backed > 0 && tally.mixed_entries > 0, "{tally:?}");
        // with four vaults A and B never act at different views in one pass
        assert_eq!(tally.moves_apart > 0, sizes.len() > 1, "{tally:?}");
    }
}

// ---------------------------------------------------------------------------------------------
// The check bites.

/// The first seed below 200 at which vaults decide two plans in such a run.
fn first_disagreement(setup: Setup) -> Option<u64> {
    (0..200).find(|&seed| {
        matches!(sim::run(&Setup { seed, ..setup }).wrong, Some(Wrong::Disagreement { .. }))
    })
}

/// Found with 4 vaults and with 7, `more` liars than f among them.
fn assert_found(fault: Fault, style: Style, more: u8) {
    for (n, f) in [(4, 1), (7, 2)] {
        let liars = f + more;
        let setup = Setup { n, f, liars, mode: Mode::Contents, fault, style, seed: 0 };
        let seed = first_disagreement(setup);
        println!("{setup:?}: seed {seed:?}");
        assert!(seed.is_some(), "{setup:?}");
    }
}

#[test]
fn vaults_that_break_a_rule_disagree() {
    for fault in [Fault::IgnoreLocks, Fault::SmallQuorum, Fault::VoteEveryProposal] {
        assert_found(fault, Style::Rounds, 0);
    }
}

#[test]
fn more_liars_than_f_make_vaults_disagree() {
    assert_found(Fault::None, Style::Camps, 1);
}

#[test]
fn an_older_record_makes_vaults_disagree() {
    assert_found(Fault::None, Style::OlderRecord, 0);
}

// Fault::ForgetPrevious is left out above, because it cannot break agreement. It only takes claims
// away: claims stand in Rules 1 and 3 without negation, and the locks are untouched, so whatever a
// forgetful vault votes for would be safe with the full reports too. Agreement rests on Rule 3 alone
// (leaders may lie), so each forgetful run is a run of vaults that keep Rule 3 and sometimes keep
// silent. What it costs is progress, as the next test shows.
#[test]
fn vaults_that_forget_previous_votes_get_stuck() {
    let told = sim::two_set_run(Mode::Contents, Fault::None);
    let forgetful = sim::two_set_run(Mode::Contents, Fault::ForgetPrevious);
    assert!(told.accepted.is_some());
    assert_eq!(told.outcome.decisions.len(), 3);
    assert_eq!(forgetful.accepted, None);
    assert_eq!(forgetful.outcome.decisions.len(), 0);
}

// ---------------------------------------------------------------------------------------------
// The directed run for the two-set clause.

fn report(view: u32, plan: u64) -> Option<Report> {
    Some(Report { view, plan })
}

#[test]
fn two_set_run_is_accepted_by_the_two_set_clause_only() {
    for mode in [Mode::Contents, Mode::Both] {
        let run = sim::two_set_run(mode, Fault::None);
        let clause = Clause::TwoSets { at: 1 };
        assert_eq!(
            run.accepted,
            Some(Accepted { voter: run.voter, view: run.view, plan: LOCKED, clause })
        );
        let proofs = vec![
            Some([report(5, SWITCHED), report(1, LOCKED), report(1, LOCKED)]),
            Some([report(1, MADE_UP), None, None]),
            None,
            Some([report(5, SWITCHED), None, None]),
        ];
        assert_eq!(run.reports, proofs);
        assert_eq!(run.outcome.wrong, None);
        // All rule-keeping vaults decide the plan that was locked in view 1.
        let decided: Vec<(u8, Option<Report>)> =
            run.outcome.decisions.iter().map(|&(id, decision)| (id, Some(decision))).collect();
        assert_eq!(decided, [0, 2, 3].map(|id| (id, report(6, LOCKED))));
    }
}

/// By the rules read out set by set: safe by Rule 3, but not without its two-set clause.
#[test]
fn two_set_run_has_no_other_clause() {
    let run = sim::two_set_run(Mode::Contents, Fault::None);
    let question = Question { n: 4, f: 1, v: run.view, reports: &run.reports };
    assert!(literal::safe(Rule::Three, &question, LOCKED));
    // Rule 1 reads reports in the same way, and lacks that clause alone.
    assert!(!literal::safe(Rule::One, &question, LOCKED));
    assert!(!lock_free_quorum(&run.reports));
    assert!((0..run.view).all(|at| !one_set(&run.reports, LOCKED, at)));
    assert!(claimers(&run.reports, MADE_UP, 1) == 2 && claimers(&run.reports, SWITCHED, 5) == 2);
}

/// n = 4, f = 1: three reporters without a lock.
fn lock_free_quorum(reports: &[Option<Reports>]) -> bool {
    reports.iter().flatten().filter(|[_, _, lock]| lock.is_none()).count() >= 3
}

fn one_set(reports: &[Option<Reports>], plan: u64, at: u32) -> bool {
    let fits = |lock: &Report| lock.view < at || *lock == Report { view: at, plan };
    let quorum = reports.iter().flatten().filter(|[_, _, lock]| lock.iter().all(fits)).count() >= 3;
    quorum && claimers(reports, plan, at) >= 2
}

fn claimers(reports: &[Option<Reports>], plan: u64, at: u32) -> usize {
    let claims = |[highest, previous, _]: &&Reports| {
        at == 0
            || highest.is_some_and(|vote| vote.plan == plan && vote.view >= at)
            || previous.is_some_and(|vote| vote.view >= at)
    };
    reports.iter().flatten().filter(claims).count()
}

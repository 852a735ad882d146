//! Networks of Rattle vaults whose power is cut (document 02, wish 6), under the adversary of the reference's simulator: agreement, what every
//! restart must keep, and every item of a run done by the reference in step.
use comparison::compared::Harm;
use comparison::engine::RattleEngine;
use reference::cuts::{self, Coverage, Rates, ReferenceEngine, Sabotage, Setup};
use reference::sim::{Style, Wrong};

const FIRST_RUN: u64 = 90_000;
const RUNS: u64 = 240;
/// Runs in which the power goes where it hurts most.
const AIMED: u64 = 60;

#[test]
fn networks_with_power_cuts_agree_and_do_as_the_reference_does() {
    let (engine, mut coverage) = (RattleEngine::new(Harm::None), Coverage::default());
    for seed in FIRST_RUN..FIRST_RUN + RUNS {
        let setup = Setup::of(seed);
        coverage.begin(&setup);
        let outcome = cuts::side_by_side(&engine, &ReferenceEngine, &setup, |told| coverage.look(told));
        let outcome = outcome.unwrap_or_else(|difference| panic!("{setup:?} {difference:?}"));
        assert!(outcome.good(), "{setup:?} {:?} {:?}", outcome.wrong, outcome.network);
        coverage.end(&setup, &outcome);
    }
    let seen = engine.seen();
    println!("{} runs, {} items", coverage.runs, coverage.items);
    println!("{:#?}", coverage.met);
    println!("{} calls, accepted {}, steps {:?}, refusals {:?}", seen.calls, seen.accepted, seen.steps, seen.refusals);
    assert_eq!(coverage.missing(), Vec::<&str>::new());
}

/// Four vaults and a liar: the adversary shows each half a plan of its own, and cuts the power of a vault in both in between.
fn aimed(seed: u64, sabotage: Sabotage) -> Setup {
    let style = if seed % 4 == 3 { Style::Feints } else { Style::OlderRecord };
    let rates = Rates { between: 1, within: 0, voting: 0, back: 256 };
    let returners = u8::from(sabotage == Sabotage::OlderRemnant);
    Setup { n: 4, f: 1, liars: 1, returners, style, rates, sabotage, agreement_only: true, ..Setup::of(seed) }
}

/// How many of the aimed runs end with two plans.
fn disagreements(sabotage: Sabotage) -> usize {
    let engine = RattleEngine::new(Harm::None);
    let outcomes = (FIRST_RUN..FIRST_RUN + AIMED).map(|seed| cuts::run(&engine, &aimed(seed, sabotage), &mut |_| {}));
    outcomes.filter(|outcome| matches!(outcome.network.wrong, Some(Wrong::Disagreement { .. }))).count()
}

/// "A vault returned from an older remnant belongs to the f": where it is one too many, two plans may be decided; with the last one they never are.
#[test]
fn only_older_remnants_end_in_two_plans() {
    let older = disagreements(Sabotage::OlderRemnant);
    println!("{older} of {AIMED} aimed runs with older remnants end with two plans");
    assert!(older > 0);
    assert_eq!(disagreements(Sabotage::None), 0);
}

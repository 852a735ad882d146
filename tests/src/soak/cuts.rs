//! Networks whose power is cut: the library's vaults, the reference's in step, and agreement. A run is made from one seed, so that its script is
//! one line.
use reference::cuts::{self, Outcome, Rates, ReferenceEngine, Setup};
use reference::frame::Report;
use reference::rng::Rng;
use reference::sim::{Style, Wrong};

use super::Sabotage;
use crate::engine::RattleEngine;
use crate::stage;

/// In one round.
const RUNS: u64 = 10;

pub fn round(mut rng: Rng, sabotage: Sabotage) {
    for _ in 0..RUNS {
        let seed = rng.next();
        stage::begin(format!("cuts {seed}\n").as_bytes());
        run(seed, sabotage);
    }
}

/// The seed's run, counted, or a panic where something is wrong.
fn run(seed: u64, sabotage: Sabotage) {
    let (setup, engine, counts) = (setup(seed, sabotage), RattleEngine::new(sabotage.harm()), stage::counts());
    let outcome = cuts::side_by_side(&engine, &ReferenceEngine, &setup, |told| counts.add_item(told.item, told.seen.answer.is_ok()));
    counts.seen.add(&engine.seen());
    counts.cut_runs += 1;
    match outcome {
        Ok(outcome) => {
            counts.cut_decisions += outcome.network.tally.decisions;
            judge(&outcome);
        }
        Err(difference) => panic!("difference: {difference:?} in {setup:?}"),
    }
}

/// Now and then a larger network than the reference's own runs have. Vaults that come back from an older remnant and are not among the f do so in
/// a small network with a liar, in which each half of the others is shown a plan of its own.
fn setup(seed: u64, sabotage: Sabotage) -> Setup {
    let (setup, mut rng) = (Setup::of(seed), Rng(seed));
    if sabotage == Sabotage::OlderRemnant {
        let rates = Rates { between: 1, within: 0, voting: 0, back: 256 };
        let harmed = Setup { n: 4, f: 1, liars: 1, returners: 1, style: Style::OlderRecord, rates, ..setup };
        return Setup { sabotage: cuts::Sabotage::OlderRemnant, agreement_only: true, ..harmed };
    }
    if !rng.one_in(40) {
        return setup;
    }
    let n = if rng.one_in(2) { 64 } else { 14 + rng.below(50) as u8 };
    let f = (n - 1) / 3;
    let returners = rng.pick(&[0, 1]);
    Setup { n, f, liars: f - returners, returners, ..setup }
}

fn judge(outcome: &Outcome) {
    let decided = |vault, Report { view, plan }: &Report| format!("vault {vault} decided plan {plan} in view {view}");
    match (&outcome.network.wrong, &outcome.wrong) {
        (Some(Wrong::Disagreement { one: (vault, first), other: (another, second) }), _) => {
            panic!("disagreement: {}, {}", decided(vault, first), decided(another, second));
        }
        (Some(wrong), _) => panic!("difference: {wrong:?}"),
        (None, Some(wrong)) => panic!("difference: {wrong:?}"),
        (None, None) => {}
    }
}

/// The run of the seed that the head names.
pub fn again(head: &[&str], sabotage: Sabotage) {
    run(head[0].parse().expect("a seed"), sabotage);
}

//! Whole networks of Rattle vaults under the simulator's adversary: its vaults by bytes are the Rattle ones, and where both run in step each
//! call is compared with the reference by contents.
use comparison::sim::{self, Mode, Setup, Style, Tally};
use reference::vault::Fault;

fn hold(n: u8, f: u8, liars: u8, mode: Mode, style: Style, count: u64) -> Tally {
    let mut tally = Tally::default();
    for seed in 5_000..5_000 + count {
        let setup = Setup { n, f, liars, mode, fault: Fault::None, style, seed };
        let outcome = sim::run(&setup);
        assert_eq!(outcome.wrong, None, "{setup:?}");
        tally.add(&outcome.tally);
    }
    tally
}

/// Many more than views that could have a silent leader.
const ROUNDS: u32 = 40;
const STYLES: [Style; 5] = [Style::Rounds, Style::Feints, Style::Partitions, Style::Chaos, Style::Camps];

/// Agreement among the vaults that keep the rules, with every call compared.
#[test]
fn networks_with_liars_agree_and_do_as_the_reference_does() {
    let mut tally = Tally::default();
    for (n, f, liars, count) in [(4, 1, 1, 120), (7, 2, 2, 30), (10, 3, 3, 6)] {
        for style in STYLES {
            tally.add(&hold(n, f, liars, Mode::Both, style, count));
        }
    }
    println!("{tally:?}");
    assert!(tally.decisions > tally.runs && tally.late_decisions > 0, "{tally:?}");
    assert!(tally.locks_reported > 0 && tally.previous_reported > 0 && tally.plans_changed > 0, "{tally:?}");
    assert!(tally.no_lock > 0 && tally.one_set > 0 && tally.two_sets > 0, "{tally:?}");
}

/// Rattle vaults alone: agreement, and validity where nobody lies.
#[test]
fn networks_of_rattle_vaults_alone_agree() {
    let mut tally = Tally::default();
    for (n, f, liars, count) in [(4, 1, 1, 120), (4, 1, 0, 60), (7, 2, 2, 20), (5, 1, 1, 20)] {
        for style in STYLES {
            tally.add(&hold(n, f, liars, Mode::Bytes, style, count));
        }
    }
    println!("{tally:?}");
    assert!(tally.decisions > tally.runs && tally.late_decisions > 0, "{tally:?}");
}

/// Document 02, wish 3, over Rattle vaults: the run that hung goes on, and vaults that lost frames find each other again.
#[test]
fn vaults_that_hung_go_on() {
    for (n, f) in [(4, 1), (5, 1), (7, 2), (13, 4)] {
        for (seed, mode) in (0..20).flat_map(|seed| [(seed, Mode::Both), (seed, Mode::Bytes)]) {
            let liars = (seed % u64::from(f + 1)) as u8;
            let setup = Setup { n, f, liars, mode, fault: Fault::None, style: Style::Calm, seed };
            for run in [sim::hang_run(&setup, ROUNDS), sim::loss_run(&setup, ROUNDS)] {
                assert_eq!(run.outcome.wrong, None, "{setup:?}");
                assert!(run.all_decided() && run.in_one_view(), "{setup:?}");
            }
            let old = Setup { mode: Mode::Contents, fault: Fault::OwnViewOnly, ..setup };
            assert_eq!(sim::hang_run(&old, ROUNDS).outcome.decisions, [], "{old:?}");
        }
    }
}

/// Lossless links: every vault decides.
#[test]
fn calm_networks_decide() {
    for (n, f, liars) in [(4, 1, 0), (4, 1, 1), (7, 2, 2), (64, 21, 0)] {
        let setup = Setup { n, f, liars, mode: Mode::Both, fault: Fault::None, style: Style::Calm, seed: 3 };
        let outcome = sim::run(&setup);
        assert_eq!(outcome.wrong, None, "{setup:?}");
        assert!(outcome.started > 0 && outcome.decisions.len() == outcome.started, "{setup:?}");
    }
}

//! Networks with power cuts (document 02, wish 6): agreement, what every restart must keep, and that
//! the checks find vaults and hosts which come back otherwise.

use reference::cuts::{self, Coverage, Engine, Item, Rates, ReferenceEngine, Sabotage, Setup};
use reference::frame::{PROOF, PROPOSAL, VIEW_CHANGE, VOTE_1, VOTE_2, VOTE_3, VOTE_4};
use reference::record::{decode, encode, Record, Settings};
use reference::rng::Rng;
use reference::sim::{self, Style};

/// A debug build is slower, so it runs fewer seeds.
fn seeds(release: u64) -> u64 {
    if cfg!(debug_assertions) {
        release.div_ceil(6)
    } else {
        release
    }
}

#[test]
fn agreement_holds_over_power_cuts() {
    let mut coverage = Coverage::default();
    for seed in 0..seeds(400) {
        let outcome = cuts::cover(seed, &mut coverage);
        assert!(outcome.good(), "{:?} {:?} {:?}", Setup::of(seed), outcome.wrong, outcome.network);
    }
    println!("{} runs, {} items", coverage.runs, coverage.items);
    println!("{:#?}", coverage.met);
    assert_eq!(coverage.missing(), Vec::<&str>::new());
}

// ---------------------------------------------------------------------------------------------
// Engines that come back wrongly.

/// What a restart loses.
#[derive(Clone, Copy, PartialEq, Eq, Debug)]
enum Lost {
    Nothing,
    PreviousVotes,
    /// It comes back in view 0, with what it sent there.
    View,
    /// As after a start, with nothing sent.
    All,
    /// Its own row, in the right view.
    OwnRow,
    /// Its own frame of one kind.
    Kind(u8),
    Decision,
}

struct Forgetful(Lost);

impl Forgetful {
    fn forget(&self, record: &mut Record) {
        let own = usize::from(record.settings.id);
        match self.0 {
            Lost::Nothing => {}
            Lost::PreviousVotes => (record.previous_vote1, record.previous_vote2) = (None, None),
            Lost::View => {
                record.view = 0;
                for frame in &mut record.rows[own] {
                    *frame = frame.filter(|frame| frame.view == 0);
                }
            }
            Lost::All => *record = Record::new(record.settings, record.start_plan),
            Lost::OwnRow => record.rows[own] = [None; 8],
            Lost::Kind(kind) => record.rows[own][usize::from(kind - 1)] = None,
            Lost::Decision => record.decision = None,
        }
        // a previous vote needs its highest
        record.previous_vote1 = record.previous_vote1.filter(|_| record.own(VOTE_1).is_some());
        record.previous_vote2 = record.previous_vote2.filter(|_| record.own(VOTE_2).is_some());
        assert!(record.sound(), "a restart leaves a sound record: {record:?}");
    }
}

impl Engine for Forgetful {
    fn record_size(&self) -> usize {
        ReferenceEngine.record_size()
    }

    fn blank(&self, rng: &mut Rng) -> Vec<u8> {
        ReferenceEngine.blank(rng)
    }

    fn start(&self, rec: &mut [u8], s: Settings, plan: u64, out: &mut [u8]) -> Result<usize, u8> {
        ReferenceEngine.start(rec, s, plan, out)
    }

    fn frame(&self, rec: &mut [u8], link: u8, bytes: &[u8], out: &mut [u8]) -> Result<usize, u8> {
        ReferenceEngine.frame(rec, link, bytes, out)
    }

    fn timer(&self, rec: &mut [u8], view: u32, out: &mut [u8]) -> Result<usize, u8> {
        ReferenceEngine.timer(rec, view, out)
    }

    fn write_remnant(&self, rec: &[u8], out: &mut [u8]) -> Result<usize, u8> {
        ReferenceEngine.write_remnant(rec, out)
    }

    fn restart(&self, rec: &mut [u8], remnant: &[u8], out: &mut [u8]) -> Result<usize, u8> {
        let count = ReferenceEngine.restart(rec, remnant, out)?;
        let mut record = decode(rec).expect("a record");
        self.forget(&mut record);
        rec.copy_from_slice(&encode(&record));
        Ok(count)
    }
}

/// Four vaults and a liar; the adversary shows each half a plan of its own and has a vault in both,
/// whose power it cuts in between.
fn directed(seed: u64) -> Setup {
    let style = if seed % 4 == 3 { Style::Feints } else { Style::OlderRecord };
    let rates = Rates { between: [1, 4, 16][seed as usize % 3], within: 0, voting: 0, back: 256 };
    Setup { n: 4, f: 1, liars: 1, returners: 0, style, rates, ..Setup::of(seed) }
}

/// In how many of the setups two plans are decided.
fn disagreements<E: Engine>(engine: &E, setups: impl Iterator<Item = Setup>) -> usize {
    let disagrees = |setup: &Setup| {
        let setup = Setup { agreement_only: true, ..*setup };
        let outcome = cuts::run(engine, &setup, &mut |_| {});
        matches!(outcome.network.wrong, Some(sim::Wrong::Disagreement { .. }))
    };
    setups.filter(disagrees).count()
}

/// In how many of the setups any check finds something.
fn findings<E: Engine>(engine: &E, setups: impl Iterator<Item = Setup>) -> usize {
    setups.filter(|setup| !cuts::run(engine, setup, &mut |_| {}).good()).count()
}

const LOST: [Lost; 13] = [
    Lost::Nothing,
    Lost::PreviousVotes,
    Lost::View,
    Lost::All,
    Lost::OwnRow,
    Lost::Kind(PROPOSAL),
    Lost::Kind(VOTE_1),
    Lost::Kind(VOTE_2),
    Lost::Kind(VOTE_3),
    Lost::Kind(VOTE_4),
    Lost::Kind(VIEW_CHANGE),
    Lost::Kind(PROOF),
    Lost::Decision,
];

/// A host that does not keep to the wish, and the reference.
fn sabotaged(sabotage: Sabotage) -> impl Fn(u64) -> Setup {
    move |seed| {
        let voting = if sabotage == Sabotage::EarlyEntries { 48 } else { 0 };
        let rates = Rates { between: 1, within: 0, voting, back: 256 };
        let returners = u8::from(sabotage == Sabotage::OlderRemnant);
        Setup { rates, returners, sabotage, ..directed(seed) }
    }
}

/// No loss passes the checks of a restart; those that make a vault vote twice, or forget a vote-4,
/// also end in two plans decided.
#[test]
fn a_loss_is_noticed() {
    for lost in LOST {
        let engine = Forgetful(lost);
        let found = findings(&engine, (0..12).map(Setup::of));
        assert_eq!(found == 0, lost == Lost::Nothing, "{lost:?} {found}");
    }
    for lost in [Lost::View, Lost::All, Lost::OwnRow, Lost::Kind(VOTE_4)] {
        assert!(disagreements(&Forgetful(lost), (0..60).map(directed)) > 0, "{lost:?}");
    }
    assert_eq!(disagreements(&ReferenceEngine, (0..60).map(directed)), 0);
}

/// "A vault returned from an older remnant belongs to the f": with f liars beside it, two plans may
/// be decided.
#[test]
fn an_older_remnant_is_noticed() {
    let older = sabotaged(Sabotage::OlderRemnant);
    assert!(disagreements(&ReferenceEngine, (0..60).map(older)) > 0);
    assert_eq!(disagreements(&ReferenceEngine, (0..60).map(sabotaged(Sabotage::None))), 0);
}

/// Every item of a run is done by both engines.
#[test]
fn engines_are_compared_in_step() {
    for seed in 0..10 {
        let setup = Setup::of(seed);
        let mut items = 0;
        let outcome =
            cuts::side_by_side(&ReferenceEngine, &ReferenceEngine, &setup, |_| items += 1);
        let outcome = outcome.expect("no difference");
        assert!(outcome.good() && outcome.items == items && items > 0);
        let silent = |lost| cuts::side_by_side(&ReferenceEngine, &Forgetful(lost), &setup, |_| {});
        assert!(silent(Lost::Nothing).is_ok());
    }
    for lost in LOST.into_iter().filter(|&lost| lost != Lost::Nothing) {
        let differs = |seed| {
            cuts::side_by_side(&ReferenceEngine, &Forgetful(lost), &Setup::of(seed), |_| {}).err()
        };
        let difference = (0..40).find_map(differs).expect("a difference");
        assert!(matches!(difference.item, Item::Restart { .. }), "{difference:?}");
        assert_eq!(difference.what, "remnant");
    }
}

/// There for its numbers: `cargo test --release --test cuts -- --ignored --nocapture`.
#[test]
#[ignore = "an experiment"]
fn how_often_a_loss_is_noticed() {
    for lost in LOST {
        let engine = Forgetful(lost);
        let any = findings(&engine, (0..40).map(Setup::of));
        let random = disagreements(&engine, (0..100).map(Setup::of));
        let aimed = disagreements(&engine, (0..150).map(directed));
        println!(
            "{lost:?}: any check {any} of 40; agreement {random} of 100, {aimed} of 150 aimed"
        );
    }
    for sabotage in [Sabotage::None, Sabotage::OlderRemnant, Sabotage::EarlyEntries] {
        let aimed = disagreements(&ReferenceEngine, (0..300).map(sabotaged(sabotage)));
        println!("{sabotage:?}: agreement {aimed} of 300 aimed");
    }
}

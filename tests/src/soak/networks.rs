//! Whole networks of library vaults under the simulator's adversary: agreement, and every call compared.
use reference::frame::Report;
use reference::rng::Rng;
use reference::vault::Fault;

use super::Sabotage;
use crate::compared::add_each;
use crate::sim::{self, Act, Mode, Outcome, Setup, Style, Wrong};
use crate::text::{call_of, words_of};
use crate::{calls, stage};

const STYLES: [Style; 6] = [Style::Rounds, Style::Feints, Style::Partitions, Style::Chaos, Style::Camps, Style::Calm];
const MODES: [Mode; 2] = [Mode::Bytes, Mode::Both];

pub fn round(mut rng: Rng, sabotage: Sabotage) {
    let setup = setup(&mut rng, sabotage);
    let Setup { n, f, liars, mode, style, seed, .. } = setup;
    calls::begin(sabotage.harm());
    stage::begin(format!("network {n} {f} {liars} {mode:?} {style:?} {seed}\n").as_bytes());
    let outcome = sim::run_told(&setup, |at, act| stage::note(line_of(at, act).as_bytes()));
    count(usize::from(n), &outcome);
    judge(&outcome);
}

/// Sabotaged networks are small: the adversary then has its way in few views.
fn setup(rng: &mut Rng, sabotage: Sabotage) -> Setup {
    let n = match rng.below(8) {
        0..=2 => 4,
        3 | 4 => 5 + rng.below(9),
        _ if matches!(sabotage, Sabotage::OlderRecord | Sabotage::MoreLiars) => 4,
        5 => 14 + rng.below(50),
        _ => 64,
    };
    let most = (n - 1) / 3;
    let f = if rng.one_in(4) { 1 + rng.below(most) } else { most };
    let liars = match sabotage {
        Sabotage::MoreLiars => f + 1,
        _ if rng.one_in(4) => rng.below(f + 1),
        _ => f,
    };
    let style = match sabotage {
        Sabotage::OlderRecord => Style::OlderRecord,
        Sabotage::MoreLiars => rng.pick(&[Style::Camps, Style::Rounds]),
        _ => rng.pick(&STYLES),
    };
    // By contents a call of many vaults takes longer.
    let mode = if n < 14 || rng.one_in(4) { Mode::Both } else { Mode::Bytes };
    Setup { n: n as u8, f: f as u8, liars: liars as u8, mode, fault: Fault::None, style, seed: rng.next() }
}

fn count(n: usize, outcome: &Outcome) {
    let counts = stage::counts();
    let tally = &outcome.tally;
    counts.seen.add(&calls::seen());
    counts.runs[n] += 1;
    counts.some_decided[n] += u64::from(tally.decisions > 0);
    counts.all_decided[n] += u64::from(outcome.decisions.len() == outcome.started);
    counts.decisions[n] += tally.decisions;
    add_each(&mut counts.clauses, &[tally.view_zero, tally.no_lock, tally.one_set, tally.two_sets]);
}

fn judge(outcome: &Outcome) {
    match &outcome.wrong {
        None => {}
        Some(Wrong::Disagreement { one: (vault, first), other: (another, second) }) => {
            let decided = |vault, Report { view, plan }: &Report| format!("vault {vault} decided plan {plan} in view {view}");
            panic!("disagreement: {}, {}", decided(vault, first), decided(another, second));
        }
        Some(wrong) => panic!("difference: {wrong:?}"),
    }
}

/// `VAULT` and a call's words, `store` or `restore`.
fn line_of(at: u8, act: &Act) -> String {
    match act {
        Act::Call(call) => format!("{at} {}\n", words_of(call)),
        Act::Store => format!("{at} store\n"),
        Act::Restore => format!("{at} restore\n"),
    }
}

fn act_of(line: &[u8]) -> Option<(u8, Act)> {
    let words: Vec<&str> = std::str::from_utf8(line).ok()?.split_whitespace().collect();
    let act = match *words.get(1)? {
        "store" => Act::Store,
        "restore" => Act::Restore,
        _ => Act::Call(call_of(&words[1..])?),
    };
    Some((words[0].parse().ok()?, act))
}

/// The network that the head names, under these acts.
pub fn again(head: &[&str], lines: &[Vec<u8>], sabotage: Sabotage) {
    let number = |place: usize| head[place].parse::<u64>().expect("a number");
    let [n, f, liars] = [0, 1, 2].map(|place| number(place) as u8);
    let mode = named(&MODES, head[3]);
    // Who lies hangs on the seed alone.
    let setup = Setup { n, f, liars, mode, fault: Fault::None, style: Style::Calm, seed: number(5) };
    let acts: Vec<(u8, Act)> = lines.iter().map(|line| act_of(line).expect("an act")).collect();
    calls::begin(sabotage.harm());
    judge(&sim::replay(&setup, &acts));
}

fn named<T: Copy + std::fmt::Debug>(all: &[T], name: &str) -> T {
    *all.iter().find(|item| format!("{item:?}") == name).expect("a name")
}

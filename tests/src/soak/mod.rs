//! The library against the reference and the in-place vault for as long as wanted. A round is made from one seed: random calls, scripts of the line
//! program or of the rehearsal, lists of records, questions of how high claims reach, or whole networks under an adversary, with or without power
//! cuts. Each runs in a process of its own, so that a fault of any kind is found as a difference is; then a script that shows it is made as short as
//! the time allows.
mod calls;
mod cuts;
mod lines;
mod lists;
mod networks;
mod reaches;
mod rehearsals;
mod report;
mod shortest;

use std::process::ExitCode;
use std::time::{Duration, Instant};

use reference::rng::Rng;

use crate::apart::{apart, Ended};
use crate::compared::Harm;
use crate::stage;
use shortest::{shortest, Script};

/// No round takes so long, not even on a busy machine.
const ROUND_SECONDS: u32 = 600;
const SHORTENING: Duration = Duration::from_secs(60);

/// A promise of the host or a rule that is broken on purpose: the soak must find what comes of it.
#[derive(Clone, Copy, PartialEq, Eq, Debug)]
pub enum Sabotage {
    None,
    /// One vault that keeps the rules is lent an older record.
    OlderRecord,
    /// One vault that keeps the rules comes back from older remnants.
    OlderRemnant,
    /// f + 1 vaults lie.
    MoreLiars,
    /// The library writes another plan into a decision, names another vault, has another timer after a restart, or another view that a claim reaches.
    OtherByte,
    /// The library reads a byte beyond the record, a list of them, a remnant, or reports.
    Overrun,
}

impl Sabotage {
    pub const ALL: [(&'static str, Sabotage); 5] = [
        ("older-record", Sabotage::OlderRecord),
        ("older-remnant", Sabotage::OlderRemnant),
        ("more-liars", Sabotage::MoreLiars),
        ("other-byte", Sabotage::OtherByte),
        ("overrun", Sabotage::Overrun),
    ];

    fn harm(self) -> Harm {
        match self {
            Sabotage::OtherByte => Harm::OtherByte,
            Sabotage::Overrun => Harm::Overrun,
            _ => Harm::None,
        }
    }

    /// What is added to the command that shows a finding again.
    fn option(self) -> String {
        let name = Self::ALL.iter().find(|(_, sabotage)| *sabotage == self);
        name.map_or(String::new(), |(name, _)| format!(" --sabotage {name}"))
    }
}

/// Rounds from the seed on until the minutes are over, at least one. The counts are printed each minute; the first finding ends it.
pub fn soak(minutes: u64, first: u64, sabotage: Sabotage) -> ExitCode {
    stage::set_up();
    let begun = Instant::now();
    let mut minute = 1;
    for seed in first.. {
        let ended = apart(ROUND_SECONDS, || round(seed, sabotage));
        if ended != Ended::Fine {
            return found(seed, sabotage, ended);
        }
        if begun.elapsed() < Duration::from_secs(60 * minute) && minutes > 0 {
            continue;
        }
        report::counts(&format!("{} s, seeds {first} to {seed}", begun.elapsed().as_secs()));
        minute = begun.elapsed().as_secs() / 60 + 1;
        if minute > minutes {
            break;
        }
    }
    println!("no difference, no disagreement, no fault");
    ExitCode::SUCCESS
}

fn round(seed: u64, sabotage: Sabotage) {
    let mut rng = Rng(seed);
    match (sabotage, rng.below(20)) {
        (Sabotage::OlderRecord | Sabotage::MoreLiars, _) => networks::round(rng, sabotage),
        (Sabotage::OlderRemnant, _) | (_, 5 | 15) => cuts::round(rng, sabotage),
        (_, 0 | 1 | 10 | 11) => calls::round(rng, sabotage),
        (_, 2 | 12) => lines::round(rng, sabotage),
        (_, 3 | 13) => rehearsals::round(rng, sabotage),
        (_, 4 | 14) => lists::round(rng, sabotage),
        (_, 19) => reaches::round(rng, sabotage),
        _ => networks::round(rng, sabotage),
    }
}

/// Does what a script says, and panics where it shows something.
fn again(script: &[Vec<u8>], sabotage: Sabotage) {
    let words: Vec<&str> = std::str::from_utf8(&script[0]).expect("words").split_whitespace().collect();
    match words[0] {
        "call" => calls::again(&words[1..], &script[1..], sabotage),
        "lines" => lines::again(&script[1..], sabotage),
        "rehearsal" => rehearsals::again(&script[1..], sabotage),
        "list" => lists::again(&words[1..], sabotage),
        "reach" => reaches::again(&words[1..], sabotage),
        "cuts" => cuts::again(&words[1..], sabotage),
        "network" => networks::again(&words[1..], &script[1..], sabotage),
        other => panic!("no such script: {other}"),
    }
}

fn found(seed: u64, sabotage: Sabotage, ended: Ended) -> ExitCode {
    let (words, noted, called) = (stage::said(), stage::noted(), calls::last());
    report::counts(&format!("found in the round of seed {seed}"));
    println!("FOUND: {}", what(ended, &words));
    println!("again: bash scripts/soak 0 {seed}{}", sabotage.option());
    let shows = |script: &[Vec<u8>]| {
        stage::begin(b"");
        let now = apart(ROUND_SECONDS, || again(script, sabotage));
        now == ended && disagreement(&stage::said()) == disagreement(&words)
    };
    let noted: Script = noted.split_inclusive(|&byte| byte == b'\n').map(<[u8]>::to_vec).collect();
    // A difference is mostly the last call's alone, and that makes the shorter script.
    let Some(whole) = [called, noted].into_iter().find(|script| !script.is_empty() && shows(script)) else {
        println!("no script shows it: the whole round does");
        return ExitCode::FAILURE;
    };
    let count = whole.len();
    let short = shortest(whole, Instant::now() + SHORTENING, shows);
    println!("the shortest script found that shows it, {} of {count} lines:", short.len());
    short.iter().for_each(|line| println!("    {}", String::from_utf8_lossy(line).trim_end_matches('\n')));
    ExitCode::FAILURE
}

fn what(ended: Ended, words: &str) -> String {
    match ended {
        Ended::Signal(11) => "fault: memory beyond what was lent was used (signal 11)".into(),
        Ended::Signal(14) => "fault: a round that does not end".into(),
        Ended::Signal(signal) => format!("fault: signal {signal}"),
        _ => words.into(),
    }
}

/// A shorter script must show the same of the two: two plans, or something else.
fn disagreement(words: &str) -> bool {
    words.starts_with("disagreement")
}

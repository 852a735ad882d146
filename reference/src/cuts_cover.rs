//! What runs with power cuts reach (cuts.rs). Each thing to be met has a name; `missing` lists the
//! names that no run met.

use std::collections::BTreeMap;

use crate::calls::OUTPUT_LEN;
use crate::cuts::{casts_vote, decision, Item, Lent, Outcome, Remnant, Setup, Told};
use crate::frame::{number4, REPORT_LEN};
use crate::record::Settings;
use crate::remnant::REMNANT_SIZE;
use crate::sim::Call;

#[derive(Clone, Default, PartialEq, Eq, Debug)]
pub struct Coverage {
    pub runs: u64,
    pub items: u64,
    /// How often each thing was met, by its name.
    pub met: BTreeMap<&'static str, u64>,
    /// What the run told so far, by vault.
    vaults: Vec<Known>,
}

/// What was told of a vault.
#[derive(Clone, Copy, Default, PartialEq, Eq, Debug)]
struct Known {
    stored: Option<Remnant>,
    /// The record is not blank.
    on: bool,
    /// An accepted restart was the last item.
    just_back: bool,
    /// An accepted call was: whether it decided, and whether it cast a vote.
    just_called: Option<(bool, bool)>,
    restarted: bool,
    /// The plan of a start that was cut, with nothing stored since.
    cut_plan: Option<u64>,
}

const WRITES: [&str; 6] = [
    "write 1",
    "write 2",
    "write 3 because of length",
    "write 3 by contents",
    "write accepted",
    "write with 237 bytes of space",
];
/// Each is counted where no earlier cause is there.
const RESTARTS: [&str; 12] = [
    "restart 1",
    "restart 4, not blank",
    "restart 4, unsound",
    "restart 4 because of length",
    "restart 25, shorter",
    "restart 25, longer",
    "restart 26 by n = 0",
    "restart 26 by bad settings",
    "restart 26 by a mark",
    "restart 26 by a byte of an absent slot",
    "restart 26 by a plan in kinds 6 to 8",
    "restart 26 by reports without their frame",
];
/// 26 by contents that are not sound. Each is counted where it is the only one.
const UNSOUND: [&str; 6] = [
    "restart 26 by a frame above the current view",
    "restart 26 by view 0 in kinds 6 to 8",
    "restart 26 by a proposal of another's view",
    "restart 26 by a suggest of another's view",
    "restart 26 by a report's view",
    "restart 26 by a previous vote",
];
const CUTS: [&str; 12] = [
    "cut in a start",
    "cut in a frame call",
    "cut in a timer call",
    "cut in a refused call",
    "cut in a call that decided",
    "cut in a call that cast a vote",
    "cut between calls",
    "cut before any start",
    "second cut before any call after a restart",
    "cut right after a call",
    "cut right after a call that decided",
    "cut right after a call that cast a vote",
];
const BACK: [&str; 8] = [
    "restart in view 0",
    "restart in a later view",
    "restart of a leader that has proposed",
    "restart of a decided vault",
    "restart of a vault that asked for a later view",
    "restart with a previous vote",
    "restart with an own suggest and proof",
    "call refused at a vault without power",
];
const AFTER: [&str; 5] = [
    "started again after a cut start",
    "started again after a cut start, with another plan",
    "decision after a restart",
    "vote cast after a restart",
    "call made after a restart",
];
const OLDER: [&str; 4] = [
    "returned from an older remnant",
    "returned from an older remnant, in an earlier view",
    "returned from an older remnant, a vote forgotten",
    "returned from an older remnant, a decision forgotten",
];
const RUNS: [&str; 7] = [
    "run with liars",
    "run without liars",
    "run with older remnants",
    "run with decisions",
    "run with decisions, with liars",
    "run with decisions, with older remnants",
    "decision in a later view",
];

fn wanted() -> impl Iterator<Item = &'static str> {
    let names: [&[&str]; 8] = [&WRITES, &RESTARTS, &UNSOUND, &CUTS, &BACK, &AFTER, &OLDER, &RUNS];
    names.into_iter().flatten().copied()
}

impl Coverage {
    /// The names that were never met.
    pub fn missing(&self) -> Vec<&'static str> {
        wanted().filter(|name| !self.met.contains_key(name)).collect()
    }

    /// A run begins.
    pub fn begin(&mut self, setup: &Setup) {
        self.runs += 1;
        self.vaults = vec![Known::default(); usize::from(setup.n)];
        self.count(if setup.liars > 0 { RUNS[0] } else { RUNS[1] });
        if setup.returners > 0 {
            self.count(RUNS[2]);
        }
    }

    /// A run has ended.
    pub fn end(&mut self, setup: &Setup, outcome: &Outcome) {
        if !outcome.network.decisions.is_empty() {
            self.count(RUNS[3]);
            self.count_if(setup.liars > 0, RUNS[4]);
            self.count_if(setup.returners > 0, RUNS[5]);
        }
    }

    /// Looks at an item with its answer.
    pub fn look(&mut self, told: &Told) {
        self.items += 1;
        let known = self.vaults[usize::from(told.vault)];
        match told.item {
            Item::Made { call, .. } => self.look_at_made(known, call, told),
            Item::CallCut { call, .. } => self.look_at_call_cut(known, call, told),
            Item::Cut { .. } => self.look_at_cut(known),
            Item::Restart { .. } => self.look_at_restart(known, told),
            Item::Write { lent, space } => self.look_at_write(*lent, space.length, told),
        }
        self.vaults[usize::from(told.vault)] = next(known, told);
    }

    fn look_at_made(&mut self, known: Known, call: &Call, told: &Told) {
        let seen = told.seen;
        if !known.on && known.stored.is_some() {
            self.count_if(seen.answer == Err(2), BACK[7]);
        }
        if seen.answer.is_err() {
            return;
        }
        if let (Call::Start { plan, .. }, Some(cut)) = (call, known.cut_plan) {
            self.count(AFTER[0]);
            self.count_if(*plan != cut, AFTER[1]);
        }
        self.count_if(decision(&seen.written).is_some() && view_of(told.stored) > Some(0), RUNS[6]);
        if known.restarted {
            self.count_if(decision(&seen.written).is_some(), AFTER[2]);
            self.count_if(casts_vote(&seen.written), AFTER[3]);
            self.count(AFTER[4]);
        }
    }

    fn look_at_call_cut(&mut self, known: Known, call: &Call, told: &Told) {
        if told.seen.answer.is_err() {
            self.count(CUTS[3]);
            return;
        }
        self.count(match call {
            Call::Start { .. } => CUTS[0],
            Call::Frame { .. } => CUTS[1],
            Call::Timer { .. } => CUTS[2],
        });
        self.count_if(decision(&told.seen.written).is_some(), CUTS[4]);
        self.count_if(casts_vote(&told.seen.written), CUTS[5]);
        self.count_if(known.just_back, CUTS[8]);
    }

    fn look_at_cut(&mut self, known: Known) {
        self.count(if known.stored.is_some() { CUTS[6] } else { CUTS[7] });
        self.count_if(known.just_back, CUTS[8]);
        if let Some((decided, voted)) = known.just_called {
            self.count(CUTS[9]);
            self.count_if(decided, CUTS[10]);
            self.count_if(voted, CUTS[11]);
        }
    }

    fn look_at_write(&mut self, lent: Lent, space: usize, told: &Told) {
        match told.seen.answer {
            Err(1) => self.count(WRITES[0]),
            Err(2) => self.count(WRITES[1]),
            Err(3) => self.count(match lent {
                Lent::Short | Lent::Long => WRITES[2],
                Lent::Own | Lent::Unsound(_) => WRITES[3],
            }),
            Err(_) => {}
            Ok(_) => {
                self.count(WRITES[4]);
                self.count_if(space == REMNANT_SIZE, WRITES[5]);
            }
        }
    }

    fn look_at_restart(&mut self, known: Known, told: &Told) {
        let Item::Restart { remnant, lent, space } = told.item else { return };
        match told.seen.answer {
            Ok(_) => self.look_at_return(known, remnant),
            Err(refusal) => {
                if let Some(cause) = cause(known, remnant, *lent, space.length) {
                    let right = cause.starts_with(&format!("restart {refusal}"));
                    self.count_if(right, cause);
                }
            }
        }
    }

    fn look_at_return(&mut self, known: Known, remnant: &[u8]) {
        let view = number4(&remnant[4..8]);
        let kept = |number| slot(remnant, number);
        self.count(if view == 0 { BACK[0] } else { BACK[1] });
        self.count_if(kept(0).is_some_and(|(at, _)| at == view), BACK[2]);
        self.count_if(kept(16).is_some(), BACK[3]);
        self.count_if(kept(5).is_some_and(|(asked, _)| asked > view), BACK[4]);
        self.count_if(kept(14).or(kept(15)).is_some(), BACK[5]);
        self.count_if(kept(6).and(kept(7)).is_some(), BACK[6]);
        let Some(stored) = known.stored.filter(|stored| stored[..] != remnant[..]) else { return };
        self.count(OLDER[0]);
        self.count_if(number4(&stored[4..8]) > view, OLDER[1]);
        let forgotten = |number| slot(&stored, number) != kept(number);
        self.count_if((1..5).any(forgotten), OLDER[2]);
        self.count_if(forgotten(16), OLDER[3]);
    }

    fn count_if(&mut self, met: bool, name: &'static str) {
        if met {
            self.count(name);
        }
    }

    fn count(&mut self, name: &'static str) {
        *self.met.entry(name).or_default() += 1;
    }
}

fn view_of(stored: Option<&Remnant>) -> Option<u32> {
    stored.map(|remnant| number4(&remnant[4..8]))
}

/// What is known of a vault after an item.
fn next(before: Known, told: &Told) -> Known {
    let stored = told.stored.copied();
    let accepted = told.seen.answer.is_ok();
    let known = Known { just_back: false, just_called: None, ..before };
    match told.item {
        Item::Made { .. } if accepted => {
            let written = &told.seen.written;
            let just_called = Some((decision(written).is_some(), casts_vote(written)));
            Known { stored, on: true, just_called, cut_plan: None, ..known }
        }
        Item::CallCut { call, .. } => {
            let cut_plan = match call {
                Call::Start { plan, .. } if accepted && stored.is_none() => Some(*plan),
                _ => known.cut_plan,
            };
            Known { on: false, cut_plan, ..known }
        }
        Item::Cut { .. } => Known { on: false, ..known },
        Item::Restart { .. } if accepted => {
            Known { stored, on: true, just_back: true, restarted: true, ..known }
        }
        Item::Made { .. } => known,
        // no call in between
        Item::Restart { .. } | Item::Write { .. } => before,
    }
}

/// A slot that is present: its view and plan, as bytes.
fn slot(remnant: &[u8], number: usize) -> Option<(u32, &[u8])> {
    let slot = slot_bytes(remnant, number);
    (slot[0] == 1).then(|| (number4(&slot[1..5]), &slot[5..]))
}

fn slot_bytes(remnant: &[u8], number: usize) -> &[u8] {
    &remnant[16 + REPORT_LEN * number..][..REPORT_LEN]
}

/// Why a restart is refused; None where its contents are unsound in two ways.
fn cause(known: Known, remnant: &[u8], lent: Lent, space: usize) -> Option<&'static str> {
    if space < OUTPUT_LEN {
        return Some(RESTARTS[0]);
    }
    match (lent, remnant.len()) {
        (Lent::Own, _) if known.on => Some(RESTARTS[1]),
        (Lent::Unsound(_), _) => Some(RESTARTS[2]),
        (Lent::Short | Lent::Long, _) => Some(RESTARTS[3]),
        (Lent::Own, ..REMNANT_SIZE) => Some(RESTARTS[4]),
        (Lent::Own, REMNANT_SIZE) => spelling(remnant).or_else(|| unsound(remnant)),
        (Lent::Own, _) => Some(RESTARTS[5]),
    }
}

fn settings(remnant: &[u8]) -> Settings {
    Settings { n: remnant[0], f: remnant[1], id: remnant[2], class: remnant[3] }
}

/// What is wrong before a record can be made.
fn spelling(remnant: &[u8]) -> Option<&'static str> {
    let settings = settings(remnant);
    let slots = || (0..17).map(|number| slot_bytes(remnant, number));
    let absent = |number| slot(remnant, number).is_none();
    let of_none = |number: usize| absent(if number < 11 { 6 } else { 7 });
    let there = [
        settings.n == 0,
        settings.check().is_err(),
        slots().any(|slot| slot[0] > 1),
        slots().any(|slot| slot[0] == 0 && slot != [0; REPORT_LEN]),
        (5..8).any(|number| slot_bytes(remnant, number)[5..] != [0; 8]),
        (8..14).any(|number| !absent(number) && of_none(number)),
    ];
    RESTARTS[6..].iter().zip(there).find(|(_, there)| *there).map(|(&name, _)| name)
}

/// The one thing that makes the record unsound. Big-endian numbers compare as their bytes do.
fn unsound(remnant: &[u8]) -> Option<&'static str> {
    let Settings { n, id, .. } = settings(remnant);
    let view = number4(&remnant[4..8]);
    let kept = |number| slot(remnant, number);
    let above = |number, view| kept(number).is_some_and(|(at, _)| at > view);
    let not_led = |number| kept(number).is_some_and(|(at, _)| at % u32::from(n) != u32::from(id));
    let late = |report: usize| {
        let of = kept(if report < 11 { 6 } else { 7 });
        kept(report).zip(of).is_some_and(|((at, _), (of, _))| at >= of)
    };
    let at_odds = |previous, highest| match (kept(previous), kept(highest)) {
        (Some(previous), Some(highest)) => previous.0 >= highest.0 || previous.1 == highest.1,
        (previous, _) => previous.is_some(),
    };
    let there = [
        [0, 1, 2, 3, 4, 6, 7].into_iter().any(|number| above(number, view)),
        (5..8).any(|number| kept(number).is_some_and(|(at, _)| at == 0)),
        not_led(0),
        not_led(6),
        (8..14).any(late),
        at_odds(14, 1) || at_odds(15, 2),
    ];
    let mut names = UNSOUND.into_iter().zip(there).filter(|(_, there)| *there);
    let (name, _) = names.next()?;
    names.next().is_none().then_some(name)
}

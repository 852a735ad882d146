//! Networks of vaults whose power is cut (document 02, wish 6), under the adversary of sim.rs. Every
//! call goes to an engine over lent bytes, and each item of a run is told with its answer, so that
//! another engine can follow the same run and be compared.

pub use crate::cuts_cover::Coverage;

use crate::calls::{self, OUTPUT_LEN};
use crate::entry::{parse_entries, Entry};
use crate::frame::{number4, write_report, Report, REPORT_LEN, VOTE_1, VOTE_4};
use crate::record::{self, Record, Settings, RECORD_LEN};
use crate::remnant::{self, alone, record_of, remnant_of, REMNANT_SIZE};
use crate::rng::Rng;
use crate::sim::{self, chance, Call, Hosts, Mode, Style};
use crate::vault::Fault;

pub type Remnant = [u8; REMNANT_SIZE];

// ---------------------------------------------------------------------------------------------
// Engines.

/// The five calls over lent bytes, whatever the record's layout is.
pub trait Engine {
    fn record_size(&self) -> usize;

    /// Any blank record: its n is 0, and the rest is what the layout can spell.
    fn blank(&self, rng: &mut Rng) -> Vec<u8>;

    /// An unsound record. Where the engine does not say, it has the wrong length.
    fn unsound(&self, _rng: &mut Rng) -> Vec<u8> {
        vec![0; self.record_size() - 1]
    }

    /// What a record holds, where the engine can tell.
    fn contents(&self, _rec: &[u8]) -> Option<Record> {
        None
    }

    fn start(
        &self,
        rec: &mut [u8],
        settings: Settings,
        plan: u64,
        out: &mut [u8],
    ) -> Result<usize, u8>;

    fn frame(&self, rec: &mut [u8], link: u8, bytes: &[u8], out: &mut [u8]) -> Result<usize, u8>;

    fn timer(&self, rec: &mut [u8], view: u32, out: &mut [u8]) -> Result<usize, u8>;

    fn write_remnant(&self, rec: &[u8], out: &mut [u8]) -> Result<usize, u8>;

    fn restart(&self, rec: &mut [u8], remnant: &[u8], out: &mut [u8]) -> Result<usize, u8>;
}

/// The reference's own calls.
#[derive(Clone, Copy, Default, Debug)]
pub struct ReferenceEngine;

impl Engine for ReferenceEngine {
    fn record_size(&self) -> usize {
        RECORD_LEN
    }

    fn blank(&self, rng: &mut Rng) -> Vec<u8> {
        sim::blank_bytes(rng)
    }

    /// No settings with f = 0 are sound; or the length is wrong.
    fn unsound(&self, rng: &mut Rng) -> Vec<u8> {
        let mut bytes = self.blank(rng);
        if rng.one_in(4) {
            bytes.push(0);
        }
        bytes[..2].copy_from_slice(&[4, 0]);
        bytes
    }

    fn contents(&self, rec: &[u8]) -> Option<Record> {
        record::decode(rec)
    }

    fn start(
        &self,
        rec: &mut [u8],
        settings: Settings,
        plan: u64,
        out: &mut [u8],
    ) -> Result<usize, u8> {
        let Settings { n, f, id, class } = settings;
        calls::start(rec, n, f, id, class, plan, out)
    }

    fn frame(&self, rec: &mut [u8], link: u8, bytes: &[u8], out: &mut [u8]) -> Result<usize, u8> {
        calls::frame(rec, link, bytes, out)
    }

    fn timer(&self, rec: &mut [u8], view: u32, out: &mut [u8]) -> Result<usize, u8> {
        calls::timer(rec, view, out)
    }

    fn write_remnant(&self, rec: &[u8], out: &mut [u8]) -> Result<usize, u8> {
        remnant::write_remnant(rec, out)
    }

    fn restart(&self, rec: &mut [u8], remnant: &[u8], out: &mut [u8]) -> Result<usize, u8> {
        remnant::restart(rec, remnant, out)
    }
}

// ---------------------------------------------------------------------------------------------
// Items.

/// An output: its length, and the seed of what it holds before.
#[derive(Clone, Copy, PartialEq, Eq, Debug)]
pub struct Space {
    pub length: usize,
    pub fill: u64,
}

impl Space {
    fn bytes(&self) -> Vec<u8> {
        let mut bytes = vec![0; self.length];
        Rng(self.fill).fill(&mut bytes);
        bytes
    }
}

/// The record that a restart, or the writing of a remnant, is lent.
#[derive(Clone, Copy, PartialEq, Eq, Debug)]
pub enum Lent {
    Own,
    /// The vault's own record without its last byte.
    Short,
    /// The vault's own record and one byte more.
    Long,
    /// An unsound record, by seed.
    Unsound(u64),
}

/// One item of a run, at one vault that has a host.
#[derive(Clone, PartialEq, Eq, Debug)]
pub enum Item {
    /// A call made. Accepted, the remnant of the record it left is stored.
    Made { call: Call, space: Space },
    /// A call cut: it is answered, but only the old remnant is left. Then a blank record, by seed.
    CallCut { call: Call, space: Space, blank: u64 },
    /// A cut between calls: the record is gone.
    Cut { blank: u64 },
    /// A restart; the remnant is the stored one, unless it was spoiled or is an older one.
    Restart { remnant: Vec<u8>, lent: Lent, space: Space },
    /// A remnant is written and thrown away.
    Write { lent: Lent, space: Space },
}

/// What an item came to.
#[derive(Clone, PartialEq, Eq, Debug)]
pub struct Seen {
    /// Ok(0) for a cut between calls.
    pub answer: Result<usize, u8>,
    pub written: Vec<u8>,
    /// The remnant of the record that an accepted call or restart left.
    pub remnant: Option<Remnant>,
    /// The output beyond the count is as it was; after a refusal the record is, too.
    pub clean: bool,
}

/// An item as it is told, after it was done.
pub struct Told<'a> {
    pub vault: u8,
    pub item: &'a Item,
    pub seen: &'a Seen,
    /// The vault's record and what is stored, both afterwards.
    pub record: &'a [u8],
    pub stored: Option<&'a Remnant>,
}

// ---------------------------------------------------------------------------------------------
// A vault's host.

/// The record that is lent to every call at a vault, and what is stored.
struct Host {
    record: Vec<u8>,
    stored: Option<Remnant>,
    /// The record is not blank.
    on: bool,
}

impl Host {
    fn new<E: Engine>(engine: &E, blank: u64) -> Host {
        Host { record: engine.blank(&mut Rng(blank)), stored: None, on: false }
    }

    /// Does a whole item.
    fn perform<E: Engine>(&mut self, engine: &E, item: &Item) -> Seen {
        let (record, seen) = self.answer(engine, item);
        self.settle(engine, item, record, &seen);
        seen
    }

    /// The answer, and the record that it leaves. Nothing is changed yet.
    fn answer<E: Engine>(&self, engine: &E, item: &Item) -> (Vec<u8>, Seen) {
        match item {
            Item::Made { call, space } | Item::CallCut { call, space, .. } => {
                self.called(engine, Lent::Own, *space, |rec, out| match call {
                    Call::Start { settings, plan } => engine.start(rec, *settings, *plan, out),
                    Call::Frame { link, bytes } => engine.frame(rec, *link, bytes, out),
                    Call::Timer { view } => engine.timer(rec, *view, out),
                })
            }
            Item::Restart { remnant, lent, space } => {
                self.called(engine, *lent, *space, |rec, out| engine.restart(rec, remnant, out))
            }
            Item::Write { lent, space } => {
                let (record, mut seen) =
                    self.called(engine, *lent, *space, |rec, out| engine.write_remnant(rec, out));
                seen.clean &= record == self.lend(engine, *lent);
                (record, seen)
            }
            Item::Cut { .. } => {
                let seen = Seen { answer: Ok(0), written: Vec::new(), remnant: None, clean: true };
                (Vec::new(), seen)
            }
        }
    }

    fn called<E: Engine>(
        &self,
        engine: &E,
        lent: Lent,
        space: Space,
        call: impl FnOnce(&mut [u8], &mut [u8]) -> Result<usize, u8>,
    ) -> (Vec<u8>, Seen) {
        let before = self.lend(engine, lent);
        let (mut record, mut out, out_before) = (before.clone(), space.bytes(), space.bytes());
        let answer = call(&mut record, &mut out);
        let count = answer.unwrap_or(0).min(out.len());
        let clean = out[count..] == out_before[count..] && (answer.is_ok() || record == before);
        let remnant = answer.ok().and_then(|_| remnant_in(engine, &record));
        (record, Seen { answer, written: out[..count].to_vec(), remnant, clean })
    }

    fn lend<E: Engine>(&self, engine: &E, lent: Lent) -> Vec<u8> {
        let mut record = self.record.clone();
        match lent {
            Lent::Own => {}
            Lent::Short => record.truncate(record.len() - 1),
            Lent::Long => record.push(0),
            Lent::Unsound(seed) => record = engine.unsound(&mut Rng(seed)),
        }
        record
    }

    fn settle<E: Engine>(&mut self, engine: &E, item: &Item, record: Vec<u8>, seen: &Seen) {
        match item {
            Item::Made { .. } if seen.answer.is_ok() => {
                *self = Host { record, stored: seen.remnant, on: true };
            }
            Item::Restart { remnant, .. } if seen.answer.is_ok() => {
                let stored = remnant[..].try_into().ok();
                *self = Host { record, stored, on: true };
            }
            Item::CallCut { blank, .. } | Item::Cut { blank } => {
                *self = Host { stored: self.stored, ..Host::new(engine, *blank) };
            }
            Item::Made { .. } | Item::Restart { .. } | Item::Write { .. } => {}
        }
    }
}

/// The remnant of a sound record.
fn remnant_in<E: Engine>(engine: &E, record: &[u8]) -> Option<Remnant> {
    let mut out = [0; REMNANT_SIZE];
    (engine.write_remnant(record, &mut out) == Ok(REMNANT_SIZE)).then_some(out)
}

// ---------------------------------------------------------------------------------------------
// What is run.

/// A host that does not do as the wish says.
#[derive(Clone, Copy, PartialEq, Eq, Debug)]
pub enum Sabotage {
    None,
    /// Vaults return from older remnants and are not counted among the f.
    OlderRemnant,
    /// The entries of a call that is cut have left before the remnant was stored.
    EarlyEntries,
}

/// How often the power goes, each out of 256.
#[derive(Clone, Copy, PartialEq, Eq, Debug)]
pub struct Rates {
    /// Before a call.
    pub between: u64,
    /// Within a call; half of these cuts leave the old remnant, half the new one.
    pub within: u64,
    /// Within a call that casts a vote or decides, likewise.
    pub voting: u64,
    /// How often a vault without power gets it back before a call.
    pub back: u64,
}

#[derive(Clone, Copy, PartialEq, Eq, Debug)]
pub struct Setup {
    pub n: u8,
    pub f: u8,
    /// How many vaults lie, and how many return from older remnants: together at most f, unless
    /// there is sabotage.
    pub liars: u8,
    pub returners: u8,
    pub style: Style,
    pub rates: Rates,
    pub sabotage: Sabotage,
    /// Look for disagreement only, for engines and hosts broken on purpose.
    pub agreement_only: bool,
    pub seed: u64,
}

impl Setup {
    /// The run of a seed.
    pub fn of(seed: u64) -> Setup {
        let rng = &mut Rng(!seed);
        let n: u8 = rng.pick(&[4, 4, 4, 4, 5, 6, 7, 7, 8, 9, 10, 13]);
        let most = (n - 1) / 3;
        let f = if rng.one_in(4) { 1 + rng.below(u64::from(most)) as u8 } else { most };
        let (liars, returners) = match rng.below(8) {
            0 | 1 => (0, 0),
            2 | 3 => {
                let returners = 1 + rng.below(u64::from(f)) as u8;
                (f - returners, returners)
            }
            _ => (f, 0),
        };
        let rates = Rates {
            between: rng.pick(&[0, 1, 4, 16]),
            within: rng.pick(&[0, 1, 4, 16]),
            voting: rng.pick(&[0, 8, 24, 64]),
            back: rng.pick(&[64, 128, 256, 256]),
        };
        let style = rng.pick(&STYLES);
        let sabotage = Sabotage::None;
        Setup { n, f, liars, returners, style, rates, sabotage, agreement_only: false, seed }
    }

    fn network(&self) -> sim::Setup {
        let Setup { n, f, liars, style, seed, .. } = *self;
        sim::Setup { n, f, liars, mode: Mode::Contents, fault: Fault::None, style, seed }
    }
}

const STYLES: [Style; 7] = [
    Style::Rounds,
    Style::Rounds,
    Style::Feints,
    Style::Partitions,
    Style::Chaos,
    Style::Camps,
    Style::OlderRecord,
];

/// The first thing that a host found wrong.
#[derive(Clone, PartialEq, Eq, Debug)]
pub enum Wrong {
    /// A restart, or the writing of a remnant, was to be answered otherwise.
    Answer { vault: u8, item: Item, expected: Result<usize, u8>, answer: Result<usize, u8> },
    /// Something was touched that was to stay.
    Touched { vault: u8, item: Item },
    /// The bytes written are no entries, or after a restart not the timer's.
    Entries { vault: u8, item: Item },
    /// An accepted call left a record that has no remnant, or not the one of its contents.
    NoRemnant { vault: u8, item: Item },
    /// A restart left other contents than those of the remnant.
    Contents { vault: u8, item: Item },
}

#[derive(Clone, Debug)]
pub struct Outcome {
    pub network: sim::Outcome,
    pub items: u64,
    /// What a host found wrong; the network's findings are in `network`.
    pub wrong: Option<Wrong>,
}

impl Outcome {
    pub fn good(&self) -> bool {
        self.wrong.is_none() && self.network.wrong.is_none()
    }
}

/// One whole run with its checks; every item is told.
pub fn run<E: Engine>(engine: &E, setup: &Setup, told: &mut dyn FnMut(&Told)) -> Outcome {
    let network = setup.network();
    let mut hosts = Power::new(engine, setup, sim::keepers(&network), told);
    let network = sim::run_hosted(&network, &mut hosts, setup.agreement_only);
    Outcome { network, items: hosts.items, wrong: hosts.wrong }
}

/// The seed's run by the reference, seen by the coverage.
pub fn cover(seed: u64, coverage: &mut Coverage) -> Outcome {
    let setup = Setup::of(seed);
    coverage.begin(&setup);
    let outcome = run(&ReferenceEngine, &setup, &mut |told| coverage.look(told));
    coverage.end(&setup, &outcome);
    outcome
}

// ---------------------------------------------------------------------------------------------
// Another engine in step.

/// The hosts of a run with an engine that does the items it is told.
pub struct Follower<'a, E: Engine> {
    engine: &'a E,
    hosts: Vec<Host>,
}

impl<'a, E: Engine> Follower<'a, E> {
    pub fn new(engine: &'a E, setup: &Setup) -> Follower<'a, E> {
        let hosts = (0..setup.n).map(|id| Host::new(engine, first_blank(setup, id))).collect();
        Follower { engine, hosts }
    }

    pub fn follow(&mut self, vault: u8, item: &Item) -> Seen {
        self.hosts[usize::from(vault)].perform(self.engine, item)
    }

    pub fn record(&self, vault: u8) -> &[u8] {
        &self.hosts[usize::from(vault)].record
    }

    pub fn stored(&self, vault: u8) -> Option<&Remnant> {
        self.hosts[usize::from(vault)].stored.as_ref()
    }
}

fn first_blank(setup: &Setup, id: u8) -> u64 {
    setup.seed ^ (u64::from(id) << 32)
}

/// The first item at which two engines differ.
#[derive(Clone, PartialEq, Eq, Debug)]
pub struct Difference {
    pub vault: u8,
    pub item: Item,
    pub one: Seen,
    pub other: Seen,
    pub what: &'static str,
}

/// The run of one engine, in which another follows: answers, output bytes and stored remnants are
/// compared after every item, and the records' contents where both engines can tell them.
pub fn side_by_side<A: Engine, B: Engine>(
    one: &A,
    other: &B,
    setup: &Setup,
    mut told: impl FnMut(&Told),
) -> Result<Outcome, Box<Difference>> {
    let mut follower = Follower::new(other, setup);
    let mut difference = None;
    let outcome = run(one, setup, &mut |leading| {
        told(leading);
        if difference.is_none() {
            difference = compared(one, &mut follower, leading);
        }
    });
    match difference {
        Some(difference) => Err(Box::new(difference)),
        None => Ok(outcome),
    }
}

fn compared<A: Engine, B: Engine>(
    one: &A,
    follower: &mut Follower<B>,
    told: &Told,
) -> Option<Difference> {
    let Told { vault, item, seen, record, stored } = *told;
    let other = follower.follow(vault, item);
    let same_contents =
        || match (one.contents(record), follower.engine.contents(follower.record(vault))) {
            (Some(one), Some(other)) => {
                (one.settings.n, other.settings.n) == (0, 0) || one == other
            }
            _ => true,
        };
    let what = if seen.answer != other.answer {
        "answer"
    } else if seen.written != other.written {
        "output"
    } else if seen.remnant != other.remnant || stored != follower.stored(vault) {
        "remnant"
    } else if !other.clean {
        "what was to stay"
    } else if !same_contents() {
        "contents"
    } else {
        return None;
    };
    Some(Difference { vault, item: item.clone(), one: seen.clone(), other, what })
}

// ---------------------------------------------------------------------------------------------
// The hosts of a run.

struct Power<'a, E: Engine> {
    engine: &'a E,
    setup: Setup,
    hosts: Vec<Host>,
    keepers: Vec<u8>,
    returners: Vec<u8>,
    /// By vault: remnants of earlier moments, and the one that the adversary marked.
    older: Vec<Vec<Remnant>>,
    marked: Vec<Option<Remnant>>,
    /// By vault: what its record held when the power went.
    held: Vec<Option<Record>>,
    rng: Rng,
    items: u64,
    wrong: Option<Wrong>,
    told: &'a mut dyn FnMut(&Told),
}

impl<'a, E: Engine> Power<'a, E> {
    fn new(
        engine: &'a E,
        setup: &Setup,
        mut keepers: Vec<u8>,
        told: &'a mut dyn FnMut(&Told),
    ) -> Power<'a, E> {
        let mut rng = Rng(setup.seed.rotate_left(32));
        sim::shuffle(&mut rng, &mut keepers);
        let n = usize::from(setup.n);
        Power {
            engine,
            setup: *setup,
            hosts: Follower::new(engine, setup).hosts,
            returners: keepers[..usize::from(setup.returners)].to_vec(),
            keepers,
            older: vec![Vec::new(); n],
            marked: vec![None; n],
            held: vec![None; n],
            rng,
            items: 0,
            wrong: None,
            told,
        }
    }

    fn host(&self, id: u8) -> &Host {
        &self.hosts[usize::from(id)]
    }

    fn note(&mut self, wrong: Wrong) {
        self.wrong.get_or_insert(wrong);
    }

    /// An output of enough bytes.
    fn space(&mut self) -> Space {
        Space { length: OUTPUT_LEN + self.rng.below(3) as usize * 20, fill: self.rng.next() }
    }

    /// An output of too few bytes, mostly just so.
    fn short(&mut self, enough: usize) -> Space {
        let length =
            if self.rng.one_in(4) { self.rng.below(enough as u64) as usize } else { enough - 1 };
        Space { length, fill: self.rng.next() }
    }

    // ----- Items.

    /// Does an item whose answer leaves no choice.
    fn perform(&mut self, id: u8, item: Item) -> Seen {
        let (record, seen) = self.host(id).answer(self.engine, &item);
        self.settle(id, &item, record, &seen);
        seen
    }

    fn settle(&mut self, id: u8, item: &Item, record: Vec<u8>, seen: &Seen) {
        self.items += 1;
        let place = usize::from(id);
        if let (Item::Cut { .. } | Item::CallCut { .. }, true) = (item, self.host(id).on) {
            self.held[place] = self.engine.contents(&self.hosts[place].record);
        }
        self.hosts[place].settle(self.engine, item, record, seen);
        self.check(id, item, seen);
        if let (Item::Made { .. }, Some(remnant)) = (item, seen.remnant) {
            self.remember(id, remnant);
        }
        let Host { record, stored, .. } = &self.hosts[place];
        (self.told)(&Told { vault: id, item, seen, record, stored: stored.as_ref() });
    }

    /// At most so many earlier remnants, of all moments.
    fn remember(&mut self, id: u8, remnant: Remnant) {
        const MOST: usize = 24;
        if !self.returns(id) {
            return;
        }
        let older = &mut self.older[usize::from(id)];
        if older.len() < MOST {
            older.push(remnant);
        } else {
            older[self.rng.below(MOST as u64) as usize] = remnant;
        }
    }

    fn check(&mut self, id: u8, item: &Item, seen: &Seen) {
        let (vault, item) = (id, item.clone());
        if !seen.clean {
            self.note(Wrong::Touched { vault, item });
        } else if seen.answer.is_ok() && !self.well_written(&item, seen) {
            self.note(Wrong::Entries { vault, item });
        } else if seen.answer.is_ok() && !self.well_stored(id, &item, seen) {
            self.note(Wrong::NoRemnant { vault, item });
        } else if seen.answer.is_ok() && !self.well_returned(id, &item) {
            self.note(Wrong::Contents { vault, item });
        }
    }

    fn well_written(&self, item: &Item, seen: &Seen) -> bool {
        match item {
            Item::Restart { remnant, .. } => {
                let settings = Settings { n: 0, f: 0, id: 0, class: remnant[3] & 7 };
                let (view, millis) = (number4(&remnant[4..8]), settings.timer_millis());
                seen.written == Entry::Timer { view, millis }.bytes()
            }
            Item::Write { .. } => seen.remnant.is_some_and(|remnant| seen.written == remnant),
            _ => parse_entries(&seen.written).is_some(),
        }
    }

    /// Every accepted call leaves a record with a remnant; a restart leaves one with the same remnant.
    fn well_stored(&self, id: u8, item: &Item, seen: &Seen) -> bool {
        let by_contents = || {
            let contents = self.engine.contents(&self.host(id).record);
            contents.is_none_or(|record| Some(remnant_of(&record)) == seen.remnant)
        };
        match item {
            Item::Cut { .. } => true,
            Item::CallCut { .. } => seen.remnant.is_some(),
            // Contents are slow to tell, so they are looked at now and then.
            Item::Made { space, .. } => {
                seen.remnant.is_some() && (space.fill % 8 > 0 || by_contents())
            }
            Item::Restart { remnant, .. } => {
                seen.remnant.is_some_and(|again| again[..] == remnant[..])
            }
            Item::Write { .. } => seen.remnant == self.host(id).stored,
        }
    }

    /// "A restart makes a record with that row and no others": those of the record that was lost.
    fn well_returned(&self, id: u8, item: &Item) -> bool {
        let Item::Restart { remnant, .. } = item else { return true };
        let Some(record) = self.engine.contents(&self.host(id).record) else { return true };
        let lost = self.held[usize::from(id)].as_ref().filter(|_| !self.returns(id));
        record_of(remnant).as_ref() == Some(&record)
            && lost.is_none_or(|lost| alone(lost) == record)
    }

    // ----- Power.

    /// What happens before a call: the power may go or come back, here or elsewhere.
    fn before(&mut self, id: u8) {
        if self.rng.one_in(12) {
            let other = self.rng.pick(&self.keepers);
            self.stir(other);
        }
        self.stir(id);
    }

    fn stir(&mut self, id: u8) {
        let Rates { between, back, .. } = self.setup.rates;
        if self.rng.one_in(100) {
            self.write(id);
        }
        if self.rng.one_in(200) {
            self.restart_not_blank(id);
        }
        if chance(&mut self.rng, between, 256) && (self.host(id).on || self.rng.one_in(8)) {
            self.power_off(id);
        }
        if chance(&mut self.rng, back, 256) {
            self.power_on(id);
        }
    }

    fn power_off(&mut self, id: u8) {
        let blank = self.rng.next();
        self.perform(id, Item::Cut { blank });
    }

    /// A restart where something is stored and the record is blank, some of them refused at first,
    /// some of them cut short.
    fn power_on(&mut self, id: u8) {
        while let (false, Some(stored)) = (self.host(id).on, self.host(id).stored) {
            if self.rng.one_in(4) {
                self.restart_refused(id, stored);
            }
            let remnant = self.chosen(id, stored).to_vec();
            let space = self.space();
            let restart = Item::Restart { remnant, lent: Lent::Own, space };
            self.expect(id, restart, Ok(10));
            if !self.host(id).on || !self.rng.one_in(12) {
                return;
            }
            self.power_off(id);
        }
    }

    /// The stored remnant, or an older one at a vault that so becomes one of the f.
    fn chosen(&mut self, id: u8, stored: Remnant) -> Remnant {
        if !self.returns(id) || self.rng.one_in(4) {
            return stored;
        }
        match self.marked[usize::from(id)].take() {
            Some(marked) => marked,
            None => self.rng.pick(&self.older[usize::from(id)]),
        }
    }

    fn expect(&mut self, id: u8, item: Item, expected: Result<usize, u8>) {
        let answer = self.perform(id, item.clone()).answer;
        if answer != expected {
            self.note(Wrong::Answer { vault: id, item, expected, answer });
        }
    }

    // ----- Refusals.

    /// The remnant of the record as it stands, and each refusal.
    fn write(&mut self, id: u8) {
        let (on, space) = (self.host(id).on, self.space());
        let own = if on { Ok(REMNANT_SIZE) } else { Err(2) };
        let just = Space { length: REMNANT_SIZE, ..space };
        let (lent, space, expected) = match self.rng.below(6) {
            4 => (Lent::Own, just, own),
            0 => (Lent::Own, self.short(REMNANT_SIZE), Err(1)),
            1 => (Lent::Short, space, Err(3)),
            2 => (Lent::Long, space, Err(3)),
            3 => (Lent::Unsound(self.rng.next()), space, Err(3)),
            _ => (Lent::Own, space, own),
        };
        self.expect(id, Item::Write { lent, space }, expected);
    }

    /// A restart of a vault that has power, with any remnant of any length.
    fn restart_not_blank(&mut self, id: u8) {
        let Host { on: true, stored: Some(stored), .. } = *self.host(id) else { return };
        let spoiled = spoiled_slot(&mut self.rng, stored).to_vec();
        let remnant = match self.rng.below(4) {
            0 => spoiled,
            1 => stored[1..].to_vec(),
            _ => stored.to_vec(),
        };
        let space = self.space();
        self.expect(id, Item::Restart { remnant, lent: Lent::Own, space }, Err(4));
    }

    /// A restart of a vault without power that is refused.
    fn restart_refused(&mut self, id: u8, stored: Remnant) {
        let rng = &mut self.rng;
        let more = 1 + rng.below(3) as usize * 40;
        let (remnant, lent, expected) = match rng.below(12) {
            0 => (stored.to_vec(), Lent::Own, 1),
            1 => (stored.to_vec(), Lent::Short, 4),
            2 => (stored.to_vec(), Lent::Long, 4),
            3 => (stored.to_vec(), Lent::Unsound(rng.next()), 4),
            4 => (stored[more..].to_vec(), Lent::Own, 25),
            5 => ([&stored[..], &stored[..more]].concat(), Lent::Own, 25),
            6 => ([&[0], &stored[1..]].concat(), Lent::Own, 26),
            7 | 8 => (spoiled_settings(rng, stored).to_vec(), Lent::Own, 26),
            _ => (spoiled_slot(rng, stored).to_vec(), Lent::Own, 26),
        };
        let space = if expected == 1 { self.short(OUTPUT_LEN) } else { self.space() };
        self.expect(id, Item::Restart { remnant, lent, space }, Err(expected));
    }

    // ----- Calls.

    /// An accepted start is fair only while nothing is stored.
    fn fair(&self, id: u8, call: &Call) -> bool {
        let Call::Start { settings, .. } = call else { return true };
        let Host { on, stored, .. } = self.host(id);
        *on || stored.is_none() || settings.check().is_err()
    }

    fn answered(&mut self, id: u8, call: &Call) -> Result<Vec<Entry>, u8> {
        let (space, call) = (self.space(), call.clone());
        let made = Item::Made { call: call.clone(), space };
        let (record, seen) = self.host(id).answer(self.engine, &made);
        let cut = self.power_goes(&seen);
        let old_left = cut && self.old_left(&seen);
        let blank = self.rng.next();
        let item = if old_left { Item::CallCut { call, space, blank } } else { made };
        self.settle(id, &item, record, &seen);
        seen.answer?;
        let early = self.setup.sabotage == Sabotage::EarlyEntries;
        match parse_entries(&seen.written) {
            Some(_) if old_left && !early => Err(0),
            Some(entries) if cut && !old_left => Ok(self.cut_after(id, entries)),
            Some(entries) => Ok(entries),
            None => Err(0),
        }
    }

    fn power_goes(&mut self, seen: &Seen) -> bool {
        let Rates { within, voting, .. } = self.setup.rates;
        let votes = casts_vote(&seen.written) || decision(&seen.written).is_some();
        chance(&mut self.rng, if votes { voting } else { within }, 256)
    }

    /// "a cut leaves the old or the new one"; a refused call has no new one.
    fn old_left(&mut self, seen: &Seen) -> bool {
        let early = self.setup.sabotage == Sabotage::EarlyEntries;
        early || seen.answer.is_err() || self.rng.one_in(2)
    }

    /// The power goes when the new remnant is stored: the call was made, but only the first of its
    /// entries leave. The other frames never come anywhere. A decision counts all the same, and the
    /// view is entered.
    fn cut_after(&mut self, id: u8, entries: Vec<Entry>) -> Vec<Entry> {
        self.power_off(id);
        let left = self.rng.below(entries.len() as u64 + 1) as usize;
        let to_host = |entry: &Entry| matches!(entry, Entry::Timer { .. } | Entry::Decision { .. });
        let stays = |(at, entry): (usize, Entry)| (at < left || to_host(&entry)).then_some(entry);
        entries.into_iter().enumerate().filter_map(stays).collect()
    }
}

impl<E: Engine> Hosts for Power<'_, E> {
    fn call(&mut self, id: u8, call: &Call) -> Result<Vec<Entry>, u8> {
        self.before(id);
        if !self.fair(id, call) {
            return Err(0);
        }
        if self.rng.one_in(100) {
            let space = self.short(OUTPUT_LEN);
            self.expect(id, Item::Made { call: call.clone(), space }, Err(1));
        }
        self.answered(id, call)
    }

    fn mark(&mut self, id: u8) {
        self.marked[usize::from(id)] = self.host(id).stored;
    }

    fn cut(&mut self, id: u8) {
        self.power_off(id);
        self.power_on(id);
    }

    fn view(&self, id: u8) -> Option<u32> {
        self.host(id).stored.map(|remnant| number4(&remnant[4..8]))
    }

    fn returns(&self, id: u8) -> bool {
        self.returners.contains(&id)
    }

    fn lies(&self, id: u8) -> bool {
        self.returns(id) && self.setup.sabotage != Sabotage::OlderRemnant
    }
}

/// Whether the entries have a vote.
pub(crate) fn casts_vote(written: &[u8]) -> bool {
    let vote = |entry: &Entry| matches!(entry, Entry::All(frame) if (VOTE_1..=VOTE_4).contains(&frame.kind));
    parse_entries(written).is_some_and(|entries| entries.iter().any(vote))
}

/// The plan of the entries' decision.
pub(crate) fn decision(written: &[u8]) -> Option<u64> {
    parse_entries(written)?.iter().find_map(|entry| match entry {
        Entry::Decision { plan, .. } => Some(*plan),
        _ => None,
    })
}

// ---------------------------------------------------------------------------------------------
// Remnants that 26 refuses.

/// Settings that do not start; n is not 0.
fn spoiled_settings(rng: &mut Rng, mut remnant: Remnant) -> Remnant {
    let [n, ..] = remnant;
    let (at, byte) = rng.pick(&[
        (0, 3),
        (0, 65),
        (1, 0),
        (1, n.div_ceil(3)),
        (1, 255),
        (2, n),
        (2, 64),
        (2, 255),
        (3, 8),
        (3, 255),
    ]);
    remnant[at] = byte;
    remnant
}

/// Right settings, and one thing wrong with the slots.
fn spoiled_slot(rng: &mut Rng, mut remnant: Remnant) -> Remnant {
    let slot = |number: usize| 16 + REPORT_LEN * number;
    let any = rng.below(17) as usize;
    match rng.below(5) {
        // a mark
        0 => remnant[slot(any)] = rng.pick(&[2, 3, 255]),
        // an absent slot with a nonzero byte
        1 => {
            remnant[slot(any)..slot(any + 1)].fill(0);
            remnant[slot(any) + 1 + rng.below(12) as usize] = 1 + rng.below(255) as u8;
        }
        // a plan in a kind that has none
        2 => {
            let kind = 5 + rng.below(3) as usize;
            remnant[slot(kind)] = 1;
            remnant[slot(kind) + 4] |= 1;
            remnant[slot(kind) + 5 + rng.below(8) as usize] = 1 + rng.below(255) as u8;
        }
        // reports without their frame
        3 => {
            let (frame, report) = rng.pick(&[(6, 8), (6, 9), (6, 10), (7, 11), (7, 12), (7, 13)]);
            remnant[slot(frame)..slot(frame + 1)].fill(0);
            remnant[slot(report)] = 1;
        }
        _ => return unsound_slot(rng, remnant),
    }
    remnant
}

/// Right settings and slots, and contents that are not sound.
fn unsound_slot(rng: &mut Rng, mut remnant: Remnant) -> Remnant {
    let [n, _, id, ..] = remnant;
    let view = number4(&remnant[4..8]);
    let mut put = |slot: usize, view: u32, plan: u64| {
        let place = &mut remnant[16 + REPORT_LEN * slot..][..REPORT_LEN];
        write_report(Some(Report { view, plan }), place);
    };
    match rng.below(6) {
        // a vote or a proof above the current view; in the last view there is none
        0 if view < u32::MAX => put(rng.pick(&[1, 2, 3, 4, 7]), view + 1, 0),
        1 => put(5, 0, 0),
        // a proposal or a suggest of a view that it does not lead, mostly one gone by
        2 => put(0, u32::from(id + 1) % u32::from(n), 7),
        3 => put(6, 1 + u32::from(id) % u32::from(n - 1), 0),
        // a report that is not below its frame
        4 => {
            put(7, view.max(1), 0);
            put(13, view.max(1), 7);
        }
        // a previous vote that is not below its highest, or has none
        _ => put(14 + rng.below(2) as usize, u32::MAX, rng.next()),
    }
    remnant
}

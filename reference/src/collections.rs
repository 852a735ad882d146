//! Random lists of records, as the desk may collect them (document 02, wish 5), by contents: any
//! layout can spell them. Most are made up, with few views and few plans, so that equivocation and
//! near misses are common; some come from simulated networks with liars and from line scripts. About
//! a third is spoiled, mostly by one cause of 24.

pub use crate::collection_cover::Coverage;

use crate::equivocation::{named_by_contents, MOST_RECORDS};
use crate::frame::{
    bad_previous, leader, Body, Frame, Report, PROOF, PROPOSAL, SUGGEST, VIEW_CHANGE, VOTE_1,
    VOTE_2, VOTE_4,
};
use crate::record::{Record, Settings, VAULTS};
use crate::rng::Rng;
use crate::scripts;
use crate::sim::{self, chance, shuffle, Mode, Setup, Style};
use crate::vault::Fault;

/// One record of a list.
#[derive(Clone, PartialEq, Eq, Debug)]
pub enum Item {
    Sound(Box<Record>),
    /// Its n is 0; other contents may be left over.
    Blank(Box<Record>),
    /// Contents that are not sound, in bytes of the right length.
    Unsound(Box<Record>),
    /// Sound contents in so many bytes more, or less; none are left where that is below 0.
    WrongLength(Box<Record>, i64),
}

/// A list of records, and how the lengths given with it stand to them.
#[derive(Clone, PartialEq, Eq, Debug)]
pub struct Collection {
    pub items: Vec<Item>,
    /// Places, and by how much the length given there is more than that of the bytes. A record is
    /// taken to have more than a few bytes, so that no such length is below 0.
    pub shifts: Vec<(usize, i64)>,
}

impl Item {
    fn sound(record: Record) -> Item {
        debug_assert!(record.sound(), "a made-up record is sound: {record:?}");
        Item::Sound(Box::new(record))
    }

    pub fn record(&self) -> &Record {
        match self {
            Item::Sound(record) | Item::Blank(record) | Item::Unsound(record) => record,
            Item::WrongLength(record, _) => record,
        }
    }

    /// The contents of a sound record; None where it is blank or unsound.
    pub fn contents(&self) -> Option<&Record> {
        match self {
            Item::Sound(record) => Some(record),
            _ => None,
        }
    }

    /// The item's bytes in a layout.
    pub fn spelled(&self, encode: impl Fn(&Record) -> Vec<u8>) -> Vec<u8> {
        let mut bytes = encode(self.record());
        if let Item::WrongLength(_, more) = self {
            bytes.resize((bytes.len() as i64 + more).max(0) as usize, 0);
        }
        bytes
    }
}

impl Collection {
    /// The records end to end in a layout, and the lengths given with them.
    pub fn spelled(&self, encode: impl Fn(&Record) -> Vec<u8>) -> (Vec<u8>, Vec<u32>) {
        let mut bytes = Vec::new();
        let mut lengths: Vec<i64> = Vec::new();
        for item in &self.items {
            let item = item.spelled(&encode);
            lengths.push(item.len() as i64);
            bytes.extend(item);
        }
        for &(at, more) in &self.shifts {
            lengths[at] += more;
        }
        let within = |length: i64| u32::try_from(length).expect("a length in range");
        (bytes, lengths.into_iter().map(within).collect())
    }

    /// The named vaults, or 24. Lengths that are shifted don't add up, or leave a wrong length.
    pub fn answer(&self) -> Result<Vec<u8>, u8> {
        if !self.shifts.is_empty() {
            return Err(24);
        }
        named_by_contents(&self.items.iter().map(Item::contents).collect::<Vec<_>>())
    }
}

/// A random list. The same seed gives the same list.
pub fn collection(seed: u64) -> Collection {
    let mut rng = Rng(seed);
    let size = size(&mut rng);
    let records = match rng.below(12) {
        0 => twisted(networked(&mut rng, size), &mut rng),
        1 => twisted(scripted(&mut rng, size), &mut rng),
        _ => made_up(&mut rng, size),
    };
    let items = records.into_iter().map(Item::sound).collect();
    let mut list = Collection { items, shifts: Vec::new() };
    if rng.one_in(3) {
        spoil(&mut list, &mut rng);
    }
    list
}

/// Mostly few records, now and then as many as there may be.
fn size(rng: &mut Rng) -> usize {
    match rng.below(64) {
        0 => MOST_RECORDS,
        1 => 58 + rng.below(6) as usize,
        2..=7 => 7 + rng.below(20) as usize,
        8..=19 => 2,
        _ => 2 + rng.below(5) as usize,
    }
}

// ---------------------------------------------------------------------------------------------
// Records of runs and scripts.

/// Records of one network with liars, at any moments and any of its vaults.
fn networked(rng: &mut Rng, size: usize) -> Vec<Record> {
    let (n, f) = rng.pick(&[(4, 1), (4, 1), (5, 1), (7, 2)]);
    let style = rng.pick(&[Style::Rounds, Style::Camps, Style::Feints, Style::Partitions]);
    let (mode, fault, seed) = (Mode::Contents, Fault::None, rng.next());
    let run = sim::run_collected(&Setup { n, f, liars: f, mode, fault, style, seed }, 16);
    let records: Vec<Record> = run.moments.into_iter().chain(run.last).collect();
    some_records(rng, records, size)
}

/// Records of one vault, at any moments of a line script.
fn scripted(rng: &mut Rng, size: usize) -> Vec<Record> {
    loop {
        let records = scripts::records(&scripts::script(rng.next()));
        // Now and then nothing starts.
        if !records.is_empty() {
            return some_records(rng, records, size);
        }
    }
}

fn some_records(rng: &mut Rng, records: Vec<Record>, size: usize) -> Vec<Record> {
    (0..size).map(|_| records[rng.below(records.len() as u64) as usize].clone()).collect()
}

/// Some votes get another plan, another view or another kind, where the record stays sound.
fn twisted(mut records: Vec<Record>, rng: &mut Rng) -> Vec<Record> {
    for _ in 0..rng.below(6) {
        let at = rng.below(records.len() as u64) as usize;
        let mut record = records[at].clone();
        let vault = rng.below(u64::from(record.settings.n)) as u8;
        let kind = VOTE_1 + rng.below(4) as u8;
        let Some(&vote) = record.kept(vault, kind) else { continue };
        let other = match rng.below(4) {
            0 => Frame { view: vote.view.wrapping_add(1), ..vote },
            1 => Frame { kind: VOTE_1 + (kind - VOTE_1 + 1) % 4, ..vote },
            _ => Frame { body: Body::Plan(vote.plan().unwrap_or(0) ^ 1), ..vote },
        };
        record.keep(other);
        if record.sound() {
            records[at] = record;
        }
    }
    records
}

// ---------------------------------------------------------------------------------------------
// Made-up records.

/// What the records of a list have in common.
struct Maker<'a> {
    rng: &'a mut Rng,
    n: u8,
    f: u8,
    views: Vec<u32>,
    plans: Vec<u64>,
    /// What most records keep as the votes of each vault: view and plan by kind.
    usual: Vec<[(u32, u64); 4]>,
    /// Out of 8: how likely a vote is kept.
    density: u64,
    /// One vote in so many isn't the usual one.
    rarity: u64,
    ways: Ways,
}

/// How votes leave the usual.
#[derive(Clone, Copy)]
enum Ways {
    Plan,
    View,
    Kind,
    Any,
}

fn made_up(rng: &mut Rng, size: usize) -> Vec<Record> {
    let n = any_n(rng);
    let most = (n - 1) / 3;
    let f = if rng.one_in(2) { most } else { 1 + rng.below(u64::from(most)) as u8 };
    let mut maker = Maker::new(rng, n, f);
    let same_id = maker.rng.one_in(5).then(|| maker.any_vault());
    let mut records: Vec<Record> = (0..size).map(|_| maker.record(same_id)).collect();
    match maker.rng.below(8) {
        0 => maker.quorums(&mut records),
        1 => maker.all_clash(&mut records),
        _ => {}
    }
    records.iter_mut().for_each(|record| maker.round_off(record));
    records
}

fn any_n(rng: &mut Rng) -> u8 {
    match rng.below(8) {
        0..=3 => 4 + rng.below(4) as u8,
        4 => rng.pick(&[8, 16, 31, 32, 33, 63, 64, 64]),
        _ => 4 + rng.below(61) as u8,
    }
}

impl Maker<'_> {
    fn new(rng: &mut Rng, n: u8, f: u8) -> Maker<'_> {
        // Numbers that differ in their upper or lower half only are among them.
        let mut views = vec![0, 1, 2, 3, 3 + (1 << 16), 3 + (1 << 24), u32::MAX - 1, u32::MAX];
        let mut plans = vec![0, 7, 8, 7 + (1 << 32), 7 + (1 << 63), u64::MAX];
        shuffle(rng, &mut views);
        shuffle(rng, &mut plans);
        views.truncate(1 + rng.below(3) as usize);
        plans.truncate(2 + rng.below(2) as usize);
        let usual = (0..n).map(|_| [(); 4].map(|()| (rng.pick(&views), rng.pick(&plans))));
        let usual = usual.collect();
        let density = rng.pick(&[1, 4, 7, 8, 8]);
        let rarity = rng.pick(&[2, 8, 16, 4 * u64::from(n), 16 * u64::from(n), u64::MAX]);
        let ways = rng.pick(&[Ways::Plan, Ways::Plan, Ways::View, Ways::Kind, Ways::Any]);
        Maker { rng, n, f, views, plans, usual, density, rarity, ways }
    }

    fn any_vault(&mut self) -> u8 {
        self.rng.below(u64::from(self.n)) as u8
    }

    fn view(&mut self) -> u32 {
        self.rng.pick(&self.views)
    }

    fn plan(&mut self) -> u64 {
        self.rng.pick(&self.plans)
    }

    /// A record with votes, proposals and reports; `round_off` makes it sound.
    fn record(&mut self, same_id: Option<u8>) -> Record {
        let id = same_id.unwrap_or_else(|| self.any_vault());
        let settings = Settings { n: self.n, f: self.f, id, class: self.rng.below(8) as u8 };
        let mut record = Record::new(settings, self.rng.next());
        for vault in 0..self.n {
            for kind in VOTE_1..=VOTE_4 {
                if chance(self.rng, self.density, 8) {
                    let (view, plan) = self.vote(vault, kind);
                    record.keep(Frame::with_plan(kind, vault, view, plan));
                }
            }
        }
        for view in self.views.clone() {
            if self.rng.one_in(2) {
                let plan = self.plan();
                record.keep(Frame::with_plan(PROPOSAL, leader(view, self.n), view, plan));
            }
        }
        for _ in 0..self.rng.below(4) {
            self.add_reports(&mut record);
        }
        record
    }

    fn vote(&mut self, vault: u8, kind: u8) -> (u32, u64) {
        let row = self.usual[usize::from(vault)];
        let (view, plan) = row[usize::from(kind - VOTE_1)];
        if !self.rng.one_in(self.rarity) {
            return (view, plan);
        }
        match self.ways {
            Ways::Plan => (view, self.plan()),
            Ways::View => (self.view(), plan),
            Ways::Kind => row[self.rng.below(4) as usize],
            Ways::Any => (self.view(), self.plan()),
        }
    }

    /// A proof, a suggest or a view-change. The reports are of votes that rows may keep otherwise.
    fn add_reports(&mut self, record: &mut Record) {
        let (sender, view) = (self.any_vault(), self.view());
        let highest = Some(Report { view, plan: self.plan() });
        let lock = Some(Report { view, plan: self.plan() });
        let reports = [highest, None, lock];
        let Some(next) = view.checked_add(1) else { return };
        match self.rng.below(3) {
            0 => record.keep(Frame::with_reports(PROOF, sender, next, reports)),
            1 => record.keep(Frame::view_change(sender, next)),
            _ => {
                if let Some(led) = next_led(record.settings, next) {
                    record.keep(Frame::with_reports(SUGGEST, sender, led, reports));
                }
            }
        }
    }

    /// Two of the records show quorums of vote-4 for different plans in one view.
    fn quorums(&mut self, records: &mut [Record]) {
        let first = self.rng.below(records.len() as u64 - 1) as usize;
        let second = first + 1 + self.rng.below((records.len() - 1 - first) as u64) as usize;
        let view = self.view();
        for (at, plan) in [(first, self.plans[0]), (second, self.plans[1])] {
            let mut voters: Vec<u8> = (0..self.n).collect();
            shuffle(self.rng, &mut voters);
            for &voter in &voters[..usize::from(self.n - self.f)] {
                records[at].keep(Frame::with_plan(VOTE_4, voter, view, plan));
            }
        }
    }

    /// Two of the records show every vault with two plans in one kind of its own.
    fn all_clash(&mut self, records: &mut [Record]) {
        let second = 1 + self.rng.below(records.len() as u64 - 1) as usize;
        for vault in 0..self.n {
            let (kind, view) = (VOTE_1 + self.rng.below(4) as u8, self.view());
            for (at, plan) in [(0, self.plans[0]), (second, self.plans[1])] {
                records[at].keep(Frame::with_plan(kind, vault, view, plan));
            }
        }
    }

    /// The current view, previous votes and decision, to go with the rows.
    fn round_off(&mut self, record: &mut Record) {
        let own = &record.rows[usize::from(record.settings.id)];
        let votes = own.iter().flatten().filter(|frame| frame.kind != VIEW_CHANGE);
        let least = votes.map(|frame| frame.view).max().unwrap_or(0);
        record.view = least.saturating_add(self.rng.below(3) as u32);
        record.previous_vote1 = self.previous(record.own_vote(VOTE_1));
        record.previous_vote2 = self.previous(record.own_vote(VOTE_2));
        if self.rng.one_in(3) {
            record.decision = Some(Report { view: self.view(), plan: self.plan() });
        }
    }

    fn previous(&mut self, highest: Option<Report>) -> Option<Report> {
        let previous = Some(Report { view: self.view(), plan: self.plan() });
        previous.filter(|_| !bad_previous(previous, highest))
    }
}

/// The first view from this one on that the vault leads.
fn next_led(settings: Settings, from: u32) -> Option<u32> {
    (0..u32::from(settings.n))
        .filter_map(|more| from.checked_add(more))
        .find(|&view| leader(view, settings.n) == settings.id)
}

// ---------------------------------------------------------------------------------------------
// Causes of 24.

/// Mostly one cause, now and then two.
fn spoil(list: &mut Collection, rng: &mut Rng) {
    match rng.below(12) {
        0 => list.items.truncate(rng.below(2) as usize),
        1 => {
            while list.items.len() <= MOST_RECORDS {
                let item = list.items[rng.below(list.items.len() as u64) as usize].clone();
                list.items.push(item);
            }
        }
        2 | 3 => shift(list, rng),
        _ => {
            for _ in 0..rng.pick(&[1, 1, 1, 1, 1, 2]) {
                let at = any_place(list, rng);
                if let Some(record) = list.items[at].contents() {
                    list.items[at] = spoiled_item(record, rng);
                }
            }
        }
    }
}

/// The first and the last place are as common as all others.
fn any_place(list: &Collection, rng: &mut Rng) -> usize {
    let last = list.items.len() - 1;
    let any = rng.below(list.items.len() as u64) as usize;
    rng.pick(&[0, last, any])
}

/// Lengths that don't add up, by a byte or in 32 bits only, or that are wrong with the right sum.
fn shift(list: &mut Collection, rng: &mut Rng) {
    let one = any_place(list, rng);
    let other = (one + 1 + rng.below(list.items.len() as u64 - 1) as usize) % list.items.len();
    let more = rng.pick(&[1, 1, 13]);
    list.shifts = match rng.below(8) {
        0 | 1 => vec![(one, more)],
        2 | 3 => vec![(one, -more)],
        4 => vec![(one, 1 << 31), (other, 1 << 31)],
        _ => vec![(one, more), (other, -more)],
    };
}

/// In the record's place, one that brings 24 by itself.
fn spoiled_item(record: &Record, rng: &mut Rng) -> Item {
    let boxed = Box::new(record.clone());
    match rng.below(6) {
        0 => blank(record, rng),
        1 => unsound(record, rng),
        2 => Item::WrongLength(boxed, rng.pick(&[1, -1, 13, -13, i64::from(i32::MIN)])),
        _ => other_size(record.settings, rng),
    }
}

fn blank(record: &Record, rng: &mut Rng) -> Item {
    let mut blank = if rng.one_in(2) { Record::empty() } else { record.clone() };
    blank.settings.n = 0;
    Item::Blank(Box::new(blank))
}

/// A sound record with another n, another f, or both; where there is none, nothing is spoiled.
fn other_size(settings: Settings, rng: &mut Rng) -> Item {
    let Settings { n, f, .. } = settings;
    let sizes = (4..=VAULTS as u8).flat_map(|n| (1..=(n - 1) / 3).map(move |f| (n, f)));
    let (other_n, other_f) = rng.pick(&[(true, false), (true, false), (false, true), (true, true)]);
    let wanted = |&(m, g): &(u8, u8)| (m != n, g != f) == (other_n, other_f);
    let sizes: Vec<(u8, u8)> = sizes.filter(wanted).collect();
    let (n, f) = if sizes.is_empty() { (n, f) } else { rng.pick(&sizes) };
    let mut maker = Maker::new(rng, n, f);
    let mut record = maker.record(None);
    maker.round_off(&mut record);
    Item::sound(record)
}

/// The record with one thing that makes it unsound.
fn unsound(record: &Record, rng: &mut Rng) -> Item {
    loop {
        let mut record = record.clone();
        damage(&mut record, rng);
        if !record.sound() {
            return Item::Unsound(Box::new(record));
        }
    }
}

/// One thing that often makes a record unsound.
fn damage(record: &mut Record, rng: &mut Rng) {
    let Settings { n, id, .. } = record.settings;
    let (view, plan) = (record.view, rng.next());
    let sender = rng.below(u64::from(n)) as u8;
    let late = Report { view: view.saturating_add(1), plan };
    match rng.below(11) {
        0 => record.settings.n = rng.pick(&[1, 3, 65, 255]),
        1 => record.settings.f = rng.pick(&[0, n.div_ceil(3), 255]),
        2 => record.settings.id = rng.pick(&[n, 255]),
        3 => record.settings.class = rng.pick(&[8, 255]),
        4 => record.keep(Frame::with_plan(VOTE_1, n.min(VAULTS as u8 - 1), view, plan)),
        5 => record.keep(Frame::view_change(sender, 0)),
        6 => record.keep(Frame::with_plan(PROPOSAL, sender, late.view, plan)),
        7 => record.keep(Frame::with_reports(PROOF, sender, late.view, [Some(late), None, None])),
        8 => record.keep(Frame::with_reports(SUGGEST, sender, late.view, [None; 3])),
        9 => record.keep(Frame::with_plan(VOTE_4, id, late.view, plan)),
        _ => record.previous_vote1 = Some(late),
    }
}

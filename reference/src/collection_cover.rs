//! What lists of records reach. Each thing to be met has a name; `missing` lists the names that no
//! list met.

use std::collections::{BTreeMap, BTreeSet};

use crate::collections::{Collection, Item};
use crate::equivocation::MOST_RECORDS;
use crate::frame::{Report, PROOF, PROPOSAL, SUGGEST, VOTE_1, VOTE_2, VOTE_3, VOTE_4};
use crate::record::Record;

/// What lists reached, seen with their answers.
#[derive(Clone, Default, PartialEq, Eq, Debug)]
pub struct Coverage {
    pub lists: u64,
    pub records: u64,
    pub accepted: u64,
    /// Answers that are not those which the causes and the clashes found here call for.
    pub misjudged: u64,
    /// How often each thing was met, by its name.
    pub met: BTreeMap<&'static str, u64>,
}

/// Each is counted where no other cause is there.
const CAUSES: [&str; 11] = [
    "24 by no record",
    "24 by one record",
    "24 by more than 64 records",
    "24 by a blank record",
    "24 by unsound contents",
    "24 by a wrong length",
    "24 by lengths that don't add up",
    "24 by wrong lengths with the right sum",
    "24 by n",
    "24 by f",
    "24 by n and f",
];
const SIZES: [&str; 3] = ["2 records", "3 to 63 records", "64 records"];
const NAMES: [&str; 5] = ["0 names", "1 name", "2 to n - 1 names", "n names", "vault 63 named"];
/// A vault is named, and would not be without this.
const NEEDED: [&str; 8] = [
    "named by vote-1 alone",
    "named by vote-2 alone",
    "named by vote-3 alone",
    "named by vote-4 alone",
    "named by an own row against another's",
    "named by an own row against an own row",
    "named by no two neighbours",
    "named by one pair of many",
];
const QUORUMS: [&str; 2] = ["two vote-4 quorums", "two vote-4 quorums and n - 2f names"];
/// Whether the records come close to showing that a vault equivocated.
type Close = fn(&[&Record], u8) -> bool;
/// A vault is not named, though its frames, or what else is told of its votes, come close.
const NEAR_MISSES: [(&str, Close); 7] = [
    ("near miss: one vote in all", |records, vault| {
        any_kind(|kind| one_vote(records, vault, kind))
    }),
    ("near miss: another view", |records, vault| any_kind(|kind| two_views(records, vault, kind))),
    ("near miss: another kind", |records, vault| any_kind(|kind| two_kinds(records, vault, kind))),
    ("near miss: a proposal", two_proposals),
    ("near miss: a report", |records, vault| any_kind(|kind| told(records, vault, kind, reported))),
    ("near miss: a previous vote", |records, vault| {
        any_kind(|kind| told(records, vault, kind, previous))
    }),
    ("near miss: a decision", |records, vault| told(records, vault, VOTE_4, decided)),
];

fn wanted() -> impl Iterator<Item = &'static str> {
    let names: [&[&str]; 5] = [&CAUSES, &SIZES, &NAMES, &NEEDED, &QUORUMS];
    names.into_iter().flatten().copied().chain(NEAR_MISSES.map(|(name, _)| name))
}

impl Coverage {
    /// The names that were never met, and whether an answer was wrong.
    pub fn missing(&self) -> Vec<String> {
        let unmet = wanted().filter(|name| !self.met.contains_key(name));
        let mut missing: Vec<String> = unmet.map(String::from).collect();
        if self.misjudged > 0 {
            missing.push(format!("the right answer to {} lists", self.misjudged));
        }
        missing
    }

    /// Looks at a list and its answer: the named vaults, or a refusal.
    pub fn look(&mut self, list: &Collection, answer: &Result<Vec<u8>, u8>) {
        self.lists += 1;
        self.records += list.items.len() as u64;
        let causes = causes(list);
        let Ok(names) = answer else {
            self.misjudged += u64::from(causes.is_empty() || *answer != Err(24));
            if let [cause] = causes[..] {
                self.count(cause);
            }
            return;
        };
        self.accepted += 1;
        if !causes.is_empty() {
            self.misjudged += 1;
            return;
        }
        self.look_at(&list.items.iter().map(Item::record).collect::<Vec<_>>(), names);
    }

    fn look_at(&mut self, records: &[&Record], names: &[u8]) {
        let clashes = clashes(records);
        let clashing: BTreeSet<u8> = clashes.iter().map(|clash| clash.vault).collect();
        self.misjudged += u64::from(!clashing.iter().eq(names));
        self.count(match records.len() {
            2 => SIZES[0],
            MOST_RECORDS => SIZES[2],
            _ => SIZES[1],
        });
        self.look_at_names(records[0].settings.n, names);
        for vault in clashing {
            let of_vault: Vec<&Clash> = clashes.iter().filter(|c| c.vault == vault).collect();
            self.look_at_clashes(records, &of_vault);
        }
        self.look_at_quorums(records, names.len());
        let unnamed = |vault: &u8| !names.contains(vault);
        let unnamed: Vec<u8> = (0..records[0].settings.n).filter(unnamed).collect();
        for (name, comes_close) in NEAR_MISSES {
            if unnamed.iter().any(|&vault| comes_close(records, vault)) {
                self.count(name);
            }
        }
    }

    fn look_at_names(&mut self, n: u8, names: &[u8]) {
        self.count(match names.len() {
            0 => NAMES[0],
            1 => NAMES[1],
            all if all == usize::from(n) => NAMES[3],
            _ => NAMES[2],
        });
        if names.contains(&63) {
            self.count(NAMES[4]);
        }
    }

    /// The clashes of one named vault.
    fn look_at_clashes(&mut self, records: &[&Record], clashes: &[&Clash]) {
        let first = clashes[0];
        if clashes.iter().all(|clash| clash.kind == first.kind) {
            self.count(NEEDED[usize::from(first.kind - VOTE_1)]);
        }
        let own_rows = |clash: &&Clash| {
            let own = |at: usize| usize::from(records[at].settings.id == clash.vault);
            own(clash.one) + own(clash.other)
        };
        let fewest = clashes.iter().map(own_rows).min();
        let most = clashes.iter().map(own_rows).max();
        if fewest == Some(1) {
            self.count(NEEDED[4]);
        }
        if (fewest, most) == (Some(2), Some(2)) {
            self.count(NEEDED[5]);
        }
        if clashes.iter().all(|clash| clash.other > clash.one + 1) {
            self.count(NEEDED[6]);
        }
        let one_pair =
            clashes.iter().all(|clash| (clash.one, clash.other) == (first.one, first.other));
        if records.len() > 2 && one_pair {
            self.count(NEEDED[7]);
        }
    }

    /// "If two records show quorums of vote-4 for different plans in one view, at least n - 2f
    /// vaults are named."
    fn look_at_quorums(&mut self, records: &[&Record], names: usize) {
        let quorums: Vec<Report> =
            records.iter().filter_map(|record| vote_4_quorum(record)).collect();
        let against =
            |one: &Report| quorums.iter().any(|q| q.view == one.view && q.plan != one.plan);
        if !quorums.iter().any(against) {
            return;
        }
        let settings = records[0].settings;
        let least = usize::from(settings.n - 2 * settings.f);
        self.misjudged += u64::from(names < least);
        self.count(QUORUMS[0]);
        if names == least {
            self.count(QUORUMS[1]);
        }
    }

    fn count(&mut self, name: &'static str) {
        *self.met.entry(name).or_default() += 1;
    }
}

/// All causes of 24 that a list has.
fn causes(list: &Collection) -> Vec<&'static str> {
    let any = |wanted: fn(&Item) -> bool| list.items.iter().any(wanted);
    let more: i64 = list.shifts.iter().map(|&(_, more)| more).sum();
    let settings = list.items.iter().filter_map(Item::contents).map(|record| record.settings);
    let (mut several_n, mut several_f) = (BTreeSet::new(), BTreeSet::new());
    for settings in settings {
        several_n.insert(settings.n);
        several_f.insert(settings.f);
    }
    let differ = (several_n.len() > 1, several_f.len() > 1);
    let there = [
        list.items.is_empty(),
        list.items.len() == 1,
        list.items.len() > MOST_RECORDS,
        any(|item| matches!(item, Item::Blank(_))),
        any(|item| matches!(item, Item::Unsound(_))),
        any(|item| matches!(item, Item::WrongLength(..))),
        more != 0,
        !list.shifts.is_empty() && more == 0,
        differ == (true, false),
        differ == (false, true),
        differ == (true, true),
    ];
    CAUSES.into_iter().zip(there).filter(|(_, there)| *there).map(|(cause, _)| cause).collect()
}

/// Two places of a list whose records keep votes of one vault, one kind and one view for two plans.
struct Clash {
    vault: u8,
    kind: u8,
    one: usize,
    other: usize,
}

fn clashes(records: &[&Record]) -> Vec<Clash> {
    let mut clashes = Vec::new();
    for vault in 0..records[0].settings.n {
        for kind in VOTE_1..=VOTE_4 {
            let votes = votes(records, vault, kind);
            for &(one, vote) in &votes {
                let later = votes.iter().filter(|&&(other, _)| other > one);
                let against = later.filter(|(_, v)| v.view == vote.view && v.plan != vote.plan);
                clashes.extend(against.map(|&(other, _)| Clash { vault, kind, one, other }));
            }
        }
    }
    clashes
}

/// The places of the records that keep a vault's frame of this kind, with its view and plan.
fn votes(records: &[&Record], vault: u8, kind: u8) -> Vec<(usize, Report)> {
    let vote = |(at, record): (usize, &&Record)| {
        let frame = record.kept(vault, kind)?;
        Some((at, Report { view: frame.view, plan: frame.plan()? }))
    };
    records.iter().enumerate().filter_map(vote).collect()
}

/// The view and plan for which a record keeps vote-4 of n - f vaults or more, if any; a second such
/// pair would need more vaults than there are.
fn vote_4_quorum(record: &Record) -> Option<Report> {
    let mut voters: BTreeMap<(u32, u64), usize> = BTreeMap::new();
    for vault in 0..record.settings.n {
        for (_, Report { view, plan }) in votes(&[record], vault, VOTE_4) {
            *voters.entry((view, plan)).or_default() += 1;
        }
    }
    let quorum = usize::from(record.settings.n - record.settings.f);
    let (&(view, plan), _) = voters.iter().find(|(_, &count)| count >= quorum)?;
    Some(Report { view, plan })
}

fn any_kind(close: impl FnMut(u8) -> bool) -> bool {
    (VOTE_1..=VOTE_4).any(close)
}

/// All records keep the vault's vote of this kind, and it is the same.
fn one_vote(records: &[&Record], vault: u8, kind: u8) -> bool {
    let votes = votes(records, vault, kind);
    votes.len() == records.len() && votes.iter().all(|(_, vote)| *vote == votes[0].1)
}

/// Two plans, but in two views.
fn two_views(records: &[&Record], vault: u8, kind: u8) -> bool {
    let votes = votes(records, vault, kind);
    pair(&votes, &votes, |one, other| one.view != other.view && one.plan != other.plan)
}

/// Two plans in one view, but one in this kind and the other in a later one.
fn two_kinds(records: &[&Record], vault: u8, kind: u8) -> bool {
    let ones = votes(records, vault, kind);
    (kind + 1..=VOTE_4).any(|later| pair(&ones, &votes(records, vault, later), odd))
}

/// Two plans proposed in one view.
fn two_proposals(records: &[&Record], vault: u8) -> bool {
    let proposals = votes(records, vault, PROPOSAL);
    pair(&proposals, &proposals, odd)
}

/// One view and two plans.
fn odd(one: &Report, other: &Report) -> bool {
    one.view == other.view && one.plan != other.plan
}

/// Whether two records, not the same one twice, have such a pair.
fn pair(
    ones: &[(usize, Report)],
    others: &[(usize, Report)],
    such: impl Fn(&Report, &Report) -> bool,
) -> bool {
    ones.iter().any(|(at, one)| others.iter().any(|(by, other)| at != by && such(one, other)))
}

/// Whether a record tells, otherwise than by a kept vote, of a vote of this vault and kind at odds
/// with one that another record keeps.
fn told(
    records: &[&Record],
    vault: u8,
    kind: u8,
    tells: fn(&Record, u8, u8) -> Option<Report>,
) -> bool {
    let told = |(at, record): (usize, &&Record)| Some((at, tells(record, vault, kind)?));
    let told: Vec<(usize, Report)> = records.iter().enumerate().filter_map(told).collect();
    pair(&told, &votes(records, vault, kind), odd)
}

/// "A suggest reports highest vote-2, previous vote-2, highest vote-3. A proof reports highest
/// vote-1, previous vote-1, highest vote-4."
fn reported(record: &Record, vault: u8, kind: u8) -> Option<Report> {
    let (frame, place) = match kind {
        VOTE_1 => (PROOF, 0),
        VOTE_2 => (SUGGEST, 0),
        VOTE_3 => (SUGGEST, 2),
        _ => (PROOF, 2),
    };
    record.kept(vault, frame)?.reports()?[place]
}

fn previous(record: &Record, vault: u8, kind: u8) -> Option<Report> {
    match kind {
        _ if record.settings.id != vault => None,
        VOTE_1 => record.previous_vote1,
        VOTE_2 => record.previous_vote2,
        _ => None,
    }
}

/// A decision rests on votes-4, so it is held against the vault's own.
fn decided(record: &Record, vault: u8, _vote_4: u8) -> Option<Report> {
    record.decision.filter(|_| record.settings.id == vault)
}

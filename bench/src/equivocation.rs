//! Part 7: who spoke twice, told from records that lie end to end.

use std::hint::black_box;

use comparison::records::spell;
use comparison::sides::Answer;
use comparison::vaults;
use reference::collections::{collection, Collection, Item};
use reference::equivocation::equivocators;
use reference::frame::{Frame, Report, VOTE_1, VOTE_4};
use reference::record::{encode, Record, Settings};

use crate::clock::{race, Clock, Contender, Group};
use crate::summary::{Aim, Summary};
use crate::table;

const ROUNDS: u32 = 100;
/// How many records a timed list has.
const COUNTS: [usize; 3] = [2, 8, 64];
/// Lists on which all sides are compared before any is timed.
const RANDOM_LISTS: u64 = 400;

const SPACE: usize = 256;
/// What an output holds before a compared call.
const UNWRITTEN: u8 = 0xa5;

const VIEW: u32 = 9;
const PLAN: u64 = 7;
const OTHER_PLAN: u64 = 8;

type Call = fn(records: &[u8], lengths: &[u32], out: &mut [u8]) -> Answer;

/// A list of records in one layout: its bytes, and the length of each record.
type Spelled = (Vec<u8>, Vec<u32>);

/// A list in the layouts of all sides, and who is named.
struct List {
    name: String,
    /// For the library and the in-place vault.
    ours: Spelled,
    theirs: Spelled,
    named: Result<Vec<u8>, u8>,
}

impl List {
    fn new(name: String, list: &Collection) -> List {
        let (ours, theirs) = (list.spelled(spell), list.spelled(encode));
        List { name, ours, theirs, named: list.answer() }
    }

    /// Who is to make the call, and on which bytes.
    fn sides(&self) -> [(Call, &Spelled); 3] {
        [
            (vaults::equivocators, &self.ours),
            (inplace::equivocators, &self.ours),
            (equivocators, &self.theirs),
        ]
    }

    /// What a call with space for all is to answer, and the output that it is to leave.
    fn wanted(&self) -> (Answer, Vec<u8>) {
        let mut out = vec![UNWRITTEN; SPACE];
        if let Ok(named) = &self.named {
            out[..named.len()].copy_from_slice(named);
        }
        (self.named.as_ref().map(Vec::len).map_err(|why| *why), out)
    }

    /// All sides answer as they should, also where there is too little space.
    fn check(&self) {
        let short = SPACE - 1;
        for (call, spelled) in self.sides() {
            assert_eq!(outcome(call, spelled, SPACE), self.wanted(), "{}", self.name);
            assert_eq!(outcome(call, spelled, short), (Err(1), vec![UNWRITTEN; short]));
        }
    }

    fn group<'a>(&'a self, clock: &'a Clock) -> Group<'a> {
        let [library, in_place, reference] =
            self.sides().map(|(call, spelled)| contender(clock, call, spelled));
        Group { library, in_place, reference }
    }
}

/// What a call answers, and the output that it leaves.
fn outcome(call: Call, (bytes, lengths): &Spelled, space: usize) -> (Answer, Vec<u8>) {
    let mut out = vec![UNWRITTEN; space];
    (call(bytes, lengths, &mut out), out)
}

/// Each timed call comes after one that is not timed. Else who comes first would fetch the records
/// for those behind it: 64 of them don't stay in the cache from round to round.
fn contender<'a>(clock: &'a Clock, call: Call, (bytes, lengths): &'a Spelled) -> Contender<'a> {
    let made = move |out: &mut [u8; SPACE]| {
        let _ = black_box(call(black_box(bytes), black_box(lengths), black_box(out)));
    };
    clock.fresh([0; SPACE], made, made)
}

/// What the records of a timed list show. Each keeps votes of all vaults and all four kinds.
#[derive(Clone, Copy, PartialEq)]
enum Shown {
    Alike,
    FirstPair,
    LastPair,
    Unsound,
}

impl Shown {
    const ALL: [Shown; 4] = [Shown::Alike, Shown::FirstPair, Shown::LastPair, Shown::Unsound];

    fn name(self) -> &'static str {
        match self {
            Shown::Alike => "the same votes, none named",
            Shown::FirstPair => "all named by the first two",
            Shown::LastPair => "all named by the last two",
            Shown::Unsound => "refused 24, last is unsound",
        }
    }

    fn expected(self, n: u8) -> Result<Vec<u8>, u8> {
        match self {
            Shown::Alike => Ok(Vec::new()),
            Shown::FirstPair | Shown::LastPair => Ok((0..n).collect()),
            Shown::Unsound => Err(24),
        }
    }

    /// View and plan of the votes of a kind in record `at`.
    fn vote(self, kind: u8, at: usize, count: usize) -> (u32, u64) {
        match self {
            Shown::FirstPair if kind == VOTE_1 && at == 1 => (VIEW, OTHER_PLAN),
            // In a view that no other record has, so that these differ from each other only.
            Shown::LastPair if kind == VOTE_4 && at + 1 == count => (VIEW + 1, OTHER_PLAN),
            Shown::LastPair if kind == VOTE_4 && at + 2 == count => (VIEW + 1, PLAN),
            _ => (VIEW, PLAN),
        }
    }

    fn item(self, n: u8, f: u8, at: usize, count: usize) -> Item {
        let id = (at % usize::from(n)) as u8;
        let mut record = Record::new(Settings { n, f, id, class: 2 }, PLAN);
        record.view = VIEW + 1;
        for kind in VOTE_1..=VOTE_4 {
            let (view, plan) = self.vote(kind, at, count);
            (0..n).for_each(|sender| record.keep(Frame::with_plan(kind, sender, view, plan)));
        }
        if self != Shown::Unsound || at + 1 < count {
            return Item::Sound(Box::new(record));
        }
        // Not below the vote that is kept: one of the last things that a test comes to.
        record.previous_vote1 = Some(Report { view: VIEW, plan: OTHER_PLAN });
        Item::Unsound(Box::new(record))
    }

    fn list(self, n: u8, f: u8, count: usize) -> List {
        let items = (0..count).map(|at| self.item(n, f, at, count)).collect();
        let name = format!("n = {n}, {count} records: {}", self.name());
        let list = List::new(name, &Collection { items, shifts: Vec::new() });
        assert_eq!(list.named, self.expected(n), "{}", list.name);
        list
    }
}

/// The sides agree on random lists, of which some are refused.
fn compare() {
    for seed in 0..RANDOM_LISTS {
        List::new(format!("random list {seed}"), &collection(seed)).check();
    }
}

pub fn print(clock: &Clock, summary: &mut Summary, sizes: &[(u8, u8)]) {
    compare();
    table::head(
        "7. Who spoke twice, told from records that keep votes of all vaults and all four kinds
   They name all vaults by vote-1 of the first two records, or only by vote-4 of the last two
   The in-place vault compares every two records too; one pass over 64 that agree would be quicker",
        "nanoseconds a call",
    );
    for &(n, f) in sizes {
        let of_count = |count| Shown::ALL.map(|shown| shown.list(n, f, count));
        let lists: Vec<List> = COUNTS.into_iter().flat_map(of_count).collect();
        lists.iter().for_each(List::check);
        let times = race(ROUNDS, lists.iter().map(|list| list.group(clock)).collect());
        for (list, times) in lists.iter().zip(times) {
            summary.row(Aim::Twice, "", &list.name, times);
        }
    }
}

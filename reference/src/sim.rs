//! Networks of vaults under an adversary that owns the links, the timers and up to f liars.
//! The runs are those of document 01, "Runs, as demand 3 means them"; the check after each run
//! is its claim (agreement and validity), with what every written frame must keep besides.

use std::collections::{HashMap, HashSet};

use crate::calls;
use crate::entry::{parse_entries, Entry};
use crate::frame::{
    self, leader, Body, Frame, Report, PROOF, PROPOSAL, SUGGEST, VIEW_CHANGE, VOTE_1, VOTE_2,
    VOTE_3, VOTE_4,
};
use crate::record::{self, Record, Settings, RECORD_LEN};
use crate::rng::Rng;
use crate::rules::{Clause, Reports};
use crate::vault::{self, Acts, Done, Fault, Moved};

/// No call may write more than this.
const OUTPUT_LIMIT: usize = 256;

// ---------------------------------------------------------------------------------------------
// Random choices shared with the script generator.

pub(crate) fn chance(rng: &mut Rng, part: u64, whole: u64) -> bool {
    rng.below(whole) < part
}

pub(crate) fn shuffle<T>(rng: &mut Rng, items: &mut [T]) {
    for last in (1..items.len()).rev() {
        items.swap(last, rng.below(last as u64 + 1) as usize);
    }
}

/// Each item with the given chance, in random order.
pub(crate) fn some_of<T: Copy>(rng: &mut Rng, items: &[T], part: u64, whole: u64) -> Vec<T> {
    let mut taken: Vec<T> = items.iter().copied().filter(|_| chance(rng, part, whole)).collect();
    shuffle(rng, &mut taken);
    taken
}

// ---------------------------------------------------------------------------------------------
// What a run reports.

/// How the rule-keeping vaults are run.
#[derive(Clone, Copy, PartialEq, Eq, Debug)]
pub enum Mode {
    /// The vault by contents.
    Contents,
    /// The calls over lent bytes.
    Bytes,
    /// Both in step, compared after every call.
    Both,
}

/// The first thing found wrong in a run.
#[derive(Clone, PartialEq, Eq, Debug)]
pub enum Wrong {
    Disagreement {
        one: (u8, Report),
        other: (u8, Report),
    },
    NobodysPlan {
        vault: u8,
        plan: u64,
    },
    IllFormed {
        sender: u8,
        receiver: u8,
        refusal: u8,
    },
    WrongEntry {
        vault: u8,
        entry: Entry,
    },
    SecondFrame {
        vault: u8,
        kind: u8,
        view: u32,
    },
    SecondDecision {
        vault: u8,
    },
    LongOutput {
        vault: u8,
        length: usize,
    },
    /// A refused call changed something, the output beyond the count was touched, or the bytes
    /// written spell no entries.
    BadBytes {
        vault: u8,
    },
    /// The calls over bytes and the vault by contents gave different answers.
    ModesDiffer {
        vault: u8,
    },
}

/// How often the interesting things happened.
#[derive(Clone, Copy, Default, PartialEq, Eq, Debug)]
pub struct Tally {
    pub runs: u64,
    pub accepted: u64,
    pub refused: u64,
    pub decisions: u64,
    /// Decisions in a view above 0.
    pub late_decisions: u64,
    /// Views above 0 entered, counted for each vault.
    pub views_entered: u64,
    /// Proofs and suggests with a lock.
    pub locks_reported: u64,
    /// Proofs and suggests with a previous vote.
    pub previous_reported: u64,
    /// Votes-1 for a plan other than that of the same vault's last vote-1.
    pub plans_changed: u64,
    /// Runs in which two plans got a vote-3 from rule-keeping vaults.
    pub two_plans_locked: u64,
    pub view_zero: u64,
    pub no_lock: u64,
    pub one_set: u64,
    pub two_sets: u64,
    // Like the clauses, these three are not known where the calls over bytes run alone.
    /// Passes in which A asked for one view and B entered another. There is none with four vaults.
    pub moves_apart: u64,
    /// Views entered by view-changes for different views.
    pub mixed_entries: u64,
    /// Passes in which A or B acted and under the count before wish 3 neither would have.
    pub later_backed: u64,
}

impl Tally {
    pub fn add(&mut self, other: &Tally) {
        self.runs += other.runs;
        self.accepted += other.accepted;
        self.refused += other.refused;
        self.decisions += other.decisions;
        self.late_decisions += other.late_decisions;
        self.views_entered += other.views_entered;
        self.locks_reported += other.locks_reported;
        self.previous_reported += other.previous_reported;
        self.plans_changed += other.plans_changed;
        self.two_plans_locked += other.two_plans_locked;
        self.view_zero += other.view_zero;
        self.no_lock += other.no_lock;
        self.one_set += other.one_set;
        self.two_sets += other.two_sets;
        self.moves_apart += other.moves_apart;
        self.mixed_entries += other.mixed_entries;
        self.later_backed += other.later_backed;
    }

    fn count_clause(&mut self, clause: Clause) {
        match clause {
            Clause::ViewZero => self.view_zero += 1,
            Clause::NoLock => self.no_lock += 1,
            Clause::OneSet { .. } => self.one_set += 1,
            Clause::TwoSets { .. } => self.two_sets += 1,
        }
    }
}

#[derive(Clone, Debug)]
pub struct Outcome {
    pub tally: Tally,
    pub decisions: Vec<(u8, Report)>,
    /// Started vaults that keep the rules, whether or not they decided.
    pub started: usize,
    pub wrong: Option<Wrong>,
}

// ---------------------------------------------------------------------------------------------
// The network: rule-keeping vaults, what they sent, and the check.

/// A frame that an accepted call wrote; `to` is None where it goes to all.
#[derive(Clone, Copy, Debug)]
struct Sent {
    to: Option<u8>,
    frame: Frame,
}

/// Why a vault voted: the clause that made its leader's proposal safe.
#[derive(Clone, Copy, PartialEq, Eq, Debug)]
pub struct Accepted {
    pub voter: u8,
    pub view: u32,
    pub plan: u64,
    pub clause: Clause,
}

/// A vault that keeps the rules, in the forms that the mode needs.
#[derive(Clone)]
struct Keeper {
    record: Option<Box<Record>>,
    bytes: Vec<u8>,
    view: Option<u32>,
    plan: u64,
    decided: bool,
    vote_1: Option<u64>,
    /// Kind and view of each frame that may go out once a view.
    written: HashSet<(u8, u32)>,
    /// The vault as its host stored it last.
    stored: Option<Box<Keeper>>,
}

/// One call at a vault that keeps the rules.
#[derive(Clone, PartialEq, Eq, Debug)]
pub enum Call {
    Start { settings: Settings, plan: u64 },
    Frame { link: u8, bytes: Vec<u8> },
    Timer { view: u32 },
}

impl Call {
    /// Whether A or B may act in its pass.
    fn may_move(&self) -> bool {
        match self {
            Call::Start { .. } => false,
            Call::Frame { bytes, .. } => bytes.first() == Some(&VIEW_CHANGE),
            Call::Timer { .. } => true,
        }
    }

    /// What the call would do if a view-change counted for its own view only.
    fn before_wish_3(&self, record: &Record) -> Result<Done, u8> {
        match self {
            Call::Start { .. } => Err(4),
            Call::Frame { link, bytes } => {
                vault::frame_with(Fault::OwnViewOnly, record, *link, bytes)
            }
            Call::Timer { view } => vault::timer_with(Fault::OwnViewOnly, record, *view),
        }
    }
}

/// One item of a run. Only a sabotaged host restores a record that is not the latest.
#[derive(Clone, PartialEq, Eq, Debug)]
pub enum Act {
    Call(Call),
    Store,
    Restore,
}

/// Who answers the calls in place of the network: hosts whose power may be cut (cuts.rs). Each has
/// stored the last accepted call that was made, so what the network knows of a vault stays right
/// after a cut. Addition to the interface.
pub(crate) trait Hosts {
    /// The entries of an accepted call that was made, or a refusal. A call that was cut, or that no
    /// run may have, is a refusal 0.
    fn call(&mut self, id: u8, call: &Call) -> Result<Vec<Entry>, u8>;

    /// A moment to which the adversary would like the vault to come back.
    fn mark(&mut self, id: u8);

    /// The adversary wants a cut here, and a restart.
    fn cut(&mut self, id: u8);

    /// The current view by what is stored, where anything is.
    fn view(&self, id: u8) -> Option<u32>;

    /// Whether the vault may come back from an older remnant.
    fn returns(&self, id: u8) -> bool;

    /// Whether it so belongs to the f, although it answers calls.
    fn lies(&self, id: u8) -> bool;
}

pub struct Network<'a> {
    n: u8,
    f: u8,
    mode: Mode,
    fault: Fault,
    /// None stands for a liar.
    vaults: Vec<Option<Keeper>>,
    sent: Vec<Sent>,
    /// Indices into `sent` by view and kind.
    places: HashMap<(u32, u8), Vec<usize>>,
    /// Deliveries not made yet, oldest first.
    pending: Vec<(usize, u8)>,
    accepted: Vec<Accepted>,
    decisions: Vec<(u8, Report)>,
    locked_plans: HashSet<u64>,
    tally: Tally,
    wrong: Option<Wrong>,
    /// Told of every act before it is done.
    told: fn(u8, &Act),
    /// For output spaces and blank records only, so that all modes see one schedule.
    spaces: Rng,
    collector: Option<Collector>,
    hosts: Option<&'a mut dyn Hosts>,
    /// Nothing but disagreement is noted.
    agreement_only: bool,
}

impl<'a> Network<'a> {
    pub fn new(n: u8, f: u8, liars: &[u8], mode: Mode, fault: Fault, seed: u64) -> Network<'a> {
        // The calls over bytes have no faults, so a broken rule can only be run by contents.
        assert!(fault == Fault::None || mode == Mode::Contents);
        let mut spaces = Rng(seed);
        let vaults = (0..n)
            .map(|id| (!liars.contains(&id)).then(|| Keeper::blank(mode, &mut spaces)))
            .collect();
        Network {
            n,
            f,
            mode,
            fault,
            vaults,
            sent: Vec::new(),
            places: HashMap::new(),
            pending: Vec::new(),
            accepted: Vec::new(),
            decisions: Vec::new(),
            locked_plans: HashSet::new(),
            tally: Tally::default(),
            wrong: None,
            told: |_, _| {},
            spaces,
            collector: None,
            hosts: None,
            agreement_only: false,
        }
    }

    pub fn start(&mut self, id: u8, class: u8, plan: u64) -> Result<(), u8> {
        let settings = Settings { n: self.n, f: self.f, id, class };
        self.call(id, Call::Start { settings, plan })
    }

    pub fn timer(&mut self, id: u8, view: u32) -> Result<(), u8> {
        self.call(id, Call::Timer { view })
    }

    fn call(&mut self, id: u8, call: Call) -> Result<(), u8> {
        self.act(id, Act::Call(call))
    }

    /// Does one act. After the first thing found wrong nothing more is done.
    fn act(&mut self, id: u8, act: Act) -> Result<(), u8> {
        if self.wrong.is_some() {
            return Err(0);
        }
        (self.told)(id, &act);
        match act {
            Act::Call(call) => return self.answered(id, &call),
            Act::Store => {
                if let Some(hosts) = &mut self.hosts {
                    hosts.mark(id);
                    return Ok(());
                }
                let keeper = Keeper { stored: None, ..self.keeper(id).clone() };
                self.keeper_mut(id).stored = Some(Box::new(keeper));
            }
            Act::Restore => {
                if let Some(hosts) = &mut self.hosts {
                    hosts.cut(id);
                    return Ok(());
                }
                if let Some(stored) = self.keeper_mut(id).stored.take() {
                    *self.keeper_mut(id) = *stored;
                }
            }
        }
        Ok(())
    }

    /// Whether a run may have this act next: a frame of a rule-keeping sender must have been written.
    fn may(&self, id: u8, act: &Act) -> bool {
        let Act::Call(Call::Frame { link, bytes }) = act else { return true };
        let lies = self.vaults.get(usize::from(*link)).is_none_or(Option::is_none);
        let written = |frame: Frame| {
            let places = self.places.get(&(frame.view, frame.kind)).map_or(&[][..], Vec::as_slice);
            places
                .iter()
                .map(|&index| self.sent[index])
                .any(|sent| sent.frame == frame && sent.to.is_none_or(|to| to == id))
        };
        lies || frame::parse(bytes).is_some_and(written)
    }

    /// Delivers a frame of a rule-keeping sender just as an accepted call wrote it.
    fn deliver(&mut self, index: usize, to: u8) -> Result<(), u8> {
        let Sent { to: wanted, frame } = self.sent[index];
        assert!(wanted.is_none_or(|id| id == to), "an entry for all or for this vault");
        self.call(to, Call::Frame { link: frame.sender, bytes: frame::write(&frame) })
    }

    /// A liar's frame, well-formed or not by its contents.
    pub fn lie(&mut self, to: u8, frame: &Frame) -> Result<(), u8> {
        self.lie_bytes(frame.sender, to, &frame::write(frame))
    }

    /// A liar's bytes.
    pub fn lie_bytes(&mut self, liar: u8, to: u8, bytes: &[u8]) -> Result<(), u8> {
        assert!(liar >= self.n || self.vaults[usize::from(liar)].is_none());
        self.call(to, Call::Frame { link: liar, bytes: bytes.to_vec() })
    }

    pub fn view(&self, id: u8) -> Option<u32> {
        match &self.hosts {
            Some(hosts) => hosts.view(id),
            None => self.keeper(id).view,
        }
    }

    /// Whether the vault answers calls and belongs to the f all the same.
    fn excused(&self, id: u8) -> bool {
        self.hosts.as_ref().is_some_and(|hosts| hosts.lies(id))
    }

    pub fn decided(&self, id: u8) -> bool {
        self.keeper(id).decided
    }

    pub fn accepted(&self) -> &[Accepted] {
        &self.accepted
    }

    /// The contents of a started vault's record.
    pub fn record(&self, id: u8) -> Option<Record> {
        let keeper = self.keeper(id);
        keeper.view?;
        match &keeper.record {
            Some(record) => Some((**record).clone()),
            None => record::decode(&keeper.bytes),
        }
    }

    fn keeper(&self, id: u8) -> &Keeper {
        self.vaults[usize::from(id)].as_ref().expect("a rule-keeping vault")
    }

    fn keeper_mut(&mut self, id: u8) -> &mut Keeper {
        self.vaults[usize::from(id)].as_mut().expect("a rule-keeping vault")
    }

    /// The views of the started vaults, by vault.
    fn views(&self) -> Vec<(u8, u32)> {
        self.keepers().into_iter().filter_map(|id| Some((id, self.view(id)?))).collect()
    }

    fn keepers(&self) -> Vec<u8> {
        (0..self.n).filter(|&id| self.vaults[usize::from(id)].is_some()).collect()
    }

    fn liars(&self) -> Vec<u8> {
        (0..self.n).filter(|&id| self.vaults[usize::from(id)].is_none()).collect()
    }

    /// The frames of one kind and view that may be delivered to this vault.
    fn deliverable(&self, view: u32, kind: u8, to: u8) -> Vec<usize> {
        let places = self.places.get(&(view, kind)).map_or(&[][..], Vec::as_slice);
        let fits = |&index: &usize| {
            let sent = &self.sent[index];
            sent.frame.sender != to && sent.to.is_none_or(|id| id == to)
        };
        places.iter().copied().filter(fits).collect()
    }

    /// The plan that most rule-keeping vaults sent in frames of this kind and view.
    fn popular(&self, view: u32, kind: u8) -> Option<u64> {
        let plans = self.plans_sent(view, kind);
        let count = |plan: u64| plans.iter().filter(|&&other| other == plan).count();
        plans.iter().copied().max_by_key(|&plan| count(plan))
    }

    fn plans_sent(&self, view: u32, kind: u8) -> Vec<u64> {
        let places = self.places.get(&(view, kind)).map_or(&[][..], Vec::as_slice);
        places.iter().filter_map(|&index| self.sent[index].frame.plan()).collect()
    }

    fn note(&mut self, wrong: Wrong) {
        if !self.agreement_only || matches!(wrong, Wrong::Disagreement { .. }) {
            self.wrong.get_or_insert(wrong);
        }
    }

    // ----- Calls.

    fn answered(&mut self, id: u8, call: &Call) -> Result<(), u8> {
        let hosted = self.hosts.as_mut().map(|hosts| hosts.call(id, call));
        let answer = match (hosted, self.mode) {
            (Some(answer), _) => answer.map(|entries| (entries, None)),
            (None, Mode::Contents) => self.by_contents(id, call),
            (None, Mode::Bytes) => self.by_bytes(id, call).map(|entries| (entries, None)),
            (None, Mode::Both) => self.by_both(id, call),
        };
        match answer {
            Ok((entries, clause)) => {
                self.tally.accepted += 1;
                if let Call::Start { plan, .. } = *call {
                    self.keeper_mut(id).plan = plan;
                }
                self.absorb(id, &entries, clause);
                self.collect(id);
                Ok(())
            }
            Err(refusal) => {
                self.tally.refused += 1;
                Err(refusal)
            }
        }
    }

    /// The call on the keeper's record. Only a view-change or a timer sets off A or B, so only then
    /// the record from before is wanted, to tell what they would have done before wish 3.
    fn by_contents(&mut self, id: u8, call: &Call) -> Result<(Vec<Entry>, Option<Clause>), u8> {
        let before = if call.may_move() { self.keeper(id).record.clone() } else { None };
        let acts = self.in_place(id, call)?;
        if let (Some(before), Some(record)) = (before, &self.keeper(id).record) {
            if let Some(moved) = acts.moved(record) {
                self.count_moved(&moved, moved.idle_before_wish_3(|| call.before_wish_3(&before)));
            }
        }
        Ok((acts.entries, acts.clause))
    }

    /// A record is large, so it is changed in place. A blank one stands outside the vault by
    /// contents, so 2 and 4 are given here.
    fn in_place(&mut self, id: u8, call: &Call) -> Result<Acts, u8> {
        let fault = self.fault;
        match (call, &mut self.keeper_mut(id).record) {
            (Call::Start { .. }, Some(_)) => Err(4),
            (&Call::Start { settings, plan }, place) => {
                let mut record = Box::new(Record::empty());
                let acts = vault::start_on(&mut record, fault, settings, plan)?;
                *place = Some(record);
                Ok(acts)
            }
            (_, None) => Err(2),
            (Call::Frame { link, bytes }, Some(record)) => {
                vault::frame_on(record, fault, *link, bytes)
            }
            (Call::Timer { view }, Some(record)) => vault::timer_on(record, fault, *view),
        }
    }

    fn count_moved(&mut self, moved: &Moved, idle_before: bool) {
        self.tally.moves_apart += u64::from(moved.apart());
        self.tally.mixed_entries += u64::from(moved.entered_by(2));
        self.tally.later_backed += u64::from(idle_before);
    }

    fn by_bytes(&mut self, id: u8, call: &Call) -> Result<Vec<Entry>, u8> {
        if chance(&mut self.spaces, 1, 32) {
            self.try_short_output(id, call);
        }
        let space = OUTPUT_LIMIT + self.spaces.below(40) as usize;
        let mut out = vec![0; space];
        self.spaces.fill(&mut out);
        let out_before = out.clone();
        let rec_before = self.keeper(id).bytes.clone();
        match self.raw_call(id, call, &mut out) {
            Ok(count) => {
                if count > OUTPUT_LIMIT {
                    self.note(Wrong::LongOutput { vault: id, length: count });
                }
                let entries = out.get(..count).and_then(parse_entries);
                if entries.is_none() || out.get(count..) != out_before.get(count..) {
                    self.note(Wrong::BadBytes { vault: id });
                }
                Ok(entries.unwrap_or_default())
            }
            Err(refusal) => {
                if out != out_before || self.keeper(id).bytes != rec_before {
                    self.note(Wrong::BadBytes { vault: id });
                }
                Err(refusal)
            }
        }
    }

    /// Too little output space refuses every call and changes nothing.
    fn try_short_output(&mut self, id: u8, call: &Call) {
        let mut out = vec![0x5a; self.spaces.below(OUTPUT_LIMIT as u64) as usize];
        let before = self.keeper(id).bytes.clone();
        let answer = self.raw_call(id, call, &mut out);
        if answer != Err(1)
            || out.iter().any(|&byte| byte != 0x5a)
            || self.keeper(id).bytes != before
        {
            self.note(Wrong::BadBytes { vault: id });
        }
    }

    fn raw_call(&mut self, id: u8, call: &Call, out: &mut [u8]) -> Result<usize, u8> {
        let rec = &mut self.keeper_mut(id).bytes;
        match call {
            &Call::Start { settings: Settings { n, f, id, class }, plan } => {
                calls::start(rec, n, f, id, class, plan, out)
            }
            Call::Frame { link, bytes } => calls::frame(rec, *link, bytes, out),
            Call::Timer { view } => calls::timer(rec, *view, out),
        }
    }

    fn by_both(&mut self, id: u8, call: &Call) -> Result<(Vec<Entry>, Option<Clause>), u8> {
        let by_contents = self.by_contents(id, call);
        let by_bytes = self.by_bytes(id, call);
        match (by_contents, by_bytes) {
            (Ok((entries, clause)), Ok(by_bytes)) => {
                let keeper = self.keeper(id);
                if entries != by_bytes
                    || record::decode(&keeper.bytes).as_ref() != keeper.record.as_deref()
                {
                    self.note(Wrong::ModesDiffer { vault: id });
                }
                Ok((entries, clause))
            }
            (Err(one), Err(other)) if one == other => Err(one),
            _ => {
                self.note(Wrong::ModesDiffer { vault: id });
                Err(0)
            }
        }
    }

    // ----- What an accepted call wrote.

    fn absorb(&mut self, id: u8, entries: &[Entry], clause: Option<Clause>) {
        let length: usize = entries.iter().map(|entry| entry.bytes().len()).sum();
        if length > OUTPUT_LIMIT {
            self.note(Wrong::LongOutput { vault: id, length });
        }
        for entry in entries {
            match *entry {
                Entry::All(frame) => self.absorb_frame(id, None, frame),
                Entry::To(to, frame) => self.absorb_frame(id, Some(to), frame),
                Entry::Timer { view, .. } => self.absorb_timer(id, view, entry),
                Entry::Decision { view, plan } => self.absorb_decision(id, Report { view, plan }),
            }
        }
        if let Some(clause) = clause {
            self.absorb_clause(id, clause);
        }
    }

    fn absorb_frame(&mut self, id: u8, to: Option<u8>, frame: Frame) {
        let is_suggest = frame.kind == SUGGEST;
        if frame.sender != id
            || is_suggest != to.is_some()
            || to.is_some_and(|to| to == id || to >= self.n)
        {
            let entry = to.map_or(Entry::All(frame), |to| Entry::To(to, frame));
            self.note(Wrong::WrongEntry { vault: id, entry });
            return;
        }
        self.check_form(to, &frame);
        self.check_once(id, &frame);
        self.count_frame(id, &frame);
        if self.agreement_only && self.sent_before(to, &frame) {
            return;
        }
        let index = self.sent.len();
        self.sent.push(Sent { to, frame });
        self.places.entry((frame.view, frame.kind)).or_default().push(index);
        for receiver in self.keepers() {
            if receiver != id && to.is_none_or(|to| to == receiver) {
                self.pending.push((index, receiver));
            }
        }
    }

    /// A vault broken on purpose may write a frame over and over; one of them is enough to deliver.
    fn sent_before(&self, to: Option<u8>, frame: &Frame) -> bool {
        let places = self.places.get(&(frame.view, frame.kind)).map_or(&[][..], Vec::as_slice);
        places.iter().map(|&index| self.sent[index]).any(|s| s.to == to && s.frame == *frame)
    }

    /// Whoever gets the frame must find it well-formed.
    fn check_form(&mut self, to: Option<u8>, frame: &Frame) {
        let bytes = frame::write(frame);
        for receiver in 0..self.n {
            if receiver == frame.sender || to.is_some_and(|to| to != receiver) {
                continue;
            }
            match frame::read(&bytes, frame.sender, self.n, receiver) {
                Ok(read) if read == *frame => {}
                Ok(_) => self.note(Wrong::IllFormed { sender: frame.sender, receiver, refusal: 0 }),
                Err(refusal) => {
                    self.note(Wrong::IllFormed { sender: frame.sender, receiver, refusal })
                }
            }
        }
    }

    /// Every kind but the view-change goes out at most once a view; a timer may repeat that one.
    fn check_once(&mut self, id: u8, frame: &Frame) {
        let (kind, view) = (frame.kind, frame.view);
        let first = kind == VIEW_CHANGE || self.keeper_mut(id).written.insert((kind, view));
        if !first && !self.excused(id) {
            self.note(Wrong::SecondFrame { vault: id, kind, view });
        }
    }

    fn count_frame(&mut self, id: u8, frame: &Frame) {
        if let Body::Reports([_, previous, lock]) = frame.body {
            self.tally.locks_reported += u64::from(lock.is_some());
            self.tally.previous_reported += u64::from(previous.is_some());
        }
        if let (VOTE_1, Body::Plan(plan)) = (frame.kind, frame.body) {
            let last = self.keeper_mut(id).vote_1.replace(plan);
            self.tally.plans_changed += u64::from(last.is_some_and(|last| last != plan));
        }
        if let (VOTE_3, Body::Plan(plan)) = (frame.kind, frame.body) {
            self.locked_plans.insert(plan);
        }
    }

    fn absorb_timer(&mut self, id: u8, view: u32, entry: &Entry) {
        let last = self.keeper_mut(id).view.replace(view);
        let forwards = last.map_or(view == 0, |last| view > last);
        if !forwards && !self.excused(id) {
            self.note(Wrong::WrongEntry { vault: id, entry: *entry });
        }
        self.tally.views_entered += u64::from(view > 0);
    }

    fn absorb_decision(&mut self, id: u8, decision: Report) {
        let again = std::mem::replace(&mut self.keeper_mut(id).decided, true);
        if self.excused(id) {
            return;
        }
        if again {
            self.note(Wrong::SecondDecision { vault: id });
        }
        self.decisions.push((id, decision));
        self.tally.decisions += 1;
        self.tally.late_decisions += u64::from(decision.view > 0);
        if let Some(wrong) = self.disagreement() {
            self.note(wrong);
        }
    }

    fn absorb_clause(&mut self, id: u8, clause: Clause) {
        self.tally.count_clause(clause);
        let keeper = self.keeper(id);
        if let (Some(view), Some(plan)) = (keeper.view, keeper.vote_1) {
            self.accepted.push(Accepted { voter: id, view, plan, clause });
        }
    }

    /// Hands the collector the record that an accepted call left, where it wants one.
    fn collect(&mut self, id: u8) {
        let Some(place) = self.collector.as_mut().and_then(Collector::next_place) else { return };
        if let (Some(record), Some(collector)) = (self.record(id), &mut self.collector) {
            collector.put(place, record);
        }
    }

    // ----- The check.

    fn disagreement(&self) -> Option<Wrong> {
        let &one = self.decisions.first()?;
        let &other = self.decisions.iter().find(|(_, decision)| decision.plan != one.1.plan)?;
        Some(Wrong::Disagreement { one, other })
    }

    /// Validity is claimed only where all n vaults keep the rules.
    fn nobodys_plan(&self) -> Option<Wrong> {
        if !self.liars().is_empty() || (0..self.n).any(|id| self.excused(id)) {
            return None;
        }
        let started: Vec<u64> = self
            .vaults
            .iter()
            .flatten()
            .filter(|keeper| keeper.view.is_some())
            .map(|keeper| keeper.plan)
            .collect();
        let &(vault, decision) =
            self.decisions.iter().find(|(_, decision)| !started.contains(&decision.plan))?;
        Some(Wrong::NobodysPlan { vault, plan: decision.plan })
    }

    pub fn finish(mut self) -> Outcome {
        self.tally.runs = 1;
        self.tally.two_plans_locked = u64::from(self.locked_plans.len() > 1);
        if let Some(wrong) = self.nobodys_plan() {
            self.note(wrong);
        }
        let wrong = self.wrong.clone();
        let started = self.vaults.iter().flatten().filter(|keeper| keeper.view.is_some()).count();
        Outcome { tally: self.tally, decisions: self.decisions, started, wrong }
    }
}

impl Keeper {
    fn blank(mode: Mode, spaces: &mut Rng) -> Keeper {
        let bytes = if mode == Mode::Contents { Vec::new() } else { blank_bytes(spaces) };
        Keeper {
            record: None,
            bytes,
            view: None,
            plan: 0,
            decided: false,
            vote_1: None,
            written: HashSet::new(),
            stored: None,
        }
    }
}

/// Any blank record will do at first: zeros, or left-over contents with an n of 0.
pub(crate) fn blank_bytes(rng: &mut Rng) -> Vec<u8> {
    if rng.one_in(2) {
        return vec![0; RECORD_LEN];
    }
    let mut rows = [[None; 8]; 64];
    for (sender, row) in rows.iter_mut().enumerate() {
        let body = Body::Plan(rng.next());
        row[usize::from(VOTE_2 - 1)] =
            Some(Frame { kind: VOTE_2, sender: sender as u8, view: rng.next() as u32, body });
    }
    let left_over = Some(Report { view: rng.next() as u32, plan: rng.next() });
    let record = Record {
        settings: Settings {
            n: 0,
            f: rng.next() as u8,
            id: rng.next() as u8,
            class: rng.next() as u8,
        },
        start_plan: rng.next(),
        view: rng.next() as u32,
        rows,
        previous_vote1: left_over,
        previous_vote2: None,
        decision: left_over,
    };
    record::encode(&record)
}

// ---------------------------------------------------------------------------------------------
// Records collected from a run (02, wish 5).

/// A run's records by contents.
pub struct Collected {
    /// The vaults that keep the rules, started or not.
    pub keepers: Vec<u8>,
    /// The records of keepers at random moments, each as an accepted call left it, in no order.
    pub moments: Vec<Record>,
    /// The records of all started keepers at the end, by vault.
    pub last: Vec<Record>,
    pub outcome: Outcome,
}

/// Keeps at most so many records of a run. Its choices are its own, so that the run stays as it is.
struct Collector {
    rng: Rng,
    most: usize,
    seen: u64,
    records: Vec<Record>,
}

impl Collector {
    /// Of all moments so far each is kept with the same chance: whether this one is, and where.
    fn next_place(&mut self) -> Option<usize> {
        self.seen += 1;
        let place = self.rng.below(self.seen) as usize;
        (place < self.most).then_some(place)
    }

    fn put(&mut self, place: usize, record: Record) {
        if self.records.len() < self.most {
            self.records.push(record);
        } else {
            self.records[place] = record;
        }
    }
}

/// `run`, with the records of at most so many moments, and those of the end.
pub fn run_collected(setup: &Setup, moments: usize) -> Collected {
    let mut director = Director::new(setup);
    let rng = Rng(!setup.seed);
    director.net.collector = Some(Collector { rng, most: moments, seen: 0, records: Vec::new() });
    director.perform(setup.style);
    let mut net = director.net;
    let last = net.keepers().into_iter().filter_map(|id| net.record(id)).collect();
    let moments = net.collector.take().map_or(Vec::new(), |collector| collector.records);
    Collected { keepers: net.keepers(), moments, last, outcome: net.finish() }
}

// ---------------------------------------------------------------------------------------------
// The adversary.

/// The shape of a schedule.
#[derive(Clone, Copy, PartialEq, Eq, Debug)]
pub enum Style {
    /// View by view: each vault is let so far into the view as the adversary likes.
    Rounds,
    /// A lock that few know of, another plan in a later view, then a view with a right leader:
    /// the schedule of `two_set_run` with other vaults, plans and lies.
    Feints,
    /// Two groups that cannot hear each other until the cut heals.
    Partitions,
    /// Any frame to any vault at any time.
    Chaos,
    /// Views that a liar leads, in which each half of the vaults is shown a plan of its own.
    Camps,
    /// Camps with a vault in both, whose host lends it an older record in between: sabotage. Where
    /// hosts answer (cuts.rs) its power is cut in between.
    OlderRecord,
    /// Lossless links in order, silent liars, timers only when nothing is on its way.
    Calm,
}

#[derive(Clone, Copy, Debug)]
pub struct Setup {
    pub n: u8,
    pub f: u8,
    /// How many vaults lie; the seed says which.
    pub liars: u8,
    pub mode: Mode,
    pub fault: Fault,
    pub style: Style,
    pub seed: u64,
}

/// One whole run with its check.
pub fn run(setup: &Setup) -> Outcome {
    run_told(setup, |_, _| {})
}

/// `run`, with each act told before it is done.
pub fn run_told(setup: &Setup, told: fn(u8, &Act)) -> Outcome {
    let mut director = Director::new(setup);
    director.net.told = told;
    director.perform(setup.style);
    director.net.finish()
}

/// The vaults that keep the rules in a run of this setup.
pub(crate) fn keepers(setup: &Setup) -> Vec<u8> {
    Director::new(setup).keepers
}

/// `run`, with hosts that answer the calls. After anything wrong, or disagreement only, it ends.
pub(crate) fn run_hosted(setup: &Setup, hosts: &mut dyn Hosts, agreement_only: bool) -> Outcome {
    let mut director = Director::new(setup);
    director.net.hosts = Some(hosts);
    director.net.agreement_only = agreement_only;
    director.perform(setup.style);
    director.net.finish()
}

/// The network of a setup under a list of acts; what a run may not have is left out.
pub fn replay(setup: &Setup, acts: &[(u8, Act)]) -> Outcome {
    let mut net = Director::new(setup).net;
    for (id, act) in acts {
        if net.may(*id, act) {
            let _ = net.act(*id, act.clone());
        }
    }
    net.finish()
}

struct Director<'a> {
    net: Network<'a>,
    rng: Rng,
    keepers: Vec<u8>,
    liars: Vec<u8>,
    plans: Vec<u64>,
    /// Vaults that start late or never.
    waiting: Vec<u8>,
}

/// What the adversary means to do with one view.
struct Scene {
    view: u32,
    /// By vault: 1 gets proofs and proposal, then 2 to 5 also votes 1 to 4.
    depth: Vec<u8>,
    /// By vault: the plan that the liars back towards it.
    backed: Vec<u64>,
    /// Out of 4: how likely one frame gets through.
    reach: u64,
}

impl<'a> Director<'a> {
    fn new(setup: &Setup) -> Director<'a> {
        let mut rng = Rng(setup.seed);
        let mut everyone: Vec<u8> = (0..setup.n).collect();
        shuffle(&mut rng, &mut everyone);
        let liars = &everyone[..usize::from(setup.liars)];
        let net = Network::new(setup.n, setup.f, liars, setup.mode, setup.fault, rng.next());
        let plans = palette(&mut rng);
        Director {
            keepers: net.keepers(),
            liars: net.liars(),
            net,
            rng,
            plans,
            waiting: Vec::new(),
        }
    }

    fn perform(&mut self, style: Style) {
        self.start_vaults(style);
        match style {
            Style::Rounds => self.rounds(),
            Style::Feints => self.feints(),
            Style::Partitions => self.partitions(),
            Style::Chaos => self.chaos(),
            Style::Camps => self.camps(false),
            Style::OlderRecord => self.camps(true),
            Style::Calm => self.calm(),
        }
    }

    fn start_vaults(&mut self, style: Style) {
        for id in self.keepers.clone() {
            // A late start counts as a silent vault, which a calm run must not have.
            if style != Style::Calm && chance(&mut self.rng, 1, 24) {
                self.waiting.push(id);
            } else {
                self.start(id);
            }
        }
    }

    fn start(&mut self, id: u8) {
        let plan = self.rng.pick(&self.plans);
        let class = self.rng.below(8) as u8;
        let answer = self.net.start(id, class, plan);
        if self.net.hosts.is_some() {
            // A start that was cut may come again, with another class and plan.
            self.waiting.extend(answer.is_err().then_some(id));
            return;
        }
        assert!(answer.is_ok() || self.net.wrong.is_some(), "right settings on a blank record");
    }

    fn start_late(&mut self) {
        if !self.waiting.is_empty() && self.rng.one_in(4) {
            let id = self.waiting.swap_remove(0);
            self.start(id);
        }
    }

    /// The started vaults in this view, in random order.
    fn at(&mut self, view: u32) -> Vec<u8> {
        let mut here: Vec<u8> =
            self.keepers.iter().copied().filter(|&id| self.net.view(id) == Some(view)).collect();
        shuffle(&mut self.rng, &mut here);
        here
    }

    fn started(&self) -> Vec<u8> {
        self.keepers.iter().copied().filter(|&id| self.net.view(id).is_some()).collect()
    }

    fn front(&self) -> u32 {
        self.keepers.iter().filter_map(|&id| self.net.view(id)).max().unwrap_or(0)
    }

    // ----- Deliveries and lies.

    /// Delivers the frames of one kind and view, each with a chance out of 4, in random order.
    fn give(&mut self, view: u32, kind: u8, to: u8, reach: u64) {
        let frames = self.net.deliverable(view, kind, to);
        for index in some_of(&mut self.rng, &frames, reach, 4) {
            let _ = self.net.deliver(index, to);
        }
    }

    fn lie(&mut self, liar: u8, to: u8, kind: u8, view: u32, body: Body) {
        let _ = self.net.lie(to, &Frame { kind, sender: liar, view, body });
    }

    /// Every liar's vote and the keepers' votes, liars first or last.
    fn give_votes(&mut self, view: u32, kind: u8, to: u8, backed: u64, reach: u64) {
        let liars_first = self.rng.one_in(2);
        if liars_first {
            self.back_votes(view, kind, to, backed);
        }
        self.give(view, kind, to, reach);
        if !liars_first {
            self.back_votes(view, kind, to, backed);
        }
    }

    /// Liars back the plan meant for this vault where anyone votes for it, else the common one.
    fn back_votes(&mut self, view: u32, kind: u8, to: u8, backed: u64) {
        let sent = self.net.plans_sent(view, kind);
        let plan = if sent.contains(&backed) {
            backed
        } else {
            self.net.popular(view, kind).unwrap_or(backed)
        };
        for liar in self.liars.clone() {
            if chance(&mut self.rng, 15, 16) {
                self.lie(liar, to, kind, view, Body::Plan(plan));
            }
        }
    }

    fn give_reports(&mut self, view: u32, kind: u8, to: u8, backed: u64, reach: u64) {
        let mut order = self.liars.clone();
        shuffle(&mut self.rng, &mut order);
        for liar in order {
            if chance(&mut self.rng, 7, 8) {
                let reports = false_reports(&mut self.rng, view, backed, &self.plans);
                self.lie(liar, to, kind, view, Body::Reports(reports));
            }
        }
        self.give(view, kind, to, reach);
    }

    fn give_proposal(&mut self, view: u32, to: u8, backed: u64, reach: u64) {
        let leader = leader(view, self.net.n);
        if self.liars.contains(&leader) {
            self.lie(leader, to, PROPOSAL, view, Body::Plan(backed));
        } else {
            self.give(view, PROPOSAL, to, reach);
        }
    }

    /// One frame of a liar, mostly of use to the vault it goes to.
    fn lie_to(&mut self, to: u8) {
        let Some(view) = self.net.view(to) else { return };
        if self.liars.is_empty() {
            return;
        }
        let liar = self.rng.pick(&self.liars);
        let kind = 1 + self.rng.below(8) as u8;
        let plan = self.rng.pick(&self.plans);
        let near = self.near(view);
        match kind {
            VIEW_CHANGE => self.lie(liar, to, kind, near.max(view.saturating_add(1)), Body::Empty),
            SUGGEST | PROOF => {
                let reports = false_reports(&mut self.rng, near, plan, &self.plans);
                self.lie(liar, to, kind, near, Body::Reports(reports));
            }
            _ => {
                let common = self.net.popular(near, kind).filter(|_| chance(&mut self.rng, 3, 4));
                self.lie(liar, to, kind, near, Body::Plan(common.unwrap_or(plan)));
            }
        }
    }

    /// This view mostly, else one close by.
    fn near(&mut self, view: u32) -> u32 {
        match self.rng.below(16) {
            0 => view.saturating_sub(1),
            1 => view.saturating_add(1),
            2 => view.saturating_add(self.rng.below(4) as u32),
            _ => view,
        }
    }

    /// Bytes of any kind under a liar's number, or a number that no vault has.
    fn noise(&mut self, to: u8) {
        let outside = self.rng.one_in(8);
        if self.liars.is_empty() && !outside {
            return;
        }
        let link = if outside {
            self.net.n + self.rng.below(190) as u8
        } else {
            self.rng.pick(&self.liars)
        };
        let length = [0, 1, 6, 14, 45, self.rng.below(60) as usize][self.rng.below(6) as usize];
        let mut bytes = vec![0; length];
        self.rng.fill(&mut bytes);
        if let Some(first) = bytes.get_mut(0) {
            *first = self.rng.below(11) as u8;
        }
        if let (Some(second), false) = (bytes.get_mut(1), self.rng.one_in(8)) {
            *second = link;
        }
        let _ = self.net.lie_bytes(link, to, &bytes);
    }

    /// Some acts that a good schedule would not have: repeats, old frames, wrong timers, noise.
    fn stir(&mut self) {
        for _ in 0..self.rng.below(5) {
            let to = self.rng.pick(&self.keepers);
            match self.rng.below(6) {
                0 => self.noise(to),
                1 => self.lie_to(to),
                2 => {
                    let view = self.front().wrapping_add(self.rng.below(3) as u32).wrapping_sub(1);
                    let _ = self.net.timer(to, view);
                }
                3 => self.start_again(to),
                _ => self.repeat_any(to),
            }
        }
    }

    /// A start that is refused where the vault has started, or where the class is out of range.
    fn start_again(&mut self, id: u8) {
        let plan = self.rng.pick(&self.plans);
        let class = self.rng.pick(&[0, 7, 8, 255]);
        if self.net.start(id, class, plan).is_ok() {
            self.waiting.retain(|&waiting| waiting != id);
        }
    }

    /// Any frame ever sent; a vault's own frame for all may come back to it as well.
    fn repeat_any(&mut self, to: u8) {
        if self.net.sent.is_empty() {
            return;
        }
        let index = self.rng.below(self.net.sent.len() as u64) as usize;
        if self.net.sent[index].to.is_none_or(|wanted| wanted == to) {
            let _ = self.net.deliver(index, to);
        }
    }

    // ----- Rounds.

    fn rounds(&mut self) {
        for _ in 0..2 + self.rng.below(6) {
            self.start_late();
            let scene = self.scene();
            self.play(&scene);
            self.stir();
            self.catch_up();
            self.move_on();
        }
        self.heal();
    }

    fn scene(&mut self) -> Scene {
        let view = self.front();
        let deepest: u8 = self.rng.pick(&[0, 1, 2, 3, 4, 4, 5, 5]);
        let depth = (0..self.net.n)
            .map(|_| match self.rng.below(4) {
                0 => self.rng.below(u64::from(deepest) + 1) as u8,
                1 => deepest.saturating_sub(1),
                _ => deepest,
            })
            .collect();
        let camps = [self.rng.pick(&self.plans), self.rng.pick(&self.plans)];
        let backed = (0..self.net.n).map(|_| camps[self.rng.below(2) as usize]).collect();
        let reach = self.rng.pick(&[2, 3, 4, 4]);
        Scene { view, depth, backed, reach }
    }

    fn play(&mut self, scene: &Scene) {
        let view = scene.view;
        let leader = leader(view, self.net.n);
        if view > 0 && self.keepers.contains(&leader) && self.net.view(leader) == Some(view) {
            self.give_reports(
                view,
                SUGGEST,
                leader,
                scene.backed[usize::from(leader)],
                scene.reach,
            );
        }
        for to in self.at(view) {
            let depth = scene.depth[usize::from(to)];
            let backed = scene.backed[usize::from(to)];
            if view > 0 && depth > 0 {
                self.give_reports(view, PROOF, to, backed, scene.reach);
            }
            if depth > 0 {
                self.give_proposal(view, to, backed, scene.reach);
            }
        }
        for kind in VOTE_1..=VOTE_4 {
            for to in self.at(view) {
                if scene.depth[usize::from(to)] >= kind {
                    self.give_votes(view, kind, to, scene.backed[usize::from(to)], scene.reach);
                }
            }
        }
    }

    /// Some vaults left behind hear the rest of their old view, so that they lock or decide late.
    fn catch_up(&mut self) {
        let front = self.front();
        for to in self.started() {
            let view = self.net.view(to).unwrap_or(0);
            if view < front && self.rng.one_in(2) {
                let deepest = self.rng.pick(&[VOTE_3, VOTE_4, VOTE_4]);
                let backed = self.rng.pick(&self.plans);
                for kind in VOTE_1..=deepest {
                    self.give_votes(view, kind, to, backed, 4);
                }
            }
        }
    }

    /// To the next view, and sometimes on to one that a liar leads.
    fn move_on(&mut self) {
        let reach = self.rng.pick(&[3, 3, 4]);
        self.change_view(reach);
        if self.rng.one_in(2) {
            self.go_to_leader(true);
        }
    }

    /// On to the next view that a liar leads, or that none does, where there are liars.
    fn go_to_leader(&mut self, lying: bool) {
        for _ in 0..self.net.n {
            let leader = leader(self.front(), self.net.n);
            if self.liars.is_empty() || self.liars.contains(&leader) == lying {
                return;
            }
            self.change_view(4);
        }
    }

    fn change_view(&mut self, reach: u64) {
        let view = self.front();
        let Some(next) = view.checked_add(1) else { return };
        let here = self.at(view);
        for id in some_of(&mut self.rng, &here, reach, 4) {
            let _ = self.net.timer(id, view);
        }
        let started = self.started();
        let hearing = some_of(&mut self.rng, &started, reach + 4, 8);
        // The second time brings the view-changes that the first one called forth.
        for _ in 0..2 {
            for &to in &hearing {
                for liar in self.liars.clone() {
                    self.lie(liar, to, VIEW_CHANGE, next, Body::Empty);
                }
                self.give(next, VIEW_CHANGE, to, 4);
            }
        }
    }

    /// The adversary rests: everything gets through from now on, for some views, and vaults that
    /// have waited mostly start. The liars go on lying.
    fn heal(&mut self) {
        if !self.rng.one_in(4) {
            for id in std::mem::take(&mut self.waiting) {
                self.start(id);
            }
        }
        for _ in 0..self.net.n.min(16) {
            for to in self.started() {
                let view = self.net.view(to).unwrap_or(0);
                for kind in VOTE_1..=VOTE_4 {
                    self.give(view, kind, to, 4);
                }
            }
            let view = self.front();
            let n = usize::from(self.net.n);
            let plan = self.rng.pick(&self.plans);
            self.play(&Scene { view, depth: vec![5; n], backed: vec![plan; n], reach: 4 });
            if self.started().iter().all(|&id| self.net.decided(id)) {
                return;
            }
            self.change_view(4);
        }
    }

    // ----- Feints.

    fn feints(&mut self) {
        for _ in 0..1 + self.rng.below(3) {
            self.start_late();
            let mut plans = vec![7, 9, 11, 13];
            shuffle(&mut self.rng, &mut plans);
            self.change_view(4);
            self.go_to_leader(true);
            let lock_view = self.front();
            // The liars and the first n - 2f vaults make a quorum; the first vault alone gets a lock,
            // or alone decides.
            let mut cast = self.at(lock_view);
            let few = usize::from(self.net.n - 2 * self.net.f).min(cast.len());
            let rest = cast.split_off(few);
            let depth = self.rng.pick(&[3, 3, 4]);
            self.part(&cast, depth, plans[0]);
            self.part(&cast[..1.min(few)], depth + 1, plans[0]);
            self.change_view(4);
            self.go_to_leader(true);
            let mut switched = rest.clone();
            switched.extend(cast.first());
            self.part(&switched, 1, plans[1]);
            self.stir();
            self.change_view(4);
            self.go_to_leader(false);
            self.last_act(&switched, Report { view: lock_view, plan: plans[2] });
        }
        self.heal();
    }

    /// The front view for some vaults only, up to this depth.
    fn part(&mut self, vaults: &[u8], depth: u8, backed: u64) {
        let n = usize::from(self.net.n);
        let mut depths = vec![0; n];
        for &id in vaults {
            depths[usize::from(id)] = depth;
        }
        let view = self.front();
        self.play(&Scene { view, depth: depths, backed: vec![backed; n], reach: 4 });
    }

    /// A right leader proposes; each vault hears only some proofs, and the liars hide their votes.
    fn last_act(&mut self, heard: &[u8], hidden: Report) {
        let view = self.front();
        let leader = leader(view, self.net.n);
        if self.liars.contains(&leader) || view <= hidden.view {
            return;
        }
        self.give(view, SUGGEST, leader, 4);
        for to in self.at(view) {
            let highest = if self.rng.one_in(4) { None } else { Some(hidden) };
            for liar in self.liars.clone() {
                self.lie(liar, to, PROOF, view, Body::Reports([highest, None, None]));
            }
            give_all(&mut self.net, PROOF, view, to, heard);
            self.give(view, PROPOSAL, to, 4);
        }
        for kind in VOTE_1..=VOTE_4 {
            let reach = self.rng.pick(&[2, 3, 4]);
            for to in self.at(view) {
                self.give_votes(view, kind, to, hidden.plan, reach);
            }
        }
    }

    // ----- Camps.

    fn camps(&mut self, older: bool) {
        for _ in 0..1 + self.rng.below(3) {
            self.start_late();
            self.change_view(4);
            self.go_to_leader(true);
            let view = self.front();
            let mut plans = self.plans.clone();
            shuffle(&mut self.rng, &mut plans);
            let mut one = self.at(view);
            // Who comes back from an older remnant is in both camps.
            let returns = |id| self.net.hosts.as_ref().is_some_and(|hosts| hosts.returns(id));
            one.sort_by_key(|&id| returns(id));
            let both = if older { one.pop() } else { None };
            let mut other = one.split_off(one.len() / 2);
            one.extend(both);
            other.extend(both);
            both.map(|id| self.net.act(id, Act::Store));
            self.camp(&one, plans[0]);
            both.map(|id| self.net.act(id, Act::Restore));
            self.camp(&other, plans[1]);
            self.stir();
        }
        self.heal();
    }

    /// These vaults and the liars alone, as far as they get with one plan: votes for others are
    /// held back.
    fn camp(&mut self, vaults: &[u8], plan: u64) {
        let view = self.front();
        for &to in vaults {
            if view > 0 {
                self.give_reports(view, PROOF, to, plan, 4);
            }
            self.give_proposal(view, to, plan, 4);
        }
        for kind in VOTE_1..=VOTE_4 {
            for &to in vaults {
                for liar in self.liars.clone() {
                    self.lie(liar, to, kind, view, Body::Plan(plan));
                }
                for index in self.net.deliverable(view, kind, to) {
                    if self.net.sent[index].frame.plan() == Some(plan) {
                        let _ = self.net.deliver(index, to);
                    }
                }
            }
        }
    }

    // ----- Partitions.

    fn partitions(&mut self) {
        for _ in 0..2 + self.rng.below(6) {
            self.start_late();
            let groups: Vec<bool> = (0..self.net.n).map(|_| self.rng.one_in(2)).collect();
            let backed = [self.rng.pick(&self.plans), self.rng.pick(&self.plans)];
            for _ in 0..self.scaled(20, 120) {
                self.partition_step(&groups, backed);
            }
            self.stir();
        }
        self.heal();
    }

    fn partition_step(&mut self, groups: &[bool], backed: [u64; 2]) {
        if self.rng.one_in(4) {
            let to = self.rng.pick(&self.keepers);
            self.back_group(to, backed[usize::from(groups[usize::from(to)])]);
            return;
        }
        let pending = self.net.pending.len();
        for _ in 0..4 {
            if pending == 0 {
                break;
            }
            let at = self.rng.below(pending as u64) as usize;
            let (index, to) = self.net.pending[at];
            let sender = self.net.sent[index].frame.sender;
            if groups[usize::from(sender)] == groups[usize::from(to)] {
                self.net.pending.swap_remove(at);
                let _ = self.net.deliver(index, to);
                return;
            }
        }
        self.any_timer(4);
    }

    /// The liars take one group's side: proposal, proofs, votes and view-changes as it needs them.
    fn back_group(&mut self, to: u8, backed: u64) {
        let Some(view) = self.net.view(to) else { return };
        match self.rng.below(8) {
            0 => self.give_proposal(view, to, backed, 0),
            1 if view > 0 => self.give_reports(view, PROOF, to, backed, 0),
            2 if view > 0 => self.give_reports(view, SUGGEST, to, backed, 0),
            3 => {
                for liar in self.liars.clone() {
                    self.lie(liar, to, VIEW_CHANGE, view.saturating_add(1), Body::Empty);
                }
            }
            kind => self.back_votes(view, 2 + (kind % 4) as u8, to, backed),
        }
    }

    fn any_timer(&mut self, rarity: u64) {
        let id = self.rng.pick(&self.keepers);
        if let (Some(view), true) = (self.net.view(id), self.rng.one_in(rarity)) {
            let _ = self.net.timer(id, view);
        }
    }

    // ----- Chaos.

    fn chaos(&mut self) {
        let haste = 2 + self.rng.below(30);
        for _ in 0..self.scaled(100, 500) {
            match self.rng.below(16) {
                0..=9 => self.deliver_any(),
                10 | 11 => {
                    let to = self.rng.pick(&self.keepers);
                    self.lie_to(to);
                }
                12 | 13 => self.any_timer(haste),
                14 => self.start_late(),
                _ => self.stir(),
            }
        }
        self.heal();
    }

    /// Delivers a random frame on its way, loses it, or leaves it for another time as well.
    fn deliver_any(&mut self) {
        let pending = self.net.pending.len() as u64;
        if pending == 0 {
            return self.any_timer(2);
        }
        // Of two places the later one, so that fresh frames are more likely than old ones.
        let at = self.rng.below(pending).max(self.rng.below(pending)) as usize;
        let (index, to) = self.net.pending[at];
        let fate = self.rng.below(16);
        if fate != 0 {
            self.net.pending.swap_remove(at);
        }
        if fate != 1 {
            let _ = self.net.deliver(index, to);
        }
    }

    /// A count of acts, and more where there are many vaults and links.
    fn scaled(&mut self, least: u64, more: u64) -> u64 {
        let eights = u64::from(self.net.n / 8).max(1);
        (least + self.rng.below(more)) * eights * eights
    }

    // ----- Calm.

    fn calm(&mut self) {
        for _ in 0..200_000 {
            if self.net.pending.is_empty() {
                if self.net.wrong.is_some() || self.keepers.iter().all(|&id| self.net.decided(id)) {
                    return;
                }
                for id in self.keepers.clone() {
                    let view = self.net.view(id).unwrap_or(0);
                    let _ = self.net.timer(id, view);
                }
            }
            self.deliver_in_order();
        }
    }

    /// The oldest frame on a link chosen at random.
    fn deliver_in_order(&mut self) {
        let any = self.rng.below(self.net.pending.len().max(1) as u64) as usize;
        let link = |net: &Network, (index, to): (usize, u8)| (net.sent[index].frame.sender, to);
        let Some(&chosen) = self.net.pending.get(any) else { return };
        let wanted = link(&self.net, chosen);
        let first = self.net.pending.iter().position(|&item| link(&self.net, item) == wanted);
        let (index, to) = self.net.pending.remove(first.unwrap_or(any));
        let _ = self.net.deliver(index, to);
    }
}

/// Two to four plans, mostly small ones, so that plans meet again.
fn palette(rng: &mut Rng) -> Vec<u64> {
    let mut plans = vec![7, 9];
    if rng.one_in(2) {
        plans.push(11);
    }
    if rng.one_in(4) {
        plans.push(rng.pick(&[0, u64::MAX]));
    }
    plans
}

/// Made-up reports for a view above 0 that still pass refusals 14, 21 and 22.
/// A liar says what helps the plan it backs, or what stands in another's way.
pub(crate) fn false_reports(rng: &mut Rng, view: u32, backed: u64, plans: &[u64]) -> Reports {
    let view = view.max(1);
    let last = Report { view: view - 1, plan: backed };
    match rng.below(6) {
        0 => [None, None, None],
        1 => [Some(last), None, None],
        2 => [Some(last), lower_report(rng, last, plans), None],
        3 => [Some(last), None, Some(last)],
        4 => [None, None, Some(below(rng, view, plans))],
        _ => {
            let highest = below(rng, view, plans);
            let lock = rng.one_in(2).then(|| below(rng, view, plans));
            [Some(highest), lower_report(rng, highest, plans), lock]
        }
    }
}

/// Any vote below this view, mostly a recent one; the view is at least 1.
pub(crate) fn below(rng: &mut Rng, view: u32, plans: &[u64]) -> Report {
    let back =
        if rng.one_in(4) { rng.below(u64::from(view)) } else { rng.below(u64::from(view.min(4))) };
    Report { view: view - 1 - back as u32, plan: rng.pick(plans) }
}

/// A previous vote that stands to this highest vote as refusal 22 wants it, where there can be one.
pub(crate) fn lower_report(rng: &mut Rng, highest: Report, plans: &[u64]) -> Option<Report> {
    let others: Vec<u64> = plans.iter().copied().filter(|&plan| plan != highest.plan).collect();
    if highest.view == 0 || others.is_empty() || rng.one_in(4) {
        return None;
    }
    Some(below(rng, highest.view, &others))
}

// ---------------------------------------------------------------------------------------------
// A directed run for the two-set clause.

/// What the directed run came to.
pub struct TwoSetRun {
    /// The rule-keeping vault that led the last view.
    pub leader: u8,
    /// The vault whose vote is looked at.
    pub voter: u8,
    pub view: u32,
    /// The proofs that the voter kept in that view when the proposal came.
    pub reports: Vec<Option<Reports>>,
    /// Its vote-1 in that view, where it gave one.
    pub accepted: Option<Accepted>,
    pub outcome: Outcome,
}

/// The plan that vault 0 is locked on, the plan of view 5, and the liar's own.
pub const LOCKED: u64 = 7;
pub const SWITCHED: u64 = 9;
pub const MADE_UP: u64 = 11;

/// n = 4, f = 1, vault 1 lies. In view 1 it gets vault 0 to lock plan 7 and vault 2 to vote-3 for it.
/// In view 5 it gets vaults 0 and 3 to vote-1 for plan 9, as enough proofs there show no lock.
/// In view 6 vault 2 leads and must propose plan 7. Vault 3 keeps the proofs of 0, 1 and 3:
/// vault 0's lock takes away the lock-free quorum, the liar hides its vote for 7, so only vault 0
/// claims 7 at view 1. But 0 and 1 claim plan 11 at view 1, and 0 and 3 claim plan 9 at view 5.
pub fn two_set_run(mode: Mode, fault: Fault) -> TwoSetRun {
    let mut net = Network::new(4, 1, &[1], mode, fault, 1);
    for (id, plan) in [(0, LOCKED), (2, 5), (3, 3)] {
        net.start(id, 2, plan).expect("right settings");
    }
    step_views(&mut net, 1);
    lock_first_plan(&mut net);
    step_views(&mut net, 5);
    vote_second_plan(&mut net);
    step_views(&mut net, 6);
    give_all(&mut net, SUGGEST, 6, 2, &[0, 3]);
    give_all(&mut net, PROOF, 6, 3, &[0]);
    tell(
        &mut net,
        3,
        PROOF,
        6,
        Body::Reports([Some(Report { view: 1, plan: MADE_UP }), None, None]),
    );
    let reports = kept_reports(&net.record(3).expect("started"), PROOF);
    give_all(&mut net, PROPOSAL, 6, 3, &[2]);
    let accepted = net.accepted().iter().copied().find(|vote| vote.voter == 3 && vote.view == 6);
    finish_view(&mut net, 6);
    TwoSetRun { leader: 2, voter: 3, view: 6, reports, accepted, outcome: net.finish() }
}

/// Timers and all view-changes, one view after the other; nothing else is delivered.
fn step_views(net: &mut Network, last: u32) {
    let keepers = net.keepers();
    while let Some(view) = net.view(keepers[0]).filter(|&view| view < last) {
        for &id in &keepers {
            net.timer(id, view).expect("its own view");
        }
        for &to in &keepers {
            give_all(net, VIEW_CHANGE, view + 1, to, &keepers);
        }
    }
}

/// Delivers what these senders sent; a vault that needs no more may refuse it.
fn give_all(net: &mut Network, kind: u8, view: u32, to: u8, senders: &[u8]) {
    for index in net.deliverable(view, kind, to) {
        if senders.contains(&net.sent[index].frame.sender) {
            let _ = net.deliver(index, to);
        }
    }
}

/// A frame of vault 1, the liar.
fn tell(net: &mut Network, to: u8, kind: u8, view: u32, body: Body) {
    net.lie(to, &Frame { kind, sender: 1, view, body }).expect("a frame that passes");
}

/// Plan 7 in view 1: vaults 0 and 2 with the liar as third; vault 0 alone gets to vote-4.
fn lock_first_plan(net: &mut Network) {
    for to in [0, 2] {
        give_all(net, PROOF, 1, to, &[0, 2, 3]);
        tell(net, to, PROPOSAL, 1, Body::Plan(LOCKED));
    }
    for kind in [VOTE_1, VOTE_2] {
        for to in [0, 2] {
            give_all(net, kind, 1, to, &[0, 2]);
            tell(net, to, kind, 1, Body::Plan(LOCKED));
        }
    }
    give_all(net, VOTE_3, 1, 0, &[2]);
    tell(net, 0, VOTE_3, 1, Body::Plan(LOCKED));
}

/// Plan 9 in view 5: proofs of 1, 2 and 3 show no lock, so vaults 0 and 3 vote-1 for it.
fn vote_second_plan(net: &mut Network) {
    for to in [0, 3] {
        give_all(net, PROOF, 5, to, &[2, 3]);
        tell(net, to, PROOF, 5, Body::Reports([None; 3]));
        tell(net, to, PROPOSAL, 5, Body::Plan(SWITCHED));
    }
}

/// Everything of this view among the rule-keeping vaults.
fn finish_view(net: &mut Network, view: u32) {
    let keepers = net.keepers();
    for kind in [PROOF, PROPOSAL, VOTE_1, VOTE_2, VOTE_3, VOTE_4] {
        for &to in &keepers {
            give_all(net, kind, view, to, &keepers);
        }
    }
}

// ---------------------------------------------------------------------------------------------
// Runs in which view-changes are lost (02, wish 3).

/// What a run came to in which frames were lost and later got through again.
#[derive(Clone, Debug)]
pub struct LossRun {
    /// Where the started vaults are at the end.
    pub views: Vec<(u8, u32)>,
    pub outcome: Outcome,
}

impl LossRun {
    pub fn all_decided(&self) -> bool {
        self.outcome.decisions.len() == self.outcome.started
    }

    pub fn in_one_view(&self) -> bool {
        self.views.windows(2).all(|pair| pair[0].1 == pair[1].1)
    }
}

/// "Three vaults hung: one had moved on to ask for view 2, and the two behind it could no longer
/// count it for view 1." Of any n vaults just n - f start and none of them lies. All ask for view 1.
/// The last alone hears the others: it enters, asks for view 2, and only then the others hear of it.
/// Then come so many rounds, fewer if all have decided: each vault's timer expires, and all frames
/// that were ever sent come again and again, the last vault's first view-change among them. The
/// style of the setup is not read; its liars, f at most, keep silent.
pub fn hang_run(setup: &Setup, rounds: u32) -> LossRun {
    hang_run_told(setup, rounds, |_, _| {})
}

/// `hang_run`, with each act told before it is done.
pub fn hang_run_told(setup: &Setup, rounds: u32, told: fn(u8, &Act)) -> LossRun {
    let mut director = Director::new(setup);
    director.net.told = told;
    director.move_on_alone();
    director.until_decided(rounds, Director::redeliver_all)
}

/// All vaults that keep the rules start, and frames get to them or are lost at random, while timers
/// expire at random. Then what is on its way is lost, and from there on links lose nothing and keep
/// their order. So many rounds follow, fewer if all have decided: each vault's timer expires, and
/// what is sent gets through. The style of the setup is not read; its liars keep silent.
pub fn loss_run(setup: &Setup, rounds: u32) -> LossRun {
    loss_run_told(setup, rounds, |_, _| {})
}

/// `loss_run`, with each act told before it is done.
pub fn loss_run_told(setup: &Setup, rounds: u32, told: fn(u8, &Act)) -> LossRun {
    let mut director = Director::new(setup);
    director.net.told = told;
    director.start_vaults(Style::Calm);
    director.lose_frames();
    director.until_decided(rounds, Director::calm_round)
}

impl<'a> Director<'a> {
    fn until_decided(mut self, rounds: u32, round: fn(&mut Director<'a>)) -> LossRun {
        for _ in 0..rounds {
            if self.net.wrong.is_some() || self.started().iter().all(|&id| self.net.decided(id)) {
                break;
            }
            self.expire_all();
            round(&mut self);
        }
        LossRun { views: self.net.views(), outcome: self.net.finish() }
    }

    fn expire_all(&mut self) {
        for (id, view) in self.net.views() {
            let _ = self.net.timer(id, view);
        }
    }

    /// n - f vaults start and ask for view 1; one of them enters it and asks for view 2.
    fn move_on_alone(&mut self) {
        let cast = self.keepers[..usize::from(self.net.n - self.net.f)].to_vec();
        cast.iter().for_each(|&id| self.start(id));
        self.expire_all();
        let Some((&ahead, behind)) = cast.split_last() else { return };
        give_all(&mut self.net, VIEW_CHANGE, 1, ahead, behind);
        let _ = self.net.timer(ahead, 1);
        for &to in behind {
            give_all(&mut self.net, VIEW_CHANGE, 2, to, &[ahead]);
        }
    }

    /// All frames ever sent, in any order, until nobody takes one of them any more.
    fn redeliver_all(&mut self) {
        loop {
            let mut frames = Vec::new();
            for (index, sent) in self.net.sent.iter().enumerate() {
                let meant = |&to: &u8| to != sent.frame.sender && sent.to.is_none_or(|id| id == to);
                frames.extend(self.started().into_iter().filter(meant).map(|to| (index, to)));
            }
            shuffle(&mut self.rng, &mut frames);
            let taken =
                frames.into_iter().filter(|&(index, to)| self.net.deliver(index, to).is_ok());
            if taken.count() == 0 {
                return;
            }
        }
    }

    /// Deliveries, losses and timers at random; in the end all that is on its way is lost.
    fn lose_frames(&mut self) {
        let haste = 1 + self.rng.below(8);
        for _ in 0..self.scaled(50, 300) {
            match self.rng.below(16) {
                0..=9 => self.deliver_any(),
                10..=12 => self.lose_any(),
                _ => self.any_timer(haste),
            }
        }
        self.net.pending.clear();
    }

    fn lose_any(&mut self) {
        let pending = self.net.pending.len() as u64;
        if pending > 0 {
            let at = self.rng.below(pending) as usize;
            self.net.pending.swap_remove(at);
        }
    }

    fn calm_round(&mut self) {
        while !self.net.pending.is_empty() {
            self.deliver_in_order();
        }
    }
}

/// The reports of one kind that a record keeps for its current view, by vault.
pub fn kept_reports(record: &Record, kind: u8) -> Vec<Option<Reports>> {
    let rows = &record.rows[..usize::from(record.settings.n)];
    let reports = |row: &[Option<Frame>; 8]| match row[usize::from(kind - 1)] {
        Some(Frame { view, body: Body::Reports(reports), .. }) if view == record.view => {
            Some(reports)
        }
        _ => None,
    };
    rows.iter().map(reports).collect()
}

//! One vault by its contents: start, frame and timer, each ending in one pass (01, "One pass"), with
//! view-changes counted as document 02, wish 3 has it.

use std::collections::BTreeSet;

use crate::entry::Entry;
use crate::frame::{
    self, leader, Frame, PROOF, PROPOSAL, SUGGEST, VIEW_CHANGE, VOTE_1, VOTE_2, VOTE_3, VOTE_4,
};
use crate::record::{Record, Settings, VAULTS};
use crate::rules::{self, Clause, Reports, Rule, Sizes};

#[derive(Clone, Copy, PartialEq, Eq, Debug, Hash)]
pub enum Step {
    A,
    B,
    C,
    D,
    E,
    F,
    G,
    H,
}

/// Rules broken on purpose, for the simulator only. Plain calls have Fault::None; each place where
/// a fault changes something is marked FAULT.
#[derive(Clone, Copy, PartialEq, Eq, Debug, Hash)]
pub enum Fault {
    None,
    /// Rules 1 and 3 treat every lock as absent.
    IgnoreLocks,
    /// Quorums of n - f - 1.
    SmallQuorum,
    /// Reports never carry the previous vote.
    ForgetPrevious,
    /// Vote-1 without Rule 3.
    VoteEveryProposal,
    /// A view-change counts for its own view only: the count before wish 3 of document 02.
    OwnViewOnly,
}

/// An accepted call: the record afterwards and the entries written, in order. `steps` are the
/// steps that acted; `clause` is what made the proposal safe by Rule 3, where D acted.
#[derive(Clone, PartialEq, Eq, Debug)]
pub struct Done {
    pub record: Record,
    pub entries: Vec<Entry>,
    pub steps: Vec<Step>,
    pub clause: Option<Clause>,
}

/// `Done` without the record. Addition to the interface.
pub struct Acts {
    pub entries: Vec<Entry>,
    pub steps: Vec<Step>,
    pub clause: Option<Clause>,
}

impl Acts {
    fn done(self, record: Record) -> Done {
        Done { record, entries: self.entries, steps: self.steps, clause: self.clause }
    }
}

/// What steps A and B did in a pass, for those who count such things. Addition to the interface.
#[derive(Clone, Copy, PartialEq, Eq, Debug)]
pub struct Moved {
    /// The view that A asked for.
    pub asked: Option<u32>,
    /// The view that B entered.
    pub entered: Option<u32>,
    /// How many different views the view-changes are for that count for the view entered, or for
    /// the view asked for where none was entered.
    pub views: usize,
    /// The vault's own view-change is for a view above the one entered.
    pub below_own: bool,
}

impl Moved {
    /// A and B acted in one pass, at different views.
    pub fn apart(&self) -> bool {
        self.asked.is_some() && self.entered.is_some() && self.asked != self.entered
    }

    /// B entered a view by view-changes for so many different views, or more.
    pub fn entered_by(&self, views: usize) -> bool {
        self.entered.is_some() && self.views >= views
    }

    /// Neither A nor B would have acted if a view-change counted for its own view only. The same
    /// call with Fault::OwnViewOnly is made only where it could answer otherwise.
    pub fn idle_before_wish_3(&self, old: impl FnOnce() -> Result<Done, u8>) -> bool {
        self.views > 1 && old().is_ok_and(|done| done.moved().is_none())
    }
}

impl Done {
    /// What A and B did; None where neither acted. Addition to the interface.
    pub fn moved(&self) -> Option<Moved> {
        moved(&self.record, &self.entries, &self.steps)
    }
}

impl Acts {
    /// What A and B did in the pass that left this record; None where neither acted.
    pub fn moved(&self, record: &Record) -> Option<Moved> {
        moved(record, &self.entries, &self.steps)
    }
}

fn moved(record: &Record, entries: &[Entry], steps: &[Step]) -> Option<Moved> {
    let asked = if steps.contains(&Step::A) { last_view_change(entries) } else { None };
    let entered = steps.contains(&Step::B).then_some(record.view);
    let w = entered.or(asked)?;
    let backing: BTreeSet<u32> = kept_view_changes(record).filter(|&kept| kept >= w).collect();
    let below_own = entered.is_some() && record.own(VIEW_CHANGE).is_some_and(|own| own.view > w);
    Some(Moved { asked, entered, views: backing.len(), below_own })
}

/// A timer's own view-change comes before that of A, so the last one is A's.
fn last_view_change(entries: &[Entry]) -> Option<u32> {
    entries.iter().rev().find_map(|entry| match entry {
        Entry::All(frame) if frame.kind == VIEW_CHANGE => Some(frame.view),
        _ => None,
    })
}

/// Start, from any blank record. Err: 5 to 8.
pub fn start(n: u8, f: u8, id: u8, class: u8, plan: u64) -> Result<Done, u8> {
    start_with(Fault::None, n, f, id, class, plan)
}

/// A frame's bytes over the link from a sender, on a sound record. Err: 9 to 17, 21, 22.
pub fn frame(record: &Record, link: u8, bytes: &[u8]) -> Result<Done, u8> {
    frame_with(Fault::None, record, link, bytes)
}

/// A timer of a view, on a sound record. Err: 18, 19.
pub fn timer(record: &Record, view: u32) -> Result<Done, u8> {
    timer_with(Fault::None, record, view)
}

pub fn start_with(fault: Fault, n: u8, f: u8, id: u8, class: u8, plan: u64) -> Result<Done, u8> {
    let mut record = Record::empty();
    let acts = start_on(&mut record, fault, Settings { n, f, id, class }, plan)?;
    Ok(acts.done(record))
}

pub fn frame_with(fault: Fault, record: &Record, link: u8, bytes: &[u8]) -> Result<Done, u8> {
    let frame = check_frame(record, link, bytes)?;
    let mut record = record.clone();
    let acts = accepted_frame(&mut record, fault, frame);
    Ok(acts.done(record))
}

pub fn timer_with(fault: Fault, record: &Record, view: u32) -> Result<Done, u8> {
    check_timer(record, view)?;
    let mut record = record.clone();
    let acts = accepted_timer(&mut record, fault);
    Ok(acts.done(record))
}

// The three calls on a record that is changed in place where the call is accepted, and left as it
// was where it is refused.

/// "it enters view 0 with a timer entry, no kept frames and no reports, then goes on from C"
pub fn start_on(
    record: &mut Record,
    fault: Fault,
    settings: Settings,
    plan: u64,
) -> Result<Acts, u8> {
    settings.check()?;
    *record = Record::new(settings, plan);
    let mut pass = Pass::on(record, fault);
    pass.write_timer();
    pass.run_from_c();
    Ok(pass.acts)
}

pub fn frame_on(record: &mut Record, fault: Fault, link: u8, bytes: &[u8]) -> Result<Acts, u8> {
    let frame = check_frame(record, link, bytes)?;
    Ok(accepted_frame(record, fault, frame))
}

pub fn timer_on(record: &mut Record, fault: Fault, view: u32) -> Result<Acts, u8> {
    check_timer(record, view)?;
    Ok(accepted_timer(record, fault))
}

/// Refusals 9 to 17, with 21 and 22 in their place: the frame is read, then checked against the
/// record.
pub(crate) fn check_frame(record: &Record, link: u8, bytes: &[u8]) -> Result<Frame, u8> {
    let frame = frame::read(bytes, link, record.settings.n, record.settings.id)?;
    // 16: view below current (kind 6: at or below)
    if frame.view < record.view || (frame.kind == VIEW_CHANGE && frame.view == record.view) {
        return Err(16);
    }
    // 17: same sender and kind kept at this view or a higher one
    if record.kept(frame.sender, frame.kind).is_some_and(|kept| kept.view >= frame.view) {
        return Err(17);
    }
    Ok(frame)
}

/// Refusals 18 and 19.
fn check_timer(record: &Record, view: u32) -> Result<(), u8> {
    // 18: view named is not the current one
    if view != record.view {
        return Err(18);
    }
    // 19: current view is 4,294,967,295
    if record.view == u32::MAX {
        return Err(19);
    }
    Ok(())
}

/// "For each sender and kind it keeps one frame: the one with the highest view so far."; then the
/// pass.
fn accepted_frame(record: &mut Record, fault: Fault, frame: Frame) -> Acts {
    record.keep(frame);
    let mut pass = Pass::on(record, fault);
    pass.run_from_a();
    pass.acts
}

/// "An accepted timer broadcasts view-change for the next view, or repeats the vault's own if that
/// is higher than the current view, then goes from A."
fn accepted_timer(record: &mut Record, fault: Fault) -> Acts {
    let view = match record.own(VIEW_CHANGE) {
        Some(own) if own.view > record.view => own.view,
        _ => record.view + 1,
    };
    let mut pass = Pass::on(record, fault);
    pass.broadcast(Frame::view_change(pass.id(), view));
    pass.run_from_a();
    pass.acts
}

/// One pass over a record.
struct Pass<'a> {
    record: &'a mut Record,
    acts: Acts,
    fault: Fault,
}

impl Pass<'_> {
    fn on(record: &mut Record, fault: Fault) -> Pass<'_> {
        Pass { record, acts: Acts { entries: Vec::new(), steps: Vec::new(), clause: None }, fault }
    }

    /// "After each accepted call, in this order"
    fn run_from_a(&mut self) {
        self.step_a();
        self.step_b();
        self.run_from_c();
    }

    fn run_from_c(&mut self) {
        self.step_c();
        self.step_d();
        self.step_efg(Step::E, VOTE_1, VOTE_2);
        self.step_efg(Step::F, VOTE_2, VOTE_3);
        self.step_efg(Step::G, VOTE_3, VOTE_4);
        self.step_h();
    }

    /// "Take the highest view w for which f + 1 kept view-changes are for w. If w is above the
    /// current view and above the vault's own view-change, where it has sent one, broadcast
    /// view-change w." Those for later views count too, see `highest_backed`.
    fn step_a(&mut self) {
        let Some(w) = self.highest_backed(self.sizes().blocking) else {
            return;
        };
        let above_own = self.record.own(VIEW_CHANGE).is_none_or(|own| w > own.view);
        if w > self.view() && above_own {
            self.acts.steps.push(Step::A);
            self.broadcast(Frame::view_change(self.id(), w));
        }
    }

    /// "Take the highest w above the current view with n - f kept view-changes for w. Enter it".
    /// Those for later views count too, see `highest_backed`. So w may be below the view that A has
    /// just asked for.
    fn step_b(&mut self) {
        if let Some(w) = self.highest_backed(self.sizes().quorum).filter(|&w| w > self.view()) {
            self.acts.steps.push(Step::B);
            self.enter(w);
        }
    }

    /// "Enter it: timer entry, proof to all, suggest to its leader (not sent to oneself)."
    fn enter(&mut self, w: u32) {
        self.record.view = w;
        self.write_timer();
        let proof = self.own_proof();
        self.broadcast(proof);
        let suggest = self.own_suggest();
        // "a suggest goes there [into its own row] only where the vault leads that view"
        if self.record.leads(w) {
            self.record.keep(suggest);
        } else {
            self.acts.entries.push(Entry::To(self.leader(), suggest));
        }
    }

    /// "A leader that has not proposed in this view proposes its starting plan if that is safe by
    /// Rule 1, else the smallest safe plan, else waits."
    fn step_c(&mut self) {
        if self.leader() != self.id() || self.sent(PROPOSAL) {
            return;
        }
        let suggests = self.reports(SUGGEST);
        let start = self.record.start_plan;
        let plan = rules::choose_by(self.sizes(), self.view(), &suggests[..self.n()], start);
        if let Some(plan) = plan {
            self.acts.steps.push(Step::C);
            self.broadcast(Frame::with_plan(PROPOSAL, self.id(), self.view(), plan));
        }
    }

    /// "If vote-1 was not sent in this view and the leader's proposal for it is kept and safe by
    /// Rule 3: vote-1."
    fn step_d(&mut self) {
        if self.sent(VOTE_1) {
            return;
        }
        let Some(plan) = self.leaders_proposal() else {
            return;
        };
        let proofs = self.reports(PROOF);
        let clause =
            rules::safe_by(Rule::Three, self.sizes(), self.view(), &proofs[..self.n()], plan);
        // FAULT VoteEveryProposal: the clause is not asked for.
        if clause.is_some() || self.fault == Fault::VoteEveryProposal {
            self.acts.steps.push(Step::D);
            self.acts.clause = clause;
            self.vote(VOTE_1, plan);
        }
    }

    /// "A quorum of vote-1 (vote-2, vote-3) for this view and one plan: send vote-2 (vote-3,
    /// vote-4), once a view, whether or not the earlier vote was sent."
    fn step_efg(&mut self, step: Step, counted: u8, sent: u8) {
        if self.sent(sent) {
            return;
        }
        if let Some(plan) = self.quorum_plan(counted) {
            self.acts.steps.push(step);
            self.vote(sent, plan);
        }
    }

    /// "A quorum of vote-4 for this view and one plan: decide, if nothing was decided."
    fn step_h(&mut self) {
        if self.record.decision.is_some() {
            return;
        }
        if let Some(plan) = self.quorum_plan(VOTE_4) {
            let view = self.view();
            self.acts.steps.push(Step::H);
            self.record.decision = Some(frame::Report { view, plan });
            self.acts.entries.push(Entry::Decision { view, plan });
        }
    }

    /// Broadcasts a vote, with the previous vote kept for vote-1 and vote-2.
    fn vote(&mut self, kind: u8, plan: u64) {
        // "Previous" is the highest vote for a plan other than the highest vote's plan: a vote for
        // the same plan as the highest leaves it, another makes the highest the previous.
        let highest = self.record.own_vote(kind).filter(|highest| highest.plan != plan);
        if let Some(highest) = highest {
            match kind {
                VOTE_1 => self.record.previous_vote1 = Some(highest),
                VOTE_2 => self.record.previous_vote2 = Some(highest),
                _ => {}
            }
        }
        self.broadcast(Frame::with_plan(kind, self.id(), self.view(), plan));
    }

    /// A frame to all; "Its own broadcasts go into its own row".
    fn broadcast(&mut self, frame: Frame) {
        self.record.keep(frame);
        self.acts.entries.push(Entry::All(frame));
    }

    /// The host's timer entry for the current view.
    fn write_timer(&mut self) {
        let millis = self.record.settings.timer_millis();
        self.acts.entries.push(Entry::Timer { view: self.view(), millis });
    }

    /// "A proof reports highest vote-1, previous vote-1, highest vote-4."
    fn own_proof(&self) -> Frame {
        let record = &*self.record;
        let previous = self.reported(record.previous_vote1);
        let reports = [record.own_vote(VOTE_1), previous, record.own_vote(VOTE_4)];
        Frame::with_reports(PROOF, self.id(), self.view(), reports)
    }

    /// "A suggest reports highest vote-2, previous vote-2, highest vote-3."
    fn own_suggest(&self) -> Frame {
        let record = &*self.record;
        let previous = self.reported(record.previous_vote2);
        let reports = [record.own_vote(VOTE_2), previous, record.own_vote(VOTE_3)];
        Frame::with_reports(SUGGEST, self.id(), self.view(), reports)
    }

    /// The previous vote as reported.
    fn reported(&self, previous: Option<frame::Report>) -> Option<frame::Report> {
        // FAULT ForgetPrevious: absent.
        previous.filter(|_| self.fault != Fault::ForgetPrevious)
    }

    /// The highest view for which so many kept view-changes count. "From now on a kept view-change
    /// for w counts for every view up to w, in A and in B alike. Highest is meant as before." (02,
    /// wish 3.) That is over all views, but the count falls only right above a view that some kept
    /// view-change is for, so the highest is one of those.
    fn highest_backed(&self, enough: usize) -> Option<u32> {
        let mut views = [0; VAULTS];
        let mut count = 0;
        for view in kept_view_changes(self.record) {
            views[count] = view;
            count += 1;
        }
        let views = &views[..count];
        views.iter().copied().filter(|&w| self.backers(views, w) >= enough).max()
    }

    /// How many view-changes count for w, of kept ones for these views.
    fn backers(&self, views: &[u32], w: u32) -> usize {
        // FAULT OwnViewOnly: those for later views do not count.
        if self.fault == Fault::OwnViewOnly {
            return times(views, w);
        }
        views.iter().filter(|&&kept| kept >= w).count()
    }

    /// The plan for which a quorum of kept votes of a kind are, in this view. Each sender has one
    /// kept vote of a kind, so a repeated frame is no second voter.
    fn quorum_plan(&self, kind: u8) -> Option<u64> {
        let mut plans = [0; VAULTS];
        let mut count = 0;
        for plan in self.record.kept_of(kind, self.view()).filter_map(Frame::plan) {
            plans[count] = plan;
            count += 1;
        }
        let plans = &plans[..count];
        plans.iter().copied().find(|&plan| times(plans, plan) >= self.sizes().quorum)
    }

    /// "the leader's proposal for it", this view, where kept: its plan.
    fn leaders_proposal(&self) -> Option<u64> {
        let kept = self.record.kept(self.leader(), PROPOSAL)?;
        if kept.view == self.view() {
            kept.plan()
        } else {
            None
        }
    }

    /// "Reports are those in kept suggests (Rule 1) or proofs (Rule 3) of view v."
    fn reports(&self, kind: u8) -> [Option<Reports>; VAULTS] {
        let mut reports = [None; VAULTS];
        for kept in self.record.kept_of(kind, self.view()) {
            reports[usize::from(kept.sender)] = kept.reports();
        }
        // FAULT IgnoreLocks: every lock absent.
        if self.fault == Fault::IgnoreLocks {
            for reporter in reports.iter_mut().flatten() {
                reporter[2] = None;
            }
        }
        reports
    }

    /// Whether the vault's own frame of a kind was sent in this view.
    fn sent(&self, kind: u8) -> bool {
        self.record.own(kind).is_some_and(|own| own.view == self.view())
    }

    /// "A quorum is n - f or more vaults, a blocking set f + 1 or more."
    fn sizes(&self) -> Sizes {
        let mut sizes = Sizes::of(self.n(), usize::from(self.record.settings.f));
        // FAULT SmallQuorum: n - f - 1.
        if self.fault == Fault::SmallQuorum {
            sizes.quorum -= 1;
        }
        sizes
    }

    fn n(&self) -> usize {
        usize::from(self.record.settings.n)
    }

    fn id(&self) -> u8 {
        self.record.settings.id
    }

    fn view(&self) -> u32 {
        self.record.view
    }

    fn leader(&self) -> u8 {
        leader(self.view(), self.record.settings.n)
    }
}

/// The views that the kept view-changes are for, the vault's own among them.
fn kept_view_changes(record: &Record) -> impl Iterator<Item = u32> + '_ {
    (0..record.settings.n)
        .filter_map(|sender| record.kept(sender, VIEW_CHANGE))
        .map(|kept| kept.view)
}

/// How many times an item stands in a list.
fn times<T: PartialEq + Copy>(items: &[T], item: T) -> usize {
    items.iter().filter(|&&other| other == item).count()
}

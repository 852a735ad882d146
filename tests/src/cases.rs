//! The calls to time and to measure: of every kind, accepted and refused, with nothing kept and with all.
use reference::frame::{self, Frame, PROOF, PROPOSAL, SUGGEST, VOTE_1, VOTE_2, VOTE_3, VOTE_4};
use reference::record::Settings;
use reference::rules::Clause;
use reference::vault::Step;

use crate::case::{Case, Expected, Harm, SPACE};
use crate::scenes::{contested_view, full, heard, lone, one_set, quorum_reports, report, two_sets, voting, Scene, BACKED_PLAN};
use crate::sides::Call;

/// Starts, and frames after which no step acts.
fn quiet(n: u8, f: u8) -> Vec<Case> {
    let view = contested_view(n);
    let all = usize::from(n) - 1;
    let none = || Expected::Steps(&[]);
    let vote = |view| heard(Frame::with_plan(VOTE_1, 2, view, 5));
    let leader_waits = Scene::entered(n, f, 1, view).hear_some(all, |sender, i| Frame::with_reports(SUGGEST, sender, view, lone(i)));
    let voter_waits = Scene::entered(n, f, n - 1, view)
        .hear(Frame::with_plan(PROPOSAL, 1, view, BACKED_PLAN))
        .hear_some(all, |sender, i| Frame::with_reports(PROOF, sender, view, lone(i)));
    let (leads, follows) = (Scene::blank(n, f, 0), Scene::blank(n, f, 1));
    let (start_leading, start) = (leads.start(), follows.start());
    vec![
        leads.case("start, leads view 0: C, D", start_leading, Expected::Steps(&[Step::C, Step::D])),
        follows.case("start, does not lead view 0", start, none()),
        Scene::started(n, f, 1).case("vote, nothing kept", vote(0), none()),
        full(n, f).case("vote, all kept", vote(20_000), none()),
        full(n, f).case("view-change, all kept", heard(Frame::view_change(n - 1, 20_000)), none()),
        full(n, f).case("proof, all kept", heard(Frame::with_reports(PROOF, 2, 20_000, lone(0))), none()),
        Case { searches: true, ..leader_waits.case("vote, C searches n suggests in vain", vote(view), none()) },
        Case { searches: true, ..voter_waits.case("vote, D searches n proofs in vain", vote(view), none()) },
    ]
}

/// Reports after which the leader proposes (C), or a voter takes its proposal (D).
fn searching(n: u8, f: u8) -> Vec<Case> {
    let view = contested_view(n);
    let leads = || Scene::entered(n, f, 1, view);
    let votes = || {
        let proposal = Frame::with_plan(PROPOSAL, 1, view, BACKED_PLAN);
        Scene::entered(n, f, n - 1, view).hear(proposal)
    };
    let silent = |_| [None; 3];
    let unlocked = |i| {
        let [highest, previous, _] = lone(i);
        [highest, previous, None]
    };
    let proposes = || Expected::Steps(&[Step::C]);
    let no_lock = || Expected::SafeBy(Clause::NoLock);
    let one = Expected::SafeBy(Clause::OneSet { at: 0 });
    let two = Expected::SafeBy(Clause::TwoSets { at: 0 });
    vec![
        quorum_reports(leads(), SUGGEST, view, silent).last("suggest: C, no votes", proposes()),
        quorum_reports(leads(), SUGGEST, view, unlocked).last("suggest: C, no locks", proposes()),
        one_set(leads(), SUGGEST, view).last("suggest: C, locks, largest plan of all", proposes()),
        quorum_reports(votes(), PROOF, view, silent).last("proof: D, no votes", no_lock()),
        quorum_reports(votes(), PROOF, view, unlocked).last("proof: D, no locks", no_lock()),
        one_set(votes(), PROOF, view).last("proof: D, locks, one set", one),
        two_sets(votes(), view).last("proof: D, locks, two sets", two),
    ]
}

/// View-changes and votes after which one step acts.
fn stepping(n: u8, f: u8) -> Vec<Case> {
    let late = n - 1;
    let blocking = usize::from(f) + 1;
    let change = |sender, _| Frame::view_change(sender, 1);
    // The vault does not lead the view that it enters by these.
    let apart = |sender, i| Frame::view_change(sender, 102 - i);
    let a = Scene::started(n, f, late).hear_some(blocking, change);
    let a_apart = Scene::started(n, f, late).hear_some(blocking, apart);
    let quorum = a.quorum();
    // Of 4 vaults two others and the vault itself are a quorum: A and B act at once.
    let four = blocking + 1 == quorum;
    let both = &[Step::A, Step::B];
    let a_steps = || Expected::Steps(if four { both } else { &[Step::A] });
    let b = Scene::started(n, f, late).timer(0).hear_some(quorum - 1, change);
    let b_apart = Scene::started(n, f, late).timer(0).hear_some(quorum - 1, apart);
    vec![
        a.last("view-change: A (n = 4: and B)", a_steps()),
        a_apart.last("view-change, views apart: A (n = 4: and B)", a_steps()),
        b.last("view-change: B", Expected::Steps(&[Step::B])),
        b_apart.last("view-change, views apart: B (n = 4: and A)", Expected::Steps(if four { both } else { &[Step::B] })),
        voting(n, f, VOTE_1).last("vote-1: E", Expected::Steps(&[Step::E])),
        voting(n, f, VOTE_2).last("vote-2: F", Expected::Steps(&[Step::F])),
        voting(n, f, VOTE_3).last("vote-3: G", Expected::Steps(&[Step::G])),
        voting(n, f, VOTE_4).last("vote-4: H", Expected::Steps(&[Step::H])),
    ]
}

/// Timers, and starts, frames and timers that are refused.
fn refusals(n: u8, f: u8) -> Vec<Case> {
    let vote = |sender, view| heard(Frame::with_plan(VOTE_1, sender, view, 5));
    let empty = || Call::Frame { link: 0, bytes: Vec::new() };
    let short = Call::Frame { link: 0, bytes: vec![VOTE_1, 0] };
    let proof = |reports| Frame::with_reports(PROOF, 0, 20_000, reports);
    let same_plan = heard(proof([report(5, 1), report(4, 1), report(3, 2)]));
    let lock_too_high = heard(proof([report(5, 1), report(4, 2), report(20_000, 2)]));
    let mut bad_mark = frame::write(&proof([report(5, 1), report(4, 2), report(3, 2)]));
    bad_mark[32] = 2;
    let bad_mark = Call::Frame { link: 0, bytes: bad_mark };
    let not_leader = heard(Frame::with_plan(PROPOSAL, 0, 20_000 * u32::from(n) + 1, 5));
    let refused = Expected::Refused;
    let none = || Expected::Steps(&[]);
    let (blank, last_view) = (Scene::blank(n, f, 1), Scene::entered(n, f, 1, u32::MAX));
    let start = || blank.start();
    let class = Call::Start { settings: Settings { n, f, id: 1, class: 8 }, plan: 5 };
    vec![
        Scene::started(n, f, 1).case("timer, nothing kept", Call::Timer { view: 0 }, none()),
        full(n, f).case("timer, all kept", Call::Timer { view: 2 }, none()),
        Scene::blank(n, f, 1).case("frame refused 2 (blank record)", vote(0, 0), refused(2)),
        full(n, f).case("start refused 4 (started), all kept", start(), refused(4)),
        Scene::blank(n, f, 1).case("start refused 8 (class)", class, refused(8)),
        Scene::started(n, f, 1).case("frame refused 9 (empty), nothing kept", empty(), refused(9)),
        full(n, f).case("frame refused 9 (empty), all kept", empty(), refused(9)),
        full(n, f).case("frame refused 10 (length), all kept", short, refused(10)),
        full(n, f).case("frame refused 11 (sender n), all kept", vote(n, 20_000), refused(11)),
        full(n, f).case("frame refused 14 (mark of the lock), all kept", bad_mark, refused(14)),
        full(n, f).case("frame refused 21 (view of the lock), all kept", lock_too_high, refused(21)),
        full(n, f).case("frame refused 22 (previous), all kept", same_plan, refused(22)),
        full(n, f).case("frame refused 15 (leader), all kept", not_leader, refused(15)),
        full(n, f).case("frame refused 16 (view over), all kept", vote(0, 1), refused(16)),
        full(n, f).case("frame refused 17 (kept), all kept", vote(0, 10_000), refused(17)),
        full(n, f).case("timer refused 18, all kept", Call::Timer { view: 0 }, refused(18)),
        last_view.case("timer refused 19, view-changes kept", Call::Timer { view: u32::MAX }, refused(19)),
    ]
}

/// Calls refused on the way in, all on the full record.
fn on_the_way_in(n: u8, f: u8) -> Vec<Case> {
    let case = |name, harm, number| {
        let call = heard(Frame::with_plan(VOTE_1, 0, 20_000, 5));
        Case { harm, ..full(n, f).case(name, call, Expected::Refused(number)) }
    };
    vec![
        Case { space: SPACE - 1, ..case("frame refused 1 (255 bytes of output)", Harm::None, 1) },
        case("frame refused 3 (record a byte short)", Harm::Length, 3),
        case("frame refused 3 (class 8)", Harm::Class, 3),
        case("frame refused 3 (last test: previous vote-2)", Harm::Previous, 3),
    ]
}

pub fn all(n: u8, f: u8) -> Vec<Case> {
    let groups = [quiet(n, f), searching(n, f), stepping(n, f), refusals(n, f), on_the_way_in(n, f)];
    groups.into_iter().flatten().collect()
}

//! One pass: steps A to H, start and timer, over whole vaults.
mod common;
use common::*;
use reference::entry::Entry;
use reference::frame::{write, Frame, VIEW_CHANGE};
use reference::rng::Rng;
use reference::rules::Clause;
use reference::vault::{self, Done, Fault, Step};

const LAST: u32 = u32::MAX;

fn timer(view: u32) -> Entry {
    Entry::Timer { view, millis: 900 }
}

/// A vault without votes to report enters a view that another leads.
fn entered(id: u8, view: u32, leader: u8) -> [Entry; 3] {
    [timer(view), Entry::All(proof(id, view, NONE)), Entry::To(leader, suggest(id, view, NONE))]
}

/// It asks for the view, and enters it in the same pass.
fn asked_and_entered(id: u8, view: u32, leader: u8) -> [Entry; 4] {
    let [timer, proof, suggest] = entered(id, view, leader);
    [Entry::All(view_change(id, view)), timer, proof, suggest]
}

#[test]
fn start_enters_view_zero() {
    // a vault that does not lead view 0: the timer entry alone
    for (class, millis) in (0u8..).zip([180, 450, 900, 1800, 4500, 9000, 18000, 45000]) {
        let entries = Vault::blank().start(4, 1, 1, class, 7).expect("starts");
        assert_eq!(entries, [Entry::Timer { view: 0, millis }]);
    }
    // the leader proposes its starting plan and votes for it
    let mut vault = Vault::blank();
    let entries = vault.start(4, 1, 0, 2, 7).expect("starts");
    assert_eq!(entries, [timer(0), Entry::All(proposal(0, 0, 7)), Entry::All(vote(1, 0, 0, 7))]);
    let record = vault.record();
    assert_eq!(record.rows[0][0], Some(proposal(0, 0, 7)));
    assert_eq!(record.rows[0][1], Some(vote(1, 0, 0, 7)));
    assert_eq!(record.rows.iter().flatten().flatten().count(), 2);
    assert_eq!((record.view, record.start_plan), (0, 7));
    let done = vault::start(4, 1, 0, 2, 7).expect("starts");
    assert_eq!(done.steps, [Step::C, Step::D]);
    assert_eq!(done.clause, Some(Clause::ViewZero));
}

#[test]
fn view_zero_from_proposal_to_decision() {
    let mut vault = Vault::started(4, 1, 3, 9);
    assert_eq!(vault.take(&proposal(0, 0, 7)), [Entry::All(vote(1, 3, 0, 7))]);
    for number in 1..=3 {
        assert_eq!(vault.take(&vote(number, 0, 0, 7)), []);
        assert_eq!(vault.take(&vote(number, 1, 0, 7)), [Entry::All(vote(number + 1, 3, 0, 7))]);
        assert_eq!(vault.take(&vote(number, 2, 0, 7)), [], "once a view");
    }
    assert_eq!(vault.take(&vote(4, 0, 0, 7)), []);
    assert_eq!(vault.take(&vote(4, 1, 0, 7)), [Entry::Decision { view: 0, plan: 7 }]);
    assert_eq!(vault.record().decision, rep(0, 7));
    assert_eq!(vault.take(&vote(4, 2, 0, 7)), [], "decided once only");
}

/// "once a view, whether or not the earlier vote was sent"; own votes count in the same pass.
#[test]
fn one_frame_may_set_off_all_steps() {
    let mut vault = Vault::started(4, 1, 3, 9);
    for number in 1..=4 {
        vault.take(&vote(number, 0, 0, 7));
        vault.take(&vote(number, 1, 0, 7));
    }
    let done = vault::frame(&vault.record(), 0, &write(&proposal(0, 0, 7))).expect("taken");
    assert_eq!(done.steps, [Step::D, Step::E, Step::F, Step::G, Step::H]);
    let entries = vault.take(&proposal(0, 0, 7));
    let mut expected: Vec<Entry> =
        (1..=4).map(|number| Entry::All(vote(number, 3, 0, 7))).collect();
    expected.push(Entry::Decision { view: 0, plan: 7 });
    assert_eq!(entries, expected);
    // without a vote-1 or vote-2 of its own, a quorum of vote-3 still gives vote-4
    let mut vault = Vault::started(4, 1, 3, 9);
    vault.take(&vote(3, 0, 0, 7));
    vault.take(&vote(3, 1, 0, 7));
    assert_eq!(vault.take(&vote(3, 2, 0, 7)), [Entry::All(vote(4, 3, 0, 7))]);
    let record = vault.record();
    assert_eq!(record.rows[3][1..4], [None, None, None]);
}

/// A later vote may be for another plan than the earlier one.
#[test]
fn each_vote_follows_its_own_quorum() {
    let mut vault = Vault::started(7, 1, 3, 9);
    vault.take(&proposal(0, 0, 7));
    for sender in [0, 1, 2, 4, 5] {
        assert_eq!(vault.take(&vote(1, sender, 0, 8)), []);
    }
    assert_eq!(vault.take(&vote(1, 6, 0, 8)), [Entry::All(vote(2, 3, 0, 8))]);
    assert_eq!(vault.record().rows[3][1], Some(vote(1, 3, 0, 7)));
}

#[test]
fn quorums_are_n_minus_f() {
    for (n, f) in [(4, 1), (5, 1), (6, 1), (7, 1), (7, 2), (10, 3), (64, 1), (64, 21)] {
        let mut vault = Vault::started(n, f, n - 1, 9);
        for sender in 0..n - f - 1 {
            assert_eq!(vault.take(&vote(4, sender, 0, 7)), []);
        }
        let decision = Entry::Decision { view: 0, plan: 7 };
        assert_eq!(vault.take(&vote(4, n - f - 1, 0, 7)), [decision]);
    }
}

/// Step A: f + 1 view-changes for w or later are echoed; step B: n - f enter it.
#[test]
fn view_changes_are_echoed_and_entered() {
    let mut vault = Vault::started(7, 2, 6, 9);
    assert_eq!(vault.take(&view_change(0, 3)), []);
    assert_eq!(vault.take(&view_change(1, 3)), []);
    // the third is f + 1: the echo counts as the fourth
    assert_eq!(vault.take(&view_change(2, 3)), [Entry::All(view_change(6, 3))]);
    assert_eq!(vault.record().view, 0);
    assert_eq!(vault.take(&view_change(4, 3)), entered(6, 3, 3));
    assert_eq!(vault.record().view, 3);
    // the vault's suggest is not in its own row, its proof is
    assert_eq!(vault.record().rows[6][6], None);
    assert_eq!(vault.record().rows[6][7], Some(proof(6, 3, NONE)));
    assert_eq!(vault.frame(&view_change(5, 3)), Err(16));
}

/// The echo may be the one that makes n - f: A and B in one pass.
#[test]
fn echo_and_entry_in_one_pass() {
    let mut vault = Vault::started(4, 1, 3, 9);
    assert_eq!(vault.take(&view_change(0, 5)), []);
    let done = vault::frame(&vault.record(), 1, &write(&view_change(1, 5))).expect("taken");
    assert_eq!(done.steps, [Step::A, Step::B]);
    assert_eq!(vault.take(&view_change(1, 5)), asked_and_entered(3, 5, 1));
}

/// A vault that has sent view-change for w or higher does not echo w.
#[test]
fn no_echo_at_or_below_the_own_view_change() {
    // five vaults: own view-change 1 by timer, then two others for 1 make three of n - f = 4
    let mut vault = Vault::started(5, 1, 4, 9);
    assert_eq!(vault.timer(0), Ok(vec![Entry::All(view_change(4, 1))]));
    assert_eq!(vault.take(&view_change(0, 1)), []);
    assert_eq!(vault.take(&view_change(1, 1)), []);
    assert_eq!(vault.take(&view_change(2, 1)).len(), 3, "entered with four, its own among them");
    // own view-change for 4 by echo; then f + 1 for 3 are below it
    let mut vault = Vault::started(7, 1, 6, 9);
    vault.take(&view_change(0, 4));
    assert_eq!(vault.take(&view_change(1, 4)), [Entry::All(view_change(6, 4))]);
    assert_eq!(vault.take(&view_change(2, 3)), []);
    assert_eq!(vault.take(&view_change(3, 3)), []);
    assert_eq!(vault.record().rows[6][5], Some(view_change(6, 4)));
    // f + 1 for 5 are above it
    assert_eq!(vault.take(&view_change(2, 5)), []);
    assert_eq!(vault.take(&view_change(3, 5)), [Entry::All(view_change(6, 5))]);
}

/// What A and B did in a pass: a and the view that A asked for, e and the view that B entered.
fn moved(done: &Done) -> String {
    let Some(moved) = done.moved() else { return String::new() };
    let asked = moved.asked.map(|view| format!("a{view}"));
    let entered = moved.entered.map(|view| format!("e{view}"));
    asked.into_iter().chain(entered).collect()
}

/// Plays acts at vault n - 1: `sender:view` is another's view-change, `t` its own timer. What A and
/// B must do then stands after `=`, nothing where neither may act.
fn play(n: u8, f: u8, acts: &str) -> Vault {
    let mut vault = Vault::started(n, f, n - 1, 9);
    for act in acts.split_whitespace() {
        let (act, expected) = act.split_once('=').unwrap_or((act, ""));
        let record = vault.record();
        let done = match act.split_once(':') {
            Some((sender, view)) => {
                let sender = sender.parse().expect("a vault");
                let frame = view_change(sender, view.parse().expect("a view"));
                vault.take(&frame);
                vault::frame(&record, sender, &write(&frame))
            }
            None => {
                vault.timer(record.view).expect("accepted");
                vault::timer(&record, record.view)
            }
        };
        let done = done.expect("accepted");
        assert_eq!(moved(&done), expected, "{act} of {acts} at vault {} of {n}", n - 1);
    }
    vault
}

/// "a kept view-change for w counts for every view up to w, in A and in B alike" (02, wish 3).
#[test]
fn a_view_change_backs_the_earlier_views_too() {
    for (n, f, acts) in [
        // A: f do nothing, one more makes the vault ask for the lowest of their views
        (4, 1, "0:90 1:89=a89e89"),
        (5, 1, "0:90 1:89=a89"),
        (7, 2, "0:90 1:89 2:88=a88"),
        (7, 2, "0:88 1:90 2:89=a88"),
        (10, 3, "0:90 1:90 2:89 3:3=a3"),
        // the old count did nothing at all with these six
        (7, 2, "0:1 1:2 2:3=a1 3:4=a2e1 4:5=a3e2 5:6=a4e3"),
        // B: n - f - 1 do not enter, one more does; the own view-change is one of them
        (4, 1, "t 0:9 1:1=e1"),
        (5, 1, "t 0:9 1:1 2:1=e1"),
        (7, 2, "t 0:9 1:8 2:1 3:1=e1"),
        (7, 2, "t 0:1 1:1 2:1 3:1=e1"),
        (10, 3, "t 0:9 1:8 2:7 3:1 4:1 5:1=e1"),
        // the own view-change backs views below it
        (7, 2, "0:9 1:9 2:9=a9 3:4=e4"),
        (5, 1, "0:9 1:9=a9 2:4=e4 3:6=e6"),
        // A asks for one view and B enters a lower one
        (7, 2, "0:5 1:3 2:9=a3 3:9=a5e3"),
        (5, 1, "0:9 1:3=a3 2:5=a5e3"),
        // a vault that moves on goes on backing the views that it asked for before
        (4, 1, "t 0:1 0:2 0:7 1:1=e1"),
        (5, 1, "0:1 0:2 1:1=a1 0:3 1:2=a2 2:1=e1"),
        // the highest view that enough back, and the last views of all
        (4, 1, "0:3 1:5=a3e3 2:4=a4e4"),
        (5, 1, "0:4294967295 1:4294967294=a4294967294 2:4294967295=a4294967295e4294967294"),
        (5, 1, "0:4294967295 1:4294967295=a4294967295 2:1=e1 3:4294967295=e4294967295"),
    ] {
        play(n, f, acts);
    }
}

/// The same with 64 vaults, each of which asks for a view of its own: f + 1 = 22 of them back 79, and
/// 42 with the vault's own 59.
#[test]
fn sixty_four_views_at_once() {
    let acts: String = (0..42).map(|sender| format!("{sender}:{} ", 100 - sender)).collect();
    play(64, 21, &acts.replace("21:79", "21:79=a79").replace("41:59", "41:59=e59"));
}

/// "Highest is meant as before": over all views. Each is tried here, on any sound record.
#[test]
fn the_highest_view_of_all_is_taken() {
    let mut rng = Rng(3);
    let mut seen = [0; 4];
    for _ in 0..20_000 {
        let n = 4 + rng.below(7) as u8;
        let f = 1 + rng.below((u64::from(n) - 1) / 3) as u8;
        let view = rng.below(4) as u32;
        let asking: Vec<u8> = (0..n).filter(|_| !rng.one_in(4)).collect();
        let frames: Vec<_> =
            asking.iter().map(|&id| view_change(id, 1 + rng.below(9) as u32)).collect();
        let record = record_with(n, f, n - 1, 9, view, &frames);
        let done = vault::frame(&record, 0, &write(&vote(1, 0, view, 5))).expect("taken");
        let expected = moved_by_all_views(n, f, view, &frames);
        assert_eq!(moved(&done), expected, "{:?}", (n, f, view, &frames));
        let [a, b] = ['a', 'e'].map(|letter| usize::from(expected.contains(letter)));
        seen[2 * a + b] += 1;
    }
    assert!(seen.iter().all(|&count| count > 1000), "{seen:?}");
}

/// Steps A and B of vault n - 1 by trying every view from the highest down.
fn moved_by_all_views(n: u8, f: u8, view: u32, kept: &[Frame]) -> String {
    let mut views: Vec<u32> = kept.iter().map(|frame| frame.view).collect();
    let own = kept.iter().find(|frame| frame.sender == n - 1).map_or(0, |frame| frame.view);
    let highest = |views: &[u32], enough: u8| {
        let backers = |w: u32| views.iter().filter(|&&kept| kept >= w).count();
        (0..=10).rev().find(|&w| backers(w) >= usize::from(enough)).filter(|&w| w > view)
    };
    let asked = highest(&views, f + 1).filter(|&w| w > own);
    if let Some(w) = asked {
        // Its own view-change, if it had one, is replaced.
        views.iter().position(|&kept| kept == own).map(|at| views.swap_remove(at));
        views.push(w);
    }
    let entered = highest(&views, n - f);
    asked.map(|w| format!("a{w}")).into_iter().chain(entered.map(|w| format!("e{w}"))).collect()
}

/// A's view-change counts in B of the same pass, for a lower view too: a sound record in which no
/// echo went out.
#[test]
fn the_echo_backs_a_lower_view_in_the_same_pass() {
    let mut frames: Vec<_> = (0..3).map(|sender| view_change(sender, 9)).collect();
    frames.push(view_change(3, 4));
    let mut vault = Vault::of(&record_with(7, 2, 6, 9, 0, &frames));
    let mut expected = vec![Entry::All(view_change(6, 9))];
    expected.extend(entered(6, 4, 4));
    assert_eq!(vault.take(&vote(1, 0, 0, 5)), expected);
}

/// A vault may be in a view below its own view-change: its timer repeats that one each time, and
/// the view goes its way.
#[test]
fn in_a_view_below_the_own_view_change() {
    for acts in ["0:9 1:9 2:9=a9 3:4=e4", "0:4 1:9 2:9=a4 3:9=a9e4"] {
        let mut vault = play(7, 2, acts);
        assert_eq!(vault.record().view, 4);
        for _ in 0..3 {
            assert_eq!(vault.timer(4), Ok(vec![Entry::All(view_change(6, 9))]), "{acts}");
        }
        for sender in 0..4 {
            vault.take(&proof(sender, 4, NONE));
        }
        assert_eq!(vault.take(&proposal(4, 4, 5)), [Entry::All(vote(1, 6, 4, 5))]);
        // a fifth vault asks for 9 too
        assert_eq!(vault.take(&view_change(4, 9))[0], timer(9));
    }
}

/// On records that calls reach nothing is left for A and B after a pass: no frame but a view-change
/// sets them off, and a timer sets off B at most.
#[test]
fn what_sets_off_a_and_b() {
    let mut rng = Rng(38);
    let mut moves = 0;
    for _ in 0..100 {
        let mut vault = wandered(&mut rng, 0);
        for _ in 0..80 {
            let record = vault.record();
            let timer = vault::timer(&record, record.view).expect("not the last view");
            assert!(!timer.steps.contains(&Step::A));
            let frame = likely_frame(&mut rng, &record);
            if let Ok(done) = vault::frame(&record, frame.sender, &write(&frame)) {
                assert!(frame.kind == VIEW_CHANGE || done.moved().is_none(), "{frame:?}");
                moves += u32::from(done.moved().is_some());
                vault.take(&frame);
            }
            if rng.one_in(10) {
                vault.timer(record.view).ok();
            }
        }
    }
    assert!(moves > 500, "{moves}");
}

/// "An accepted timer broadcasts view-change for the next view, or repeats the vault's own if that
/// is higher than the current view"
#[test]
fn timers() {
    let mut vault = Vault::started(4, 1, 3, 9);
    let rec = vault.rec.clone();
    assert_eq!(vault.timer(0), Ok(vec![Entry::All(view_change(3, 1))]));
    assert_ne!(vault.rec, rec);
    let rec = vault.rec.clone();
    for _ in 0..3 {
        assert_eq!(vault.timer(0), Ok(vec![Entry::All(view_change(3, 1))]), "repeated");
        assert_eq!(vault.rec, rec);
    }
    // an echo for 8 is repeated too (five vaults: f + 1 = 2 is not n - f)
    let mut vault = Vault::started(5, 1, 4, 9);
    vault.take(&view_change(0, 8));
    assert_eq!(vault.take(&view_change(1, 8)), [Entry::All(view_change(4, 8))]);
    assert_eq!(vault.timer(0), Ok(vec![Entry::All(view_change(4, 8))]));
    // a view-change at or below the current view is not repeated
    let mut vault = in_view(4, 1, 3, 9, 8);
    assert_eq!(vault.record().rows[3][5], Some(view_change(3, 8)));
    assert_eq!(vault.timer(8), Ok(vec![Entry::All(view_change(3, 9))]));
}

/// The timer's own view-change may complete n - f: the pass goes on from A.
#[test]
fn a_timer_may_enter_the_next_view() {
    // four others are for view 1 in a seven-vault record where no echo went out
    let frames: Vec<_> = (0..4).map(|sender| view_change(sender, 1)).collect();
    let mut vault = Vault::of(&record_with(7, 2, 6, 9, 0, &frames));
    assert_eq!(vault.timer(0).expect("accepted"), asked_and_entered(6, 1, 1));
}

/// "Its own broadcasts go into its own row; a suggest goes there only where the vault leads that
/// view"; "not sent to oneself".
#[test]
fn a_leader_keeps_its_own_suggest() {
    let mut vault = Vault::started(4, 1, 1, 9);
    vault.take(&view_change(0, 5));
    let entries = vault.take(&view_change(2, 5));
    assert_eq!(entries, [Entry::All(view_change(1, 5)), timer(5), Entry::All(proof(1, 5, NONE))]);
    assert_eq!(vault.record().rows[1][6], Some(suggest(1, 5, NONE)));
    // its own suggest and two others are a quorum; its own proof is the first
    assert_eq!(vault.take(&suggest(0, 5, NONE)), []);
    assert_eq!(vault.take(&suggest(2, 5, NONE)), [Entry::All(proposal(1, 5, 9))]);
    assert_eq!(vault.take(&suggest(3, 5, NONE)), [], "one proposal a view");
    assert_eq!(vault.take(&proof(0, 5, NONE)), []);
    assert_eq!(vault.take(&proof(2, 5, NONE)), [Entry::All(vote(1, 1, 5, 9))]);
}

/// Suggests and proofs that came before the view was entered serve when it is.
#[test]
fn early_frames_serve_on_entry() {
    let mut vault = Vault::started(4, 1, 1, 9);
    for sender in [0, 2] {
        assert_eq!(vault.take(&suggest(sender, 5, NONE)), []);
        assert_eq!(vault.take(&proof(sender, 5, NONE)), []);
        assert_eq!(vault.take(&vote(1, sender, 5, 9)), []);
    }
    vault.take(&view_change(0, 5));
    let done = vault::frame(&vault.record(), 2, &write(&view_change(2, 5))).expect("taken");
    assert_eq!(done.steps, [Step::A, Step::B, Step::C, Step::D, Step::E]);
    assert_eq!(done.clause, Some(Clause::NoLock));
    assert_eq!(
        vault.take(&view_change(2, 5)),
        [
            Entry::All(view_change(1, 5)),
            timer(5),
            Entry::All(proof(1, 5, NONE)),
            Entry::All(proposal(1, 5, 9)),
            Entry::All(vote(1, 1, 5, 9)),
            Entry::All(vote(2, 1, 5, 9)),
        ]
    );
}

/// Reports of another view are not counted.
#[test]
fn reports_of_another_view_do_not_serve() {
    let mut vault = in_view(4, 1, 1, 9, 5);
    vault.take(&suggest(0, 9, NONE));
    vault.take(&suggest(2, 5, NONE));
    vault.take(&suggest(3, 9, NONE));
    assert_eq!(vault.record().rows[1][0], None, "own and one other are no quorum");
}

/// "A proof reports highest vote-1, previous vote-1, highest vote-4. A suggest reports highest
/// vote-2, previous vote-2, highest vote-3."
#[test]
fn reports_carry_the_votes_sent() {
    let mut vault = Vault::started(4, 1, 3, 9);
    vault.take(&proposal(0, 0, 5));
    for sender in [0, 1] {
        vault.take(&vote(1, sender, 0, 5));
        vault.take(&vote(2, sender, 0, 5));
        vault.take(&vote(3, sender, 0, 5));
    }
    let entries = go_to(&mut vault, 2);
    let votes = [rep(0, 5), None, rep(0, 5)];
    let expected = [
        Entry::All(view_change(3, 2)),
        timer(2),
        Entry::All(proof(3, 2, votes)),
        Entry::To(2, suggest(3, 2, votes)),
    ];
    assert_eq!(entries, expected);
    // votes in view 2 for plan 6: vote-1 by two sets? no: proofs of the others without lock
    vault.take(&proof(0, 2, NONE));
    vault.take(&proof(1, 2, NONE));
    vault.take(&proof(2, 2, NONE));
    assert_eq!(vault.take(&proposal(2, 2, 6)), [Entry::All(vote(1, 3, 2, 6))]);
    let entries = go_to(&mut vault, 5);
    let proof_5 = [rep(2, 6), rep(0, 5), rep(0, 5)];
    assert!(entries.contains(&Entry::All(proof(3, 5, proof_5))));
    assert!(entries.contains(&Entry::To(1, suggest(3, 5, votes))));
}

/// The lock of a suggest is vote-3, the lock of a proof is vote-4.
#[test]
fn locks_of_suggest_and_proof() {
    // vote-2, vote-3 and vote-4 from quorums of their own: plans 5, 6 and 7, no vote-1
    let reports = |numbers: &[u8]| {
        let mut vault = Vault::started(4, 1, 3, 9);
        for &number in numbers {
            for sender in 0..3 {
                vault.take(&vote(number, sender, 0, 4 + u64::from(number)));
            }
        }
        let entries = go_to(&mut vault, 1);
        let [.., Entry::All(proof), Entry::To(1, suggest)] = entries[..] else {
            panic!("{entries:?}");
        };
        (proof.reports().expect("a proof"), suggest.reports().expect("a suggest"))
    };
    assert_eq!(reports(&[1]), (NONE, [rep(0, 5), None, None]));
    assert_eq!(reports(&[2]), (NONE, [None, None, rep(0, 6)]));
    assert_eq!(reports(&[3]), ([None, None, rep(0, 7)], NONE));
    assert_eq!(reports(&[1, 2, 3]), ([None, None, rep(0, 7)], [rep(0, 5), None, rep(0, 6)]));
}

/// A proposal of the same leader for a later view is not one for this view.
#[test]
fn a_proposal_for_a_later_view_waits() {
    let mut vault = Vault::started(4, 1, 3, 9);
    assert_eq!(vault.take(&proposal(0, 4, 7)), []);
    assert_eq!(vault.frame(&proposal(0, 0, 7)), Err(17), "the later one is kept");
    vault.take(&proof(0, 4, NONE));
    vault.take(&proof(1, 4, NONE));
    let entries = go_to(&mut vault, 4);
    assert_eq!(entries.last(), Some(&Entry::All(vote(1, 3, 4, 7))));
}

/// View-changes at or below the current view are not echoed: a sound record that keeps some, in
/// which the vault has sent none.
#[test]
fn no_echo_at_or_below_the_current_view() {
    for view in [2, 3, 5] {
        let frames = [view_change(0, 3), view_change(1, 3)];
        let mut vault = Vault::of(&record_with(7, 1, 6, 9, view, &frames));
        let echo = if view < 3 { vec![Entry::All(view_change(6, 3))] } else { vec![] };
        assert_eq!(vault.take(&vote(1, 2, view, 5)), echo);
    }
}

/// A vault votes for a proposal it keeps once proofs make it safe, whichever comes first.
#[test]
fn proofs_after_the_proposal() {
    let mut vault = in_view(4, 1, 3, 9, 1);
    assert_eq!(vault.take(&proposal(1, 1, 6)), []);
    assert_eq!(vault.take(&proof(0, 1, [None, None, rep(0, 5)])), []);
    assert_eq!(
        vault.take(&proof(1, 1, NONE)),
        [],
        "6 is not safe with lock (0, 5) in every quorum"
    );
    assert_eq!(vault.take(&proof(2, 1, NONE)), [Entry::All(vote(1, 3, 1, 6))]);
}

/// "decide, if nothing was decided. The vault goes on taking part."
#[test]
fn after_a_decision() {
    let mut vault = Vault::started(4, 1, 3, 9);
    for sender in 0..3 {
        vault.take(&vote(4, sender, 0, 7));
    }
    assert_eq!(vault.record().decision, rep(0, 7));
    go_to(&mut vault, 4);
    vault.take(&proof(0, 4, NONE));
    vault.take(&proof(1, 4, NONE));
    assert_eq!(vault.take(&proposal(0, 4, 8)), [Entry::All(vote(1, 3, 4, 8))]);
    for number in 1..=3 {
        vault.take(&vote(number, 0, 4, 8));
        vault.take(&vote(number, 1, 4, 8));
        assert!(vault.record().rows[3][usize::from(number) + 1].is_some());
    }
    vault.take(&vote(4, 0, 4, 8));
    vault.take(&vote(4, 1, 4, 8));
    assert_eq!(vault.take(&vote(4, 2, 4, 8)), [], "no second decision, nor another plan");
    assert_eq!(vault.record().decision, rep(0, 7));
}

#[test]
fn the_last_view() {
    // 4294967294 mod 4 = 2, 4294967295 mod 4 = 3
    let mut vault = in_view(4, 1, 3, 9, LAST - 1);
    assert_eq!(vault.timer(LAST - 1), Ok(vec![Entry::All(view_change(3, LAST))]));
    vault.take(&view_change(0, LAST));
    let entries = vault.take(&view_change(1, LAST));
    assert_eq!(entries, [timer(LAST), Entry::All(proof(3, LAST, NONE))]);
    assert_eq!(vault.timer(LAST), Err(19));
    assert_eq!(vault.frame(&view_change(2, LAST)), Err(16));
    // the view goes its way to a decision
    vault.take(&suggest(0, LAST, [rep(LAST - 1, 5), rep(LAST - 2, 6), None]));
    assert_eq!(vault.take(&suggest(1, LAST, NONE)), [Entry::All(proposal(3, LAST, 9))]);
    vault.take(&proof(0, LAST, [rep(LAST - 1, 9), rep(LAST - 2, 6), rep(LAST - 1, 9)]));
    vault.take(&proof(1, LAST, [rep(LAST - 1, 9), None, None]));
    assert_eq!(vault.record().rows[3][1], Some(vote(1, 3, LAST, 9)));
    for number in 1..=4 {
        vault.take(&vote(number, 0, LAST, 9));
        vault.take(&vote(number, 1, LAST, 9));
    }
    assert_eq!(vault.record().decision, rep(LAST, 9));
}

/// The faults break what they name, and nothing in a plain call.
#[test]
fn faults() {
    // VoteEveryProposal: vote-1 without a single proof
    let record = in_view(4, 1, 3, 9, 1).record();
    let bytes = write(&proposal(1, 1, 6));
    assert_eq!(vault::frame(&record, 1, &bytes).expect("taken").entries, []);
    let done = vault::frame_with(Fault::VoteEveryProposal, &record, 1, &bytes).expect("taken");
    assert_eq!(done.entries, [Entry::All(vote(1, 3, 1, 6))]);
    assert_eq!(done.clause, None);
    // IgnoreLocks: a lock in every quorum is not seen
    let mut locked = Vault::of(&record);
    locked.take(&proof(0, 1, [None, None, rep(0, 5)]));
    locked.take(&proof(1, 1, NONE));
    let record = locked.record();
    assert_eq!(vault::frame(&record, 1, &bytes).expect("taken").entries, []);
    let done = vault::frame_with(Fault::IgnoreLocks, &record, 1, &bytes).expect("taken");
    assert_eq!(done.entries, [Entry::All(vote(1, 3, 1, 6))]);
    assert_eq!(done.clause, Some(Clause::NoLock));
    // SmallQuorum: two of four
    let mut one = Vault::started(4, 1, 3, 9);
    one.take(&vote(4, 0, 0, 7));
    let (record, bytes) = (one.record(), write(&vote(4, 1, 0, 7)));
    assert_eq!(vault::frame(&record, 1, &bytes).expect("taken").entries, []);
    let done = vault::frame_with(Fault::SmallQuorum, &record, 1, &bytes).expect("taken");
    assert_eq!(done.entries, [Entry::Decision { view: 0, plan: 7 }]);
    // ForgetPrevious: the report is absent
    let mut record = record_with(4, 1, 3, 9, 4, &[vote(1, 3, 4, 5), view_change(0, 5)]);
    record.previous_vote1 = rep(2, 6);
    let bytes = write(&view_change(1, 5));
    let done = vault::frame(&record, 1, &bytes).expect("taken");
    assert!(done.entries.contains(&Entry::All(proof(3, 5, [rep(4, 5), rep(2, 6), None]))));
    let done = vault::frame_with(Fault::ForgetPrevious, &record, 1, &bytes).expect("taken");
    assert!(done.entries.contains(&Entry::All(proof(3, 5, [rep(4, 5), None, None]))));
    // OwnViewOnly: the one that moved on is not counted; those for one view are, as ever
    let hung = record_with(4, 1, 3, 9, 0, &[view_change(3, 1), view_change(2, 2)]);
    let bytes = write(&view_change(1, 1));
    let done = vault::frame(&hung, 1, &bytes).expect("taken");
    assert_eq!(done.steps, [Step::B]);
    let done = vault::frame_with(Fault::OwnViewOnly, &hung, 1, &bytes).expect("taken");
    assert_eq!(done.entries, []);
    let bytes = write(&view_change(1, 2));
    for fault in [Fault::None, Fault::OwnViewOnly] {
        let done = vault::frame_with(fault, &hung, 1, &bytes).expect("taken");
        assert_eq!(moved(&done), "a2e2");
    }
    // start and timer take a fault too
    assert_eq!(vault::start_with(Fault::SmallQuorum, 4, 1, 0, 2, 7), vault::start(4, 1, 0, 2, 7));
    assert_eq!(vault::timer_with(Fault::None, &record, 4), vault::timer(&record, 4));
}

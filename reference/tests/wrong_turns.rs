//! The wrong turns of 01, and what 01 calls rejected by demand 2 where a test can show it. Each
//! test fails for a vault that takes the turn.
mod common;
use common::*;
use reference::entry::Entry;
use reference::rules::{Clause, Reports, Rule};

/// Both readings of Rule 1 and Rule 3.
fn safe(rule: Rule, v: u32, reports: &[Option<Reports>; 4], plan: u64) -> Option<Clause> {
    safe_by_both(rule, &of_four(v, reports), plan)
}

/// "Algorithm 4 sets its two counters once per view, so one plan's supporters add to the next
/// plan's."
#[test]
fn counters_are_set_for_each_plan() {
    // view 3: two locks (1, 7); plans 5 and 6 have one supporter each at 2, and two make a blocking set
    let reports = [
        Some([None, None, rep(1, 7)]),
        Some([None, None, rep(1, 7)]),
        Some([rep(2, 5), None, None]),
        Some([rep(2, 6), None, None]),
    ];
    for rule in [Rule::One, Rule::Three] {
        for plan in [5, 6, 7, 8] {
            assert_eq!(safe(rule, 3, &reports, plan), None);
        }
    }
    // "Its last line also hands out a plan when none was found."
    assert_eq!(chosen_by_both(&of_four(3, &reports), 5), None);
}

/// The same by a leader: it waits while no plan is safe, and proposes when one is.
#[test]
fn a_leader_waits_while_no_plan_is_safe() {
    // vault 3 leads view 3 and has locked (1, 7) with vote-3; its own suggest says so
    let own = [rep(1, 7), None, rep(1, 7)];
    let frames = [vote(2, 3, 1, 7), vote(3, 3, 1, 7), suggest(3, 3, own)];
    let mut vault = Vault::of(&record_with(4, 1, 3, 9, 3, &frames));
    assert_eq!(vault.take(&suggest(0, 3, [None, None, rep(2, 8)])), []);
    assert_eq!(vault.take(&suggest(1, 3, [rep(2, 5), None, None])), []);
    // q has no lock above 1 with vaults 1, 2, 3; 7 is claimed at 1 by vaults 2 and 3
    let entries = vault.take(&suggest(2, 3, [rep(1, 7), None, None]));
    assert_eq!(entries, [Entry::All(proposal(3, 3, 7))]);
}

/// "Shifting highest to previous at each vote: a new vote for the same plan leaves previous alone."
#[test]
fn a_vote_for_the_same_plan_leaves_previous_alone() {
    for number in [1, 2] {
        let previous = |plans: &[u64]| {
            let mut vault = Vault::started(4, 1, 3, 9);
            for (view, &plan) in (0u32..).zip(plans) {
                if view > 0 {
                    go_to(&mut vault, view);
                }
                cast(&mut vault, number, view, plan);
            }
            let record = vault.record();
            (if number == 1 { record.previous_vote1 } else { record.previous_vote2 }, vault)
        };
        assert_eq!(previous(&[5]).0, None);
        assert_eq!(previous(&[5, 5]).0, None);
        assert_eq!(previous(&[5, 6]).0, rep(0, 5));
        assert_eq!(previous(&[5, 6, 6]).0, rep(0, 5));
        assert_eq!(previous(&[5, 5, 6]).0, rep(1, 5), "the highest vote for 5");
        assert_eq!(previous(&[5, 6, 5]).0, rep(1, 6));
        assert_eq!(previous(&[5, 6, 7]).0, rep(1, 6));
        assert_eq!(previous(&[5, 6, 5, 5]).0, rep(1, 6));
        // and the report says the same
        let (_, mut vault) = previous(&[5, 6, 5]);
        let entries = go_to(&mut vault, 9);
        let reports = [rep(2, 5), rep(1, 6), None];
        if number == 1 {
            assert!(entries.contains(&Entry::All(proof(3, 9, reports))));
        } else {
            assert!(entries.contains(&Entry::To(1, suggest(3, 9, reports))));
        }
    }
}

/// Makes vault 3 of 4 send vote-1 or vote-2 for the plan in its current view.
fn cast(vault: &mut Vault, number: u8, view: u32, plan: u64) {
    let mut entries = Vec::new();
    if number == 1 {
        // proofs without lock, and the leader's proposal (vault 3 leads no view up to 2)
        if view > 0 {
            for sender in [0, 1] {
                entries.extend(vault.take(&proof(sender, view, NONE)));
            }
        }
        let leader = (view % 4) as u8;
        if leader == 3 {
            // its own starting plan would be proposed: let a suggest name the plan
            return cast_as_leader(vault, view, plan);
        }
        entries.extend(vault.take(&proposal(leader, view, plan)));
    } else {
        for sender in [0, 1, 2] {
            entries.extend(vault.take(&vote(1, sender, view, plan)));
        }
    }
    assert!(entries.contains(&Entry::All(vote(number, 3, view, plan))));
}

/// As `cast`, where vault 3 leads: locks at the view before make the plan the only safe one.
fn cast_as_leader(vault: &mut Vault, view: u32, plan: u64) {
    let locked = [rep(view - 1, plan), None, rep(view - 1, plan)];
    let mut entries = Vec::new();
    for sender in [0, 1, 2] {
        entries.extend(vault.take(&suggest(sender, view, locked)));
    }
    assert!(entries.contains(&Entry::All(vote(1, 3, view, plan))), "{entries:?}");
}

/// "Asking claimers to be in q."
#[test]
fn claimers_need_not_be_in_q() {
    // view 3: vault 3 has a lock above v' = 1 and so is in no q, but its claim counts
    let reports = [
        Some([rep(1, 5), None, rep(1, 5)]),
        Some(NONE),
        Some(NONE),
        Some([rep(2, 5), None, rep(2, 7)]),
    ];
    for rule in [Rule::One, Rule::Three] {
        assert_eq!(safe(rule, 3, &reports, 5), Some(Clause::OneSet { at: 1 }));
        assert_eq!(safe(rule, 3, &reports, 6), None);
    }
    // and the two sets of Rule 3 may lie outside q as well
    let reports = [
        Some([rep(1, 5), None, rep(1, 7)]),
        Some([rep(1, 5), None, None]),
        Some([rep(2, 6), None, None]),
        Some([rep(2, 6), None, rep(2, 8)]),
    ];
    assert_eq!(safe(Rule::Three, 3, &reports, 7), Some(Clause::TwoSets { at: 1 }));
    assert_eq!(safe(Rule::One, 3, &reports, 7), None);
}

/// "Counting a repeated frame as a second voter."
#[test]
fn a_repeated_frame_is_no_second_voter() {
    for number in 1..=4 {
        let mut vault = Vault::started(4, 1, 3, 9);
        vault.take(&vote(number, 0, 0, 7));
        vault.take(&vote(number, 1, 0, 7));
        for _ in 0..3 {
            assert_eq!(vault.frame(&vote(number, 0, 0, 7)), Err(17));
            assert_eq!(vault.frame(&vote(number, 1, 0, 7)), Err(17));
        }
        assert_eq!(vault.take(&vote(number, 2, 0, 7)).len(), 1);
    }
    let mut vault = Vault::started(4, 1, 3, 9);
    assert_eq!(vault.take(&view_change(0, 1)), []);
    assert_eq!(vault.frame(&view_change(0, 1)), Err(17));
    // a sender's view-change for a higher view replaces the one for a lower; it is one backer still
    assert_eq!(vault.take(&view_change(0, 2)), []);
    assert_eq!(vault.take(&view_change(0, 3)), []);
    // and goes on backing the lower view (02, wish 3)
    assert_eq!(vault.take(&view_change(1, 1))[0], Entry::All(view_change(3, 1)));
}

/// A vote for a later view replaces the sender's vote for this one.
#[test]
fn a_vote_for_a_later_view_replaces() {
    let mut vault = Vault::started(4, 1, 3, 9);
    vault.take(&vote(1, 0, 0, 7));
    vault.take(&vote(1, 0, 5, 7));
    vault.take(&vote(1, 1, 0, 7));
    assert_eq!(vault.take(&vote(1, 2, 0, 7)), [], "two votes of view 0 are left");
}

/// Votes for another view are not counted in this one.
#[test]
fn votes_of_two_views_are_not_added_up() {
    let mut vault = Vault::started(4, 1, 3, 9);
    vault.take(&vote(1, 0, 1, 7));
    vault.take(&vote(1, 1, 0, 7));
    assert_eq!(vault.take(&vote(1, 2, 0, 7)), []);
}

/// "one that votes in view 0 and then decides by itself": its own votes are one voter.
#[test]
fn nobody_decides_alone() {
    let mut vault = Vault::blank();
    let entries = vault.start(4, 1, 0, 2, 7).expect("starts");
    let expected = [
        Entry::Timer { view: 0, millis: 900 },
        Entry::All(proposal(0, 0, 7)),
        Entry::All(vote(1, 0, 0, 7)),
    ];
    assert_eq!(entries, expected);
    assert_eq!(vault.record().decision, None);
}

/// "one that votes plan 0 always"
#[test]
fn the_voted_plan_is_the_proposed_one() {
    for plan in [0, 1, 77, u64::MAX] {
        let mut vault = Vault::started(4, 1, 3, 9);
        assert_eq!(vault.take(&proposal(0, 0, plan)), [Entry::All(vote(1, 3, 0, plan))]);
    }
}

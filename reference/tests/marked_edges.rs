//! The marked edges M1 to M11 of 01, of the rules (both readings) and of whole vaults.
mod common;
use common::*;
use reference::entry::Entry;
use reference::frame::{leader, Frame};
use reference::rules::{Clause, Reports, Rule};
use reference::vault;

const A: u64 = 11;
const B: u64 = 22;
const C: u64 = 33;
const D: u64 = 44;

/// n = 4, f = 1, reports are proofs: both readings.
fn safe(v: u32, proofs: &[Option<Reports>; 4], plan: u64) -> Option<Clause> {
    let clause = safe_by_both(Rule::Three, &of_four(v, proofs), plan);
    assert_eq!(clause, by_vault(v, proofs, plan));
    clause
}

/// The same question put to a vault: the proofs are kept, then the leader's proposal comes.
fn by_vault(v: u32, proofs: &[Option<Reports>; 4], plan: u64) -> Option<Clause> {
    let leader = leader(v, 4);
    let id = (leader + 1) % 4;
    let mut frames: Vec<Frame> = Vec::new();
    for (sender, reports) in (0..).zip(proofs) {
        frames.extend(reports.map(|reports| proof(sender, v, reports)));
    }
    let record = record_with(4, 1, id, 99, v, &frames);
    let proposal = proposal(leader, v, plan);
    let done = vault::frame(&record, leader, &reference::frame::write(&proposal)).expect("taken");
    let expected: &[Entry] = &[Entry::All(vote(1, id, v, plan))];
    assert_eq!(done.entries, if done.clause.is_some() { expected } else { &[] });
    assert_eq!(Vault::of(&record).take(&proposal), done.entries);
    done.clause
}

#[test]
fn m1_64_vaults_with_21_faults_start() {
    assert!(Vault::blank().start(64, 21, 63, 7, 0).is_ok());
}

#[test]
fn m2_22_faults_give_6() {
    assert_eq!(Vault::blank().start(64, 22, 63, 7, 0), Err(6));
}

#[test]
fn m3_three_vaults_give_5() {
    assert_eq!(Vault::blank().start(3, 1, 0, 0, 0), Err(5));
}

#[test]
fn m4_three_proofs_without_lock() {
    let proofs = [Some(NONE), None, Some(NONE), Some(NONE)];
    for plan in [0, A, B, u64::MAX] {
        assert_eq!(safe(1, &proofs, plan), Some(Clause::NoLock));
    }
    // two are no quorum
    assert_eq!(safe(1, &[Some(NONE), None, None, Some(NONE)], A), None);
}

#[test]
fn m5_one_lock_of_three() {
    let proofs = [Some([None, None, rep(0, A)]), Some(NONE), Some(NONE), None];
    assert_eq!(safe(1, &proofs, A), Some(Clause::OneSet { at: 0 }));
    assert_eq!(safe(1, &proofs, B), None);
}

#[test]
fn m6_a_fourth_proof_without_lock() {
    let proofs = [Some([None, None, rep(0, A)]), Some(NONE), Some(NONE), Some(NONE)];
    assert_eq!(safe(1, &proofs, B), Some(Clause::NoLock));
    assert!(safe(1, &proofs, A).is_some());
}

/// M7 to M10, view 3: vaults 0 and 1 report highest (1, a), 2 and 3 (2, b), no previous; 0 and 2
/// have lock (1, c).
const M7_TO_M10: [Option<Reports>; 4] = [
    Some([Some(AT_1), None, Some(LOCK)]),
    Some([Some(AT_1), None, None]),
    Some([Some(AT_2), None, Some(LOCK)]),
    Some([Some(AT_2), None, None]),
];
use reference::frame::Report;
const AT_1: Report = Report { view: 1, plan: A };
const AT_2: Report = Report { view: 2, plan: B };
const LOCK: Report = Report { view: 1, plan: C };

#[test]
fn m7_c_by_the_two_set_clause() {
    assert_eq!(safe(3, &M7_TO_M10, C), Some(Clause::TwoSets { at: 1 }));
    // Rule 1 has no such clause
    assert_eq!(safe_by_both(Rule::One, &of_four(3, &M7_TO_M10), C), None);
}

#[test]
fn m8_b_at_2() {
    assert_eq!(safe(3, &M7_TO_M10, B), Some(Clause::OneSet { at: 2 }));
}

#[test]
fn m9_a_not_safe() {
    assert_eq!(safe(3, &M7_TO_M10, A), None);
}

#[test]
fn m10_d_not_safe() {
    assert_eq!(safe(3, &M7_TO_M10, D), None);
}

#[test]
fn m11_two_votes_are_no_quorum_three_are() {
    for number in 1..=4 {
        // vault 3 has not voted in view 0: no proposal came
        let mut vault = Vault::started(4, 1, 3, 9);
        assert_eq!(vault.take(&vote(number, 0, 0, 7)), []);
        assert_eq!(vault.take(&vote(number, 1, 0, 7)), []);
        let entries = vault.take(&vote(number, 2, 0, 7));
        let expected = match number {
            4 => Entry::Decision { view: 0, plan: 7 },
            _ => Entry::All(vote(number + 1, 3, 0, 7)),
        };
        assert_eq!(entries, [expected]);
    }
    // votes for different plans are not added up
    for number in 1..=4 {
        let mut vault = Vault::started(4, 1, 3, 9);
        assert_eq!(vault.take(&vote(number, 0, 0, 7)), []);
        assert_eq!(vault.take(&vote(number, 1, 0, 7)), []);
        assert_eq!(vault.take(&vote(number, 2, 0, 8)), []);
    }
}

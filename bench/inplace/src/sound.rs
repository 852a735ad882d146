//! Whether a record is sound, and which slots are present.

use crate::layout::*;
use crate::scan::{absent, found, marks};

/// Which slots are present: bit s of a word is the row's slot s.
#[derive(Default)]
pub struct Present {
    pub changes: u64,
    pub rows: [u64; ROWS],
    pub last: u8,
}

/// Refusals 5 to 8, 0 where none is given.
#[inline]
pub fn settings([n, f, id, class]: [u8; 4]) -> u8 {
    if !(4..=64).contains(&n) {
        5
    } else if f == 0 || 3 * u32::from(f) >= u32::from(n) {
        6
    } else if id >= n {
        7
    } else if class > 7 {
        8
    } else {
        0
    }
}

/// The present slots of a row; absent ones are zero, as are all from n on. None where they are not.
#[inline(always)]
fn present_in(row: &Row, n: usize) -> Option<u64> {
    // Most rows are full or empty: a mark at the front tells which is to be expected.
    if row[0].mark | row[1].mark == 0 && absent(row) {
        return Some(0);
    }
    let mut all = 0;
    let present = marks(row, n, &mut all);
    if all > 1 || !absent(&row[n..]) {
        return None;
    }
    let mut missing = !present & (u64::MAX >> (64 - n));
    while missing != 0 {
        let first = missing.trailing_zeros() as usize;
        let count = (!(missing >> first)).trailing_zeros() as usize;
        if !absent(&row[first..first + count]) {
            return None;
        }
        missing =
            missing.checked_shr((first + count) as u32).map_or(0, |rest| rest << (first + count));
    }
    Some(present)
}

/// The marks, the absent slots, and the rows from n on.
#[inline(always)]
fn presence(rec: &Record, n: usize) -> Option<Present> {
    let mut present = Present { changes: present_in(&rec.changes, n)?, ..Present::default() };
    for (bits, row) in present.rows.iter_mut().zip(&rec.rows) {
        *bits = present_in(row, n)?;
    }
    for (s, slot) in rec.last.iter().enumerate() {
        if slot.mark > 1 || slot.mark == 0 && !absent(std::slice::from_ref(slot)) {
            return None;
        }
        present.last |= slot.mark << s;
    }
    Some(present)
}

/// The kept suggests or proofs: a view above 0, no plan, reports below the view, each previous vote
/// below the highest and for another plan. A mark is 1 where a slot is present, and an absent slot
/// is zero: `x + mark <= y` then asks nothing of it.
#[inline(always)]
fn reports(rec: &Record, present: &Present, row: usize, n: usize) -> bool {
    let first = reports_of(row);
    let [high, previous, lock] =
        [present.rows[first], present.rows[first + 1], present.rows[first + 2]];
    if (high | lock) & !present.rows[row] != 0 || previous & !high != 0 {
        return false;
    }
    let frames = &rec.rows[row];
    let [highs, previous_votes, locks] =
        [&rec.rows[first], &rec.rows[first + 1], &rec.rows[first + 2]];
    let wrong = |s: usize| {
        let (frame, high, previous) = (&frames[s], &highs[s], &previous_votes[s]);
        let reported = high.wide_view().max(locks[s].wide_view());
        let late = reported + u64::from(frame.mark) > frame.wide_view();
        let order = previous.wide_view() + u64::from(previous.mark) > high.wide_view();
        let same = (previous.mark != 0) & (previous.raw_plan() == high.raw_plan());
        u64::from(late | order | same) | frame.raw_plan()
    };
    found(present.rows[row], n, wrong) == 0
}

/// The own previous vote-1 (0) or vote-2 (1) against the own kept one.
#[inline(always)]
fn previous(rec: &Record, present: &Present, id: usize, vote: usize) -> bool {
    let (before, kept) = (&rec.last[vote], &rec.rows[VOTES_1 + vote][id]);
    present.last >> vote & 1 == 0
        || kept.mark == 1 && before.view() < kept.view() && before.raw_plan() != kept.raw_plan()
}

/// Proposals from their leaders, view-changes above view 0 and without plan, suggests for views
/// that this vault leads.
#[inline(always)]
fn frames(rec: &Record, present: &Present, n: usize, id: usize) -> bool {
    let (proposals, suggests) = (&rec.rows[PROPOSALS], &rec.rows[SUGGESTS]);
    let not_leaders = |s: usize| {
        let proposal = &proposals[s];
        u64::from((proposal.mark != 0) & (leader(proposal.view(), n) != s))
    };
    let wrong_change = |s: usize| {
        let change = &rec.changes[s];
        u64::from((change.mark != 0) & (change.raw_view() == 0)) | change.raw_plan()
    };
    let not_for_us = |s: usize| {
        let suggest = &suggests[s];
        u64::from((suggest.mark != 0) & (leader(suggest.view(), n) != id))
    };
    found(present.rows[PROPOSALS], n, not_leaders)
        | found(present.changes, n, wrong_change)
        | found(present.rows[SUGGESTS], n, not_for_us)
        == 0
}

/// The present slots of a sound record that is not blank.
#[inline]
pub fn present(rec: &Record) -> Option<Present> {
    if settings([rec.n, rec.f, rec.id, rec.class]) != 0 {
        return None;
    }
    let (n, id) = (usize::from(rec.n) & 127, usize::from(rec.id) & 63);
    let present = presence(rec, n)?;
    // An absent slot has view 0.
    let own = rec.rows[..=VOTES_4].iter().all(|row| row[id].view() <= rec.view());
    let good = own
        && frames(rec, &present, n, id)
        && reports(rec, &present, SUGGESTS, n)
        && reports(rec, &present, PROOFS, n)
        && previous(rec, &present, id, 0)
        && previous(rec, &present, id, 1);
    good.then_some(present)
}

//! Remnants (document 02, wish 6): a record's settings, view, plan, own row and last slots.

use crate::layout::*;
use crate::sound;

const HEAD: usize = 16;
const SLOT: usize = 13;
const SLOTS: usize = 17;
pub const SIZE: usize = HEAD + SLOTS * SLOT;

/// The rows of a remnant's first slots: kinds 1 to 5, then the view-change, which has a row apart.
const VOTED: [usize; 5] = [PROPOSALS, VOTES_1, VOTES_2, VOTES_3, VOTES_4];
const CHANGE: usize = VOTED.len();
/// Suggest, proof and their reports, as they follow each other in a remnant.
const REPORTED: [usize; 8] = [SUGGESTS, PROOFS, 7, 8, 9, 10, 11, 12];
const LAST: usize = CHANGE + 1 + REPORTED.len();

/// The bytes of slot i.
#[inline(always)]
fn slot(remnant: &[u8; SIZE], i: usize) -> Slot {
    let mut bytes = [0; SLOT];
    bytes.copy_from_slice(&remnant[HEAD + SLOT * i..][..SLOT]);
    Slot::from_bytes(&bytes)
}

/// The remnant of a sound record.
#[inline(always)]
pub fn write(rec: &Record, out: &mut [u8; SIZE]) {
    let id = usize::from(rec.id) & 63;
    let mut put = |i: usize, slot: &Slot| {
        out[HEAD + SLOT * i..][..SLOT].copy_from_slice(&slot.bytes());
    };
    for (i, row) in VOTED.into_iter().enumerate() {
        put(i, &rec.rows[row][id]);
    }
    put(CHANGE, &rec.changes[id]);
    for (i, row) in REPORTED.into_iter().enumerate() {
        put(CHANGE + 1 + i, &rec.rows[row][id]);
    }
    for (i, last) in rec.last.iter().enumerate() {
        put(LAST + i, last);
    }
    out[..HEAD].copy_from_slice(&rec.head());
}

/// Places a remnant's contents in a record of zeros. None, and nothing placed, where its settings
/// are refused: there may be no such row.
#[inline(always)]
pub fn read(remnant: &[u8; SIZE], rec: &mut Record) -> Option<()> {
    let mut head = [0; HEAD];
    head.copy_from_slice(&remnant[..HEAD]);
    let [n, f, id, class, ..] = head;
    if sound::settings([n, f, id, class]) != 0 {
        return None;
    }
    rec.set_head(&head);
    let id = usize::from(id) & 63;
    for (i, row) in VOTED.into_iter().enumerate() {
        rec.rows[row][id] = slot(remnant, i);
    }
    rec.changes[id] = slot(remnant, CHANGE);
    for (i, row) in REPORTED.into_iter().enumerate() {
        rec.rows[row][id] = slot(remnant, CHANGE + 1 + i);
    }
    for (i, last) in rec.last.iter_mut().enumerate() {
        *last = slot(remnant, LAST + i);
    }
    Some(())
}

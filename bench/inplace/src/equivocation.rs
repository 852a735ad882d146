//! The vaults that spoke twice, over records that lie end to end (document 02, wish 5). Every pair
//! of votes is compared where it lies. For 64 records that agree this is not the quickest way: one
//! pass that keeps the views seen so far, each with its plan, does not grow with the pairs.

use crate::layout::*;
use crate::sound;

const FEWEST: usize = 2;
const MOST: usize = 64;

/// The records, where they are 2 to 64, all sound, of one n and one f, and of the lengths told.
#[inline(always)]
pub fn collected<'a>(records: &'a [u8], lengths: &[u32]) -> Option<&'a [Record]> {
    let records = Record::end_to_end(records)?;
    let fits = |&length: &u32| length as usize == SIZE;
    if !(FEWEST..=MOST).contains(&lengths.len())
        || records.len() != lengths.len()
        || !lengths.iter().all(fits)
    {
        return None;
    }
    let first = &records[0];
    let alike = |rec: &Record| rec.n == first.n && rec.f == first.f;
    // A blank record's n does not pass.
    records.iter().all(|rec| sound::present(rec).is_some() && alike(rec)).then_some(records)
}

/// Whether two slots of one kind and sender hold votes of one view for different plans.
#[inline(always)]
fn differ(one: &Slot, other: &Slot) -> bool {
    one.mark & other.mark == 1
        && one.raw_view() == other.raw_view()
        && one.raw_plan() != other.raw_plan()
}

/// Whether slot s of a row differs in any two of the records.
#[inline(always)]
fn differs(records: &[Record], row: usize, s: usize) -> bool {
    records.iter().enumerate().any(|(i, rec)| {
        let vote = rec.rows[row][s];
        records[..i].iter().any(|earlier| differ(&vote, &earlier.rows[row][s]))
    })
}

/// Whether vault s has two different votes of one kind and view in the records.
#[inline(always)]
pub fn spoke_twice(records: &[Record], s: usize) -> bool {
    (VOTES_1..=VOTES_4).any(|row| differs(records, row, s))
}

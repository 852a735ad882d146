//! Equivocation (document 02, wish 5): which vaults appear in a list of records "with two different
//! plans for one view and one kind, kept vote frames only".

use crate::calls::check_output;
use crate::frame::{Frame, VOTE_1, VOTE_4};
use crate::record::{self, Lent, Record, VAULTS};

/// "the desk collects 2 to 64 vault records"
pub const MOST_RECORDS: usize = 64;

/// The call over lent bytes: records end to end, and the length of each. It writes "one byte for
/// each named vault, by rising number", and gives their count.
pub fn equivocators(records: &[u8], lengths: &[u32], out: &mut [u8]) -> Result<usize, u8> {
    // 1: "space below 256 bytes (though at most 64 are written)"
    check_output(out)?;
    let given: Vec<Lent> = apart(records, lengths)?.into_iter().map(record::classify).collect();
    let named = named_in(&given)?;
    out[..named.len()].copy_from_slice(&named);
    Ok(named.len())
}

/// The bytes of each record. "Lengths that don't add up to the slice give 24"; the count is asked
/// first, so that a long list of lengths is not added up.
fn apart<'a>(records: &'a [u8], lengths: &[u32]) -> Result<Vec<&'a [u8]>, u8> {
    check_count(lengths.len())?;
    // "their sum may be beyond 32 bits"
    let sum: u64 = lengths.iter().map(|&length| u64::from(length)).sum();
    if sum != records.len() as u64 {
        return Err(24);
    }
    let mut rest = records;
    let mut parts = Vec::new();
    for &length in lengths {
        let (part, after) = rest.split_at(length as usize);
        parts.push(part);
        rest = after;
    }
    Ok(parts)
}

/// 24: "fewer than 2 or more than 64 records"
fn check_count(count: usize) -> Result<(), u8> {
    if !(2..=MOST_RECORDS).contains(&count) {
        return Err(24);
    }
    Ok(())
}

/// The named vaults by rising number, or 24, from what the records are.
pub fn named_in<'a>(given: impl IntoIterator<Item = &'a Lent>) -> Result<Vec<u8>, u8> {
    let contents = |lent: &'a Lent| match lent {
        Lent::Sound(record) => Some(record),
        Lent::Blank | Lent::Unsound => None,
    };
    named_by_contents(&given.into_iter().map(contents).collect::<Vec<_>>())
}

/// `named_in` over the contents alone; None stands for a record that is blank or unsound.
pub fn named_by_contents(given: &[Option<&Record>]) -> Result<Vec<u8>, u8> {
    check_count(given.len())?;
    // 24: "some record is blank or unsound, a wrong length included"
    let Some(records) = given.iter().copied().collect::<Option<Vec<&Record>>>() else {
        return Err(24);
    };
    // 24: "two of them differ in n or in f"
    let size = |record: &Record| (record.settings.n, record.settings.f);
    if records.iter().any(|record| size(record) != size(records[0])) {
        return Err(24);
    }
    Ok((0..VAULTS as u8).filter(|&vault| equivocated(&records, vault)).collect())
}

/// "Vault s is named if two of the records keep in row s, for one kind of 2 to 5, frames of the same
/// view with different plans."
fn equivocated(records: &[&Record], vault: u8) -> bool {
    (VOTE_1..=VOTE_4).any(|kind| {
        let kept = |record: &&Record| record.kept(vault, kind).copied();
        let votes: Vec<Frame> = records.iter().filter_map(kept).collect();
        let mut firsts = votes.iter().enumerate();
        firsts.any(|(at, one)| votes[at + 1..].iter().any(|other| clash(one, other)))
    })
}

/// Two votes of one vault and one kind.
fn clash(one: &Frame, other: &Frame) -> bool {
    one.view == other.view && one.plan() != other.plan()
}

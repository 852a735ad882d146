//! Remnants (document 02, wish 6): what a host stores of a vault, and the restart from it after a
//! power cut.

use crate::calls::{check_output, check_sound};
use crate::entry::Entry;
use crate::frame::{
    self, number4, number8, parse_report, write_report, Body, Frame, Report, PROOF, PROPOSAL,
    REPORT_LEN, SUGGEST, VIEW_CHANGE, VOTE_4,
};
use crate::record::{self, Record, Settings, State, VAULTS};

// The remnant, big-endian, without gaps:
//   n, f, id, class (1 each), current view (4), starting plan (8),
//   17 slots of 13 bytes, each spelled as a report is (mark, view, plan; absent is all zeros):
//   the own row's frames of kinds 1 to 8, with plan 0 where the kind has none; highest, previous and
//   lock of the own suggest, then those of the own proof; previous vote-1, previous vote-2, decision.

const HEAD_LEN: usize = 16;
const SLOTS: usize = 17;
/// Of the 17 slots, where those begin that are not frames.
const SUGGEST_REPORTS: usize = 8;
const PROOF_REPORTS: usize = 11;
const PREVIOUS_VOTE_1: usize = 14;
const PREVIOUS_VOTE_2: usize = 15;
const DECISION: usize = 16;

/// "Write a remnant of fixed length"
pub const REMNANT_SIZE: usize = HEAD_LEN + SLOTS * REPORT_LEN;

/// What the slots spell, each as a report.
type Slots = [Option<Report>; SLOTS];

/// The remnant of a sound record, at the start of the output; gives its length.
pub fn write_remnant(rec: &[u8], out: &mut [u8]) -> Result<usize, u8> {
    // 1: "for space below the remnant's length"
    if out.len() < REMNANT_SIZE {
        return Err(1);
    }
    let mut record = Record::empty();
    check_sound(rec, &mut record)?;
    out[..REMNANT_SIZE].copy_from_slice(&remnant_of(&record));
    Ok(REMNANT_SIZE)
}

/// "A restart makes a record with that row and no others, and a timer entry; it sends no frame."
pub fn restart(rec: &mut [u8], remnant: &[u8], out: &mut [u8]) -> Result<usize, u8> {
    check_output(out)?;
    // 4: the record is not blank
    if record::classify_into(rec, &mut Record::empty()) != State::Blank {
        return Err(4);
    }
    // 25: "wrong length"
    if remnant.len() != REMNANT_SIZE {
        return Err(25);
    }
    // 26: "unsound content"
    let Some(record) = record_of(remnant) else {
        return Err(26);
    };
    record::encode_into(&record, rec);
    let millis = record.settings.timer_millis();
    Ok(Entry::Timer { view: record.view, millis }.write_into(out))
}

/// The remnant of a sound record's contents.
pub fn remnant_of(record: &Record) -> [u8; REMNANT_SIZE] {
    let mut bytes = [0; REMNANT_SIZE];
    let Settings { n, f, id, class } = record.settings;
    bytes[..4].copy_from_slice(&[n, f, id, class]);
    bytes[4..8].copy_from_slice(&record.view.to_be_bytes());
    bytes[8..16].copy_from_slice(&record.start_plan.to_be_bytes());
    let slots = slots_of(record);
    for (slot, place) in slots.into_iter().zip(bytes[HEAD_LEN..].chunks_exact_mut(REPORT_LEN)) {
        write_report(slot, place);
    }
    bytes
}

fn slots_of(record: &Record) -> Slots {
    let mut slots = [None; SLOTS];
    for kind in PROPOSAL..=PROOF {
        let slot = |own: &Frame| Report { view: own.view, plan: own.plan().unwrap_or(0) };
        slots[usize::from(kind - 1)] = record.own(kind).map(slot);
    }
    let reports = |kind| record.own(kind).and_then(Frame::reports).unwrap_or([None; 3]);
    slots[SUGGEST_REPORTS..PROOF_REPORTS].copy_from_slice(&reports(SUGGEST));
    slots[PROOF_REPORTS..PREVIOUS_VOTE_1].copy_from_slice(&reports(PROOF));
    slots[PREVIOUS_VOTE_1] = record.previous_vote1;
    slots[PREVIOUS_VOTE_2] = record.previous_vote2;
    slots[DECISION] = record.decision;
    slots
}

/// The record that a remnant makes. None: another length, or what 26 refuses.
pub fn record_of(remnant: &[u8]) -> Option<Record> {
    if remnant.len() != REMNANT_SIZE {
        return None;
    }
    let settings = Settings { n: remnant[0], f: remnant[1], id: remnant[2], class: remnant[3] };
    // "The id may be 255: test the settings before placing slots." An n of 0 fails here too.
    settings.check().ok()?;
    let slots = parse_slots(&remnant[HEAD_LEN..])?;
    let mut record = Record::new(settings, number8(&remnant[8..16]));
    record.view = number4(&remnant[4..8]);
    for kind in PROPOSAL..=PROOF {
        if let Some(own) = own_frame(kind, settings.id, &slots)? {
            record.keep(own);
        }
    }
    record.previous_vote1 = slots[PREVIOUS_VOTE_1];
    record.previous_vote2 = slots[PREVIOUS_VOTE_2];
    record.decision = slots[DECISION];
    record.sound().then_some(record)
}

/// None where a mark is neither 0 nor 1, or an absent slot has a nonzero byte.
fn parse_slots(bytes: &[u8]) -> Option<Slots> {
    let mut slots = [None; SLOTS];
    for (slot, place) in slots.iter_mut().zip(bytes.chunks_exact(REPORT_LEN)) {
        *slot = parse_report(place)?;
    }
    Some(slots)
}

/// The own frame of a kind, or that none is kept; None where the slots spell neither.
fn own_frame(kind: u8, id: u8, slots: &Slots) -> Option<Option<Frame>> {
    let reports = own_reports(kind, slots);
    let Some(slot) = slots[usize::from(kind - 1)] else {
        // Reports without their frame are no part of any record.
        return (reports == [None; 3]).then_some(None);
    };
    let body = match kind {
        PROPOSAL..=VOTE_4 => Body::Plan(slot.plan),
        // A view-change, a suggest and a proof have no plan.
        _ if slot.plan != 0 => return None,
        VIEW_CHANGE => Body::Empty,
        _ => Body::Reports(reports),
    };
    Some(Some(Frame { kind, sender: id, view: slot.view, body }))
}

/// Highest, previous and lock of the own suggest or proof; no other kind has any.
fn own_reports(kind: u8, slots: &Slots) -> [Option<Report>; 3] {
    let first = match kind {
        SUGGEST => SUGGEST_REPORTS,
        PROOF => PROOF_REPORTS,
        _ => return [None; 3],
    };
    [slots[first], slots[first + 1], slots[first + 2]]
}

/// The record with its own row and no others: what a restart from its remnant leaves.
pub fn alone(record: &Record) -> Record {
    let own = usize::from(record.settings.id);
    let mut rows = [[None; frame::KINDS]; VAULTS];
    rows[own] = record.rows[own];
    Record { rows, ..record.clone() }
}

//! Records by contents, in the byte layout of the Rattle vault: 11,703 bytes, big-endian, in two parts with a head of 8 bytes each.
//! The shared part: n, f, id, class (1 each), view (4), then slots 0 to 63. The block: starting plan (8), then slots 64 to 898.
//! A slot has 13 bytes: mark (1), view (4), plan (8). The kept frame of kind k and sender s is slot (k + 2) mod 8 * 64 + s, so that the
//! view-changes come first; report j of a kept suggest or proof is slot 512 + (k - 7) * 192 + j * 64 + s; the own previous vote-1 and
//! vote-2 are slots 896 and 897, the decision is slot 898.
use reference::frame::{Body, Frame, Report};
use reference::record::{Record, Settings};
use reference::rng::Rng;
use reference::{calls, record, scripts};

use crate::text::bytes_of;

pub const LEN: usize = 11_703;
pub const SLOTS: usize = 899;
pub const ROWS: usize = 64;
pub const HEAD: usize = 8;
pub const SLOT: usize = 13;
/// The length of the shared part: the block begins here, with the starting plan.
pub const SHARED: usize = HEAD + ROWS * SLOT;
/// The slots of the own previous vote-1 and vote-2.
pub const PREVIOUS: [usize; 2] = [896, 897];
pub const DECISION: usize = 898;

pub fn frame_slot(kind: usize, sender: usize) -> usize {
    (kind + 2) % 8 * ROWS + sender
}

pub fn report_slot(kind: usize, which: usize, sender: usize) -> usize {
    512 + (kind - 7) * 192 + which * ROWS + sender
}

/// Where a slot's bytes stand: mark, view, plan.
pub fn place(slot: usize) -> usize {
    if slot < ROWS {
        HEAD + SLOT * slot
    } else {
        SHARED + HEAD + SLOT * (slot - ROWS)
    }
}

pub fn put(bytes: &mut [u8], slot: usize, mark: u8, view: u32, plan: u64) {
    let bytes = &mut bytes[place(slot)..][..SLOT];
    bytes[0] = mark;
    bytes[1..5].copy_from_slice(&view.to_be_bytes());
    bytes[5..].copy_from_slice(&plan.to_be_bytes());
}

/// A slot's mark, view and plan.
pub fn get(bytes: &[u8], slot: usize) -> (u8, u32, u64) {
    let bytes = &bytes[place(slot)..][..SLOT];
    (bytes[0], u32::from_be_bytes(bytes[1..5].try_into().unwrap()), u64::from_be_bytes(bytes[5..].try_into().unwrap()))
}

/// The settings, current view, starting plan of a record in which nothing is kept.
pub fn fresh([n, f, id, class]: [u8; 4], view: u32, plan: u64) -> Vec<u8> {
    let mut bytes = vec![0; LEN];
    bytes[..4].copy_from_slice(&[n, f, id, class]);
    bytes[4..8].copy_from_slice(&view.to_be_bytes());
    bytes[SHARED..][..8].copy_from_slice(&plan.to_be_bytes());
    bytes
}

fn put_report(bytes: &mut [u8], slot: usize, report: Option<Report>) {
    if let Some(report) = report {
        put(bytes, slot, 1, report.view, report.plan);
    }
}

/// The bytes that spell the contents.
pub fn spell(record: &Record) -> Vec<u8> {
    let Settings { n, f, id, class } = record.settings;
    let mut bytes = fresh([n, f, id, class], record.view, record.start_plan);
    for (sender, row) in record.rows.iter().enumerate() {
        for (place, frame) in row.iter().enumerate() {
            let Some(frame) = frame else { continue };
            let kind = place + 1;
            put(&mut bytes, frame_slot(kind, sender), 1, frame.view, frame.plan().unwrap_or(0));
            for (which, report) in frame.reports().into_iter().flatten().enumerate() {
                put_report(&mut bytes, report_slot(kind, which, sender), report);
            }
        }
    }
    put_report(&mut bytes, PREVIOUS[0], record.previous_vote1);
    put_report(&mut bytes, PREVIOUS[1], record.previous_vote2);
    put_report(&mut bytes, DECISION, record.decision);
    bytes
}

/// A slot's contents; None where its mark is neither 0 nor 1, or it is absent with a nonzero byte.
fn slot(bytes: &[u8], at: usize) -> Option<Option<Report>> {
    match get(bytes, at) {
        (0, 0, 0) => Some(None),
        (1, view, plan) => Some(Some(Report { view, plan })),
        _ => None,
    }
}

/// The frame that is kept for a kind and a sender; None where its slots spell neither a frame nor that there is none.
fn kept(bytes: &[u8], kind: usize, sender: usize) -> Option<Option<Frame>> {
    let told = match kind {
        7 | 8 => {
            let report = |which| slot(bytes, report_slot(kind, which, sender));
            [report(0)?, report(1)?, report(2)?]
        }
        _ => [None; 3],
    };
    let Some(head) = slot(bytes, frame_slot(kind, sender))? else {
        return (told == [None; 3]).then_some(None);
    };
    let body = match kind {
        1..=5 => Body::Plan(head.plan),
        6 => Body::Empty,
        _ => Body::Reports(told),
    };
    (kind < 6 || head.plan == 0).then_some(Some(Frame { kind: kind as u8, sender: sender as u8, view: head.view, body }))
}

/// The contents that bytes of the right length spell; None where some slot spells nothing.
pub fn contents(bytes: &[u8]) -> Option<Record> {
    let settings = Settings { n: bytes[0], f: bytes[1], id: bytes[2], class: bytes[3] };
    let mut record = Record::new(settings, u64::from_be_bytes(bytes[SHARED..][..8].try_into().unwrap()));
    record.view = u32::from_be_bytes(bytes[4..8].try_into().unwrap());
    for kind in 1..=8 {
        for sender in 0..ROWS {
            record.rows[sender][kind - 1] = kept(bytes, kind, sender)?;
        }
    }
    record.previous_vote1 = slot(bytes, PREVIOUS[0])?;
    record.previous_vote2 = slot(bytes, PREVIOUS[1])?;
    record.decision = slot(bytes, DECISION)?;
    Some(record)
}

#[derive(Clone, Copy, PartialEq, Eq, Debug)]
pub enum Class {
    Blank,
    Sound,
    Unsound,
}

/// Document 01, 'What a vault keeps', for this layout: every string of the right length spells a record.
pub fn class(bytes: &[u8]) -> Class {
    if bytes.len() != LEN {
        return Class::Unsound;
    }
    if bytes[0] == 0 {
        return Class::Blank;
    }
    match contents(bytes) {
        // The reference's own test needs a row for the vault itself.
        Some(record) if record.settings.check().is_ok() && record.sound() => Class::Sound,
        _ => Class::Unsound,
    }
}

/// Changes one byte of a place that matters: bytes of the right length mostly stay sound or are just no longer so.
pub fn damage(rng: &mut Rng, bytes: &mut [u8]) {
    let kept: Vec<usize> = (0..SLOTS).filter(|&slot| bytes[place(slot)] == 1).collect();
    let slot = if kept.is_empty() || rng.below(3) == 0 { rng.below(SLOTS as u64) as usize } else { rng.pick(&kept) };
    let (mark, view, plan) = (place(slot), place(slot) + 1, place(slot) + 5);
    let at = match rng.below(9) {
        0 => rng.below(LEN as u64) as usize,
        1 => rng.below(HEAD as u64) as usize,
        2 => SHARED + rng.below(HEAD as u64) as usize,
        3 => mark,
        4 | 5 => view + 3,
        6 => view + rng.below(4) as usize,
        _ => plan + 7,
    };
    bytes[at] = match rng.below(4) {
        0 => bytes[at].wrapping_add(1),
        1 => bytes[at].wrapping_sub(1),
        2 => rng.below(6) as u8,
        _ => rng.next() as u8,
    };
}

/// Records that accepted calls leave, from line scripts that drive a vault through views.
pub fn reached(first_seed: u64, scripts: u64) -> Vec<Record> {
    let mut records = Vec::new();
    for seed in first_seed..first_seed + scripts {
        let mut lent = vec![0; record::RECORD_LEN];
        let mut out = [0; 256];
        for line in scripts::script(seed).split(|&byte| byte == b'\n') {
            let Some(bytes) = bytes_of(line) else { continue };
            let answer = match bytes.first() {
                Some(0) if bytes.len() == 13 => {
                    let plan = u64::from_be_bytes(bytes[5..].try_into().unwrap());
                    calls::start(&mut lent, bytes[1], bytes[2], bytes[3], bytes[4], plan, &mut out)
                }
                Some(9) if bytes.len() == 5 => calls::timer(&mut lent, u32::from_be_bytes(bytes[1..].try_into().unwrap()), &mut out),
                Some(1..=8) if bytes.len() > 1 => calls::frame(&mut lent, bytes[1], &bytes, &mut out),
                _ => Err(0),
            };
            if answer.is_ok() {
                records.extend(record::decode(&lent));
            }
        }
    }
    records
}

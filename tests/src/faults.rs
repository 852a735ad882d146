//! What is wrong with a remnant, each fault by its name, told from its bytes alone.
use reference::frame::leader;

use crate::records::SLOT;

/// The slots of a remnant, in their order.
pub const SLOTS: [&str; 17] = [
    "proposal",
    "vote-1",
    "vote-2",
    "vote-3",
    "vote-4",
    "view-change",
    "suggest",
    "proof",
    "suggest's highest",
    "suggest's previous",
    "suggest's lock",
    "proof's highest",
    "proof's previous",
    "proof's lock",
    "previous vote-1",
    "previous vote-2",
    "decision",
];
const HEAD: usize = 16;
/// Frames without a plan, and frames that may not be above the current view.
const PLANLESS: [usize; 3] = [5, 6, 7];
const BOUND: [usize; 7] = [0, 1, 2, 3, 4, 6, 7];
/// Reports with their frames.
const REPORTS: [(usize, usize); 6] = [(8, 6), (9, 6), (10, 6), (11, 7), (12, 7), (13, 7)];
/// Previous votes with their highest.
const PREVIOUS: [(usize, usize); 4] = [(9, 8), (12, 11), (14, 1), (15, 2)];

/// Where a slot's bytes stand: mark, view, plan.
pub fn place(slot: usize) -> usize {
    HEAD + SLOT * slot
}

pub fn put(remnant: &mut [u8], slot: usize, view: u32, plan: u64) {
    remnant[place(slot)] = 1;
    remnant[place(slot) + 1..][..4].copy_from_slice(&view.to_be_bytes());
    remnant[place(slot) + 5..][..8].copy_from_slice(&plan.to_be_bytes());
}

pub fn current_view(remnant: &[u8]) -> u32 {
    number(&remnant[4..8]) as u32
}

fn number(bytes: &[u8]) -> u64 {
    bytes.iter().fold(0, |number, &byte| number << 8 | u64::from(byte))
}

/// View and plan of a slot whose mark is not 0.
pub fn kept(remnant: &[u8], slot: usize) -> Option<(u32, u64)> {
    let bytes = &remnant[place(slot)..][..SLOT];
    (bytes[0] != 0).then(|| (number(&bytes[1..5]) as u32, number(&bytes[5..])))
}

/// The first of 5 to 8.
fn settings(remnant: &[u8]) -> Vec<String> {
    let fault = match remnant[..4] {
        [0, ..] => "n is 0",
        [1..=3, ..] => "n below 4",
        [65..=255, ..] => "n above 64",
        [_, 0, ..] => "f is 0",
        [n, f, ..] if 3 * u32::from(f) >= u32::from(n) => "3f not below n",
        [_, _, 255, _] => "id 255",
        [_, _, 64..=254, _] => "id above 63",
        [n, _, id, _] if id >= n => "id not below n",
        [_, _, _, 8..=255] => "class above 7",
        _ => return Vec::new(),
    };
    vec![fault.into()]
}

fn spelling(remnant: &[u8]) -> Vec<String> {
    let fault = |slot: usize| match &remnant[place(slot)..][..SLOT] {
        [0, rest @ ..] => rest.iter().any(|&byte| byte != 0).then(|| format!("left-over bytes of {}", SLOTS[slot])),
        [mark, ..] => (*mark > 1).then(|| format!("mark of {}", SLOTS[slot])),
        [] => None,
    };
    (0..SLOTS.len()).filter_map(fault).collect()
}

fn frames(remnant: &[u8]) -> Vec<String> {
    let (n, id, current) = (remnant[0], remnant[2], current_view(remnant));
    let mut faults = Vec::new();
    let mut note = |wrong: bool, fault: String| faults.extend(wrong.then_some(fault));
    for slot in PLANLESS {
        let (view, plan) = kept(remnant, slot).unwrap_or((1, 0));
        note(view == 0, format!("view 0 in {}", SLOTS[slot]));
        note(plan != 0, format!("plan in {}", SLOTS[slot]));
    }
    for slot in BOUND {
        note(kept(remnant, slot).is_some_and(|(view, _)| view > current), format!("{} above the current view", SLOTS[slot]));
    }
    for slot in [0, 6] {
        note(kept(remnant, slot).is_some_and(|(view, _)| leader(view, n) != id), format!("{} of another's view", SLOTS[slot]));
    }
    faults
}

fn reports(remnant: &[u8]) -> Vec<String> {
    let fault = |(report, frame): (usize, usize)| match (kept(remnant, report)?, kept(remnant, frame)) {
        (_, None) => Some(format!("{} without its frame", SLOTS[report])),
        ((at, _), Some((view, _))) => (at >= view).then(|| format!("{} not below its frame", SLOTS[report])),
    };
    REPORTS.into_iter().filter_map(fault).collect()
}

fn previous(remnant: &[u8]) -> Vec<String> {
    let fault = |(previous, highest): (usize, usize)| {
        let name = SLOTS[previous];
        match (kept(remnant, previous)?, kept(remnant, highest)) {
            (_, None) => Some(format!("{name} without its highest")),
            ((at, _), Some((view, _))) if at >= view => Some(format!("{name} not below its highest")),
            ((_, plan), Some((_, same))) => (plan == same).then(|| format!("{name} for its highest's plan")),
        }
    };
    PREVIOUS.into_iter().filter_map(fault).collect()
}

/// All faults of a remnant of the right length: wrong settings, else wrong spelling, else what makes no sound record.
pub fn faults(remnant: &[u8]) -> Vec<String> {
    let first = |faults: Vec<String>, next: fn(&[u8]) -> Vec<String>| if faults.is_empty() { next(remnant) } else { faults };
    let contents = |remnant: &[u8]| [frames(remnant), reports(remnant), previous(remnant)].concat();
    first(first(settings(remnant), spelling), contents)
}

/// The faults that a remnant may have alone: a report without its frame is one of several where it needs a highest.
pub fn all() -> Vec<String> {
    let settings = ["n is 0", "n below 4", "n above 64", "f is 0", "3f not below n", "id not below n", "id above 63", "id 255", "class above 7"];
    let mut all: Vec<String> = settings.map(String::from).into();
    all.extend(SLOTS.iter().flat_map(|slot| [format!("mark of {slot}"), format!("left-over bytes of {slot}")]));
    all.extend(PLANLESS.iter().flat_map(|&slot| [format!("view 0 in {}", SLOTS[slot]), format!("plan in {}", SLOTS[slot])]));
    all.extend(BOUND.map(|slot| format!("{} above the current view", SLOTS[slot])));
    all.extend([0, 6].map(|slot| format!("{} of another's view", SLOTS[slot])));
    let alone = |slot: usize| PREVIOUS.iter().all(|&(previous, _)| previous != slot);
    all.extend(REPORTS.iter().filter(|report| alone(report.0)).map(|report| format!("{} without its frame", SLOTS[report.0])));
    all.extend(REPORTS.iter().filter(|report| alone(report.0)).map(|report| format!("{} not below its frame", SLOTS[report.0])));
    let ways = ["without its highest", "not below its highest", "for its highest's plan"];
    all.extend(PREVIOUS.iter().flat_map(|&(slot, _)| ways.map(|way| format!("{} {way}", SLOTS[slot]))));
    all
}

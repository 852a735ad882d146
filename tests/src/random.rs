//! Random records and calls at them: plans and views are few, so that quorums, blocking sets and every step and refusal come about.
use reference::record::Settings;
use reference::rng::Rng;

use crate::records::{frame_slot, fresh, get, place, put, report_slot, DECISION, LEN, PREVIOUS, SLOT};
use crate::sides::Call;

pub fn plan(rng: &mut Rng) -> u64 {
    match rng.below(12) {
        0 => u64::MAX - rng.below(2),
        1 => rng.next(),
        2..=3 => rng.below(100),
        _ => rng.below(2),
    }
}

/// n and f: small networks often, large ones too.
pub fn size(rng: &mut Rng) -> (u8, u8) {
    let n = match rng.below(4) {
        0 => 4,
        1 => 5 + rng.below(6),
        2 => 64 - rng.below(3),
        _ => 4 + rng.below(61),
    };
    let most = (n - 1) / 3;
    let f = if rng.one_in(3) { 1 + rng.below(most) } else { most };
    (n as u8, f as u8)
}

/// Settings that a start takes.
pub fn settings(rng: &mut Rng) -> [u8; 4] {
    let (n, f) = size(rng);
    let id = if rng.one_in(3) { 0 } else { rng.below(u64::from(n)) as u8 };
    [n, f, id, rng.below(8) as u8]
}

pub fn start(settings: [u8; 4], plan: u64) -> Call {
    let [n, f, id, class] = settings;
    Call::Start { settings: Settings { n, f, id, class }, plan }
}

/// The view that a vault leads, of the round of n views in which a view lies.
fn led_by(vault: u8, n: u8, view: u32) -> u32 {
    let n = u32::from(n.max(1));
    (view - view % n).wrapping_add(u32::from(vault))
}

/// A view below another, mostly close to it.
fn below(rng: &mut Rng, top: u32) -> u32 {
    if rng.one_in(3) {
        rng.below(u64::from(top)) as u32
    } else {
        top - 1 - rng.below(u64::from(top.min(3))) as u32
    }
}

/// Three reports of a frame that pass 14, 21 and 22: each a mark, a view and a plan.
fn reports(rng: &mut Rng, view: u32) -> [(u8, u32, u64); 3] {
    let mut reports = [(0, 0, 0); 3];
    if !rng.one_in(4) && view > 0 {
        let highest = (1, below(rng, view), plan(rng));
        reports[0] = highest;
        if rng.one_in(2) && highest.1 > 0 {
            reports[1] = (1, below(rng, highest.1), highest.2.wrapping_add(1 + rng.below(2)));
        }
    }
    if rng.one_in(2) && view > 0 {
        reports[2] = (1, below(rng, view), plan(rng));
    }
    reports
}

/// The 39 bytes of three reports, now and then with up to three faults.
fn report_bytes(rng: &mut Rng, view: u32) -> Vec<u8> {
    let mut reports = reports(rng, view);
    let faults = if rng.one_in(30) { 1 + rng.below(3) } else { 0 };
    for _ in 0..faults {
        let which = rng.below(3) as usize;
        match rng.below(4) {
            0 => reports[which].1 = view,
            1 => reports[1] = reports[0],
            2 => reports[0] = (0, 0, 0),
            _ => reports[which].0 = rng.below(3) as u8,
        }
    }
    let bytes = |(mark, view, plan): (u8, u32, u64)| [&[mark][..], &view.to_be_bytes(), &plan.to_be_bytes()].concat();
    reports.into_iter().flat_map(bytes).collect()
}

/// A frame, mostly one that the reader at vault `id` of n takes.
pub fn frame(rng: &mut Rng, n: u8, id: u8, kind: u8, sender: u8, view: u32, plan: u64) -> Vec<u8> {
    let view = match kind {
        1 if !rng.one_in(30) => led_by(sender, n, view),
        7 if !rng.one_in(30) => led_by(id, n, view),
        _ => view,
    };
    let mut bytes = vec![kind, sender];
    bytes.extend(view.to_be_bytes());
    match kind {
        1..=5 => bytes.extend(plan.to_be_bytes()),
        7 | 8 => bytes.extend(report_bytes(rng, view)),
        _ => {}
    }
    if rng.one_in(100) {
        bytes.resize(rng.below(60) as usize, 1);
    }
    bytes
}

/// Keeps a suggest's or a proof's reports.
fn put_reports(rec: &mut [u8], kind: usize, sender: usize, reports: [(u8, u32, u64); 3]) {
    for (which, (mark, view, plan)) in reports.into_iter().enumerate() {
        put(rec, report_slot(kind, which, sender), mark, view, plan);
    }
}

/// The view of a frame to keep that is usual or close to the current one, if one may be kept there.
fn kept_view(rng: &mut Rng, rec: &[u8], kind: u8, sender: u8, usual: u32) -> Option<u32> {
    let ([n, id], view) = ([rec[0], rec[2]], view_of(rec));
    let round = u32::from(n);
    let close = view.saturating_add(rng.below(4) as u32).saturating_sub(1);
    let mut at = if rng.one_in(5) { close } else { usual };
    match kind {
        1 if rng.one_in(2) && led_by(sender, n, view) == view => at = view,
        1 => at = led_by(sender, n, at.saturating_sub(round)),
        7 if led_by(id, n, view) == view => at = led_by(id, n, at),
        7 => at = led_by(id, n, at.saturating_sub(round)),
        _ => {}
    }
    if sender == id && kind != 6 {
        at = match kind {
            1 => led_by(sender, n, at.min(view).saturating_sub(round)),
            7 => at,
            _ => at.min(view),
        };
    }
    let ahead = sender == id && kind != 6 && at > view;
    (!ahead && (kind < 6 || at > 0)).then_some(at)
}

/// A sound record that no calls need lead to, with frames of a few views and plans.
pub fn sound(rng: &mut Rng) -> Vec<u8> {
    let settings = settings(rng);
    let [n, _, id, _] = settings;
    let view = if rng.one_in(10) { u32::MAX - rng.below(3) as u32 } else { rng.below(3 * u64::from(n)) as u32 };
    let mut rec = fresh(settings, view, plan(rng));
    for kind in 1..=8u8 {
        let full = rng.below(101);
        let (usual_view, usual_plan) = (view.saturating_add(rng.below(3) as u32), plan(rng));
        // View-changes are for scattered views as often as for one.
        let spread = if kind == 6 && rng.one_in(2) { 9 } else { 1 };
        for s in 0..n {
            if rng.below(100) >= full {
                continue;
            }
            let usual_view = usual_view.saturating_add(rng.below(spread) as u32);
            let Some(at) = kept_view(rng, &rec, kind, s, usual_view) else { continue };
            let plan = if rng.one_in(6) { plan(rng) } else { usual_plan };
            let (kind, sender) = (usize::from(kind), usize::from(s));
            put(&mut rec, frame_slot(kind, sender), 1, at, if kind < 6 { plan } else { 0 });
            if kind >= 7 {
                put_reports(&mut rec, kind, sender, reports(rng, at));
            }
        }
    }
    put_last(rng, &mut rec, usize::from(id));
    rec
}

/// Previous votes below the own ones, and a decision.
fn put_last(rng: &mut Rng, rec: &mut [u8], id: usize) {
    for (kind, slot) in [(2, PREVIOUS[0]), (3, PREVIOUS[1])] {
        let (mark, own, _) = get(rec, frame_slot(kind, id));
        if mark == 1 && own > 0 && rng.one_in(2) {
            let (before, plan) = (rng.below(u64::from(own)) as u32, rng.next());
            put(rec, slot, 1, before, plan);
        }
    }
    if rng.one_in(3) {
        let (view, plan) = (rng.next() as u32, plan(rng));
        put(rec, DECISION, 1, view, plan);
    }
}

/// A sound record at whose next call C or D searches many suggests or proofs of the current view, with few views and plans in them.
pub fn contested(rng: &mut Rng) -> Vec<u8> {
    let (n, f) = size(rng);
    let id = rng.below(u64::from(n)) as u8;
    let leads = rng.one_in(2);
    let leader = if leads { id } else { (id + 1) % n };
    let view = u32::from(n) * rng.below(3) as u32 + u32::from(leader);
    let view = if view == 0 { u32::from(n) } else { view };
    let mut rec = fresh([n, f, id, 0], view, rng.below(4));
    if !leads {
        put(&mut rec, frame_slot(1, usize::from(leader)), 1, view, rng.below(3));
    }
    let kind = if leads { 7 } else { 8 };
    let (spread, plans, locked) = (1 + rng.below(4), 1 + rng.below(4), rng.below(4));
    let silent = if rng.one_in(4) { rng.below(u64::from(n)) } else { rng.below(u64::from(f) + 1) };
    let near = |rng: &mut Rng, top: u32| top - 1 - rng.below(spread.min(u64::from(top))) as u32;
    for s in silent as usize..usize::from(n) {
        let mut reports = [(0, 0, 0); 3];
        if !rng.one_in(6) {
            let highest = (1, near(rng, view), rng.below(plans));
            reports[0] = highest;
            if highest.1 > 0 && rng.one_in(3) {
                reports[1] = (1, near(rng, highest.1), highest.2 + 1 + rng.below(2));
            }
        }
        if rng.below(4) < locked {
            reports[2] = (1, near(rng, view), rng.below(plans));
        }
        put(&mut rec, frame_slot(kind, s), 1, view, 0);
        put_reports(&mut rec, kind, s, reports);
    }
    rec
}

/// A slot of the last three, of any row, of the own row, or of a row below n.
fn some_slot(rng: &mut Rng, rec: &[u8]) -> usize {
    let n = u64::from(rec[0]).clamp(1, 64);
    let row = 64 * rng.below(14) as usize;
    match rng.below(4) {
        0 => PREVIOUS[0] + rng.below(3) as usize,
        1 => row + rng.below(64) as usize,
        2 => row + usize::from(rec[2]).min(63),
        _ => row + rng.below(n) as usize,
    }
}

/// Changes a record in some place: a byte, a bit, a mark, a slot, a head.
pub fn harm(rng: &mut Rng, rec: &mut [u8]) {
    let slot = some_slot(rng, rec);
    let at = place(slot);
    let view = view_of(rec).wrapping_add(rng.below(3) as u32).wrapping_sub(1);
    let plan = plan(rng);
    match rng.below(9) {
        0 => rec[rng.below(8) as usize] = rng.below(70) as u8,
        1 => rec[rng.below(LEN as u64) as usize] ^= 1 << rng.below(8),
        2 => rec[at] = rng.below(3) as u8,
        3 => put(rec, slot, 0, 0, 0),
        4 => put(rec, slot, 1, view, plan),
        5 => put(rec, slot, 1, view, 0),
        6 => rec[at + 1 + rng.below(4) as usize] = rng.below(3) as u8,
        7 => rec[at + 5 + rng.below(8) as usize] = rng.below(3) as u8,
        _ => {
            let from = place(some_slot(rng, rec));
            rec.copy_within(from..from + SLOT, at);
        }
    }
}

pub fn view_of(rec: &[u8]) -> u32 {
    u32::from_be_bytes(rec[4..8].try_into().unwrap())
}

/// A blank record, with zeros or anything behind n.
pub fn blank(rng: &mut Rng) -> Vec<u8> {
    let mut rec = vec![0; LEN];
    if rng.one_in(2) {
        rng.fill(&mut rec[1..]);
    }
    rec
}

/// What an output holds before a call.
pub fn filler(rng: &mut Rng, space: usize) -> Vec<u8> {
    let mut bytes = vec![0; space];
    rng.fill(&mut bytes);
    bytes
}

/// A length of bytes that should have another: none, a little less or more, or far off.
pub fn other_length(rng: &mut Rng, length: usize) -> usize {
    match rng.below(5) {
        0 => 0,
        1 => length - 1,
        2 => length + 1,
        3 => length - 1 - rng.below(length as u64 / 2) as usize,
        _ => rng.pick(&[length + 2, length + 100, 2 * length]),
    }
}

pub fn any_of<'a, T>(rng: &mut Rng, items: &'a [T]) -> &'a T {
    &items[rng.below(items.len() as u64) as usize]
}

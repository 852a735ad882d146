//! Random frames: valid ones of each kind, damaged ones, and random bytes.
use reference::frame::{number4, write, Body, Frame, Report};
use reference::rng::Rng;

/// A view from the places where mistakes show: small ones, the ends of 32 bits, anything.
pub fn view(rng: &mut Rng) -> u32 {
    match rng.below(4) {
        0 => u32::MAX - rng.below(3) as u32,
        1 => rng.next() as u32,
        _ => rng.below(9) as u32,
    }
}

/// A plan from few, so that plans are often equal, and from the ends of 64 bits.
pub fn plan(rng: &mut Rng) -> u64 {
    match rng.below(5) {
        0 => u64::MAX,
        1 => rng.next(),
        _ => rng.below(3),
    }
}

/// A report below a view, or none.
fn report_below(rng: &mut Rng, limit: u32) -> Option<Report> {
    if limit == 0 || rng.below(3) == 0 {
        return None;
    }
    let view = match rng.below(3) {
        0 => limit - 1,
        1 => rng.below(u64::from(limit)) as u32,
        _ => rng.below(u64::from(limit.min(9))) as u32,
    };
    Some(Report { view, plan: plan(rng) })
}

/// Three reports that pass 14, 21 and 22 in a frame of this view.
pub fn reports(rng: &mut Rng, view: u32) -> [Option<Report>; 3] {
    let highest = report_below(rng, view);
    let previous = highest.and_then(|h| report_below(rng, h.view).filter(|p| p.plan != h.plan));
    [highest, previous, report_below(rng, view)]
}

/// A frame whose body fits its kind. View 0 where it may not be, and a wrong leader, come now and then.
pub fn valid(rng: &mut Rng, kind: u8, n: u8, own: u8) -> Frame {
    let mut view = view(rng);
    if kind >= 6 && view == 0 && rng.below(2) == 0 {
        view = 1;
    }
    let mut sender = rng.below(u64::from(n.max(1))) as u8;
    if n > 0 && rng.below(2) == 0 {
        match kind {
            1 => sender = (view % u32::from(n)) as u8,
            7 => view = (view / 64).max(1) * u32::from(n) + u32::from(own % n),
            _ => {}
        }
    }
    let body = match kind {
        1..=5 => Body::Plan(plan(rng)),
        6 => Body::Empty,
        _ => Body::Reports(reports(rng, view)),
    };
    Frame { kind, sender, view, body }
}

/// One or two bytes changed, or bytes cut off or added.
fn damage(rng: &mut Rng, bytes: &mut Vec<u8>) {
    match rng.below(4) {
        0 => bytes.truncate(rng.below(bytes.len() as u64 + 1) as usize),
        1 => {
            let more = rng.below(16) as usize;
            bytes.resize((bytes.len() + more).min(60), rng.next() as u8);
        }
        _ => {
            for _ in 0..1 + rng.below(2) {
                if !bytes.is_empty() {
                    let at = rng.below(bytes.len() as u64) as usize;
                    bytes[at] = match rng.below(3) {
                        0 => rng.next() as u8,
                        1 => bytes[at].wrapping_add(1),
                        _ => rng.below(3) as u8,
                    };
                }
            }
        }
    }
}

/// One fault in the reports of a suggest or a proof, or a step towards one.
fn spoil(rng: &mut Rng, bytes: &mut [u8]) {
    let (highest, previous) = (6, 19);
    let at = highest + 13 * rng.below(3) as usize;
    match rng.below(8) {
        0 => bytes[at] = rng.pick(&[2, 3, 255]),
        1 => {
            bytes[at..at + 13].fill(0);
            bytes[at + 1 + rng.below(12) as usize] = 1;
        }
        2..=4 => {
            let view = number4(&bytes[2..6]).saturating_add(rng.below(3) as u32);
            bytes[at] = 1;
            bytes[at + 1..at + 5].copy_from_slice(&view.to_be_bytes());
        }
        // Previous gets highest's view, or its plan, or there is no highest.
        5 => bytes.copy_within(highest + 1..highest + 5, previous + 1),
        6 => bytes.copy_within(highest + 5..highest + 13, previous + 5),
        _ => bytes[highest..highest + 13].fill(0),
    }
}

/// Random bytes of any length up to 60, with a kind byte that is often one of the eight.
fn noise(rng: &mut Rng) -> Vec<u8> {
    let mut bytes: Vec<u8> = (0..rng.below(61)).map(|_| rng.next() as u8).collect();
    if !bytes.is_empty() && rng.below(2) == 0 {
        bytes[0] = rng.below(10) as u8;
    }
    bytes
}

/// The bytes to offer to a reader at vault `own` of n.
pub fn offered(rng: &mut Rng, n: u8, own: u8) -> Vec<u8> {
    if rng.below(5) == 0 {
        return noise(rng);
    }
    let kind = 1 + rng.below(8) as u8;
    let mut bytes = write(&valid(rng, kind, n, own));
    if kind >= 7 && rng.below(2) == 0 {
        (0..1 + rng.below(3)).for_each(|_| spoil(rng, &mut bytes));
    }
    if rng.below(3) == 0 {
        damage(rng, &mut bytes);
    }
    bytes
}

//! A vault by document 01, in place on the record of the Rattle vault: what plain Rust reaches on
//! this layout. It was written after reading the Rattle code, so it is a measure of speed and no
//! oracle; a test compares it with the library, byte for byte. Soundness is tested by presence
//! words and bulk scans (`sound`), safe plans are searched by one selection (`safe`).

mod asked;
mod equivocation;
mod layout;
mod reach;
mod remnant;
mod safe;
mod scan;
mod sound;
mod vault;

use layout::*;
use safe::Reports;
use sound::Present;
use vault::Vault;

pub use layout::SIZE;
pub use reach::claim_reach;
pub use remnant::SIZE as REMNANT_SIZE;

/// The byte count written, or a refusal's number.
pub type Answer = Result<usize, u8>;

/// Refusals 1 to 3 on the way in, or a sound record.
#[inline(always)]
fn lent<'a>(rec: &'a mut [u8], out: &'a mut [u8]) -> Result<Vault<'a>, u8> {
    let out = out.first_chunk_mut::<256>().ok_or(1)?;
    let rec = Record::of_mut(rec).ok_or(3)?;
    if rec.n == 0 {
        return Err(2);
    }
    let present = sound::present(rec).ok_or(3)?;
    Ok(Vault::new(rec, out, present))
}

/// Refusals 14, 21 and 22, in this order: all forms, all views, previous against highest.
#[inline(always)]
fn check_reports(view: u32, reports: &[Slot; 3]) -> Result<(), u8> {
    let bad_form = |report: &Slot| match report.mark {
        0 => report.raw_view() != 0 || report.raw_plan() != 0,
        mark => mark != 1,
    };
    if reports.iter().any(bad_form) {
        return Err(14);
    }
    if reports.iter().any(|report| report.mark == 1 && report.view() >= view) {
        return Err(21);
    }
    let [high, previous, _] = reports;
    let out_of_order = || {
        high.mark == 0 || previous.view() >= high.view() || previous.raw_plan() == high.raw_plan()
    };
    if previous.mark == 1 && out_of_order() {
        return Err(22);
    }
    Ok(())
}

pub fn start(rec: &mut [u8], settings: [u8; 4], plan: u64, out: &mut [u8]) -> Answer {
    let out = out.first_chunk_mut::<256>().ok_or(1)?;
    let rec = Record::of_mut(rec).filter(|rec| rec.n == 0).ok_or(4)?;
    let why = sound::settings(settings);
    if why != 0 {
        return Err(why);
    }
    rec.fill(settings, plan);
    let mut vault = Vault::new(rec, out, Present::default());
    vault.timer_entry();
    // Nobody else has been heard: only C and D can act, at the leader of view 0.
    if vault.id == 0 {
        vault.cast(PROPOSALS, plan);
        vault.cast(VOTES_1, plan);
    }
    Ok(vault.count)
}

/// What a frame's bytes hold behind the head.
enum Body {
    Plan(u64),
    Nothing,
    Reports([Slot; 3]),
}

/// Refusals 9 and 10, or the body.
#[inline(always)]
fn body(bytes: &[u8]) -> Result<Body, u8> {
    match (bytes, bytes.first().copied().unwrap_or(0)) {
        ([_, _, _, _, _, _, plan @ ..], 1..=5) if plan.len() == 8 => {
            Ok(Body::Plan(u64::from_be_bytes(plan.try_into().map_err(|_| 10)?)))
        }
        ([_, _, _, _, _, _], 6) => Ok(Body::Nothing),
        ([_, _, _, _, _, _, reports @ ..], 7..=8) if reports.len() == 39 => {
            let report = |i: usize| Slot::from_bytes(reports[13 * i..][..13].try_into().unwrap());
            Ok(Body::Reports([report(0), report(1), report(2)]))
        }
        (_, 1..=8) => Err(10),
        _ => Err(9),
    }
}

pub fn frame(rec: &mut [u8], link: u8, bytes: &[u8], out: &mut [u8]) -> Answer {
    let mut vault = lent(rec, out)?;
    let body = body(bytes)?;
    let s = usize::from(link);
    if s >= vault.n || s == vault.id {
        return Err(11);
    }
    if bytes[1] != link {
        return Err(12);
    }
    let at = u32::from_be_bytes([bytes[2], bytes[3], bytes[4], bytes[5]]);
    keep(&mut vault, bytes[0], s, at, &body)?;
    vault.change_view();
    vault.go_on();
    Ok(vault.count)
}

/// Refusals 13 to 17, 21 and 22, or the frame is kept.
#[inline(always)]
fn keep(vault: &mut Vault, kind: u8, s: usize, at: u32, body: &Body) -> Result<(), u8> {
    if kind >= 6 && at == 0 {
        return Err(13);
    }
    let row = match body {
        Body::Reports(reports) => {
            check_reports(at, reports)?;
            usize::from(kind) - 7
        }
        Body::Plan(_) => usize::from(kind) + PROPOSALS - 1,
        Body::Nothing => return keep_change(vault, s, at),
    };
    let led_by = match row {
        PROPOSALS => s,
        SUGGESTS => vault.id,
        _ => usize::MAX,
    };
    if led_by != usize::MAX && leader(at, vault.n) != led_by {
        return Err(15);
    }
    if at < vault.view {
        return Err(16);
    }
    if vault.holds(row, s) && at <= vault.rec.rows[row][s & 63].view() {
        return Err(17);
    }
    match body {
        Body::Reports(reports) => vault.put_reports(row, s & 63, at, reports),
        Body::Plan(plan) => vault.put(row, s & 63, at, *plan),
        Body::Nothing => {}
    }
    Ok(())
}

/// 16 and 17 for a view-change. An absent one has view 0.
#[inline(always)]
fn keep_change(vault: &mut Vault, s: usize, at: u32) -> Result<(), u8> {
    if at <= vault.view {
        return Err(16);
    }
    if at <= vault.rec.changes[s & 63].view() {
        return Err(17);
    }
    vault.put_change(s & 63, at);
    Ok(())
}

pub fn timer(rec: &mut [u8], view: u32, out: &mut [u8]) -> Answer {
    let mut vault = lent(rec, out)?;
    if view != vault.view {
        return Err(18);
    }
    if view == u32::MAX {
        return Err(19);
    }
    // An absent view-change has view 0.
    let own = vault.rec.changes[vault.id].view();
    vault.ask(own.max(view + 1));
    vault.change_view();
    vault.go_on();
    Ok(vault.count)
}

/// The numbers of the vaults that spoke twice, rising, from records that lie end to end.
pub fn equivocators(records: &[u8], lengths: &[u32], out: &mut [u8]) -> Answer {
    let out = out.first_chunk_mut::<256>().ok_or(1)?;
    let records = equivocation::collected(records, lengths).ok_or(24)?;
    let mut count = 0;
    for s in 0..records[0].n {
        if equivocation::spoke_twice(records, usize::from(s) & 63) {
            out[count] = s;
            count += 1;
        }
    }
    Ok(count)
}

/// The remnant of a record, at the start of the output.
pub fn write_remnant(rec: &[u8], out: &mut [u8]) -> Answer {
    let out = out.first_chunk_mut().ok_or(1)?;
    let rec = Record::of(rec).ok_or(3)?;
    if rec.n == 0 {
        return Err(2);
    }
    sound::present(rec).ok_or(3)?;
    remnant::write(rec, out);
    Ok(remnant::SIZE)
}

/// The record that a remnant makes is built apart, and copied where it is sound.
pub fn restart(rec: &mut [u8], remnant: &[u8], out: &mut [u8]) -> Answer {
    let out = out.first_chunk_mut::<256>().ok_or(1)?;
    Record::of(rec).filter(|rec| rec.n == 0).ok_or(4)?;
    let remnant = remnant.try_into().map_err(|_| 25)?;
    let mut bytes = [0; SIZE];
    let made = Record::of_mut(&mut bytes).ok_or(26)?;
    remnant::read(remnant, made).ok_or(26)?;
    let present = sound::present(made).ok_or(26)?;
    rec.copy_from_slice(&bytes);
    let mut vault = Vault::new(Record::of_mut(rec).ok_or(4)?, out, present);
    vault.timer_entry();
    Ok(vault.count)
}

/// The searches for safe plans over a sound record's reports of the current view, apart from calls.
pub struct Search<'a>(Reports<'a>);

impl<'a> Search<'a> {
    /// None where the record is blank or unsound.
    fn over(rec: &'a [u8], row: usize) -> Option<Search<'a>> {
        let rec = Record::of(rec)?;
        Some(Search(Reports::of(rec, &sound::present(rec)?, row)))
    }

    pub fn of_suggests(rec: &'a [u8]) -> Option<Search<'a>> {
        Search::over(rec, SUGGESTS)
    }

    pub fn of_proofs(rec: &'a [u8]) -> Option<Search<'a>> {
        Search::over(rec, PROOFS)
    }

    /// What the leader proposes, by Rule 1.
    pub fn choose(&self, start: u64) -> Option<u64> {
        self.0.choose(start)
    }

    /// Whether a plan is safe by Rule 3.
    pub fn safe(&self, plan: u64) -> bool {
        self.0.safe(plan)
    }
}

/// Whether bytes are a sound record.
pub fn sound(rec: &[u8]) -> bool {
    Record::of(rec).is_some_and(|rec| sound::present(rec).is_some())
}

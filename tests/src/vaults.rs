//! The vault's exported calls, each behind a safe function with the reference's answer: the byte count written, or a refusal.
mod sys {
    extern "C" {
        pub fn vault_record_size() -> u32;
        pub fn vault_start(rec: *mut u8, rec_len: usize, n: u8, f: u8, id: u8, class: u8, plan: u64, out: *mut u8, out_len: usize) -> u32;
        pub fn vault_frame(rec: *mut u8, rec_len: usize, link: u8, bytes: *const u8, len: usize, out: *mut u8, out_len: usize) -> u32;
        pub fn vault_timer(rec: *mut u8, rec_len: usize, view: u32, out: *mut u8, out_len: usize) -> u32;
        pub fn vault_equivocators(recs: *const u8, recs_len: usize, lens: *const u32, count: usize, out: *mut u8, out_len: usize) -> u32;
        pub fn vault_claim_reach(reports: *const u8, len: usize, plan: u64) -> u64;
        pub fn vault_remnant_size() -> u32;
        pub fn vault_write_remnant(rec: *const u8, rec_len: usize, out: *mut u8, out_len: usize) -> u32;
        pub fn vault_current(rec: *const u8, rec_len: usize, out: *mut u32, out_count: usize) -> u32;
        pub fn vault_decision(rec: *const u8, rec_len: usize, out: *mut u64, out_count: usize) -> u32;
        pub fn vault_entry(out: *const u8, out_len: usize, at: usize) -> u32;
        pub fn vault_refusal_text(number: u32, out: *mut u8, out_len: usize) -> u32;
        pub fn vault_restart(rec: *mut u8, rec_len: usize, remnant: *const u8, len: usize, out: *mut u8, out_len: usize) -> u32;
    }
}

/// A refusal's number as itself; 256 and the byte count for an accepted call.
fn answer(code: u32) -> Result<usize, u8> {
    match code {
        1..=19 | 21 | 22 => Err(code as u8),
        256..=512 => Ok(code as usize - 256),
        _ => panic!("no such answer: {code}"),
    }
}

pub fn record_size() -> usize {
    unsafe { sys::vault_record_size() as usize }
}

pub fn start(rec: &mut [u8], n: u8, f: u8, id: u8, class: u8, plan: u64, out: &mut [u8]) -> Result<usize, u8> {
    answer(unsafe { sys::vault_start(rec.as_mut_ptr(), rec.len(), n, f, id, class, plan, out.as_mut_ptr(), out.len()) })
}

pub fn frame(rec: &mut [u8], link: u8, bytes: &[u8], out: &mut [u8]) -> Result<usize, u8> {
    answer(unsafe { sys::vault_frame(rec.as_mut_ptr(), rec.len(), link, bytes.as_ptr(), bytes.len(), out.as_mut_ptr(), out.len()) })
}

pub fn timer(rec: &mut [u8], view: u32, out: &mut [u8]) -> Result<usize, u8> {
    answer(unsafe { sys::vault_timer(rec.as_mut_ptr(), rec.len(), view, out.as_mut_ptr(), out.len()) })
}

/// The desk's call has refusals of its own, and names at most 64 vaults.
pub fn equivocators(records: &[u8], lengths: &[u32], out: &mut [u8]) -> Result<usize, u8> {
    let (recs, lens, out, space) = (records.as_ptr(), lengths.as_ptr(), out.as_mut_ptr(), out.len());
    match unsafe { sys::vault_equivocators(recs, records.len(), lens, lengths.len(), out, space) } {
        code @ (1 | 24) => Err(code as u8),
        code @ 256..=320 => Ok(code as usize - 256),
        code => panic!("no such answer: {code}"),
    }
}

/// Every view may be the answer, so the number is a wide one.
pub fn claim_reach(reports: &[u8], plan: u64) -> Result<u32, u8> {
    const LAST: u64 = 256 + u32::MAX as u64;
    match unsafe { sys::vault_claim_reach(reports.as_ptr(), reports.len(), plan) } {
        code @ (10 | 14 | 22) => Err(code as u8),
        code @ 256..=LAST => Ok((code - 256) as u32),
        code => panic!("no such answer: {code}"),
    }
}

pub fn remnant_size() -> usize {
    unsafe { sys::vault_remnant_size() as usize }
}

/// A remnant has one length.
pub fn write_remnant(rec: &[u8], out: &mut [u8]) -> Result<usize, u8> {
    match unsafe { sys::vault_write_remnant(rec.as_ptr(), rec.len(), out.as_mut_ptr(), out.len()) } {
        code @ 1..=3 => Err(code as u8),
        493 => Ok(237),
        code => panic!("no such answer: {code}"),
    }
}

/// A timer entry has one length.
pub fn restart(rec: &mut [u8], remnant: &[u8], out: &mut [u8]) -> Result<usize, u8> {
    let (out, space) = (out.as_mut_ptr(), out.len());
    match unsafe { sys::vault_restart(rec.as_mut_ptr(), rec.len(), remnant.as_ptr(), remnant.len(), out, space) } {
        code @ (1 | 4 | 25 | 26) => Err(code as u8),
        266 => Ok(10),
        code => panic!("no such answer: {code}"),
    }
}

/// The current view, and the milliseconds of its timer.
pub fn current(rec: &[u8]) -> Result<[u32; 2], u8> {
    let mut out = [0; 2];
    match unsafe { sys::vault_current(rec.as_ptr(), rec.len(), out.as_mut_ptr(), out.len()) } {
        code @ (2 | 3) => Err(code as u8),
        256 => Ok(out),
        code => panic!("no such answer: {code}"),
    }
}

/// The decision's view and plan.
pub fn decision(rec: &[u8]) -> Result<Option<[u64; 2]>, u8> {
    let mut out = [0; 2];
    match unsafe { sys::vault_decision(rec.as_ptr(), rec.len(), out.as_mut_ptr(), out.len()) } {
        code @ (2 | 3) => Err(code as u8),
        256 => Ok(None),
        257 => Ok(Some(out)),
        code => panic!("no such answer: {code}"),
    }
}

/// The length of the entry that begins there.
pub fn entry(out: &[u8], at: usize) -> usize {
    unsafe { sys::vault_entry(out.as_ptr(), out.len(), at) as usize }
}

/// The length of the sentence that is written.
pub fn refusal_text(number: u32, out: &mut [u8]) -> usize {
    unsafe { sys::vault_refusal_text(number, out.as_mut_ptr(), out.len()) as usize }
}

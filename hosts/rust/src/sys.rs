//! The exported calls, each behind a safe function. A slice passes as a pointer and then a length. The declarations are those of
//! include/vault.h; nothing checks them against the archive.
use crate::Settings;

mod raw {
    extern "C" {
        pub fn vault_version() -> u32;
        pub fn vault_record_size() -> u32;
        pub fn vault_remnant_size() -> u32;
        pub fn vault_start(
            record: *mut u8,
            record_length: usize,
            n: u8,
            f: u8,
            id: u8,
            link_class: u8,
            plan: u64,
            output: *mut u8,
            output_length: usize,
        ) -> u32;
        pub fn vault_frame(
            record: *mut u8,
            record_length: usize,
            sender: u8,
            frame: *const u8,
            frame_length: usize,
            output: *mut u8,
            output_length: usize,
        ) -> u32;
        pub fn vault_timer(record: *mut u8, record_length: usize, view: u32, output: *mut u8, output_length: usize) -> u32;
        pub fn vault_write_remnant(record: *const u8, record_length: usize, output: *mut u8, output_length: usize) -> u32;
        pub fn vault_restart(
            record: *mut u8,
            record_length: usize,
            remnant: *const u8,
            remnant_length: usize,
            output: *mut u8,
            output_length: usize,
        ) -> u32;
        pub fn vault_current(record: *const u8, record_length: usize, out: *mut u32, out_count: usize) -> u32;
        pub fn vault_decision(record: *const u8, record_length: usize, out: *mut u64, out_count: usize) -> u32;
        pub fn vault_equivocators(
            records: *const u8,
            records_length: usize,
            lengths: *const u32,
            lengths_count: usize,
            output: *mut u8,
            output_length: usize,
        ) -> u32;
        pub fn vault_claim_reach(reports: *const u8, reports_length: usize, plan: u64) -> u64;
        pub fn vault_entry(output: *const u8, output_length: usize, at: usize) -> u32;
        pub fn vault_refusal_text(number: u32, output: *mut u8, output_length: usize) -> u32;
    }
}

pub fn version() -> u32 {
    // SAFETY: it takes nothing.
    unsafe { raw::vault_version() }
}

pub fn record_size() -> usize {
    // SAFETY: it takes nothing.
    unsafe { raw::vault_record_size() as usize }
}

pub fn remnant_size() -> usize {
    // SAFETY: it takes nothing.
    unsafe { raw::vault_remnant_size() as usize }
}

// SAFETY of the calls below: any bytes may be lent, each pointer comes with the true length of its slice, and Rust's borrows keep record,
// output, frame and remnant apart.

pub fn start(record: &mut [u8], s: Settings, plan: u64, output: &mut [u8]) -> u32 {
    unsafe { raw::vault_start(record.as_mut_ptr(), record.len(), s.n, s.f, s.id, s.class, plan, output.as_mut_ptr(), output.len()) }
}

pub fn frame(record: &mut [u8], sender: u8, frame: &[u8], output: &mut [u8]) -> u32 {
    unsafe { raw::vault_frame(record.as_mut_ptr(), record.len(), sender, frame.as_ptr(), frame.len(), output.as_mut_ptr(), output.len()) }
}

pub fn timer(record: &mut [u8], view: u32, output: &mut [u8]) -> u32 {
    unsafe { raw::vault_timer(record.as_mut_ptr(), record.len(), view, output.as_mut_ptr(), output.len()) }
}

pub fn write_remnant(record: &[u8], output: &mut [u8]) -> u32 {
    unsafe { raw::vault_write_remnant(record.as_ptr(), record.len(), output.as_mut_ptr(), output.len()) }
}

pub fn restart(record: &mut [u8], remnant: &[u8], output: &mut [u8]) -> u32 {
    unsafe { raw::vault_restart(record.as_mut_ptr(), record.len(), remnant.as_ptr(), remnant.len(), output.as_mut_ptr(), output.len()) }
}

pub fn current(record: &[u8], out: &mut [u32]) -> u32 {
    unsafe { raw::vault_current(record.as_ptr(), record.len(), out.as_mut_ptr(), out.len()) }
}

pub fn decision(record: &[u8], out: &mut [u64]) -> u32 {
    unsafe { raw::vault_decision(record.as_ptr(), record.len(), out.as_mut_ptr(), out.len()) }
}

pub fn equivocators(records: &[u8], lengths: &[u32], output: &mut [u8]) -> u32 {
    let (bytes, count) = (records.as_ptr(), lengths.len());
    unsafe { raw::vault_equivocators(bytes, records.len(), lengths.as_ptr(), count, output.as_mut_ptr(), output.len()) }
}

pub fn claim_reach(reports: &[u8], plan: u64) -> u64 {
    unsafe { raw::vault_claim_reach(reports.as_ptr(), reports.len(), plan) }
}

pub fn entry(output: &[u8], at: usize) -> usize {
    unsafe { raw::vault_entry(output.as_ptr(), output.len(), at) as usize }
}

pub fn refusal_text(number: u32, output: &mut [u8]) -> usize {
    unsafe { raw::vault_refusal_text(number, output.as_mut_ptr(), output.len()) as usize }
}

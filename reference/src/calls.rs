//! Start, frame and timer over lent bytes (01, "Refusals, place by place"). A refusal leaves record
//! and output as they were; an accepted call gives the byte count written, and the bytes of the
//! output beyond it keep their contents.

use crate::record::{self, Record, Settings, State};
use crate::vault::{self, Acts, Fault};

/// "output space below 256 bytes" is refused.
pub const OUTPUT_LEN: usize = 256;

pub fn start(
    rec: &mut [u8],
    n: u8,
    f: u8,
    id: u8,
    class: u8,
    plan: u64,
    out: &mut [u8],
) -> Result<usize, u8> {
    check_output(out)?;
    let mut record = Record::empty();
    // 4: start on a record not blank
    if record::classify_into(rec, &mut record) != State::Blank {
        return Err(4);
    }
    let settings = Settings { n, f, id, class };
    let acts = vault::start_on(&mut record, Fault::None, settings, plan)?;
    Ok(write_accepted(&record, &acts, rec, out))
}

pub fn frame(rec: &mut [u8], link: u8, bytes: &[u8], out: &mut [u8]) -> Result<usize, u8> {
    check_output(out)?;
    let mut record = Record::empty();
    check_sound(rec, &mut record)?;
    let acts = vault::frame_on(&mut record, Fault::None, link, bytes)?;
    Ok(write_accepted(&record, &acts, rec, out))
}

pub fn timer(rec: &mut [u8], view: u32, out: &mut [u8]) -> Result<usize, u8> {
    check_output(out)?;
    let mut record = Record::empty();
    check_sound(rec, &mut record)?;
    let acts = vault::timer_on(&mut record, Fault::None, view)?;
    Ok(write_accepted(&record, &acts, rec, out))
}

/// 1: output space below 256 bytes
pub(crate) fn check_output(out: &[u8]) -> Result<(), u8> {
    if out.len() < OUTPUT_LEN {
        return Err(1);
    }
    Ok(())
}

/// 2: frame or timer on a blank record; 3: on an unsound record; writing a remnant meets them too
pub(crate) fn check_sound(rec: &[u8], record: &mut Record) -> Result<(), u8> {
    match record::classify_into(rec, record) {
        State::Blank => Err(2),
        State::Unsound => Err(3),
        State::Sound => Ok(()),
    }
}

/// "Accepted calls return the byte count written"; "Entries lie end to end".
fn write_accepted(record: &Record, acts: &Acts, rec: &mut [u8], out: &mut [u8]) -> usize {
    record::encode_into(record, rec);
    let mut count = 0;
    for entry in &acts.entries {
        count += entry.write_into(&mut out[count..]);
    }
    count
}

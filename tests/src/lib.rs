//! The exported Rattle functions, each behind a safe function. A slice passes as a pointer and then a length.
//! Nothing checks these declarations against the Rattle source, so they are few and plain.
pub mod apart;
pub mod around;
mod calls;
pub mod case;
pub mod cases;
pub mod compared;
pub mod drive;
pub mod engine;
pub mod expected;
pub mod faults;
pub mod frames;
pub mod lists;
pub mod met;
pub mod offsets;
pub mod pages;
pub mod program;
pub mod random;
pub mod random_remnants;
pub mod reaches;
pub mod records;
pub mod remnants;
pub mod rows;
pub mod scenes;
pub mod sides;
pub mod soak;
pub mod stage;
pub mod text;
pub mod vaults;

use records::Class;
use reference::{entry, frame, rng, rules, vault};
use rows::Table;
use rules::Rule;

/// The reference's simulator, its own source compiled over other calls and another layout: its vaults by bytes are the Rattle ones.
#[allow(dead_code)]
#[rustfmt::skip]
#[path = "../../reference/src/sim.rs"]
pub mod sim;

/// Records in the layout of the Rattle vault, for the simulator.
mod record {
    pub use crate::records::{spell as encode, LEN as RECORD_LEN};
    pub use reference::record::{Record, Settings};

    pub fn decode(bytes: &[u8]) -> Option<Record> {
        (bytes.len() == RECORD_LEN).then(|| crate::records::contents(bytes))?
    }
}

mod sys {
    extern "C" {
        pub fn frame_echo(bytes: *const u8, len: usize, link: u8, n: u8, own: u8, out: *mut u8, out_len: usize) -> u32;
        pub fn safe_plan(table: *const u64, table_len: usize, n: u8, f: u8, v: u32, p: u64, three: u8) -> u32;
        pub fn choose_plan(table: *const u64, table_len: usize, n: u8, f: u8, v: u32, start: u64, out: *mut u64, out_len: usize) -> u32;
        pub fn record_class(bytes: *const u8, len: usize) -> u32;
    }
}

/// Reads a frame; where it is accepted, writes it as an entry for all, then a timer and a decision of its view.
/// 1: too little space; 9 to 15: refused; 256 and more: accepted, with the count of bytes written above 256.
pub fn frame_echo(bytes: &[u8], link: u8, n: u8, own: u8, out: &mut [u8]) -> u32 {
    unsafe { sys::frame_echo(bytes.as_ptr(), bytes.len(), link, n, own, out.as_mut_ptr(), out.len()) }
}

/// 0 not safe, 1 safe, 2 where a length or a size is out of range.
pub fn safe_plan_raw(table: &[u64], n: u8, f: u8, v: u32, p: u64, three: u8) -> u32 {
    unsafe { sys::safe_plan(table.as_ptr(), table.len(), n, f, v, p, three) }
}

/// Whether a plan is safe in view v.
pub fn safe_plan(table: &Table, n: usize, f: usize, v: u32, plan: u64, rule: Rule) -> bool {
    match safe_plan_raw(table, n as u8, f as u8, v, plan, u8::from(rule == Rule::Three)) {
        0 => false,
        1 => true,
        answer => panic!("refused: {answer}"),
    }
}

/// What a leader proposes in view v, if anything.
pub fn choose_plan(table: &Table, n: usize, f: usize, v: u32, start: u64) -> Option<u64> {
    let mut out = [77, 88];
    let answer = unsafe { sys::choose_plan(table.as_ptr(), table.len(), n as u8, f as u8, v, start, out.as_mut_ptr(), out.len()) };
    assert_eq!(out[1], 88);
    match answer {
        0 => {
            assert_eq!(out[0], 77);
            None
        }
        1 => Some(out[0]),
        answer => panic!("refused: {answer}"),
    }
}

pub fn record_class(bytes: &[u8]) -> Class {
    match unsafe { sys::record_class(bytes.as_ptr(), bytes.len()) } {
        0 => Class::Blank,
        1 => Class::Sound,
        2 => Class::Unsound,
        answer => panic!("no such answer: {answer}"),
    }
}

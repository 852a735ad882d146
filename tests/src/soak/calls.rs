//! Random calls, each compared with the in-place vault by bytes and with the reference by contents.
use reference::rng::Rng;

use super::shortest::Script;
use super::Sabotage;
use crate::drive::{Driver, Terms};
use crate::pages::Edge;
use crate::records::{HEAD, SHARED, SLOT};
use crate::stage;
use crate::text::{bytes_of, call_of, hex};

/// In one round.
const CALLS: u64 = 4_000;

pub fn round(mut rng: Rng, sabotage: Sabotage) {
    let mut driver = Driver::new(rng.next(), sabotage.harm(), true);
    stage::begin(b"");
    while driver.compared.seen.calls < CALLS {
        driver.round();
    }
    stage::counts().seen.add(&driver.compared.seen);
}

/// The script of the call made last: its head, then the bytes of its record that are not 0, a slot or a head a line: `at PLACE DIGITS`.
pub fn last() -> Script {
    let called = stage::called();
    let Some(end) = called.iter().position(|&byte| byte == b'\n') else { return Script::new() };
    let (head, rec) = called.split_at(end + 1);
    let (mut lines, mut at) = (vec![head.to_vec()], 0);
    while at < rec.len() {
        let end = (at + if at == 0 || at == SHARED { HEAD } else { SLOT }).min(rec.len());
        if rec[at..end].iter().any(|&byte| byte != 0) {
            lines.push(format!("at {at} {}\n", hex(&rec[at..end])).into_bytes());
        }
        at = end;
    }
    lines
}

/// One call: its head says how it is lent, the cells spell the record.
pub fn again(head: &[&str], cells: &[Vec<u8>], sabotage: Sabotage) {
    let number = |place: usize| head[place].parse::<usize>().expect("a number");
    let edge = if head[0] == "After" { Edge::After } else { Edge::Before };
    let terms = Terms { edge, space: number(1), filler: number(2) as u8 };
    let mut rec = vec![0; number(3)];
    for cell in cells {
        let words: Vec<&str> = std::str::from_utf8(cell).expect("words").split_whitespace().collect();
        let bytes = bytes_of(words[2].as_bytes()).expect("digits");
        rec[words[1].parse().expect("a place")..][..bytes.len()].copy_from_slice(&bytes);
    }
    let call = call_of(&head[4..]).expect("a call");
    let _ = Driver::new(0, sabotage.harm(), true).call_on(terms, &mut rec, &call);
}

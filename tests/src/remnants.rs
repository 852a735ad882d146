//! Remnants at the library's two calls, on memory at the edge of closed pages: the answer, and every byte that was lent, against the in-place
//! vault and, by contents, against the reference.
use reference::record::{decode, encode, RECORD_LEN};
use reference::remnant;
use reference::rng::Rng;

use crate::compared::{overrun, same, Harm};
use crate::pages::{Closed, Edge};
use crate::random::filler;
use crate::records::{contents, spell, LEN};
use crate::sides::Answer;
use crate::vaults;

pub use remnant::REMNANT_SIZE;

/// The pages that records, remnants and outputs are lent on.
pub struct Host {
    rec: Closed,
    remnant: Closed,
    out: Closed,
    harm: Harm,
}

impl Host {
    pub fn new(harm: Harm) -> Host {
        let [rec, remnant, out] = [2 * LEN, 4 * REMNANT_SIZE, 4 * REMNANT_SIZE].map(Closed::new);
        Host { rec, remnant, out, harm }
    }

    /// Writes a remnant at the library and at the in-place vault. The output becomes what the call leaves.
    pub fn write(&mut self, rng: &mut Rng, rec: &[u8], out: &mut [u8]) -> Answer {
        let [rec_edge, out_edge] = edges(rng);
        let (lent, lent_out) = (self.rec.lend(rec, rec_edge), self.out.lend(out, out_edge));
        let answer = vaults::write_remnant(lent, lent_out);
        let in_place = inplace::write_remnant(rec, out);
        assert!(answer == in_place, "difference: the library answers {answer:?} to writing, the in-place vault {in_place:?}");
        same("output", lent_out, "in-place vault", out);
        assert!(lent == rec, "difference: writing a remnant changed the record");
        answer
    }

    /// Restarts likewise. The record too becomes what the call leaves.
    pub fn restart(&mut self, rng: &mut Rng, rec: &mut [u8], remnant: &[u8], out: &mut [u8]) -> Answer {
        let ([rec_edge, out_edge], [remnant_edge, _]) = (edges(rng), edges(rng));
        let (lent, lent_remnant) = (self.rec.lend(rec, rec_edge), self.remnant.lend(remnant, remnant_edge));
        let lent_out = self.out.lend(out, out_edge);
        let answer = vaults::restart(lent, lent_remnant, lent_out);
        if let Ok(count) = answer {
            harm(self.harm, lent_remnant, &mut lent_out[count - 1]);
        }
        let in_place = inplace::restart(rec, remnant, out);
        assert!(answer == in_place, "difference: the library answers {answer:?} to a restart, the in-place vault {in_place:?}");
        same("output", lent_out, "in-place vault", out);
        same("record", lent, "in-place vault", rec);
        assert!(lent_remnant == remnant, "difference: a restart changed the remnant");
        answer
    }
}

fn edges(rng: &mut Rng) -> [Edge; 2] {
    [(); 2].map(|()| rng.pick(&[Edge::Before, Edge::After]))
}

/// Does the harm where a restart was accepted: to the timer's last byte, or beyond the remnant.
fn harm(harm: Harm, remnant: &[u8], last: &mut u8) {
    match harm {
        Harm::None => {}
        Harm::OtherByte => *last ^= 1,
        Harm::Overrun => overrun(remnant),
    }
}

/// The record in the reference's layout, as far as it has one: the contents where some are spelled, blank or unsound where it is, and as many bytes
/// too few or too many.
pub fn in_reference(rec: &[u8]) -> Vec<u8> {
    if rec.len() != LEN {
        return vec![0; (RECORD_LEN + rec.len()).saturating_sub(LEN)];
    }
    if rec[0] == 0 {
        return vec![0; RECORD_LEN];
    }
    // No mark is 2.
    contents(rec).map_or(vec![2; RECORD_LEN], |record| encode(&record))
}

/// `Host::write`, as the reference does too. A difference tells where the record comes from.
pub fn write_as_reference(host: &mut Host, rng: &mut Rng, from: &str, rec: &[u8], space: usize) -> Result<Vec<u8>, u8> {
    let mut out = filler(rng, space);
    let mut their_out = out.clone();
    let answer = host.write(rng, rec, &mut out);
    let theirs = remnant::write_remnant(&in_reference(rec), &mut their_out);
    assert!(answer == theirs, "difference: the library answers {answer:?} to writing, the reference {theirs:?}, on {from}");
    same(&format!("output on {from}"), &out, "reference", &their_out);
    answer.map(|count| out[..count].to_vec())
}

/// `Host::restart`, as the reference does too: an accepted one leaves the bytes that spell the reference's contents, a refused one leaves all.
pub fn restart_as_reference(host: &mut Host, rng: &mut Rng, from: &str, rec: &mut [u8], remnant: &[u8], space: usize) -> Result<Vec<u8>, u8> {
    let mut out = filler(rng, space);
    let (mut their_rec, mut their_out, before) = (in_reference(rec), out.clone(), rec.to_vec());
    let answer = host.restart(rng, rec, remnant, &mut out);
    let theirs = remnant::restart(&mut their_rec, remnant, &mut their_out);
    assert!(answer == theirs, "difference: the library answers {answer:?} to a restart, the reference {theirs:?}, on {from}");
    same(&format!("output on {from}"), &out, "reference", &their_out);
    let left = if answer.is_ok() { spell(&decode(&their_rec).expect("a record")) } else { before };
    same(&format!("record on {from}"), rec, "reference", &left);
    answer.map(|count| out[..count].to_vec())
}

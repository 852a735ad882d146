//! Calls at the library, on memory at the edge of closed pages, and at the in-place vault: the answer and every byte compared, and what
//! came of them counted.
use reference::entry::{parse_entries, Entry};

use crate::pages::{Closed, Edge};
use crate::records::LEN;
use crate::sides::{Answer, Call, InPlace, Rattle, Side};
use crate::stage;

/// The longest record, frame and output that are lent.
const MOST: usize = 2 * LEN;

/// A harm to what the library left, by which the comparison is tested itself.
#[derive(Clone, Copy, PartialEq, Eq, Debug)]
pub enum Harm {
    None,
    /// The last byte of a decision's entry is another, or the last name, the last byte of a restart's timer, or the view that a claim reaches.
    OtherByte,
    /// A byte beyond the record is read where a call decides, beyond the records where it names, beyond the remnant at a restart, or beyond the
    /// reports where their claim reaches a view.
    Overrun,
}

/// The calls made so far, and what came of them.
#[derive(Clone)]
#[repr(C)]
pub struct Seen {
    pub calls: u64,
    pub accepted: u64,
    /// By number; 20 is for lines only.
    pub refusals: [u64; 23],
    /// By letter, as the entries tell.
    pub steps: [u64; 8],
    /// Passes in which A asked for one view and B entered another.
    pub apart: u64,
    /// Calls on records of n vaults.
    pub sizes: [u64; 65],
}

impl Default for Seen {
    fn default() -> Seen {
        Seen { calls: 0, accepted: 0, refusals: [0; 23], steps: [0; 8], apart: 0, sizes: [0; 65] }
    }
}

impl Seen {
    pub fn add(&mut self, other: &Seen) {
        self.calls += other.calls;
        self.accepted += other.accepted;
        add_each(&mut self.refusals, &other.refusals);
        add_each(&mut self.steps, &other.steps);
        self.apart += other.apart;
        add_each(&mut self.sizes, &other.sizes);
    }

    fn accept(&mut self, call: &Call, written: &[u8]) {
        self.accepted += 1;
        let mut asked = None;
        for entry in parse_entries(written).expect("difference: the output spells no entries") {
            match (&entry, call) {
                // The view-change of A; that of a timer call may be the timer's.
                (Entry::All(frame), Call::Frame { .. }) if frame.kind == 6 => asked = Some(frame.view),
                (Entry::Timer { view, .. }, _) => self.apart += u64::from(asked.is_some_and(|asked| asked != *view)),
                _ => {}
            }
            let step = match (entry, call) {
                (Entry::Timer { .. }, Call::Start { .. }) => continue,
                (Entry::Timer { .. }, _) => 1,
                (Entry::Decision { .. }, _) => 7,
                (Entry::All(frame), Call::Timer { .. }) if frame.kind == 6 => continue,
                (Entry::All(frame), _) if frame.kind == 6 => 0,
                (Entry::All(frame), _) if frame.kind < 6 => usize::from(frame.kind) + 1,
                _ => continue,
            };
            self.steps[step] += 1;
        }
    }
}

pub fn add_each(sums: &mut [u64], more: &[u64]) {
    sums.iter_mut().zip(more).for_each(|(sum, more)| *sum += more);
}

pub struct Compared {
    rec: Closed,
    bytes: Closed,
    out: Closed,
    harm: Harm,
    pub seen: Seen,
}

impl Compared {
    pub fn new(harm: Harm) -> Compared {
        let [rec, bytes, out] = [MOST; 3].map(Closed::new);
        Compared { rec, bytes, out, harm, seen: Seen::default() }
    }

    /// Makes the call at both. Record and output become what it leaves.
    pub fn call(&mut self, edge: Edge, rec: &mut [u8], call: &Call, out: &mut [u8]) -> Answer {
        stage::calling(edge, rec, call, out);
        let (lent, lent_out) = (self.rec.lend(rec, edge), self.out.lend(out, edge));
        let answer = match call {
            Call::Frame { link, bytes } => {
                let frame = self.bytes.lend(bytes, edge);
                let answer = (Rattle::FRAME)(lent, *link, frame, lent_out);
                assert!(frame == bytes, "difference: the frame lent was changed");
                answer
            }
            _ => call.on::<Rattle>(lent, lent_out),
        };
        if let (Ok(count), true) = (answer, self.harm != Harm::None) {
            harm(self.harm, lent, &mut lent_out[..count]);
        }
        let n = usize::from(rec.first().copied().unwrap_or(0)).min(64);
        let in_place = call.on::<InPlace>(rec, out);
        assert!(answer == in_place, "difference: the library answers {answer:?}, the in-place vault {in_place:?}");
        same("output", lent_out, "in-place vault", out);
        same("record", lent, "in-place vault", rec);
        self.seen.calls += 1;
        self.seen.sizes[n] += 1;
        match answer {
            Ok(count) => self.seen.accept(call, &out[..count]),
            Err(number) => self.seen.refusals[usize::from(number)] += 1,
        }
        answer
    }
}

/// The library left what another did, in as many bytes.
pub fn same(name: &str, library: &[u8], whose: &str, other: &[u8]) {
    if library != other {
        let place = (0..library.len()).find(|&place| library[place] != other[place]).expect("one length");
        let [ours, theirs] = [library, other].map(|bytes| bytes[place]);
        panic!("difference: byte {place} of the {name} is {ours} by the library, {theirs} by the {whose}");
    }
}

/// Does the harm where the call decided: a decision is the last entry.
fn harm(harm: Harm, rec: &[u8], written: &mut [u8]) {
    let Some(at) = written.len().checked_sub(14) else { return };
    if written[at..].starts_with(&[0xfe, 0x0a]) {
        match harm {
            Harm::None => {}
            Harm::OtherByte => written[at + 13] ^= 1,
            Harm::Overrun => overrun(rec),
        }
    }
}

/// Reads the byte beyond what was lent.
pub fn overrun(lent: &[u8]) {
    // SAFETY: none; this is the fault that closed pages are there for.
    let _ = unsafe { lent.as_ptr_range().end.read_volatile() };
}

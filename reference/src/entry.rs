//! Output entries (01, after the table of refusals): "Entries lie end to end: a recipient byte
//! (ff all vaults, else a vault's number, or fe the host), then the frame."

use crate::frame::{self, number4, number8, Frame};

pub const ALL: u8 = 0xff;
pub const HOST: u8 = 0xfe;
pub const TIMER: u8 = 0x0b;
pub const DECISION: u8 = 0x0a;
/// The longest entry: a recipient byte and the longest frame.
pub const MAX_LEN: usize = 1 + frame::MAX_LEN;

#[derive(Clone, Copy, PartialEq, Eq, Debug, Hash)]
pub enum Entry {
    All(Frame),
    To(u8, Frame),
    Timer { view: u32, millis: u32 },
    Decision { view: u32, plan: u64 },
}

impl Entry {
    /// The entry's bytes, recipient byte first.
    pub fn bytes(&self) -> Vec<u8> {
        let mut bytes = [0; MAX_LEN];
        let count = self.write_into(&mut bytes);
        bytes[..count].to_vec()
    }

    /// The entry's bytes, written at the front of `out`; gives their count.
    pub fn write_into(&self, out: &mut [u8]) -> usize {
        match self {
            Entry::All(frame) => {
                out[0] = ALL;
                1 + frame::write_into(frame, &mut out[1..])
            }
            Entry::To(vault, frame) => {
                out[0] = *vault;
                1 + frame::write_into(frame, &mut out[1..])
            }
            // "0b, view (4), milliseconds (4) for a timer"
            Entry::Timer { view, millis } => {
                out[0] = HOST;
                out[1] = TIMER;
                out[2..6].copy_from_slice(&view.to_be_bytes());
                out[6..10].copy_from_slice(&millis.to_be_bytes());
                10
            }
            // "0a, view (4), plan (8) for a decision"
            Entry::Decision { view, plan } => {
                out[0] = HOST;
                out[1] = DECISION;
                out[2..6].copy_from_slice(&view.to_be_bytes());
                out[6..14].copy_from_slice(&plan.to_be_bytes());
                14
            }
        }
    }
}

/// The entry at the front of the bytes, and its count of bytes.
pub fn parse_first(bytes: &[u8]) -> Option<(Entry, usize)> {
    let (recipient, kind) = (*bytes.first()?, *bytes.get(1)?);
    match (recipient, kind) {
        (HOST, TIMER) => {
            let bytes = bytes.get(..10)?;
            let entry =
                Entry::Timer { view: number4(&bytes[2..6]), millis: number4(&bytes[6..10]) };
            Some((entry, 10))
        }
        (HOST, DECISION) => {
            let bytes = bytes.get(..14)?;
            let entry =
                Entry::Decision { view: number4(&bytes[2..6]), plan: number8(&bytes[6..14]) };
            Some((entry, 14))
        }
        (HOST, _) => None,
        _ => {
            let count = 1 + frame::length(kind)?;
            let frame = frame::parse(bytes.get(1..count)?)?;
            match recipient {
                ALL => Some((Entry::All(frame), count)),
                0..=63 => Some((Entry::To(recipient, frame), count)),
                _ => None,
            }
        }
    }
}

/// The exact inverse of laying entries end to end.
pub fn parse_entries(mut bytes: &[u8]) -> Option<Vec<Entry>> {
    let mut entries = Vec::new();
    while !bytes.is_empty() {
        let (entry, count) = parse_first(bytes)?;
        entries.push(entry);
        bytes = &bytes[count..];
    }
    Some(entries)
}

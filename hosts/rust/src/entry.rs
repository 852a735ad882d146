//! What accepted calls wrote, entry by entry.
use std::ops::Deref;
use std::time::Duration;

use crate::{sys, Decision, LONGEST_FRAME};

const TO_HOST: u8 = 0xfe;
const TO_ALL: u8 = 0xff;
const DECISION: u8 = 0x0a;
const TIMER: u8 = 0x0b;

/// The kinds of frames, by their number.
#[derive(Debug, Clone, Copy, PartialEq, Eq, PartialOrd, Ord, Hash)]
#[repr(u8)]
pub enum Kind {
    /// The leader's plan for its view.
    Proposal = 1,
    /// The first round of votes.
    Vote1 = 2,
    /// The second round.
    Vote2 = 3,
    /// The third round.
    Vote3 = 4,
    /// The fourth round: a quorum of these decides.
    Vote4 = 5,
    /// Asks for a later view.
    ViewChange = 6,
    /// Tells a view's leader what the sender voted before.
    Suggest = 7,
    /// Tells all what the sender voted before.
    Proof = 8,
}

impl Kind {
    /// The kind of a number, 1 to 8.
    pub fn from_number(number: u8) -> Option<Kind> {
        use Kind::*;
        [Proposal, Vote1, Vote2, Vote3, Vote4, ViewChange, Suggest, Proof].into_iter().find(|&kind| kind as u8 == number)
    }
}

/// A frame that the vault wrote: the bytes to be sent, as they are.
#[derive(Debug, Clone, Copy, PartialEq, Eq)]
pub struct Frame {
    kind: Kind,
    length: u8,
    bytes: [u8; LONGEST_FRAME],
}

impl Frame {
    /// A frame with the length that the library told.
    fn of(bytes: &[u8]) -> Option<Frame> {
        let mut frame = Frame { kind: Kind::from_number(*bytes.first()?)?, length: bytes.len() as u8, bytes: [0; LONGEST_FRAME] };
        frame.bytes.get_mut(..bytes.len())?.copy_from_slice(bytes);
        Some(frame)
    }

    /// What is to be sent.
    pub fn as_bytes(&self) -> &[u8] {
        &self.bytes[..usize::from(self.length)]
    }

    /// Its kind, byte 0.
    pub fn kind(&self) -> Kind {
        self.kind
    }

    /// Its sender, byte 1: the vault that wrote it.
    pub fn sender(&self) -> u8 {
        self.bytes[1]
    }

    /// Its view, bytes 2 to 5: a host sends it again while this is not below the current view.
    pub fn view(&self) -> u32 {
        number(&self.bytes[2..6]) as u32
    }

    /// The three reports of a suggest or proof, all bytes behind its view: what [`claim_reach`](crate::claim_reach) is asked about.
    pub fn reports(&self) -> Option<&[u8]> {
        matches!(self.kind, Kind::Suggest | Kind::Proof).then(|| &self.as_bytes()[6..])
    }
}

impl Deref for Frame {
    type Target = [u8];

    fn deref(&self) -> &[u8] {
        self.as_bytes()
    }
}

/// One thing to do.
#[derive(Debug, Clone, Copy, PartialEq, Eq)]
pub enum Entry {
    /// Send the frame to all other vaults.
    All(Frame),
    /// Send the frame to the vault of that number.
    To(u8, Frame),
    /// The vault has entered the view: let its timer run out after this time, and drop older timers.
    Timer {
        /// The current view.
        view: u32,
        /// Nine delays of the link class.
        after: Duration,
    },
    /// The vaults have agreed. A vault says so once.
    Decision(Decision),
}

impl Entry {
    /// What the bytes of one entry say.
    fn of(bytes: &[u8]) -> Option<Entry> {
        match *bytes {
            [TO_HOST, TIMER, ref rest @ ..] => {
                let (view, milliseconds) = rest.split_at_checked(4)?;
                Some(Entry::Timer { view: number(view) as u32, after: Duration::from_millis(number(milliseconds)) })
            }
            [TO_HOST, DECISION, ref rest @ ..] => {
                let (view, plan) = rest.split_at_checked(4)?;
                Some(Entry::Decision(Decision { view: number(view) as u32, plan: number(plan) }))
            }
            [TO_ALL, ref frame @ ..] => Frame::of(frame).map(Entry::All),
            [recipient, ref frame @ ..] => Frame::of(frame).map(|frame| Entry::To(recipient, frame)),
            [] => None,
        }
    }
}

/// A big-endian number of at most 8 bytes.
fn number(bytes: &[u8]) -> u64 {
    bytes.iter().fold(0, |number, &byte| number << 8 | u64::from(byte))
}

/// The entries of accepted calls, in the order in which they were written.
#[derive(Debug, Clone)]
#[must_use = "these frames are to be sent and these timers to be set"]
pub struct Entries {
    bytes: Vec<u8>,
    at: usize,
}

impl Entries {
    pub(crate) fn new(bytes: Vec<u8>) -> Entries {
        Entries { bytes, at: 0 }
    }
}

impl Iterator for Entries {
    type Item = Entry;

    fn next(&mut self) -> Option<Entry> {
        let end = self.at + sys::entry(&self.bytes, self.at);
        let entry = Entry::of(self.bytes.get(self.at..end)?)?;
        self.at = end;
        Some(entry)
    }
}

impl std::iter::FusedIterator for Entries {}

#[cfg(test)]
mod tests {
    use super::*;

    #[test]
    fn entries_are_walked_end_to_end() {
        let timer = [0xfe, 0x0b, 0, 0, 0, 1, 0, 0, 3, 0x84];
        let decision = [0xfe, 0x0a, 0, 0, 0, 1, 0, 0, 0, 0, 0, 0, 2, 0xbc];
        let change = [0xff, 6, 0, 0, 0, 0, 2];
        let suggest = [&[3, 7, 0, 0, 0, 0, 1][..], &[0; 39]].concat();
        let mut entries = Entries::new([&timer[..], &decision, &change, &suggest].concat());
        assert_eq!(entries.next(), Some(Entry::Timer { view: 1, after: Duration::from_millis(900) }));
        assert_eq!(entries.next(), Some(Entry::Decision(Decision { view: 1, plan: 700 })));
        let Some(Entry::All(frame)) = entries.next() else { panic!("a view-change") };
        assert_eq!((frame.kind(), frame.sender(), frame.view(), &frame[..]), (Kind::ViewChange, 0, 2, &change[1..]));
        assert_eq!(frame.reports(), None);
        let Some(Entry::To(3, frame)) = entries.next() else { panic!("a suggest") };
        assert_eq!((frame.kind(), frame.view(), frame.as_bytes()), (Kind::Suggest, 1, &suggest[1..]));
        assert_eq!(frame.reports(), Some(&[0; 39][..]));
        assert_eq!((entries.next(), entries.next()), (None, None));
    }

    /// The library writes no such thing; bytes that are no entry end the walk.
    #[test]
    fn half_an_entry_is_none() {
        for bytes in [&[0xff][..], &[0xff, 9], &[0xff, 6, 0, 0, 0, 0], &[0xfe, 0x0b, 0], &[0xfe, 0x0a], &[0xfe, 0x0c, 0, 0]] {
            assert_eq!(Entries::new(bytes.to_vec()).next(), None, "{bytes:?}");
        }
    }
}

//! Why a call did not act.
use std::fmt;

use crate::sys;

/// No sentence is longer.
const LONGEST_TEXT: usize = 120;

/// A refusal: the call changed nothing. They are tested in the order of their numbers, but 21 and 22 between 14 and 15.
#[derive(Debug, Clone, Copy, PartialEq, Eq, PartialOrd, Ord, Hash)]
#[repr(u8)]
pub enum Refusal {
    /// 1: the output has fewer than 256 bytes, 237 for a remnant. This crate always lends enough.
    Output = 1,
    /// 2: not start or restart: a blank record, the vault has not been started.
    Blank = 2,
    /// 3: not start or restart: bytes that are no sound record. Restore it from the vault's own store; do not start anew.
    Unsound = 3,
    /// 4: start or restart on a record that is not blank. This crate restarts on a blank one only.
    Started = 4,
    /// 5: start: n is below 4 or above 64.
    N = 5,
    /// 6: start: f is 0, or 3f is n or more.
    F = 6,
    /// 7: start: id is n or more.
    Id = 7,
    /// 8: start: the link class is above 7.
    Class = 8,
    /// 9: frame: no bytes, or the kind is not 1 to 8.
    Kind = 9,
    /// 10: frame: the length is wrong for the kind; claim_reach: not 39 bytes.
    Length = 10,
    /// 11: frame: the link's sender is n or more, or this vault itself.
    Link = 11,
    /// 12: frame: the sender byte is not the link's sender.
    Sender = 12,
    /// 13: frame: view 0 in a view-change, suggest or proof.
    View0 = 13,
    /// 14: frame, claim_reach: a report's mark is not 0 or 1, or it is absent and not all of it is 0.
    Report = 14,
    /// 15: frame: a proposal not from its view's leader, or a suggest for a view that this vault does not lead.
    Leader = 15,
    /// 16: frame: its view is over. Harmless.
    Over = 16,
    /// 17: frame: one of the same sender and kind is kept, at this view or a higher one. Harmless.
    Kept = 17,
    /// 18: timer: the view is not the current one. Harmless.
    Timer = 18,
    /// 19: timer: the current view is the last one, 4294967295.
    LastView = 19,
    /// 21: frame: a report that is present, the lock too, is for the frame's view or a higher one.
    ReportView = 21,
    /// 22: frame, claim_reach: a previous vote without a highest one, not below it, or for the same plan.
    Previous = 22,
    /// 24: equivocators: not 2 to 64 records, one is blank or no sound record, or they differ in n or f.
    Records = 24,
    /// 25: restart: the remnant has not 237 bytes. Do not start anew.
    RemnantLength = 25,
    /// 26: restart: what the remnant says makes no sound record. Do not start anew.
    RemnantUnsound = 26,
}

impl Refusal {
    /// Each refusal, in the order of the numbers.
    pub const ALL: [Refusal; 24] = {
        use Refusal::*;
        [
            Output,
            Blank,
            Unsound,
            Started,
            N,
            F,
            Id,
            Class,
            Kind,
            Length,
            Link,
            Sender,
            View0,
            Report,
            Leader,
            Over,
            Kept,
            Timer,
            LastView,
            ReportView,
            Previous,
            Records,
            RemnantLength,
            RemnantUnsound,
        ]
    };

    /// The refusal of a number: 1 to 19, 21, 22, or 24 to 26.
    pub fn from_number(number: u32) -> Option<Refusal> {
        Refusal::ALL.into_iter().find(|refusal| u32::from(refusal.number()) == number)
    }

    /// Its number, as documents, C hosts and the line program have it.
    pub fn number(self) -> u8 {
        self as u8
    }
}

/// The library's own sentence.
impl fmt::Display for Refusal {
    fn fmt(&self, f: &mut fmt::Formatter<'_>) -> fmt::Result {
        let mut text = [0; LONGEST_TEXT];
        let length = sys::refusal_text(self.number().into(), &mut text);
        write!(f, "refusal {}: {}", self.number(), String::from_utf8_lossy(&text[..length]))
    }
}

impl std::error::Error for Refusal {}

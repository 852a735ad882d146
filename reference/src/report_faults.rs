//! The faults of a suggest's or a proof's reports (document 02, wish 1), read off the frame's bytes,
//! and those that random scripts are to bring. It is written apart from the tests of frame.rs: what
//! the scripts are seen to reach must not rest on the order of those.

use std::fmt;

use crate::frame::{self, leader, number4, PROOF, SUGGEST};
use Place::{Highest, Lock, Previous};
use ReportFault::{Mark, Nonzero, NotBelow, SamePlan, View, WithoutHighest};

/// The three reports, in a frame's order.
#[derive(Clone, Copy, PartialEq, Eq, PartialOrd, Ord, Debug, Hash)]
pub enum Place {
    Highest,
    Previous,
    Lock,
}

impl Place {
    pub const ALL: [Place; 3] = [Place::Highest, Place::Previous, Place::Lock];

    /// Where in the frame the report begins.
    pub fn start(self) -> usize {
        6 + frame::REPORT_LEN * self as usize
    }

    fn name(self) -> &'static str {
        match self {
            Place::Highest => "highest",
            Place::Previous => "previous",
            Place::Lock => "lock",
        }
    }
}

/// One fault. They are listed, and so sorted, in the order in which the refusals are asked.
#[derive(Clone, Copy, PartialEq, Eq, PartialOrd, Ord, Debug, Hash)]
pub enum ReportFault {
    /// 14: a mark other than 0 and 1.
    Mark(Place),
    /// 14: mark 0, and a nonzero byte among the other 12.
    Nonzero(Place),
    /// 21: present, at or above the frame's view.
    View(Place),
    /// 22: previous is present, highest is absent.
    WithoutHighest,
    /// 22: previous's view is not below highest's.
    NotBelow,
    /// 22: both are for the same plan.
    SamePlan,
}

impl ReportFault {
    pub const ALL: [ReportFault; 12] = [
        Mark(Highest),
        Mark(Previous),
        Mark(Lock),
        Nonzero(Highest),
        Nonzero(Previous),
        Nonzero(Lock),
        View(Highest),
        View(Previous),
        View(Lock),
        WithoutHighest,
        NotBelow,
        SamePlan,
    ];

    pub fn refusal(self) -> u8 {
        match self {
            Mark(_) | Nonzero(_) => 14,
            View(_) => 21,
            WithoutHighest | NotBelow | SamePlan => 22,
        }
    }
}

impl fmt::Display for ReportFault {
    fn fmt(&self, out: &mut fmt::Formatter) -> fmt::Result {
        match self {
            Mark(place) => write!(out, "14 by the mark of {}", place.name()),
            Nonzero(place) => write!(out, "14 by a byte of an absent {}", place.name()),
            View(place) => write!(out, "21 by the view of {}", place.name()),
            WithoutHighest => write!(out, "22 without highest"),
            NotBelow => write!(out, "22 not below highest"),
            SamePlan => write!(out, "22 for highest's plan"),
        }
    }
}

/// All faults of the 45 bytes of a suggest or a proof, sorted. Big-endian numbers of one length
/// compare as their bytes do.
pub fn faults_of(bytes: &[u8]) -> Vec<ReportFault> {
    let [highest, previous, lock] =
        Place::ALL.map(|place| &bytes[place.start()..place.start() + frame::REPORT_LEN]);
    let mut faults = Vec::new();
    for (place, report) in Place::ALL.into_iter().zip([highest, previous, lock]) {
        match report[0] {
            0 if report != [0; frame::REPORT_LEN] => faults.push(Nonzero(place)),
            1 if report[1..5] >= bytes[2..6] => faults.push(View(place)),
            0 | 1 => {}
            _ => faults.push(Mark(place)),
        }
    }
    match (previous[0], highest[0]) {
        (1, 0) => faults.push(WithoutHighest),
        (1, 1) => {
            faults.extend((previous[1..5] >= highest[1..5]).then_some(NotBelow));
            faults.extend((previous[5..] == highest[5..]).then_some(SamePlan));
        }
        _ => {}
    }
    faults.sort();
    faults
}

/// The sets of faults that scripts are to bring: each fault alone, and pairs in which the fault of
/// the later number is in the earlier report.
pub fn wanted_faults() -> Vec<Vec<ReportFault>> {
    let mut wanted = single_faults();
    for form in [Mark, Nonzero] {
        // 14 and 21
        wanted.push(vec![form(Previous), View(Highest)]);
        wanted.push(vec![form(Lock), View(Highest)]);
        wanted.push(vec![form(Lock), View(Highest), View(Previous)]);
        // 14 and 22
        wanted.extend(AT_ODDS.map(|at_odds| vec![form(Lock), at_odds]));
        // all three
        wanted.push(vec![form(Lock), View(Previous), WithoutHighest]);
    }
    // 21 and 22
    wanted.extend(AT_ODDS.map(|at_odds| vec![View(Lock), at_odds]));
    wanted.push(vec![View(Previous), WithoutHighest]);
    wanted.push(vec![View(Previous), NotBelow]);
    wanted.push(vec![View(Highest), View(Previous), NotBelow]);
    wanted.push(vec![View(Highest), View(Previous), SamePlan]);
    wanted.push(vec![View(Highest), SamePlan]);
    wanted
}

/// The three ways of 22.
const AT_ODDS: [ReportFault; 3] = [WithoutHighest, NotBelow, SamePlan];

/// Faults of one number. A previous vote at or above the frame's view is at odds with any highest
/// vote below it, so 21 of previous comes without 22 only where highest has it too.
fn single_faults() -> Vec<Vec<ReportFault>> {
    let mut single: Vec<_> = Place::ALL.map(|place| vec![Mark(place)]).into();
    single.extend(Place::ALL.map(|place| vec![Nonzero(place)]));
    single.push(vec![View(Highest)]);
    single.push(vec![View(Highest), View(Previous)]);
    single.push(vec![View(Lock)]);
    single.extend(AT_ODDS.map(|at_odds| vec![at_odds]));
    // previous is highest once more
    single.push(vec![NotBelow, SamePlan]);
    single
}

/// What brings reports to a vault.
#[derive(Clone, Copy, PartialEq, Eq, PartialOrd, Ord, Debug, Hash)]
pub enum Carrier {
    /// A suggest for a view that the vault leads.
    Suggest,
    /// A suggest for a view that it does not lead, which 15 refuses where nothing else does.
    StraySuggest,
    Proof,
}

impl Carrier {
    pub const ALL: [Carrier; 3] = [Carrier::Suggest, Carrier::StraySuggest, Carrier::Proof];

    pub fn kind(self) -> u8 {
        match self {
            Carrier::Suggest | Carrier::StraySuggest => SUGGEST,
            Carrier::Proof => PROOF,
        }
    }

    /// What these bytes are to vault `id` of n, if they are a suggest or a proof that passes 9 to
    /// 13; the link's sender is the one in the bytes.
    pub fn of(bytes: &[u8], n: u8, id: u8) -> Option<Carrier> {
        if bytes.len() != frame::MAX_LEN || bytes[1] >= n || bytes[1] == id {
            return None;
        }
        let view = number4(&bytes[2..6]);
        match bytes[0] {
            _ if view == 0 => None,
            SUGGEST if leader(view, n) == id => Some(Carrier::Suggest),
            SUGGEST => Some(Carrier::StraySuggest),
            PROOF => Some(Carrier::Proof),
            _ => None,
        }
    }
}

impl fmt::Display for Carrier {
    fn fmt(&self, out: &mut fmt::Formatter) -> fmt::Result {
        out.write_str(match self {
            Carrier::Suggest => "suggest",
            Carrier::StraySuggest => "suggest to a vault that does not lead",
            Carrier::Proof => "proof",
        })
    }
}

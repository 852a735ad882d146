//! Frames (01, "Frames"): their contents, the reader with refusals 9 to 15, among them 21 and 22
//! (document 02, wish 1), and the writer.

pub const PROPOSAL: u8 = 1;
pub const VOTE_1: u8 = 2;
pub const VOTE_2: u8 = 3;
pub const VOTE_3: u8 = 4;
pub const VOTE_4: u8 = 5;
pub const VIEW_CHANGE: u8 = 6;
pub const SUGGEST: u8 = 7;
pub const PROOF: u8 = 8;
/// The kinds of frames, 1 to 8.
pub const KINDS: usize = 8;

/// The longest frame, a suggest or a proof.
pub const MAX_LEN: usize = 45;
/// "A report is a mark (1 present, 0 absent), a view (4 bytes) and a plan (8)."
pub const REPORT_LEN: usize = 13;

/// A present report; an absent one is None.
#[derive(Clone, Copy, PartialEq, Eq, Debug, Hash)]
pub struct Report {
    pub view: u32,
    pub plan: u64,
}

/// What follows the first six bytes: kinds 1 to 5, kind 6, kinds 7 and 8.
#[derive(Clone, Copy, PartialEq, Eq, Debug, Hash)]
pub enum Body {
    Plan(u64),
    Empty,
    Reports([Option<Report>; 3]),
}

#[derive(Clone, Copy, PartialEq, Eq, Debug, Hash)]
pub struct Frame {
    pub kind: u8,
    pub sender: u8,
    pub view: u32,
    pub body: Body,
}

impl Frame {
    /// A proposal or a vote.
    pub fn with_plan(kind: u8, sender: u8, view: u32, plan: u64) -> Frame {
        Frame { kind, sender, view, body: Body::Plan(plan) }
    }

    pub fn view_change(sender: u8, view: u32) -> Frame {
        Frame { kind: VIEW_CHANGE, sender, view, body: Body::Empty }
    }

    /// A suggest or a proof: highest, previous, lock.
    pub fn with_reports(kind: u8, sender: u8, view: u32, reports: [Option<Report>; 3]) -> Frame {
        Frame { kind, sender, view, body: Body::Reports(reports) }
    }

    /// The plan of a proposal or a vote.
    pub fn plan(&self) -> Option<u64> {
        match self.body {
            Body::Plan(plan) => Some(plan),
            _ => None,
        }
    }

    /// The reports of a suggest or a proof.
    pub fn reports(&self) -> Option<[Option<Report>; 3]> {
        match self.body {
            Body::Reports(reports) => Some(reports),
            _ => None,
        }
    }

    /// The frame passes 9 to 15 for the row `row` of vault `id`, with the vault's own row
    /// excused from the own-number half of 11. A frame by its contents has passed 9, 10 and 14.
    pub fn fits_row(&self, row: u8, n: u8, id: u8) -> bool {
        self.body_fits_kind()
            && row < n
            && self.sender == row
            && !view_zero_barred(self.kind, self.view)
            && check_reports(self).is_ok()
            && !misplaced(self, n, id)
    }

    /// The body has the form of the table's column "Rest" for the kind.
    pub fn body_fits_kind(&self) -> bool {
        matches!(
            (self.kind, self.body),
            (PROPOSAL..=VOTE_4, Body::Plan(_))
                | (VIEW_CHANGE, Body::Empty)
                | (SUGGEST..=PROOF, Body::Reports(_))
        )
    }
}

/// "its leader is vault (view mod n)"; n is not 0.
pub fn leader(view: u32, n: u8) -> u8 {
    (view % u32::from(n)) as u8
}

/// The table's column "Length"; None where the kind is not 1 to 8.
pub fn length(kind: u8) -> Option<usize> {
    match kind {
        PROPOSAL..=VOTE_4 => Some(14),
        VIEW_CHANGE => Some(6),
        SUGGEST..=PROOF => Some(45),
        _ => None,
    }
}

/// Refusals 9 to 15, checked downwards, with 21 and 22 "in that order between 14 and 15": a frame
/// that came over the link from vault `link` to vault `id` of n vaults.
pub fn read(bytes: &[u8], link: u8, n: u8, id: u8) -> Result<Frame, u8> {
    // 9: empty, or kind not 1 to 8
    let Some(right_length) = bytes.first().and_then(|&kind| length(kind)) else {
        return Err(9);
    };
    // 10: length wrong for the kind
    if bytes.len() != right_length {
        return Err(10);
    }
    // 11: link's sender >= n or the vault's own number
    if link >= n || link == id {
        return Err(11);
    }
    // 12: sender byte is not the link's
    if bytes[1] != link {
        return Err(12);
    }
    // 13: view 0 in kind 6, 7 or 8
    if view_zero_barred(bytes[0], number4(&bytes[2..6])) {
        return Err(13);
    }
    // 14: bad mark, or a nonzero byte in an absent report; nothing else is left that fails to parse
    let Some(frame) = parse(bytes) else {
        return Err(14);
    };
    // 21: report view; 22: previous vote
    check_reports(&frame)?;
    // 15: proposal not from its view's leader; suggest for a view this vault does not lead
    if misplaced(&frame, n, id) {
        return Err(15);
    }
    Ok(frame)
}

/// 13: "view 0 in kind 6, 7 or 8".
fn view_zero_barred(kind: u8, view: u32) -> bool {
    view == 0 && matches!(kind, VIEW_CHANGE | SUGGEST | PROOF)
}

/// Refusals 21 and 22 of reports that passed 14: "All three reports are tested for the first fault,
/// then all for the second, then all for the third."
fn check_reports(frame: &Frame) -> Result<(), u8> {
    let Body::Reports(reports) = frame.body else {
        return Ok(());
    };
    if bad_view(&reports, frame.view) {
        return Err(21);
    }
    let [highest, previous, _lock] = reports;
    if bad_previous(previous, highest) {
        return Err(22);
    }
    Ok(())
}

/// 21, in a frame of this view: "Tell a report whose view is not below the frame's by one number"
/// (document 02, wish 1). An absent report has no view.
pub fn bad_view(reports: &[Option<Report>], view: u32) -> bool {
    reports.iter().flatten().any(|report| report.view >= view)
}

/// 22: "a previous vote at odds with its highest by another" (document 02, wish 1); it is so when
/// "previous without highest, not below it, or for its plan" (01, in the row of 14).
pub fn bad_previous(previous: Option<Report>, highest: Option<Report>) -> bool {
    match (previous, highest) {
        (None, _) => false,
        (Some(_), None) => true,
        (Some(previous), Some(highest)) => {
            previous.view >= highest.view || previous.plan == highest.plan
        }
    }
}

/// 15: "proposal not from its view's leader; suggest for a view this vault does not lead".
fn misplaced(frame: &Frame, n: u8, id: u8) -> bool {
    match frame.kind {
        PROPOSAL => frame.sender != leader(frame.view, n),
        SUGGEST => id != leader(frame.view, n),
        _ => false,
    }
}

/// The frame that the bytes spell, whoever sent it: kind, length, marks and zero bytes are
/// checked, nothing else.
pub fn parse(bytes: &[u8]) -> Option<Frame> {
    let kind = *bytes.first()?;
    if bytes.len() != length(kind)? {
        return None;
    }
    let body = parse_body(kind, &bytes[6..])?;
    Some(Frame { kind, sender: bytes[1], view: number4(&bytes[2..6]), body })
}

/// The table's column "Rest", of the right length for the kind.
pub fn parse_body(kind: u8, rest: &[u8]) -> Option<Body> {
    match kind {
        PROPOSAL..=VOTE_4 => Some(Body::Plan(number8(rest))),
        VIEW_CHANGE => Some(Body::Empty),
        _ => parse_reports(rest).map(Body::Reports),
    }
}

/// Refusal 14, where it gives None: "Keep 14 for a bad mark or a nonzero byte in an absent report"
/// (document 02, wish 1). The bytes are the 39 of a suggest's or a proof's three reports.
pub fn parse_reports(bytes: &[u8]) -> Option<[Option<Report>; 3]> {
    Some([
        parse_report(&bytes[..13])?,
        parse_report(&bytes[13..26])?,
        parse_report(&bytes[26..39])?,
    ])
}

/// "A report is a mark, a view and a plan. Absent means all 13 bytes zero." None: not a report.
pub fn parse_report(bytes: &[u8]) -> Option<Option<Report>> {
    match bytes[0] {
        1 => Some(Some(Report { view: number4(&bytes[1..5]), plan: number8(&bytes[5..13]) })),
        0 if bytes.iter().all(|&byte| byte == 0) => Some(None),
        _ => None,
    }
}

/// The frame's bytes.
pub fn write(frame: &Frame) -> Vec<u8> {
    let mut bytes = [0; MAX_LEN];
    let count = write_into(frame, &mut bytes);
    bytes[..count].to_vec()
}

/// The frame's bytes, written at the front of `out`; gives their count. The body must fit the kind.
pub fn write_into(frame: &Frame, out: &mut [u8]) -> usize {
    assert!(frame.body_fits_kind(), "no frame has this kind and this body");
    out[0] = frame.kind;
    out[1] = frame.sender;
    out[2..6].copy_from_slice(&frame.view.to_be_bytes());
    6 + write_body(&frame.body, &mut out[6..])
}

/// The table's column "Rest", written at the front of `out`; gives its count of bytes.
pub fn write_body(body: &Body, out: &mut [u8]) -> usize {
    match *body {
        Body::Plan(plan) => {
            out[..8].copy_from_slice(&plan.to_be_bytes());
            8
        }
        Body::Empty => 0,
        Body::Reports([first, second, third]) => {
            write_report(first, &mut out[..13]);
            write_report(second, &mut out[13..26]);
            write_report(third, &mut out[26..39]);
            39
        }
    }
}

/// One report's 13 bytes.
pub fn write_report(report: Option<Report>, out: &mut [u8]) {
    match report {
        None => out[..REPORT_LEN].fill(0),
        Some(report) => {
            out[0] = 1;
            out[1..5].copy_from_slice(&report.view.to_be_bytes());
            out[5..13].copy_from_slice(&report.plan.to_be_bytes());
        }
    }
}

/// "Numbers are big-endian": four bytes.
pub fn number4(bytes: &[u8]) -> u32 {
    u32::from_be_bytes([bytes[0], bytes[1], bytes[2], bytes[3]])
}

/// "Numbers are big-endian": eight bytes.
pub fn number8(bytes: &[u8]) -> u64 {
    (u64::from(number4(&bytes[..4])) << 32) | u64::from(number4(&bytes[4..8]))
}

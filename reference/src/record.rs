//! What a vault keeps (01, "What a vault keeps"), when a record is blank or sound, and the
//! reference's own byte layout of it.

use crate::frame::{self, bad_previous, leader, number4, number8, Frame, Report, KINDS};

/// The most vaults there can be.
pub const VAULTS: usize = 64;

#[derive(Clone, Copy, PartialEq, Eq, Debug, Hash)]
pub struct Settings {
    pub n: u8,
    pub f: u8,
    pub id: u8,
    pub class: u8,
}

impl Settings {
    /// Refusals 5 to 8, checked downwards.
    pub fn check(&self) -> Result<(), u8> {
        // 5: n below 4 or above 64
        if self.n < 4 || self.n > 64 {
            return Err(5);
        }
        // 6: f is 0 or 3f >= n
        if self.f == 0 || 3 * u32::from(self.f) >= u32::from(self.n) {
            return Err(6);
        }
        // 7: id >= n
        if self.id >= self.n {
            return Err(7);
        }
        // 8: class above 7
        if self.class > 7 {
            return Err(8);
        }
        Ok(())
    }

    /// "The link class, 0 to 7, gives the delay in milliseconds"; "A timer is 9 x delay".
    pub fn timer_millis(&self) -> u32 {
        const DELAY: [u32; 8] = [20, 50, 100, 200, 500, 1000, 2000, 5000];
        9 * DELAY[usize::from(self.class)]
    }
}

/// The kept frames: rows[sender][kind - 1].
pub type Rows = [[Option<Frame>; KINDS]; VAULTS];

#[derive(Clone, PartialEq, Eq, Debug)]
pub struct Record {
    pub settings: Settings,
    pub start_plan: u64,
    pub view: u32,
    pub rows: Rows,
    pub previous_vote1: Option<Report>,
    pub previous_vote2: Option<Report>,
    pub decision: Option<Report>,
}

impl Record {
    /// A record in view 0 with no kept frames.
    pub fn new(settings: Settings, start_plan: u64) -> Record {
        Record {
            settings,
            start_plan,
            view: 0,
            rows: [[None; KINDS]; VAULTS],
            previous_vote1: None,
            previous_vote2: None,
            decision: None,
        }
    }

    /// The blank record whose bytes are all zero.
    pub fn empty() -> Record {
        Record::new(Settings { n: 0, f: 0, id: 0, class: 0 }, 0)
    }

    /// The frame kept for a sender and a kind.
    pub fn kept(&self, sender: u8, kind: u8) -> Option<&Frame> {
        self.rows[usize::from(sender)][usize::from(kind - 1)].as_ref()
    }

    /// The frame of the vault's own row.
    pub fn own(&self, kind: u8) -> Option<&Frame> {
        self.kept(self.settings.id, kind)
    }

    /// The vault's own highest vote of a kind, as a report.
    pub fn own_vote(&self, kind: u8) -> Option<Report> {
        let frame = self.own(kind)?;
        Some(Report { view: frame.view, plan: frame.plan()? })
    }

    /// "For each sender and kind it keeps one frame": the place of the frame's sender and kind.
    pub fn keep(&mut self, frame: Frame) {
        self.rows[usize::from(frame.sender)][usize::from(frame.kind - 1)] = Some(frame);
    }

    /// The senders' frames of one kind and one view.
    pub fn kept_of(&self, kind: u8, view: u32) -> impl Iterator<Item = &Frame> + '_ {
        (0..self.settings.n)
            .filter_map(move |sender| self.kept(sender, kind))
            .filter(move |frame| frame.view == view)
    }

    pub fn leads(&self, view: u32) -> bool {
        leader(view, self.settings.n) == self.settings.id
    }

    /// "It is sound when its settings pass 5 to 8, every kept frame passes 9 to 15 for its row ...,
    /// no frame in its own row but the view-change is above the current view, and each previous
    /// vote stands to its highest as in" 22, which is where document 02, wish 1 has put it; 01 says
    /// 14. "A sound record passes these as well", so 21 and 22 are among 9 to 15.
    pub fn sound(&self) -> bool {
        self.settings.check().is_ok()
            && self.kept_frames_fit()
            && self.own_row_not_above_view()
            && !bad_previous(self.previous_vote1, self.own_vote(frame::VOTE_1))
            && !bad_previous(self.previous_vote2, self.own_vote(frame::VOTE_2))
    }

    /// "every kept frame passes 9 to 15 for its row", 21 and 22 with them
    fn kept_frames_fit(&self) -> bool {
        let Settings { n, id, .. } = self.settings;
        self.rows.iter().enumerate().all(|(row, frames)| {
            frames.iter().enumerate().all(|(place, frame)| {
                frame.is_none_or(|frame| {
                    usize::from(frame.kind) == place + 1 && frame.fits_row(row as u8, n, id)
                })
            })
        })
    }

    /// "no frame in its own row but the view-change is above the current view"
    fn own_row_not_above_view(&self) -> bool {
        self.rows[usize::from(self.settings.id)]
            .iter()
            .flatten()
            .all(|frame| frame.kind == frame::VIEW_CHANGE || frame.view <= self.view)
    }
}

/// What the bytes of a lent record are.
#[allow(clippy::large_enum_variant)]
#[derive(Clone, PartialEq, Eq, Debug)]
pub enum Lent {
    Blank,
    Sound(Record),
    Unsound,
}

/// `Lent` without the record. Addition to the interface.
#[derive(Clone, Copy, PartialEq, Eq, Debug)]
pub enum State {
    Blank,
    Sound,
    Unsound,
}

/// The state of a lent record, of any bytes of any length, with its contents where sound.
pub fn classify(bytes: &[u8]) -> Lent {
    let mut record = Record::empty();
    match classify_into(bytes, &mut record) {
        State::Blank => Lent::Blank,
        State::Sound => Lent::Sound(record),
        State::Unsound => Lent::Unsound,
    }
}

/// "A lent record of the wrong length, or whose bytes spell no record, is unsound and not blank.
/// Otherwise it is blank when its n is 0." Else it is sound or unsound. The contents go into an
/// empty record, which saves copying them.
pub fn classify_into(bytes: &[u8], record: &mut Record) -> State {
    if !decode_into(bytes, record) {
        State::Unsound
    } else if record.settings.n == 0 {
        State::Blank
    } else if record.sound() {
        State::Sound
    } else {
        State::Unsound
    }
}

// The layout, big-endian, without gaps:
//   n, f, id, class (1 each), starting plan (8), current view (4),
//   previous vote-1, previous vote-2, decision (one report of 13 bytes each),
//   64 rows; in a row, for each kind 1 to 8: a mark (1 kept, 0 not) and the frame from its view
//   on (byte 2 to the end), all zero where no frame is kept. Kind and sender are the place's.
// A mark that is neither 0 nor 1, and a nonzero byte after a mark 0, spell no record. So a record
// has one spelling only, and blank (n = 0) may carry any other contents that can be spelled.

const HEAD_LEN: usize = 16 + 3 * frame::REPORT_LEN;
/// Of the marks and frames of kinds 1 to 8, where each starts in a row.
const PLACE: [usize; KINDS + 1] = [0, 13, 26, 39, 52, 65, 70, 114, 158];
const ROW_LEN: usize = PLACE[KINDS];

pub const RECORD_LEN: usize = HEAD_LEN + VAULTS * ROW_LEN;

/// The record that the bytes spell. None: wrong length, or they spell no record.
pub fn decode(bytes: &[u8]) -> Option<Record> {
    let mut record = Record::empty();
    decode_into(bytes, &mut record).then_some(record)
}

/// `decode` into an empty record; whether the bytes spell one.
fn decode_into(bytes: &[u8], record: &mut Record) -> bool {
    bytes.len() == RECORD_LEN
        && decode_head(&bytes[..HEAD_LEN], record).is_some()
        && decode_rows(&bytes[HEAD_LEN..], &mut record.rows).is_some()
}

fn decode_head(bytes: &[u8], record: &mut Record) -> Option<()> {
    record.settings = Settings { n: bytes[0], f: bytes[1], id: bytes[2], class: bytes[3] };
    record.start_plan = number8(&bytes[4..12]);
    record.view = number4(&bytes[12..16]);
    record.previous_vote1 = frame::parse_report(&bytes[16..29])?;
    record.previous_vote2 = frame::parse_report(&bytes[29..42])?;
    record.decision = frame::parse_report(&bytes[42..55])?;
    Some(())
}

fn decode_rows(bytes: &[u8], rows: &mut Rows) -> Option<()> {
    for (sender, row) in bytes.chunks_exact(ROW_LEN).enumerate() {
        // A row of zeros keeps no frame.
        if row == [0; ROW_LEN] {
            continue;
        }
        for kind in 1..=KINDS {
            let place = &row[PLACE[kind - 1]..PLACE[kind]];
            rows[sender][kind - 1] = decode_place(sender as u8, kind as u8, place)?;
        }
    }
    Some(())
}

/// The kept frame that a place spells, or that none is kept; None where it spells neither.
fn decode_place(sender: u8, kind: u8, place: &[u8]) -> Option<Option<Frame>> {
    match place[0] {
        0 if place.iter().all(|&byte| byte == 0) => Some(None),
        1 => {
            let body = frame::parse_body(kind, &place[5..])?;
            Some(Some(Frame { kind, sender, view: number4(&place[1..5]), body }))
        }
        _ => None,
    }
}

/// The bytes that spell the record. Each kept frame must stand in the place of its sender and kind.
pub fn encode(record: &Record) -> Vec<u8> {
    let mut bytes = vec![0; RECORD_LEN];
    encode_into(record, &mut bytes);
    bytes
}

/// `encode`, into lent bytes of the right length.
pub fn encode_into(record: &Record, bytes: &mut [u8]) {
    assert_eq!(bytes.len(), RECORD_LEN, "a record has one length");
    let Settings { n, f, id, class } = record.settings;
    bytes[..4].copy_from_slice(&[n, f, id, class]);
    bytes[4..12].copy_from_slice(&record.start_plan.to_be_bytes());
    bytes[12..16].copy_from_slice(&record.view.to_be_bytes());
    frame::write_report(record.previous_vote1, &mut bytes[16..29]);
    frame::write_report(record.previous_vote2, &mut bytes[29..42]);
    frame::write_report(record.decision, &mut bytes[42..55]);
    for (sender, row) in bytes[HEAD_LEN..].chunks_exact_mut(ROW_LEN).enumerate() {
        for kind in 1..=KINDS {
            let place = &mut row[PLACE[kind - 1]..PLACE[kind]];
            encode_place(sender as u8, kind as u8, &record.rows[sender][kind - 1], place);
        }
    }
}

fn encode_place(sender: u8, kind: u8, kept: &Option<Frame>, place: &mut [u8]) {
    place.fill(0);
    if let Some(kept) = kept {
        let in_place = kept.kind == kind && kept.sender == sender && kept.body_fits_kind();
        assert!(in_place, "a kept frame stands in its own place");
        place[0] = 1;
        place[1..5].copy_from_slice(&kept.view.to_be_bytes());
        frame::write_body(&kept.body, &mut place[5..]);
    }
}

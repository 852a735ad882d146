//! Every refusal number in a test of its own, and the order of refusals. `Vault` checks that each
//! refusal leaves record and output byte for byte.
mod common;
use common::*;
use reference::calls;
use reference::frame::{parse, read, write, Report};
use reference::record::{encode, Record, RECORD_LEN};
use reference::report_faults::{faults_of, wanted_faults, Place, ReportFault};
use reference::rng::Rng;
use std::collections::BTreeSet;

/// Sound records to be refused on, and bytes that are unsound.
fn sound() -> Vec<u8> {
    Vault::started(4, 1, 1, 7).rec
}

fn unsound() -> Vec<u8> {
    let mut rec = sound();
    rec[3] = 8;
    rec
}

/// The number given, with record and output seen to be unchanged.
fn refused(
    rec: &[u8],
    out_len: usize,
    call: impl Fn(&mut [u8], &mut [u8]) -> Result<usize, u8>,
) -> Option<u8> {
    let mut out = vec![0; out_len];
    Rng(1).fill(&mut out);
    let (mut rec_after, mut out_after) = (rec.to_vec(), out.clone());
    let result = call(&mut rec_after, &mut out_after);
    if result.is_err() {
        assert!(rec_after == rec && out_after == out, "a refusal changes nothing");
    }
    result.err()
}

#[test]
fn refusal_1_output_space() {
    let frame = write(&vote(1, 0, 0, 7));
    for out_len in 0..=257 {
        let expected = if out_len < 256 { Some(1) } else { None };
        assert_eq!(
            refused(&[0; RECORD_LEN], out_len, |r, o| calls::start(r, 4, 1, 0, 0, 7, o)),
            expected
        );
        assert_eq!(refused(&sound(), out_len, |r, o| calls::frame(r, 0, &frame, o)), expected);
        assert_eq!(refused(&sound(), out_len, |r, o| calls::timer(r, 0, o)), expected);
    }
}

#[test]
fn refusal_2_blank_record() {
    let mut vault = Vault::blank();
    assert_eq!(vault.frame(&vote(1, 0, 0, 7)), Err(2));
    assert_eq!(vault.bytes(0, &[]), Err(2));
    assert_eq!(vault.timer(0), Err(2));
    // blank is n = 0, whatever else the record spells
    let mut vault = Vault { rec: sound() };
    vault.rec[0] = 0;
    assert_eq!(vault.frame(&vote(1, 0, 0, 7)), Err(2));
    assert_eq!(vault.timer(0), Err(2));
    assert!(vault.start(4, 1, 1, 2, 7).is_ok());
    assert_eq!(vault.rec, sound());
}

#[test]
fn refusal_3_unsound_record() {
    for rec in [vec![], vec![0; RECORD_LEN - 1], vec![0; RECORD_LEN + 1], unsound()] {
        let mut vault = Vault { rec };
        assert_eq!(vault.frame(&vote(1, 0, 0, 7)), Err(3));
        assert_eq!(vault.timer(0), Err(3));
    }
    // bytes that spell no record are not blank, even where n would be 0
    let mut rec = vec![0; RECORD_LEN];
    rec[16] = 2;
    let mut vault = Vault { rec };
    assert_eq!(vault.timer(0), Err(3));
    assert_eq!(vault.start(4, 1, 0, 0, 0), Err(4));
}

#[test]
fn refusal_4_start_on_a_record_not_blank() {
    for rec in [vec![], vec![0; RECORD_LEN - 1], vec![0; RECORD_LEN + 1], unsound(), sound()] {
        assert_eq!(Vault { rec }.start(4, 1, 0, 0, 0), Err(4));
    }
}

#[test]
fn refusal_5_count_of_vaults() {
    for n in 0..=255 {
        let expected = if (4..=64).contains(&n) { None } else { Some(5) };
        assert_eq!(Vault::blank().start(n, 1, 0, 0, 0).err(), expected);
    }
}

#[test]
fn refusal_6_count_of_faults() {
    for n in 4..=64u8 {
        for f in 0..=255u8 {
            let starts = f >= 1 && 3 * u32::from(f) < u32::from(n);
            let expected = if starts { None } else { Some(6) };
            assert_eq!(reference::vault::start(n, f, 0, 0, 0).err(), expected);
        }
    }
    assert_eq!(Vault::blank().start(4, 0, 0, 0, 0), Err(6));
    assert_eq!(Vault::blank().start(6, 2, 0, 0, 0), Err(6));
    assert!(Vault::blank().start(7, 2, 0, 0, 0).is_ok());
    assert_eq!(Vault::blank().start(64, 86, 0, 0, 0), Err(6), "3f does not wrap");
}

#[test]
fn refusal_7_own_number() {
    assert_eq!(Vault::blank().start(4, 1, 4, 0, 0), Err(7));
    assert_eq!(Vault::blank().start(64, 1, 255, 0, 0), Err(7));
    assert!(Vault::blank().start(4, 1, 3, 0, 0).is_ok());
}

#[test]
fn refusal_8_class() {
    assert_eq!(Vault::blank().start(4, 1, 0, 8, 0), Err(8));
    assert_eq!(Vault::blank().start(4, 1, 0, 255, 0), Err(8));
    assert!(Vault::blank().start(4, 1, 0, 7, 0).is_ok());
}

#[test]
fn refusal_9_kind() {
    let mut vault = Vault::started(4, 1, 1, 7);
    assert_eq!(vault.bytes(0, &[]), Err(9));
    for kind in [0u8, 9, 10, 11, 128, 255] {
        let mut bytes = write(&vote(1, 0, 0, 7));
        bytes[0] = kind;
        assert_eq!(vault.bytes(0, &bytes), Err(9));
        assert_eq!(vault.bytes(0, &[kind]), Err(9));
    }
}

#[test]
fn refusal_10_length() {
    let mut vault = Vault::started(4, 1, 1, 7);
    for kind in 1..=8u8 {
        let right = match kind {
            1..=5 => 14,
            6 => 6,
            _ => 45,
        };
        for length in 1..60 {
            let mut bytes = vec![0; length];
            bytes[0] = kind;
            bytes[length.min(6) - 1] = 1;
            bytes[0] = kind;
            let result = vault.bytes(255, &bytes);
            assert_eq!(result, Err(if length == right { 11 } else { 10 }));
        }
    }
}

#[test]
fn refusal_11_link() {
    for (n, id) in [(4, 1), (64, 63), (64, 0)] {
        let mut vault = Vault::started(n, 1, id, 7);
        for link in 0..=255 {
            let result = vault.bytes(link, &write(&vote(1, link, 0, link.into())));
            let expected = if link >= n || link == id { Some(11) } else { None };
            assert_eq!(result.err(), expected);
        }
    }
}

#[test]
fn refusal_12_sender_byte() {
    let mut vault = Vault::started(4, 1, 1, 7);
    for sender in 0..=255 {
        let result = vault.bytes(2, &write(&vote(1, sender, 0, 7)));
        assert_eq!(result.err(), if sender == 2 { None } else { Some(12) });
    }
}

#[test]
fn refusal_13_view_zero() {
    let mut vault = Vault::started(4, 1, 0, 7);
    for frame in [view_change(2, 0), suggest(2, 0, NONE), proof(2, 0, NONE)] {
        assert_eq!(vault.frame(&frame), Err(13));
    }
    for number in 1..=4 {
        assert!(vault.frame(&vote(number, 2, 0, 7)).is_ok());
    }
}

/// A vault that leads view 9 takes bytes from vault 2.
fn reported(bytes: &[u8]) -> Option<u8> {
    Vault::started(4, 1, 1, 7).bytes(2, bytes).err()
}

/// All of these reports give the same, in a suggest and in a proof.
fn all_reported(cases: &[[Option<Report>; 3]], expected: Option<u8>) {
    for write_frame in [suggest, proof] {
        for &reports in cases {
            let bytes = write(&write_frame(2, 9, reports));
            assert_eq!(reported(&bytes), expected, "{reports:?}");
        }
    }
}

#[test]
fn reports_that_pass() {
    let good = [
        NONE,
        [rep(8, 5), None, None],
        [None, None, rep(8, 5)],
        [rep(8, 5), rep(7, 6), None],
        [rep(8, 0), rep(0, 6), rep(0, 0)],
        // lock and votes are not compared
        [rep(3, 5), rep(2, 6), rep(8, 7)],
        [rep(3, 5), rep(2, 6), rep(3, 5)],
        [rep(3, 5), rep(2, 6), rep(1, 6)],
    ];
    all_reported(&good, None);
}

#[test]
fn refusal_21_report_view() {
    let bad = [
        [rep(9, 5), None, None],
        [rep(10, 5), None, None],
        [rep(u32::MAX, 5), None, None],
        [rep(9, 5), rep(8, 6), None],
        [rep(10, 5), rep(9, 6), None],
        // the lock too
        [None, None, rep(9, 5)],
        [None, None, rep(u32::MAX, 5)],
        [rep(8, 5), rep(7, 6), rep(9, 5)],
    ];
    all_reported(&bad, Some(21));
}

#[test]
fn refusal_22_previous_vote() {
    let bad = [
        // previous without highest
        [None, rep(3, 5), None],
        [None, rep(0, 0), None],
        [None, rep(3, 5), rep(4, 5)],
        // not below it
        [rep(5, 5), rep(5, 6), None],
        [rep(5, 5), rep(6, 6), None],
        [rep(0, 5), rep(0, 6), None],
        // for its plan
        [rep(5, 5), rep(4, 5), None],
        [rep(1, 0), rep(0, 0), None],
        // highest once more
        [rep(5, 5), rep(5, 5), rep(5, 5)],
    ];
    all_reported(&bad, Some(22));
}

/// "All three reports are tested for the first fault, then all for the second, then all for the
/// third": the fault of the later number stands in the earlier report, or in the pair.
#[test]
fn refusal_14_before_21_before_22() {
    // 21 and 22 each alone are further up
    let at_21 = [[rep(9, 5), None, None], [rep(10, 5), rep(9, 6), None]];
    let at_22 =
        [[None, rep(3, 5), None], [rep(5, 5), rep(5, 6), None], [rep(5, 5), rep(4, 5), None]];
    let at_both = [
        [None, rep(9, 5), None],
        [rep(8, 5), rep(9, 6), None],
        [rep(9, 5), rep(10, 6), None],
        [rep(9, 5), rep(8, 5), None],
        [rep(10, 5), rep(9, 5), None],
    ];
    all_reported(&at_both, Some(21));
    for [highest, previous, _] in at_22 {
        all_reported(&[[highest, previous, rep(9, 5)]], Some(21));
    }
    for write_frame in [suggest, proof] {
        for reports in at_21.into_iter().chain(at_22).chain(at_both) {
            for (place, byte) in [(0, 2), (0, 255), (1, 1), (12, 1)] {
                let mut bytes = write(&write_frame(2, 9, reports));
                bytes[32 + place] = byte;
                assert_eq!(reported(&bytes), Some(14), "{reports:?}");
            }
        }
        for (place, byte) in [(0, 2), (1, 1)] {
            let mut bytes = write(&write_frame(2, 9, [rep(9, 5), None, None]));
            bytes[19 + place] = byte;
            assert_eq!(reported(&bytes), Some(14));
        }
    }
}

/// All three come before 15, 16 and 17, and after 13.
#[test]
fn refusals_14_21_and_22_stand_between_13_and_15() {
    let faults = [(14, NONE), (21, [None, None, rep(9, 5)]), (22, [None, rep(3, 5), None])];
    for (number, reports) in faults {
        let spelled = |view: u32| {
            let mut bytes = write(&suggest(2, view, reports));
            bytes[6] = if number == 14 { 2 } else { bytes[6] };
            bytes
        };
        // view 8 is not led, and gone by in view 9; in view 9 a suggest is kept already
        assert_eq!(Vault::started(4, 1, 1, 7).bytes(2, &spelled(8)), Err(number));
        let mut vault = Vault::of(&record_with(4, 1, 1, 7, 9, &[suggest(2, 9, NONE)]));
        assert_eq!(vault.bytes(2, &spelled(8)), Err(number));
        assert_eq!(vault.bytes(2, &spelled(9)), Err(number));
        assert_eq!(vault.bytes(2, &write(&suggest(2, 9, NONE))), Err(17));
        assert_eq!(vault.bytes(2, &spelled(0)), Err(13));
    }
}

#[test]
fn refusal_14_marks_and_bytes_of_absent_reports() {
    for write_frame in [suggest, proof] {
        for report in 0..3 {
            let marks = (2..=255).map(|mark| (0, mark));
            let nonzero = (1..13).map(|place| (place, 1));
            for (place, byte) in marks.chain(nonzero) {
                let mut bytes = write(&write_frame(2, 9, NONE));
                bytes[6 + 13 * report + place] = byte;
                assert_eq!(reported(&bytes), Some(14));
            }
        }
    }
}

/// A report as it is spelled: mark, view and plan.
type Raw = (u8, u32, u64);

/// 14, 21 and 22, written down once more.
fn refused_reports(view: u32, reports: [Raw; 3]) -> Option<u8> {
    let [highest, previous, _] = reports;
    let present = |report: Raw| report.0 == 1;
    let misspelled = |&(mark, at, plan): &Raw| mark > 1 || (mark == 0 && (at, plan) != (0, 0));
    first(&[
        (14, reports.iter().any(misspelled)),
        (21, reports.iter().any(|&report| present(report) && report.1 >= view)),
        (
            22,
            present(previous)
                && (!present(highest) || previous.1 >= highest.1 || previous.2 == highest.2),
        ),
    ])
}

fn spell(kind: u8, sender: u8, view: u32, reports: &[Raw; 3]) -> Vec<u8> {
    let mut bytes = vec![kind, sender];
    bytes.extend(view.to_be_bytes());
    for (mark, at, plan) in reports {
        bytes.push(*mark);
        bytes.extend(at.to_be_bytes());
        bytes.extend(plan.to_be_bytes());
    }
    bytes
}

/// Three reports each, of three marks, views 0 to 3 and two plans.
fn small_reports() -> Vec<[Raw; 3]> {
    let one: Vec<Raw> = (0..3)
        .flat_map(|mark| (0..4).flat_map(move |at| (0..2).map(move |plan| (mark, at, plan))))
        .collect();
    let mut all = Vec::new();
    for &highest in &one {
        for &previous in &one {
            all.extend(one.iter().map(|&lock| [highest, previous, lock]));
        }
    }
    all
}

/// Every small set of reports, in views 1 to 3, from vault 3 of 4: a suggest to the vault that leads
/// and to one that does not, a proof to both.
#[test]
fn small_reports_exhaustively() {
    let mut seen = BTreeSet::new();
    for reports in small_reports() {
        for view in 1..4u32 {
            let expected = refused_reports(view, reports);
            let bytes = spell(8, 3, view, &reports);
            for id in [1, 2] {
                let stray = u32::from(id) != view;
                let suggested = expected.or(stray.then_some(15));
                assert_eq!(read(&bytes, 3, 4, id).err(), expected, "{reports:?} in {view}");
                let suggest = spell(7, 3, view, &reports);
                assert_eq!(read(&suggest, 3, 4, id).err(), suggested, "{reports:?} in {view}");
                // what stands in a record passes just these
                let fits = parse(&suggest).is_some_and(|frame| frame.fits_row(3, 4, id));
                assert_eq!(fits, suggested.is_none());
            }
            let faults = faults_of(&bytes);
            assert_eq!(faults.first().map(|fault| fault.refusal()), expected);
            seen.insert(faults);
        }
    }
    // what scripts are to bring can come, and 21 of previous never comes by itself
    for wanted in wanted_faults() {
        assert!(seen.contains(&wanted), "{wanted:?}");
    }
    assert!(!seen.contains(&vec![ReportFault::View(Place::Previous)]));
}

#[test]
fn refusal_15_leader() {
    let mut vault = Vault::started(5, 1, 1, 7);
    assert_eq!(vault.frame(&proposal(2, 0, 7)), Err(15));
    assert_eq!(vault.frame(&proposal(2, 3, 7)), Err(15));
    assert!(vault.frame(&proposal(2, 2, 7)).is_ok());
    assert!(vault.frame(&proposal(2, 7, 7)).is_ok());
    assert!(vault.frame(&proposal(0, u32::MAX, 7)).is_ok(), "4294967295 mod 5 is 0");
    assert_eq!(vault.frame(&suggest(2, 2, NONE)), Err(15));
    assert!(vault.frame(&suggest(2, 6, NONE)).is_ok());
    // proofs and votes come from anyone
    assert!(vault.frame(&proof(2, 2, NONE)).is_ok());
    assert!(vault.frame(&vote(1, 2, 3, 7)).is_ok());
}

#[test]
fn refusal_16_view_below_current() {
    let mut vault = in_view(4, 1, 1, 7, 5);
    for number in 1..=4 {
        assert_eq!(vault.frame(&vote(number, 2, 4, 7)), Err(16));
        assert!(vault.frame(&vote(number, 2, 5, 7)).is_ok());
    }
    assert_eq!(vault.frame(&proposal(0, 4, 7)), Err(16));
    assert_eq!(vault.frame(&proof(2, 4, NONE)), Err(16));
    assert!(vault.frame(&proof(2, 5, NONE)).is_ok());
    assert_eq!(vault.frame(&suggest(2, 1, NONE)), Err(16));
    assert!(vault.frame(&suggest(2, 5, NONE)).is_ok());
    // kind 6: at or below
    let mut vault = Vault::of(&record_with(4, 1, 1, 7, 5, &[]));
    assert_eq!(vault.frame(&view_change(2, 4)), Err(16));
    assert_eq!(vault.frame(&view_change(2, 5)), Err(16));
    assert!(vault.frame(&view_change(2, 6)).is_ok());
}

#[test]
fn refusal_17_kept_already() {
    let mut vault = Vault::started(4, 1, 1, 7);
    let frames = |view: u32| {
        [
            proposal(2, view, 7),
            vote(1, 2, view, 7),
            vote(2, 2, view, 7),
            vote(3, 2, view, 7),
            vote(4, 2, view, 7),
            view_change(2, view),
            suggest(2, view, NONE),
            proof(2, view, NONE),
        ]
    };
    // 26 = 2 mod 4 for the proposal; the suggest needs 1 mod 4
    for mut frame in frames(26) {
        if frame.kind == 7 {
            frame.view = 25;
        }
        assert!(vault.frame(&frame).is_ok());
        assert_eq!(vault.frame(&frame), Err(17), "the same again");
        frame.view -= 4;
        assert_eq!(vault.frame(&frame), Err(17), "a lower view");
        frame.view += 8;
        assert!(vault.frame(&frame).is_ok(), "a higher view");
    }
    // another plan at the same view is refused too; another sender or kind is not
    assert_eq!(vault.frame(&vote(1, 2, 30, 8)), Err(17));
    assert!(vault.frame(&vote(1, 3, 30, 8)).is_ok());
}

#[test]
fn refusal_18_timer_of_another_view() {
    let mut vault = in_view(4, 1, 1, 7, 5);
    for view in [0, 4, 6, u32::MAX] {
        assert_eq!(vault.timer(view), Err(18));
    }
    assert!(vault.timer(5).is_ok());
}

#[test]
fn refusal_19_last_view() {
    let mut vault = in_view(4, 1, 1, 7, u32::MAX);
    assert_eq!(vault.timer(u32::MAX), Err(19));
    // 18 comes first
    assert_eq!(vault.timer(0), Err(18));
}

#[test]
fn refusal_20_line() {
    assert_eq!(run_lines(b"0\n"), "fd14\n");
    assert_eq!(run_lines(b"0A\n"), "fd14\n");
    assert_eq!(run_lines(&[b'0'; 92]), "fd14\n");
}

/// Of faults that are all in one call, the first in the table's order gives the number.
fn first(faults: &[(u8, bool)]) -> Option<u8> {
    faults.iter().find(|fault| fault.1).map(|fault| fault.0)
}

#[test]
fn order_of_start() {
    for bits in 0..1 << 7 {
        let on = |bit: u32| bits & (1 << bit) != 0;
        let rec = match (on(1), on(2)) {
            (false, false) => vec![0; RECORD_LEN],
            (true, false) => sound(),
            (false, true) => unsound(),
            (true, true) => vec![0; 3],
        };
        let n = if on(3) { 65 } else { 4 };
        let f = if on(4) { 0 } else { 1 };
        let id = if on(5) { 65 } else { 3 };
        let class = if on(6) { 8 } else { 7 };
        let faults =
            [(1, on(0)), (4, on(1) || on(2)), (5, on(3)), (6, on(4)), (7, on(5)), (8, on(6))];
        let out_len = if on(0) { 255 } else { 256 };
        let number = refused(&rec, out_len, |r, o| calls::start(r, n, f, id, class, 7, o));
        assert_eq!(number, first(&faults));
    }
}

/// The bytes of contents, the same made blank, and made unsound; with the refusal of each.
fn lent(record: &Record) -> [(Vec<u8>, Option<u8>); 3] {
    let sound = encode(record);
    let (mut blank, mut unsound) = (sound.clone(), sound.clone());
    blank[0] = 0;
    unsound[2] = 4;
    [(sound, None), (blank, Some(2)), (unsound, Some(3))]
}

/// The refusals of a frame's bytes and against the record, in the order in which they are asked.
const FRAME_ORDER: [u8; 11] = [9, 10, 11, 12, 13, 14, 21, 22, 15, 16, 17];

/// A frame call with any of the faults 1, 9 to 17, 21 and 22, at vault 1 of 4. It is in view 6, and
/// keeps a suggest of vault 2 for view 9, which it leads. Bit i stands for refusal i; bit 0 tells two
/// wrong links apart, and two wrong views.
#[derive(Clone, Copy)]
struct Faulty(u32);

impl Faulty {
    fn every() -> impl Iterator<Item = Faulty> {
        (0..1 << 13).map(|bits| Faulty(bits & 3 | (bits >> 2 & 511) << 9 | bits >> 11 << 21))
    }

    fn has(self, refusal: u8) -> bool {
        self.0 & (1 << refusal) != 0
    }

    fn link(self) -> u8 {
        match (self.has(11), self.has(0)) {
            (false, _) => 2,
            (true, false) => 1,
            (true, true) => 4,
        }
    }

    fn view(self) -> u32 {
        let not_led = if self.has(0) { 11 } else { 4 };
        let views = [(13, 0), (15, not_led), (16, 5), (17, 9)];
        views.into_iter().find(|&(refusal, _)| self.has(refusal)).map_or(13, |(_, view)| view)
    }

    /// Highest below the frame's view or at it; previous for the same plan.
    fn reports(self) -> [Option<Report>; 3] {
        let highest = rep(if self.has(21) { self.view() } else { 3 }, 5);
        let previous = if self.has(22) { rep(0, 5) } else { rep(0, 6) };
        [highest, previous, None]
    }

    fn bytes(self) -> Vec<u8> {
        let sender = if self.has(12) { 3 } else { 2 };
        let mut bytes = write(&suggest(sender, self.view(), self.reports()));
        // the last of the three
        if self.has(14) {
            bytes[32] = 2;
        }
        if self.has(10) {
            bytes.push(0);
        }
        if self.has(9) {
            bytes[0] = 9;
        }
        bytes
    }
}

#[test]
fn order_of_frame() {
    let lent = lent(&record_with(4, 1, 1, 7, 6, &[suggest(2, 9, NONE)]));
    for faulty in Faulty::every() {
        let (link, bytes) = (faulty.link(), faulty.bytes());
        let out_len = if faulty.has(1) { 255 } else { 256 };
        for (rec, refusal) in &lent {
            let mut faults =
                vec![(1, faulty.has(1)), (2, *refusal == Some(2)), (3, *refusal == Some(3))];
            faults.extend(FRAME_ORDER.map(|number| (number, faulty.has(number))));
            let number = refused(rec, out_len, |r, o| calls::frame(r, link, &bytes, o));
            assert_eq!(number, first(&faults), "{faults:?}");
        }
    }
}

#[test]
fn order_of_timer() {
    for bits in 0..1 << 4 {
        let on = |bit: u32| bits & (1 << bit) != 0;
        let record = record_with(4, 1, 1, 7, if on(3) { u32::MAX } else { 6 }, &[]);
        for (rec, refusal) in lent(&record) {
            let (blank, bad) = (refusal == Some(2), refusal == Some(3));
            let view = if on(2) { 17 } else { record.view };
            let faults = [(1, on(0)), (2, blank), (3, bad), (18, on(2)), (19, on(3))];
            let out_len = if on(0) { 0 } else { 256 };
            let number = refused(&rec, out_len, |r, o| calls::timer(r, view, o));
            assert_eq!(number, first(&faults));
        }
    }
}

/// A random frame with any faults against the refusals of a frame stated one by one.
#[test]
fn frames_against_the_table_as_a_list() {
    let mut rng = Rng(2024);
    let mut seen = [0u32; 23];
    for _ in 0..400 {
        let vault = wandered(&mut rng, 30);
        let record = vault.record();
        for _ in 0..100 {
            let mut bytes = write(&likely_frame(&mut rng, &record));
            let mut link = bytes[1];
            for _ in 0..rng.below(3) {
                match rng.below(8) {
                    0 => bytes.push(0),
                    1 => bytes.truncate(rng.below(46) as usize),
                    2 => link = rng.pick(&[0, 1, 2, 3, 4, 64, 255, record.settings.id]),
                    3 if bytes.len() >= 6 => bytes[2..6].fill(0),
                    _ if !bytes.is_empty() => {
                        let at = rng.below(bytes.len() as u64) as usize;
                        bytes[at] = rng.pick(&[0, 1, 2, 3, 7, 8, 9, 255]);
                    }
                    _ => {}
                }
            }
            let expected = frame_table(&record, link, &bytes);
            let result = Vault { rec: vault.rec.clone() }.bytes(link, &bytes);
            assert_eq!(result.err(), expected);
            seen[usize::from(expected.unwrap_or(0))] += 1;
        }
    }
    for number in FRAME_ORDER.into_iter().chain([0]) {
        assert!(seen[usize::from(number)] > 0, "refusal {number} never came up");
    }
}

/// The rows 9 to 17 of the table, 21 and 22 between 14 and 15, written down once more over bytes
/// alone.
fn frame_table(record: &Record, link: u8, bytes: &[u8]) -> Option<u8> {
    let (n, id) = (record.settings.n, record.settings.id);
    let lengths = [0, 14, 14, 14, 14, 14, 6, 45, 45];
    let kind = usize::from(*bytes.first().unwrap_or(&0));
    if !(1..9).contains(&kind) {
        return Some(9);
    }
    if bytes.len() != lengths[kind] {
        return Some(10);
    }
    let number = |from: usize, to: usize| {
        bytes[from..to].iter().fold(0u64, |sum, &b| sum * 256 + u64::from(b))
    };
    let view = number(2, 6);
    let report = |at: usize| (bytes[at], number(at + 1, at + 5) as u32, number(at + 5, at + 13));
    let reports = (kind >= 7).then(|| [6, 19, 32].map(report));
    let leader = view % u64::from(n);
    let misplaced =
        (kind == 1 && leader != u64::from(bytes[1])) || (kind == 7 && leader != u64::from(id));
    let below = view < u64::from(record.view) || (kind == 6 && view <= u64::from(record.view));
    let kept = |sender: u8| record.rows[usize::from(sender)][kind - 1];
    first(&[(11, link >= n || link == id), (12, bytes[1] != link), (13, kind >= 6 && view == 0)])
        .or_else(|| reports.and_then(|reports| refused_reports(view as u32, reports)))
        .or_else(|| first(&[(15, misplaced), (16, below)]))
        .or_else(|| kept(link).filter(|frame| u64::from(frame.view) >= view).map(|_| 17))
}

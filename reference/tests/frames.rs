//! Reader and writer of frames and of entries.
mod common;
use common::*;
use reference::entry::{parse_entries, Entry};
use reference::frame::{
    self, bad_previous, bad_view, leader, parse, parse_reports, read, write, Body, Frame,
};
use reference::rng::Rng;
use std::collections::BTreeMap;

/// A frame that vault `id` of n accepts the bytes of, over the link of its sender.
fn acceptable(rng: &mut Rng, n: u8, id: u8) -> Frame {
    let kind = 1 + rng.below(8) as u8;
    let mut sender = rng.below(u64::from(n)) as u8;
    if sender == id {
        sender = (sender + 1) % n;
    }
    let mut view = rng.pick(&[0, 1, 2, 3, 7, 1000, u32::MAX - 64, u32::MAX]);
    if kind >= frame::VIEW_CHANGE {
        view = view.max(1);
    }
    let leads = match kind {
        frame::PROPOSAL => sender,
        frame::SUGGEST => id,
        _ => leader(view, n),
    };
    // to a view near by that has the right leader
    while leader(view, n) != leads || (view == 0 && kind >= frame::VIEW_CHANGE) {
        view = if view > u32::MAX - 64 { view - 1 } else { view + 1 };
        if view == u32::MAX - 64 {
            view -= 128;
        }
    }
    match kind {
        1..=5 => Frame::with_plan(kind, sender, view, rng.pick(&[0, 1, 7, u64::MAX, 1 << 33])),
        6 => Frame::view_change(sender, view),
        _ => Frame::with_reports(kind, sender, view, valid_reports(rng, view, 5)),
    }
}

#[test]
fn a_written_frame_reads_back() {
    let mut rng = Rng(3);
    for _ in 0..100_000 {
        let n = 4 + rng.below(61) as u8;
        let id = rng.below(u64::from(n)) as u8;
        let frame = acceptable(&mut rng, n, id);
        let bytes = write(&frame);
        assert_eq!(read(&bytes, frame.sender, n, id), Ok(frame));
        assert_eq!(parse(&bytes), Some(frame));
        assert!(frame.fits_row(frame.sender, n, id));
    }
}

/// An acceptable frame spoilt, or random bytes; with the link that they come by.
fn spoilt(rng: &mut Rng, n: u8, id: u8) -> (u8, Vec<u8>) {
    let mut bytes = write(&acceptable(rng, n, id));
    let mut link = bytes[1];
    match rng.below(4) {
        // damaged in up to three bytes
        0 | 1 => {
            for _ in 0..1 + rng.below(3) {
                let at = rng.below(bytes.len() as u64) as usize;
                bytes[at] =
                    if rng.one_in(2) { rng.next() as u8 } else { bytes[at] ^ (1 << rng.below(8)) };
            }
        }
        // a wrong length
        2 => bytes.resize(rng.below(60) as usize, rng.next() as u8),
        // random bytes
        _ => {
            bytes.resize(rng.below(60) as usize, 0);
            rng.fill(&mut bytes);
            if let Some(kind) = bytes.first_mut() {
                *kind %= 10;
            }
            link = bytes.get(1).copied().unwrap_or(0);
        }
    }
    (link, bytes)
}

#[test]
fn accepted_bytes_are_the_only_spelling() {
    let mut rng = Rng(4);
    let (mut accepted, mut refused) = (0, 0);
    for _ in 0..200_000 {
        let n = 4 + rng.below(61) as u8;
        let id = rng.below(u64::from(n)) as u8;
        let (link, bytes) = spoilt(&mut rng, n, id);
        match read(&bytes, link, n, id) {
            Ok(frame) => {
                accepted += 1;
                assert_eq!(write(&frame), bytes);
                assert!(frame.fits_row(link, n, id));
            }
            Err(number) => {
                refused += 1;
                assert!(matches!(number, 9..=15 | 21 | 22));
                // what does not read does not stand in the row either
                if let Some(frame) = parse(&bytes) {
                    assert!(link == id || !frame.fits_row(link, n, id));
                }
            }
        }
    }
    assert!(accepted > 20_000 && refused > 20_000, "{accepted} accepted, {refused} refused");
}

/// The tests of 14, 21 and 22, each by itself.
#[test]
fn the_tests_of_reports_apart() {
    let bytes = write(&proof(2, 5, [rep(3, 4), None, rep(9, 1)]));
    // 14 asks nothing of the views
    assert_eq!(parse_reports(&bytes[6..]), Some([rep(3, 4), None, rep(9, 1)]));
    for (at, byte) in [(6, 2), (6, 0), (19, 2), (31, 1), (32, 255), (32, 0)] {
        let mut bytes = bytes.clone();
        bytes[at] = byte;
        assert_eq!(parse_reports(&bytes[6..]), None, "byte {at} is {byte}");
    }
    // 21 asks nothing of the previous vote
    assert!(!bad_view(&NONE, 1) && !bad_view(&NONE, 0));
    assert!(!bad_view(&[None, rep(4, 1), None], 5));
    for place in 0..3 {
        let mut reports = NONE;
        reports[place] = rep(4, 1);
        assert!(!bad_view(&reports, 5) && bad_view(&reports, 4) && bad_view(&reports, 3));
    }
    // 22 asks nothing of the frame
    assert!(!bad_previous(None, None) && !bad_previous(None, rep(3, 1)));
    assert!(!bad_previous(rep(2, 1), rep(3, 2)) && !bad_previous(rep(0, 1), rep(u32::MAX, 2)));
    assert!(bad_previous(rep(2, 1), None) && bad_previous(rep(0, 0), None));
    assert!(bad_previous(rep(3, 1), rep(3, 2)) && bad_previous(rep(4, 1), rep(3, 2)));
    assert!(bad_previous(rep(2, 1), rep(3, 1)) && bad_previous(rep(3, 1), rep(3, 1)));
}

/// Of reports damaged anyhow the reader gives the number of the first test that they fail.
#[test]
fn the_tests_of_reports_in_their_order() {
    let mut rng = Rng(6);
    let mut seen = BTreeMap::new();
    for _ in 0..100_000 {
        let view = 1 + rng.below(5) as u32;
        let mut bytes = write(&proof(2, view, valid_reports(&mut rng, view, 3)));
        for _ in 0..1 + rng.below(6) {
            let at = 6 + rng.below(39) as usize;
            // bytes that count: marks, the last of a view, the last of a plan
            let at = if rng.one_in(8) { at } else { at - (at - 6) % 13 + rng.pick(&[0, 4, 12]) };
            bytes[at] =
                if rng.one_in(9) { rng.next() as u8 } else { rng.pick(&[0, 1, 1, 1, 2, 3]) };
        }
        let expected = match parse_reports(&bytes[6..]) {
            None => Some(14),
            Some(reports) if bad_view(&reports, view) => Some(21),
            Some([highest, previous, _]) => bad_previous(previous, highest).then_some(22),
        };
        assert_eq!(read(&bytes, 2, 4, 1).err(), expected);
        *seen.entry(expected).or_insert(0) += 1;
    }
    assert!(seen.len() == 4 && seen.values().all(|&count| count > 2_000), "{seen:?}");
}

#[test]
fn numbers_are_big_endian() {
    let bytes = write(&proposal(3, 0x0102_0304, 0x0506_0708_090a_0b0c));
    assert_eq!(hex(&bytes), "010301020304".to_string() + "05060708090a0b0c");
    let bytes = write(&proof(2, 5, [rep(3, 4), None, rep(1, u64::MAX)]));
    assert_eq!(
        hex(&bytes),
        "080200000005".to_string()
            + "01000000030000000000000004"
            + "00000000000000000000000000"
            + "0100000001ffffffffffffffff"
    );
    assert_eq!(hex(&write(&view_change(63, u32::MAX))), "063fffffffff");
}

#[test]
fn a_body_of_another_kind_has_no_place() {
    let frame = Frame { kind: 2, sender: 0, view: 1, body: Body::Empty };
    assert!(!frame.fits_row(0, 4, 1));
    let frame = Frame { kind: 9, sender: 0, view: 1, body: Body::Empty };
    assert!(!frame.fits_row(0, 4, 1));
}

fn random_entry(rng: &mut Rng) -> Entry {
    let frame = acceptable(rng, 4, 1);
    match rng.below(4) {
        0 => Entry::All(frame),
        1 => Entry::To(rng.below(64) as u8, frame),
        2 => Entry::Timer { view: rng.next() as u32, millis: rng.next() as u32 },
        _ => Entry::Decision { view: rng.next() as u32, plan: rng.next() },
    }
}

#[test]
fn entries_end_to_end_and_back() {
    let mut rng = Rng(5);
    for _ in 0..20_000 {
        let entries: Vec<Entry> = (0..rng.below(7)).map(|_| random_entry(&mut rng)).collect();
        let mut bytes: Vec<u8> = entries.iter().flat_map(Entry::bytes).collect();
        assert_eq!(parse_entries(&bytes), Some(entries));
        // damaged: whatever still parses is spelled by these bytes only
        if !bytes.is_empty() {
            let at = rng.below(bytes.len() as u64) as usize;
            bytes[at] = rng.next() as u8;
            bytes.truncate(bytes.len() - rng.below(2) as usize);
        }
        if let Some(entries) = parse_entries(&bytes) {
            assert_eq!(entries.iter().flat_map(Entry::bytes).collect::<Vec<u8>>(), bytes);
        }
    }
}

#[test]
fn host_entries_to_the_byte() {
    assert_eq!(hex(&Entry::Timer { view: 1, millis: 45000 }.bytes()), "fe0b000000010000afc8");
    assert_eq!(
        hex(&Entry::Decision { view: 2, plan: 258 }.bytes()),
        "fe0a000000020000000000000102"
    );
    assert_eq!(hex(&Entry::To(3, view_change(1, 2)).bytes()), "03060100000002");
    assert_eq!(hex(&Entry::All(view_change(1, 2)).bytes()), "ff060100000002");
}

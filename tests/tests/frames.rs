//! The Rattle reader, writer and entries against the reference, on seeded random, valid and damaged frames.
use std::collections::BTreeSet;

use comparison::{frame_echo, frames};
use reference::entry::Entry;
use reference::frame::read;
use reference::report_faults::{faults_of, wanted_faults};
use reference::rng::Rng;

const FRAMES: u64 = 2_000_000;

/// What frame_echo is to write for an accepted frame.
fn echoed(frame: reference::frame::Frame) -> Vec<u8> {
    let view = frame.view;
    let entries = [Entry::All(frame), Entry::Timer { view, millis: 180 }, Entry::Decision { view, plan: u64::from(view) }];
    entries.iter().flat_map(|e| e.bytes()).collect()
}

#[test]
fn reader_and_writer_agree_with_the_reference() {
    let mut rng = Rng(20_261_115);
    let mut kinds = [0u32; 9];
    let mut refusals = [0u32; 23];
    let mut faults = BTreeSet::new();
    let mut lengths = [0u32; 61];
    for _ in 0..FRAMES {
        let n = match rng.below(8) {
            0 => rng.next() as u8,
            1 => 64,
            2 => 7,
            _ => 4,
        };
        let own = if rng.below(8) == 0 { rng.next() as u8 } else { rng.below(u64::from(n.max(1))) as u8 };
        let bytes = frames::offered(&mut rng, n, own);
        let link = if rng.below(10) == 0 { rng.next() as u8 } else { bytes.get(1).copied().unwrap_or(0) };
        let space = if rng.below(20) == 0 { rng.below(256) as usize } else { 256 + rng.below(145) as usize };
        let before: Vec<u8> = (0..space).map(|_| rng.next() as u8).collect();
        let mut out = before.clone();
        let answer = frame_echo(&bytes, link, n, own, &mut out);
        lengths[bytes.len()] += 1;
        let mut after = before;
        let expected = match read(&bytes, link, n, own) {
            _ if space < 256 => 1,
            Err(number) => {
                refusals[usize::from(number)] += 1;
                if [14, 21, 22].contains(&number) {
                    faults.insert((bytes[0], faults_of(&bytes)));
                }
                u32::from(number)
            }
            Ok(frame) => {
                kinds[usize::from(frame.kind)] += 1;
                let written = echoed(frame);
                after[..written.len()].copy_from_slice(&written);
                256 + written.len() as u32
            }
        };
        assert_eq!(answer, expected, "bytes {bytes:02x?} link {link} n {n} own {own}");
        assert_eq!(out, after, "bytes {bytes:02x?} link {link} n {n} own {own}");
    }
    println!("accepted by kind {kinds:?}\nrefused by number {refusals:?}");
    assert!(kinds[1..].iter().all(|&count| count > 1000), "{kinds:?}");
    assert!((9..=15).chain(21..=22).all(|number| refusals[number] > 1000), "{refusals:?}");
    // Each fault of a report alone, and each pair of which the later number stands in the earlier report.
    for kind in [7, 8] {
        let missing: Vec<_> = wanted_faults().into_iter().filter(|wanted| !faults.contains(&(kind, wanted.clone()))).collect();
        assert!(missing.is_empty(), "kind {kind}: {missing:?}");
    }
    assert!(lengths.iter().all(|&count| count > 0), "{lengths:?}");
}

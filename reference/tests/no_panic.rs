//! No call panics, whatever the bytes: records blank, sound, unsound or of a wrong length, outputs
//! of 0 to 400 bytes, frames of 0 to 60 bytes.
mod common;
use common::*;
use reference::frame::write;
use reference::record::{classify, Lent, Settings, RECORD_LEN};
use reference::rng::Rng;
use reference::{calls, entry};

/// A lent record of any kind, often sound.
fn any_record(rng: &mut Rng, sound: &[Vec<u8>]) -> Vec<u8> {
    match rng.below(8) {
        0 => vec![0; RECORD_LEN],
        1 => {
            let mut bytes = vec![0; rng.below(2 * RECORD_LEN as u64) as usize];
            rng.fill(&mut bytes);
            bytes
        }
        2 => {
            let mut bytes = vec![0; RECORD_LEN];
            rng.fill(&mut bytes);
            bytes
        }
        3 => {
            let mut bytes = sound[rng.below(sound.len() as u64) as usize].clone();
            for _ in 0..1 + rng.below(4) {
                let end = if rng.one_in(2) { 700 } else { RECORD_LEN };
                let at = rng.below(end as u64) as usize;
                bytes[at] = rng.next() as u8;
            }
            bytes
        }
        _ => sound[rng.below(sound.len() as u64) as usize].clone(),
    }
}

/// A frame of any kind, often likely for the record.
fn any_frame(rng: &mut Rng, rec: &[u8]) -> (u8, Vec<u8>) {
    let mut bytes = match classify(rec) {
        Lent::Sound(record) if rng.below(4) > 0 => write(&likely_frame(rng, &record)),
        _ => {
            let mut bytes = vec![0; rng.below(61) as usize];
            rng.fill(&mut bytes);
            bytes
        }
    };
    let mut link = bytes.get(1).copied().unwrap_or(0);
    if rng.one_in(4) {
        link = rng.next() as u8;
    }
    if rng.one_in(4) && !bytes.is_empty() {
        let at = rng.below(bytes.len() as u64) as usize;
        bytes[at] = rng.next() as u8;
    }
    if rng.one_in(12) && bytes.len() >= 6 {
        bytes[2..6].fill(0);
    }
    (link, bytes)
}

/// A record that calls left, some at the end of the view range.
fn left_by_calls(rng: &mut Rng) -> Vec<u8> {
    let calls = rng.below(50);
    let mut rec = wandered(rng, calls).rec;
    if rng.one_in(4) {
        let view = u32::MAX - rng.below(3) as u32;
        rec[12..16].copy_from_slice(&view.to_be_bytes());
    }
    rec
}

/// Settings of any kind, often good ones.
fn any_settings(rng: &mut Rng) -> [u8; 4] {
    let mut any = [0; 4];
    rng.fill(&mut any);
    if rng.one_in(2) {
        let Settings { n, f, id, class } = likely_settings(rng);
        any = [n, f, id, class];
        if rng.one_in(3) {
            any[rng.below(4) as usize] = rng.next() as u8;
        }
    }
    any
}

/// A call of any kind, mostly of a frame.
fn any_call(rng: &mut Rng, rec: &mut [u8], out: &mut [u8]) -> Result<usize, u8> {
    match rng.below(6) {
        0 => {
            let [n, f, id, class] = any_settings(rng);
            calls::start(rec, n, f, id, class, rng.next(), out)
        }
        1 => {
            let view = match classify(rec) {
                Lent::Sound(record) if rng.below(4) > 0 => record.view,
                _ => rng.next() as u32,
            };
            calls::timer(rec, view, out)
        }
        _ => {
            let (link, bytes) = any_frame(rng, rec);
            calls::frame(rec, link, &bytes, out)
        }
    }
}

#[test]
fn no_call_panics() {
    let mut rng = Rng(21);
    let sound: Vec<Vec<u8>> = (0..200).map(|_| left_by_calls(&mut rng)).collect();
    let mut results = [0u32; 23];
    for _ in 0..60_000 {
        let mut rec = any_record(&mut rng, &sound);
        let mut out = vec![0; if rng.one_in(2) { 256 } else { rng.below(401) as usize }];
        rng.fill(&mut out);
        let before = (rec.clone(), out.clone());
        match any_call(&mut rng, &mut rec, &mut out) {
            Ok(count) => {
                results[0] += 1;
                assert!(entry::parse_entries(&out[..count]).is_some());
                assert_eq!(out[count..], before.1[count..]);
                assert!(matches!(classify(&rec), Lent::Sound(_)));
            }
            Err(number) => {
                results[usize::from(number)] += 1;
                assert!(rec == before.0 && out == before.1);
            }
        }
    }
    // 20 is for the line program to give
    for (number, count) in results.iter().enumerate().filter(|result| result.0 != 20) {
        assert!(*count > 0, "result {number} never came up");
    }
}

#[test]
fn no_input_stops_the_line_program() {
    let mut rng = Rng(22);
    for _ in 0..2_000 {
        let mut input = vec![0; rng.below(400) as usize];
        let digits = b"0123456789abcdef\n\n0000000011\r Ag";
        let count = rng.pick(&[16, 18, 26, 32]);
        for byte in &mut input {
            *byte = if rng.one_in(200) { rng.next() as u8 } else { rng.pick(&digits[..count]) };
        }
        let start = b"00040100020000000000000007\n".to_vec();
        let output = run_lines(&[start, input].concat());
        assert!(output.starts_with("fe0b0000000000000384\n"));
    }
}

//! Remnants and restarts (document 02, wish 6): the worked case, each refusal, and that a restart
//! gives back what the remnant holds.
mod common;
use common::*;
use reference::calls;
use reference::frame::{self, Frame};
use reference::record::{classify, decode, encode, Lent, Record, Settings, RECORD_LEN};
use reference::remnant::{alone, record_of, remnant_of, restart, write_remnant, REMNANT_SIZE};
use reference::rng::Rng;

type Remnant = [u8; REMNANT_SIZE];

/// The remnant of a vault, with the output beyond it checked.
fn written(vault: &Vault) -> Remnant {
    let mut out = [0xa5; REMNANT_SIZE + 9];
    assert_eq!(write_remnant(&vault.rec, &mut out), Ok(REMNANT_SIZE));
    assert_eq!(out[REMNANT_SIZE..], [0xa5; 9]);
    let remnant: Remnant = out[..REMNANT_SIZE].try_into().expect("its length");
    assert_eq!(remnant, remnant_of(&vault.record()));
    remnant
}

/// A refusal to write leaves the output.
fn write_refused(rec: &[u8], space: usize) -> u8 {
    let mut out = vec![0xa5; space];
    let refusal = write_remnant(rec, &mut out).expect_err("a refusal");
    assert_eq!(out, vec![0xa5; space]);
    refusal
}

/// A restart on lent bytes: what is written in hex, or the refusal, which leaves all as it was.
fn back(rec: &mut [u8], remnant: &[u8], space: usize) -> Result<String, u8> {
    let before = rec.to_vec();
    let mut out = vec![0xa5; space];
    match restart(rec, remnant, &mut out) {
        Ok(count) => {
            assert_eq!(out[count..], vec![0xa5; space - count]);
            assert_eq!(Some(decode(rec).expect("a record")), record_of(remnant));
            Ok(hex(&out[..count]))
        }
        Err(refusal) => {
            assert_eq!(rec, before);
            assert_eq!(out, vec![0xa5; space]);
            Err(refusal)
        }
    }
}

/// A restart on a blank record.
fn back_blank(remnant: &[u8]) -> Result<String, u8> {
    back(&mut vec![0; RECORD_LEN], remnant, 256)
}

/// The vault that a remnant brings back.
fn returned(remnant: &[u8]) -> Vault {
    let mut vault = Vault::blank();
    back(&mut vault.rec, remnant, 256).expect("a restart");
    vault
}

/// "vault 0 of 4, class 2, plan 7, took vote-1 for 7 from 1 and 2 and sent vote-2"
fn worked_vault() -> Vault {
    let mut vault = Vault::started(4, 1, 0, 7);
    vault.take(&vote(1, 1, 0, 7));
    let entries = vault.take(&vote(1, 2, 0, 7));
    assert_eq!(printed(&entries), "ff0300000000000000000000000007");
    vault
}

fn printed(entries: &[reference::entry::Entry]) -> String {
    entries.iter().map(|entry| hex(&entry.bytes())).collect()
}

fn with(remnant: &Remnant, at: usize, bytes: &[u8]) -> Remnant {
    let mut changed = *remnant;
    changed[at..at + bytes.len()].copy_from_slice(bytes);
    changed
}

/// Where a slot begins.
fn slot(number: usize) -> usize {
    16 + 13 * number
}

// ---------------------------------------------------------------------------------------------
// The worked case.

#[test]
fn the_worked_case() {
    let remnant = written(&worked_vault());
    let mut vault = Vault::blank();
    assert_eq!(back(&mut vault.rec, &remnant, 255), Err(1));
    assert_eq!(back(&mut vault.rec, &remnant, 256), Ok("fe0b0000000000000384".into()));
    assert_eq!(back(&mut vault.rec, &remnant, 256), Err(4));
    // "Then the two vote-1 again: accepted, nothing written."
    assert_eq!(vault.take(&vote(1, 1, 0, 7)), []);
    assert_eq!(vault.take(&vote(1, 2, 0, 7)), []);
    assert_eq!(vault.take(&vote(2, 1, 0, 7)), []);
    let entries = vault.take(&vote(2, 2, 0, 7));
    assert_eq!(printed(&entries), "ff0400000000000000000000000007");
    assert_eq!(printed(&vault.timer(0).expect("a timer")), "ff060000000001");
    // "and after another restart `ff060000000001` again"
    let mut again = returned(&written(&vault));
    assert_eq!(printed(&again.timer(0).expect("a timer")), "ff060000000001");
    assert_eq!(back_blank(&with(&remnant, 0, &[0])), Err(26));
    assert_eq!(back_blank(&remnant[..10]), Err(25));
    assert_eq!(write_refused(&vault.rec, REMNANT_SIZE - 1), 1);
    assert_eq!(write_refused(&vec![0; RECORD_LEN], REMNANT_SIZE), 2);
    // "Current view 4,294,967,295: restart prints `fe0bffffffff00000384`, the timer then gives 19."
    let last = with(&remnant, 4, &[0xff; 4]);
    assert_eq!(back_blank(&last), Ok("fe0bffffffff00000384".into()));
    assert_eq!(returned(&last).timer(u32::MAX), Err(19));
}

#[test]
fn the_remnant_byte_by_byte() {
    let absent = "00".repeat(13);
    let sent = "01".to_string() + "00000000" + "0000000000000007";
    let expected = ["04010002", "00000000", "0000000000000007"].concat()
        + &sent.repeat(3)
        + &absent.repeat(14);
    assert_eq!(hex(&written(&worked_vault())), expected);
    // view 5 of 4 vaults, led by vault 1: every slot but the two last votes' is filled
    let mut record = record_with(
        4,
        1,
        1,
        0x0102_0304_0506_0708,
        5,
        &[
            proposal(1, 5, 9),
            vote(1, 1, 5, 9),
            vote(2, 1, 4, 8),
            view_change(1, 6),
            suggest(1, 5, [rep(4, 8), rep(3, 7), None]),
            proof(1, 5, [rep(4, 1), None, rep(2, 6)]),
            vote(4, 3, 5, 9),
        ],
    );
    record.previous_vote1 = rep(4, 1);
    record.previous_vote2 = rep(3, 7);
    record.decision = rep(2, 6);
    let report = |view: u32, plan: u64| format!("01{view:08x}{plan:016x}");
    let expected = "04010102".to_string()
        + "00000005"
        + "0102030405060708"
        + &[report(5, 9), report(5, 9), report(4, 8), absent.clone(), absent.clone()].concat()
        + &[report(6, 0), report(5, 0), report(5, 0)].concat()
        + &[report(4, 8), report(3, 7), absent.clone()].concat()
        + &[report(4, 1), absent.clone(), report(2, 6)].concat()
        + &[report(4, 1), report(3, 7), report(2, 6)].concat();
    assert_eq!(hex(&written(&Vault::of(&record))), expected);
    assert_eq!(record_of(&written(&Vault::of(&record))), Some(alone(&record)));
    assert_eq!(REMNANT_SIZE, 237);
}

// ---------------------------------------------------------------------------------------------
// Refusals.

#[test]
fn writing_meets_1_then_2_and_3() {
    let sound = worked_vault().rec;
    let blank = vec![0; RECORD_LEN];
    let mut unsound = sound.clone();
    unsound[1] = 2;
    for space in [0, 1, 236] {
        for rec in [&sound, &blank, &unsound] {
            assert_eq!(write_refused(rec, space), 1);
        }
    }
    for space in [237, 238, 255, 256, 1000] {
        assert_eq!(write_refused(&blank, space), 2);
        assert_eq!(write_refused(&unsound, space), 3);
        assert_eq!(write_refused(&sound[1..], space), 3);
        assert_eq!(write_refused(&[], space), 3);
        assert_eq!(write_remnant(&sound, &mut vec![0; space]), Ok(REMNANT_SIZE));
    }
}

#[test]
fn a_restart_meets_1_and_4_then_25_and_26() {
    let remnant = written(&worked_vault());
    let spoiled = with(&remnant, 0, &[0]);
    let mut unsound = worked_vault().rec;
    unsound[1] = 2;
    let not_blank = [worked_vault().rec, unsound, vec![0; RECORD_LEN - 1], vec![0; RECORD_LEN + 1]];
    for remnant in [&remnant[..], &spoiled[..], &remnant[1..], &[]] {
        for rec in &not_blank {
            assert_eq!(back(&mut rec.clone(), remnant, 255), Err(1));
            assert_eq!(back(&mut rec.clone(), remnant, 256), Err(4));
        }
        assert_eq!(back(&mut vec![0; RECORD_LEN], remnant, 0), Err(1));
    }
    for bytes in [&remnant[1..], &spoiled[1..], &[], &[remnant, spoiled].concat()[..238]] {
        assert_eq!(back_blank(bytes), Err(25));
    }
    assert_eq!(back_blank(&spoiled), Err(26));
}

/// Left-over contents of a blank record do not matter.
#[test]
fn any_blank_record_does() {
    let remnant = written(&worked_vault());
    let mut rec = worked_vault().rec;
    rec[0] = 0;
    rec[1] = 200;
    assert_eq!(classify(&rec), Lent::Blank);
    assert_eq!(back(&mut rec, &remnant, 256), Ok("fe0b0000000000000384".into()));
    assert_eq!(rec, returned(&remnant).rec);
}

#[test]
fn settings_are_26() {
    let remnant = written(&worked_vault());
    for id in [4, 63, 64, 254, 255] {
        assert_eq!(back_blank(&with(&remnant, 2, &[id])), Err(26), "id {id}");
    }
    for (at, byte) in
        [(0, 0), (0, 3), (0, 65), (0, 255), (1, 0), (1, 2), (1, 255), (3, 8), (3, 255)]
    {
        assert_eq!(back_blank(&with(&remnant, at, &[byte])), Err(26), "byte {at} {byte}");
    }
    for class in 0..8 {
        assert!(back_blank(&with(&remnant, 3, &[class])).is_ok());
    }
    // a remnant of another vault, but vault 1 does not lead view 0
    assert_eq!(back_blank(&with(&remnant, 2, &[1])), Err(26));
    let none_proposed = with(&remnant, slot(0), &[0; 13]);
    assert!(back_blank(&with(&none_proposed, 2, &[1])).is_ok());
    assert!(back_blank(&with(&remnant, 0, &[64])).is_ok());
}

#[test]
fn spelling_of_slots_is_26() {
    let remnant = written(&worked_vault());
    for number in 0..17 {
        for mark in [2, 3, 0x80, 255] {
            assert_eq!(back_blank(&with(&remnant, slot(number), &[mark])), Err(26));
        }
        let absent = with(&remnant, slot(number), &[0; 13]);
        for at in 1..13 {
            assert_eq!(back_blank(&with(&absent, slot(number) + at, &[1])), Err(26));
        }
    }
}

/// A present slot, of small numbers.
fn present(view: u8, plan: u8) -> [u8; 13] {
    [1, 0, 0, 0, view, 0, 0, 0, 0, 0, 0, 0, plan]
}

#[test]
fn contents_that_are_no_sound_record_are_26() {
    // vault 1 of 4 in view 5, which it leads
    let remnant = remnant_of(&record_with(4, 1, 1, 7, 5, &[]));
    let filled = |slots: &[(usize, [u8; 13])]| {
        let fill = |remnant: Remnant, &(number, bytes): &(usize, [u8; 13])| {
            with(&remnant, slot(number), &bytes)
        };
        slots.iter().fold(remnant, fill)
    };
    let good: [&[(usize, [u8; 13])]; 13] = [
        &[(0, present(5, 9))],
        &[(0, present(1, 9))],
        &[(1, present(5, 0)), (14, present(4, 9))],
        &[(2, present(5, 0)), (15, present(4, 9))],
        &[(3, present(0, 0)), (4, present(5, 0))],
        &[(5, present(1, 0))],
        &[(5, present(200, 0))],
        &[(6, present(5, 0))],
        &[(6, present(1, 0)), (8, present(0, 9)), (10, present(0, 9))],
        &[(6, present(5, 0)), (8, present(4, 9)), (9, present(3, 8)), (10, present(4, 1))],
        &[(7, present(1, 0))],
        &[(7, present(3, 0)), (11, present(2, 9)), (12, present(1, 8)), (13, present(0, 1))],
        &[(16, present(250, 9))],
    ];
    for slots in good {
        assert!(back_blank(&filled(slots)).is_ok(), "{slots:?}");
        assert_eq!(remnant_of(&returned(&filled(slots)).record()), filled(slots));
    }
    let bad: [&[(usize, [u8; 13])]; 22] = [
        // a proposal of a view that it does not lead
        &[(0, present(4, 9))],
        // above the current view
        &[(0, present(9, 9))],
        &[(1, present(6, 9))],
        &[(2, present(6, 9))],
        &[(3, present(6, 9))],
        &[(4, present(6, 9))],
        &[(6, present(9, 0))],
        &[(7, present(6, 0))],
        // view 0, or a plan, in kinds 6 to 8
        &[(5, present(0, 0))],
        &[(7, present(0, 0))],
        &[(5, present(6, 1))],
        &[(6, present(5, 1))],
        &[(7, present(5, 1))],
        // a suggest of a view that it does not lead
        &[(6, present(4, 0))],
        // reports without their frame, the other one's being there
        &[(7, present(5, 0)), (8, present(4, 9))],
        &[(6, present(5, 0)), (13, present(4, 9))],
        // 21, 22
        &[(6, present(5, 0)), (10, present(5, 9))],
        &[(7, present(3, 0)), (12, present(1, 8))],
        &[(7, present(3, 0)), (11, present(2, 9)), (12, present(1, 9))],
        // own previous votes
        &[(14, present(4, 9))],
        &[(1, present(5, 9)), (14, present(4, 9))],
        &[(2, present(4, 0)), (15, present(4, 9))],
    ];
    for slots in bad {
        assert_eq!(back_blank(&filled(slots)), Err(26), "{slots:?}");
    }
}

// ---------------------------------------------------------------------------------------------
// There and back.

#[test]
fn what_calls_reach_comes_back() {
    let mut rng = Rng(6);
    let (mut decided, mut previous, mut suggests) = (0, 0, 0);
    for _ in 0..150 {
        let mut vault = wandered(&mut rng, 30);
        for _ in 0..8 {
            let _ = wander(&mut rng, &mut vault);
            let record = vault.record();
            let remnant = written(&vault);
            let again = returned(&remnant);
            assert_eq!(again.record(), alone(&record));
            assert_eq!(written(&again), remnant);
            assert_eq!(alone(&again.record()), again.record());
            decided += u32::from(record.decision.is_some());
            previous += u32::from(record.previous_vote1.is_some());
            suggests += u32::from(record.own(frame::SUGGEST).is_some());
            if rng.one_in(4) {
                vault = again;
            }
        }
    }
    assert!(decided > 0 && previous > 0 && suggests > 0, "{decided} {previous} {suggests}");
}

/// Where a remnant is accepted it is the remnant of the record that it makes.
#[test]
fn changed_remnants_are_refused_or_come_back_whole() {
    let mut rng = Rng(7);
    let (mut taken, mut refused) = (0, 0);
    for _ in 0..60 {
        let vault = wandered(&mut rng, 40);
        let remnant = written(&vault);
        for _ in 0..60 {
            let mut changed = remnant;
            for _ in 0..1 + rng.below(2) {
                let places = [rng.below(16), 16 + 13 * rng.below(17), rng.below(237)];
                let at = rng.pick(&places);
                changed[at as usize] = rng.pick(&[0, 1, 2, 4, 7, 255]);
            }
            match record_of(&changed) {
                Some(record) => {
                    assert_eq!(remnant_of(&record), changed);
                    assert_eq!(alone(&record), record);
                    assert_eq!(classify(&encode(&record)), Lent::Sound(record));
                    assert!(back_blank(&changed).is_ok());
                    taken += 1;
                }
                None => {
                    assert_eq!(back_blank(&changed), Err(26));
                    refused += 1;
                }
            }
        }
    }
    assert!(taken > 100 && refused > 100, "{taken} {refused}");
    let mut noise = [0; REMNANT_SIZE];
    for _ in 0..2000 {
        rng.fill(&mut noise);
        assert_eq!(back_blank(&noise), Err(26));
        noise[..4].copy_from_slice(&[4, 1, 2, 3]);
        assert_eq!(back_blank(&noise), Err(26));
    }
}

/// "No frame, no decision entry, no step A to H": a pass after a restart would do nothing either.
#[test]
fn nothing_is_left_to_do_after_a_restart() {
    let mut rng = Rng(8);
    for _ in 0..150 {
        let vault = wandered(&mut rng, 60);
        let before = returned(&written(&vault)).record();
        // any vote of a later view is kept and sets off a pass
        let Settings { n, id, .. } = before.settings;
        let Some(later) = before.view.checked_add(5) else { continue };
        let frame = Frame::with_plan(frame::VOTE_1, (id + 1) % n, later, 1);
        let mut rec = encode(&before);
        let mut out = [0; 256];
        assert_eq!(calls::frame(&mut rec, frame.sender, &frame::write(&frame), &mut out), Ok(0));
        let mut expected: Record = before;
        expected.keep(frame);
        assert_eq!(decode(&rec), Some(expected));
    }
}

//! The record: its layout, and when it is blank, sound or unsound.
mod common;
use common::*;
use reference::frame::{Frame, Report};
use reference::record::{classify, decode, encode, Lent, Record, Settings, RECORD_LEN};
use reference::rng::Rng;

fn is_sound(record: &Record) -> bool {
    let sound = record.sound();
    let lent = classify(&encode(record));
    assert_eq!(lent, if sound { Lent::Sound(record.clone()) } else { Lent::Unsound });
    sound
}

#[test]
fn encode_and_decode_are_inverse() {
    let mut rng = Rng(10);
    for _ in 0..300 {
        let calls = rng.below(60);
        let record = wandered(&mut rng, calls).record();
        let bytes = encode(&record);
        assert_eq!(bytes.len(), RECORD_LEN);
        assert_eq!(decode(&bytes), Some(record.clone()));
        assert!(is_sound(&record));
        // contents that no call reaches are spelled too
        let mut odd = record.clone();
        odd.settings = Settings {
            n: rng.next() as u8,
            f: rng.next() as u8,
            id: rng.next() as u8,
            class: rng.next() as u8,
        };
        odd.view = rng.next() as u32;
        odd.decision = Some(Report { view: rng.next() as u32, plan: rng.next() });
        odd.previous_vote2 = Some(Report { view: rng.next() as u32, plan: rng.next() });
        odd.keep(vote(4, 63, rng.next() as u32, rng.next()));
        assert_eq!(decode(&encode(&odd)), Some(odd));
    }
}

#[test]
fn one_byte_changed() {
    let mut rng = Rng(11);
    let (mut blank, mut sound, mut unsound, mut unspelled) = (0, 0, 0, 0);
    for _ in 0..60 {
        let calls = 20 + rng.below(60);
        let vault = wandered(&mut rng, calls);
        let n = usize::from(vault.record().settings.n);
        for _ in 0..200 {
            let mut bytes = vault.rec.clone();
            // mostly where something is kept
            let end = if rng.one_in(8) { RECORD_LEN } else { 55 + n * 158 };
            let at = rng.below(end as u64);
            let at = if rng.one_in(6) { rng.below(4) } else { at } as usize;
            bytes[at] = if rng.one_in(2) { rng.pick(&[0, 1, 2, 255]) } else { rng.next() as u8 };
            match classify(&bytes) {
                Lent::Blank => blank += 1,
                Lent::Sound(record) => {
                    sound += 1;
                    assert!(record.sound());
                    // and calls on it leave sound records
                    let mut changed = Vault { rec: bytes.clone() };
                    let _ = wander(&mut rng, &mut changed);
                }
                Lent::Unsound => unsound += 1,
            }
            match decode(&bytes) {
                Some(record) => assert_eq!(encode(&record), bytes, "one spelling only"),
                None => unspelled += 1,
            }
        }
    }
    assert!(
        blank > 0 && sound > 0 && unsound > 0 && unspelled > 0,
        "{blank} {sound} {unsound} {unspelled}"
    );
}

#[test]
fn random_bytes() {
    let mut rng = Rng(12);
    for length in [0, 1, 54, 55, RECORD_LEN - 1, RECORD_LEN + 1, 2 * RECORD_LEN] {
        let mut bytes = vec![0; length];
        assert_eq!(classify(&bytes), Lent::Unsound, "wrong length");
        rng.fill(&mut bytes);
        assert_eq!(classify(&bytes), Lent::Unsound, "wrong length");
    }
    for _ in 0..500 {
        let mut bytes = vec![0; RECORD_LEN];
        rng.fill(&mut bytes);
        assert_eq!(classify(&bytes), Lent::Unsound, "marks that are none");
        bytes[0] = 0;
        assert_eq!(classify(&bytes), Lent::Unsound, "not blank: they spell no record");
        // random bytes in the front part only
        bytes[16..].fill(0);
        let settings = Settings { n: bytes[0], f: bytes[1], id: bytes[2], class: bytes[3] };
        assert_eq!(classify(&bytes), Lent::Blank);
        assert_eq!(decode(&bytes).map(|record| record.settings), Some(settings));
    }
    assert_eq!(classify(&[0; RECORD_LEN]), Lent::Blank);
}

#[test]
fn blank_is_n_zero_and_start_takes_nothing_from_it() {
    let mut rng = Rng(13);
    for _ in 0..100 {
        let mut vault = wandered(&mut rng, 30);
        vault.rec[0] = 0;
        assert_eq!(classify(&vault.rec), Lent::Blank);
        let mut zero = Vault::blank();
        let Settings { n, f, id, class } = likely_settings(&mut rng);
        assert_eq!(vault.start(n, f, id, class, 3), zero.start(n, f, id, class, 3));
        assert_eq!(vault.rec, zero.rec);
    }
}

#[test]
fn sound_settings_pass_5_to_8() {
    let good = record_with(7, 2, 6, 0, 0, &[]);
    assert!(is_sound(&good));
    let with = |change: fn(&mut Settings)| {
        let mut record = good.clone();
        change(&mut record.settings);
        is_sound(&record)
    };
    assert!(!with(|s| s.n = 3));
    assert!(!with(|s| s.n = 65));
    assert!(!with(|s| s.f = 0));
    assert!(!with(|s| s.f = 3));
    assert!(!with(|s| s.id = 7));
    assert!(!with(|s| s.class = 8));
}

#[test]
fn sound_rows_pass_9_to_15() {
    let with = |frame: Frame| is_sound(&record_with(4, 1, 1, 0, 9, &[frame]));
    // 11: a row of no vault
    assert!(with(vote(1, 3, 9, 0)));
    assert!(!with(vote(1, 4, 9, 0)));
    assert!(!with(vote(1, 63, 9, 0)));
    // the own row is excused from the own-number half of 11
    assert!(with(vote(1, 1, 9, 0)));
    // 13
    assert!(!with(view_change(2, 0)));
    assert!(!with(proof(2, 0, NONE)));
    assert!(!with(view_change(1, 0)));
    // 21
    assert!(with(proof(2, 5, [rep(4, 1), rep(3, 2), rep(4, 3)])));
    assert!(!with(proof(2, 5, [rep(5, 1), None, None])));
    assert!(!with(proof(2, 5, [None, None, rep(5, 1)])));
    // 22
    assert!(!with(proof(2, 5, [None, rep(3, 1), None])));
    assert!(!with(proof(2, 5, [rep(4, 1), rep(3, 1), None])));
    assert!(!with(proof(1, 5, [rep(4, 1), rep(4, 2), None])));
    // 15: proposals stand in their leader's row, suggests are for views that this vault leads
    assert!(with(proposal(2, 6, 0)));
    assert!(!with(proposal(2, 7, 0)));
    assert!(with(suggest(2, 5, NONE)));
    assert!(!with(suggest(2, 6, NONE)));
    assert!(with(suggest(1, 5, NONE)));
    assert!(!with(suggest(1, 6, NONE)));
    // kept frames of other senders may be of any view
    assert!(with(vote(1, 3, 10, 0)));
    assert!(with(vote(1, 3, 0, 0)));
    assert!(with(view_change(3, 1)));
}

/// The row of 14 as it stood before wish 1, for reports that can be spelled.
fn bad_before_wish_1(view: u32, [highest, previous, lock]: [Option<Report>; 3]) -> bool {
    let not_below = |report: Option<Report>| report.is_some_and(|report| report.view >= view);
    let at_odds = match (highest, previous) {
        (_, None) => false,
        (None, Some(_)) => true,
        (Some(high), Some(low)) => low.view >= high.view || low.plan == high.plan,
    };
    not_below(highest) || not_below(previous) || not_below(lock) || at_odds
}

/// Which suggests and proofs a sound record may keep has not changed with wish 1. Vault v of 4 leads
/// view v, and keeps them in its own row or in another's.
#[test]
fn sound_reports_are_those_of_before() {
    let one: Vec<Option<Report>> =
        (0..4).flat_map(|view| [rep(view, 1), rep(view, 2)]).chain([None]).collect();
    let mut sound = 0;
    for case in 0..one.len().pow(3) {
        let reports = [0, 1, 2].map(|place| one[case / one.len().pow(place) % one.len()]);
        for view in 1..4 {
            let expected = !bad_before_wish_1(view, reports);
            for frame in
                [proof(3, view, reports), proof(0, view, reports), suggest(3, view, reports)]
            {
                let record = record_with(4, 1, view as u8, 0, 3, &[frame]);
                assert_eq!(is_sound(&record), expected, "{frame:?}");
                sound += u32::from(expected);
            }
        }
    }
    // of locks, and of votes, in views 1, 2 and 3
    assert_eq!(sound, 3 * (3 * 3 + 5 * 7 + 7 * 13));
}

#[test]
fn sound_own_row_is_not_above_the_current_view() {
    let with = |frame: Frame| is_sound(&record_with(4, 1, 1, 0, 8, &[frame]));
    for (number, view) in [(1, 8), (2, 8), (3, 8), (4, 8)] {
        assert!(with(vote(number, 1, view, 0)));
        assert!(!with(vote(number, 1, view + 1, 0)));
    }
    assert!(with(proof(1, 8, NONE)));
    assert!(!with(proof(1, 9, NONE)));
    assert!(with(suggest(1, 5, NONE)));
    assert!(!with(suggest(1, 9, NONE)));
    assert!(with(proposal(1, 5, 0)));
    assert!(!with(proposal(1, 9, 0)));
    // "but the view-change"
    assert!(with(view_change(1, 9)));
    assert!(with(view_change(1, u32::MAX)));
}

#[test]
fn sound_previous_votes_stand_to_their_highest() {
    for number in [1, 2] {
        let with = |highest: Option<Report>, previous: Option<Report>| {
            let frames: Vec<Frame> =
                highest.iter().map(|h| vote(number, 1, h.view, h.plan)).collect();
            let mut record = record_with(4, 1, 1, 0, 8, &frames);
            if number == 1 {
                record.previous_vote1 = previous;
            } else {
                record.previous_vote2 = previous;
            }
            is_sound(&record)
        };
        assert!(with(None, None));
        assert!(with(rep(5, 1), None));
        assert!(with(rep(5, 1), rep(4, 2)));
        assert!(!with(None, rep(4, 2)), "previous without highest");
        assert!(!with(rep(5, 1), rep(5, 2)), "not below it");
        assert!(!with(rep(5, 1), rep(6, 2)), "not below it");
        assert!(!with(rep(5, 1), rep(4, 1)), "for its plan");
    }
    // 21 is not asked of it: it may be above the vault's own last proof
    let mut record = record_with(4, 1, 1, 0, 8, &[vote(1, 1, 8, 1), proof(1, 2, NONE)]);
    record.previous_vote1 = rep(7, 2);
    assert!(is_sound(&record));
    // previous vote-1 stands to vote-1, not to vote-2
    let mut record = record_with(4, 1, 1, 0, 8, &[vote(2, 1, 5, 1)]);
    record.previous_vote1 = rep(4, 2);
    assert!(!is_sound(&record));
}

#[test]
fn any_decision_is_sound() {
    let mut record = record_with(4, 1, 1, 0, 0, &[]);
    record.decision = rep(17, 5);
    assert!(is_sound(&record));
}

/// `Vault` checks that each accepted call leaves a sound record; here that no call ever needs more
/// than 256 bytes, on records that calls reach and on sound ones that they do not.
#[test]
fn accepted_calls_leave_sound_records() {
    let mut rng = Rng(14);
    let mut accepted = 0;
    for _ in 0..150 {
        let mut vault = wandered(&mut rng, 0);
        for _ in 0..100 {
            accepted += u32::from(wander(&mut rng, &mut vault).is_ok());
        }
    }
    assert!(accepted > 5_000, "{accepted}");
}

/// The longest output: a timer on a sound record that no calls reach, through all steps at once.
#[test]
fn the_longest_output_fits() {
    // vault 1 of 4 in view 0; the others' view-changes for view 1, and their proofs, suggests and votes
    let mut frames = Vec::new();
    for sender in [0, 2, 3] {
        frames.push(view_change(sender, 5));
        frames.push(proof(sender, 5, NONE));
        frames.push(suggest(sender, 5, NONE));
        frames.extend((1..=4).map(|number| vote(number, sender, 5, 7)));
    }
    let mut vault = Vault::of(&record_with(4, 1, 1, 7, 0, &frames));
    let entries = vault.timer(0).expect("accepted");
    use reference::entry::Entry;
    let expected = [
        Entry::All(view_change(1, 1)),
        Entry::All(view_change(1, 5)),
        Entry::Timer { view: 5, millis: 900 },
        Entry::All(proof(1, 5, NONE)),
        Entry::All(proposal(1, 5, 7)),
        Entry::All(vote(1, 1, 5, 7)),
        Entry::All(vote(2, 1, 5, 7)),
        Entry::All(vote(3, 1, 5, 7)),
        Entry::All(vote(4, 1, 5, 7)),
        Entry::Decision { view: 5, plan: 7 },
    ];
    assert_eq!(entries, expected);
    // the same where vault 2 leads: a suggest instead of a proposal
    let mut frames = vec![proposal(2, 6, 7)];
    for sender in [0, 2, 3] {
        frames.push(view_change(sender, 6));
        frames.push(proof(sender, 6, NONE));
        frames.extend((1..=4).map(|number| vote(number, sender, 6, 7)));
    }
    let mut vault = Vault::of(&record_with(4, 1, 1, 7, 0, &frames));
    let entries = vault.timer(0).expect("accepted");
    assert_eq!(entries[4], Entry::To(2, suggest(1, 6, NONE)));
    assert_eq!(entries.len(), 10);
}

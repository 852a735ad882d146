//! The wrapper's own work: refusals, storing before entries, stored records.
use std::convert::Infallible;

use std::time::Duration;

use vault::{Current, Decision, Entry, Record, Refusal, Settings, Vault, RECORD_SIZE};

const SETTINGS: Settings = Settings { n: 4, f: 1, id: 0, class: 2 };

fn kept(_: &Record) -> Result<(), Infallible> {
    Ok(())
}

fn started() -> Vault {
    let mut vault = Vault::new(Record::blank());
    vault.start(SETTINGS, 7).expect("right settings");
    vault
}

#[test]
fn refusals_change_nothing() {
    let mut blank = Vault::new(Record::blank());
    assert_eq!(blank.frame(1, &[]), Err(Refusal::Blank));
    assert_eq!(blank.timer(0), Err(Refusal::Blank));
    for (settings, refusal) in [
        (Settings { n: 3, ..SETTINGS }, Refusal::N),
        (Settings { f: 2, ..SETTINGS }, Refusal::F),
        (Settings { id: 4, ..SETTINGS }, Refusal::Id),
        (Settings { class: 8, ..SETTINGS }, Refusal::Class),
    ] {
        assert_eq!(blank.start(settings, 7), Err(refusal));
    }
    assert!(blank.record() == &Record::blank());
    assert_eq!(blank.store(|_| Err("not to be called")).map(Iterator::count), Ok(0));

    let mut vault = started();
    let before = vault.record().clone();
    assert_eq!(vault.start(SETTINGS, 7), Err(Refusal::Started));
    assert_eq!(vault.frame(1, &[]), Err(Refusal::Kind));
    assert_eq!(vault.frame(0, &[6, 0, 0, 0, 0, 1]), Err(Refusal::Link));
    assert_eq!(vault.timer(1), Err(Refusal::Timer));
    assert!(vault.record() == &before);
}

/// 14, 21 and 22, in this order, whichever report has the fault.
#[test]
fn a_bad_report_is_told_by_its_part() {
    let report = |mark, view, plan| [mark, 0, 0, 0, view, 0, 0, 0, 0, 0, 0, 0, plan];
    let (absent, bad_mark) = (report(0, 0, 0), report(2, 0, 0));
    let (high, low) = (report(1, 4, 5), report(1, 2, 6));
    let proof = |reports: [[u8; 13]; 3]| [&[8, 1, 0, 0, 0, 4][..], &reports.concat()].concat();
    let mut vault = started();
    for (reports, refusal) in
        [([high, absent, bad_mark], Refusal::Report), ([absent, low, high], Refusal::ReportView), ([absent, low, absent], Refusal::Previous)]
    {
        assert_eq!(vault.frame(1, &proof(reports)), Err(refusal));
    }
}

#[test]
fn entries_wait_until_the_record_is_stored() {
    let mut vault = started();
    vault.timer(0).expect("the current view");
    assert_eq!(vault.store(|_| Err("no disk")).map(Iterator::count), Err("no disk"));
    let mut bytes = Vec::new();
    let write = |record: &Record| -> Result<(), Infallible> {
        bytes.extend_from_slice(record.as_bytes());
        Ok(())
    };
    let Ok(entries) = vault.store(write);
    // Start: timer, proposal, vote-1. Timer: view-change.
    assert_eq!(entries.count(), 4);
    assert_eq!(bytes, vault.record().as_bytes());
    let Ok(entries) = vault.store(kept);
    assert_eq!(entries.count(), 0);
}

#[test]
fn a_stored_record_goes_on() {
    let stored = started().record().as_bytes().to_vec();
    let mut vault = Vault::new(Record::try_from(&stored[..]).expect("the right length"));
    vault.timer(0).expect("the current view");
    let Ok(mut entries) = vault.store(kept);
    assert!(matches!(entries.next(), Some(Entry::All(frame)) if frame.as_bytes() == [6, 0, 0, 0, 0, 1]));
    assert!(Record::try_from(&stored[1..]).is_err());

    let mut damaged = [0xff; RECORD_SIZE];
    damaged[..3].copy_from_slice(&stored[..3]);
    let damaged = Record::from(damaged);
    assert_eq!((damaged.current(), damaged.decision()), (Err(Refusal::Unsound), Err(Refusal::Unsound)));
    assert_eq!(Vault::new(damaged).timer(0), Err(Refusal::Unsound));
}

/// What a host that comes back asks.
#[test]
fn a_record_tells_its_view_and_decision() {
    assert_eq!((Record::blank().current(), Record::blank().decision()), (Err(Refusal::Blank), Err(Refusal::Blank)));
    let mut vault = started();
    assert_eq!(vault.record().current(), Ok(Current { view: 0, after: Duration::from_millis(900) }));
    for kind in 2..=5 {
        assert_eq!(vault.record().decision(), Ok(None));
        for sender in 1..=3 {
            vault.frame(sender, &[kind, sender, 0, 0, 0, 0, 0, 0, 0, 0, 0, 0, 0, 7]).expect("a vote of the current view");
        }
    }
    let decision = Decision { view: 0, plan: 7 };
    assert_eq!(vault.record().decision(), Ok(Some(decision)));
    let Ok(entries) = vault.store(kept);
    assert_eq!(entries.last(), Some(Entry::Decision(decision)));
    // Two view-changes make it ask for view 1 too, and three bring it there.
    for sender in 1..=2 {
        vault.frame(sender, &[6, sender, 0, 0, 0, 1]).expect("a view-change");
    }
    assert_eq!(vault.record().current().map(|current| current.view), Ok(1));
    assert_eq!(vault.record().decision(), Ok(Some(decision)));
}

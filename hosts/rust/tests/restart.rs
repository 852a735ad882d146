//! Wish 6 through the wrapper: what is stored, and the way back after a power cut.
use std::convert::Infallible;
use std::fs::{self, File};
use std::io::{self, Write};
use std::path::{Path, PathBuf};
use std::time::Duration;

use vault::{Decision, Entries, Entry, Record, Refusal, Remnant, Settings, Vault, RECORD_SIZE, REMNANT_SIZE};

const SETTINGS: Settings = Settings { n: 4, f: 1, id: 0, class: 2 };
const TIMER: Duration = Duration::from_millis(900);

/// A vote of view 0 for plan 7.
fn vote(kind: u8, sender: u8) -> [u8; 14] {
    [kind, sender, 0, 0, 0, 0, 0, 0, 0, 0, 0, 0, 0, 7]
}

fn take(vault: &mut Vault, kind: u8, sender: u8) {
    vault.frame(sender, &vote(kind, sender)).expect("a vote of the current view");
}

fn started() -> Vault {
    let mut vault = Vault::new(Record::blank());
    vault.start(SETTINGS, 7).expect("right settings");
    vault
}

/// The vault of the worked case: it took two first votes, and sent its second.
fn voted() -> Vault {
    let mut vault = started();
    for sender in 1..=2 {
        take(&mut vault, 2, sender);
    }
    vault
}

fn remnant(vault: &Vault) -> Remnant {
    vault.remnant().expect("it was started")
}

/// What the vault hands out once it is stored.
fn said(vault: &mut Vault) -> Vec<Entry> {
    let kept = |_: &Remnant| -> Result<(), Infallible> { Ok(()) };
    let Ok(entries) = vault.store_remnant(kept);
    entries.collect()
}

/// The vault of a remnant, whose only entry is the timer of this view.
fn back(remnant: &[u8], view: u32) -> Vault {
    let (vault, entries) = Vault::restart(remnant).expect("a remnant that was stored");
    assert_eq!(entries.collect::<Vec<_>>(), [Entry::Timer { view, after: TIMER }]);
    vault
}

/// The frames of entries that have nothing else, all of them for all.
fn frames(entries: Vec<Entry>) -> Vec<Vec<u8>> {
    let bytes = |entry| match entry {
        Entry::All(frame) => frame.as_bytes().to_vec(),
        other => panic!("{other:?}"),
    };
    entries.into_iter().map(bytes).collect()
}

#[test]
fn the_worked_case() {
    let stored = remnant(&voted());
    let mut vault = back(stored.as_bytes(), 0);
    // The first votes were lost, and come again: its second vote is out, and is not said twice.
    for sender in 1..=2 {
        take(&mut vault, 2, sender);
    }
    assert_eq!(said(&mut vault), []);
    for sender in 1..=2 {
        take(&mut vault, 3, sender);
    }
    assert_eq!(frames(said(&mut vault)), [vote(4, 0)]);

    let change = [6, 0, 0, 0, 0, 1];
    let mut vault = back(stored.as_bytes(), 0);
    vault.timer(0).expect("the current view");
    assert_eq!(frames(said(&mut vault)), [change]);
    // After another restart it asks once more.
    let mut vault = back(remnant(&vault).as_bytes(), 0);
    vault.timer(0).expect("the current view");
    assert_eq!(frames(said(&mut vault)), [change]);
}

/// Own slots stand in the remnant in the header's order, and nothing of the others.
#[test]
fn the_remnants_bytes() {
    let stored = remnant(&voted());
    let mut bytes = vec![4, 1, 0, 2, 0, 0, 0, 0, 0, 0, 0, 0, 0, 0, 0, 7];
    let slot = [1, 0, 0, 0, 0, 0, 0, 0, 0, 0, 0, 0, 7];
    // Proposal, vote-1, vote-2.
    for _ in 0..3 {
        bytes.extend(slot);
    }
    bytes.resize(REMNANT_SIZE, 0);
    assert_eq!(stored.as_bytes()[..], bytes);
    assert_eq!(stored.as_ref(), &bytes[..]);
    assert_eq!(Remnant::from(*stored.as_bytes()), stored);
    assert_eq!(voted().record().remnant(), Ok(stored));
}

#[test]
fn what_was_never_stored_is_no_remnant() {
    assert_eq!(Vault::new(Record::blank()).remnant(), Err(Refusal::Blank));
    assert_eq!(Record::blank().remnant(), Err(Refusal::Blank));
    let mut damaged = [0xff; RECORD_SIZE];
    damaged[..3].copy_from_slice(&[4, 1, 0]);
    assert_eq!(Record::from(damaged).remnant(), Err(Refusal::Unsound));
}

#[test]
fn what_is_no_remnant_is_refused() {
    let refused = |bytes: &[u8]| Vault::restart(bytes).err();
    let stored = *remnant(&voted()).as_bytes();
    let longer = [&stored[..], &[0]].concat();
    for bytes in [&[][..], &stored[..10], &stored[1..], &longer, voted().record().as_bytes()] {
        assert_eq!(refused(bytes), Some(Refusal::RemnantLength));
    }
    // n, f, id and link class, then the mark of the own proposal: no number at these places is as high.
    for place in [0, 1, 2, 3, 16] {
        let mut bytes = stored;
        bytes[place] = 0xff;
        assert_eq!(refused(&bytes), Some(Refusal::RemnantUnsound), "{place}");
    }
    let mut bytes = stored;
    bytes[0] = 0;
    assert_eq!(refused(&bytes), Some(Refusal::RemnantUnsound));
    assert_eq!(refused(&[0; REMNANT_SIZE]), Some(Refusal::RemnantUnsound));
    // A vault that is back was started: it is not started again.
    assert_eq!(back(&stored, 0).start(SETTINGS, 7), Err(Refusal::Started));
}

#[test]
fn the_last_view_stays_the_last() {
    let mut bytes = *remnant(&started()).as_bytes();
    bytes[4..8].fill(0xff);
    let mut vault = back(&bytes, u32::MAX);
    assert_eq!(vault.timer(u32::MAX), Err(Refusal::LastView));
}

/// A restart has nothing to store, whichever of the two is stored.
#[test]
fn entries_wait_until_the_remnant_is_stored() {
    let mut vault = back(remnant(&voted()).as_bytes(), 0);
    let never = |_: &Remnant| Err("not to be called");
    assert_eq!(vault.store_remnant(never).map(Iterator::count), Ok(0));
    assert_eq!(vault.store(|_| Err("not to be called")).map(Iterator::count), Ok(0));

    vault.timer(0).expect("the current view");
    assert_eq!(vault.store_remnant(|_| Err("no disk")).map(Iterator::count), Err("no disk"));
    let mut stored = None;
    let write = |remnant: &Remnant| -> Result<(), Infallible> {
        stored = Some(remnant.clone());
        Ok(())
    };
    let Ok(entries) = vault.store_remnant(write);
    assert_eq!(entries.count(), 1);
    assert_eq!(stored, Some(remnant(&vault)));
    assert_eq!(vault.store_remnant(never).map(Iterator::count), Ok(0));
}

/// A decision that was stored is told, and is not handed out again.
#[test]
fn a_stored_decision_is_told() {
    let mut vault = voted();
    for kind in 3..=5 {
        for sender in 1..=2 {
            take(&mut vault, kind, sender);
        }
    }
    let decision = Decision { view: 0, plan: 7 };
    // The power fails before the entries are handed out, and twice more.
    let stored = remnant(&vault);
    for _ in 0..3 {
        let mut vault = back(stored.as_bytes(), 0);
        assert_eq!(vault.record().decision(), Ok(Some(decision)));
        for sender in 1..=3 {
            take(&mut vault, 5, sender);
        }
        assert_eq!(said(&mut vault), []);
        assert_eq!(remnant(&vault), stored);
    }
}

/// A new file, synced and renamed over the old one.
fn on_disk(folder: &Path, remnant: &Remnant) -> io::Result<()> {
    let new = folder.join("remnant.new");
    let mut file = File::create(&new)?;
    file.write_all(remnant.as_bytes())?;
    file.sync_all()?;
    fs::rename(new, folder.join("remnant"))?;
    File::open(folder)?.sync_all()
}

/// The power fails after every call, right after its remnant was stored. The vault decides what it would have decided.
#[test]
fn a_vault_comes_back_from_a_file_after_every_call() {
    let folder = PathBuf::from(env!("CARGO_TARGET_TMPDIR")).join("restart");
    fs::create_dir_all(&folder).expect("a folder");
    let stored = |vault: &mut Vault| -> Entries { vault.store_remnant(|remnant| on_disk(&folder, remnant)).expect("a disk") };
    let read = || fs::read(folder.join("remnant")).expect("a file");

    let mut said: Vec<Entry> = stored(&mut started()).collect();
    for kind in 2..=5 {
        // The first vote of each round is lost in the cut, and comes again.
        for sender in [1, 2] {
            let mut vault = back(&read(), 0);
            take(&mut vault, kind, 1);
            if sender == 2 {
                take(&mut vault, kind, 2);
            }
            said.extend(stored(&mut vault));
        }
    }
    let decision = Decision { view: 0, plan: 7 };
    assert_eq!(said.remove(0), Entry::Timer { view: 0, after: TIMER });
    assert_eq!(said.pop(), Some(Entry::Decision(decision)));
    assert_eq!(frames(said), [1, 2, 3, 4, 5].map(|kind| vote(kind, 0)));
    assert_eq!(back(&read(), 0).record().decision(), Ok(Some(decision)));
    fs::remove_dir_all(folder).expect("the folder is there");
}

//! The desk's call and program, on the worked cases of document 02, wish 5.
use std::path::PathBuf;
use std::process::Command;

use vault::{equivocators, Record, Refusal, Settings, Vault, RECORD_SIZE};

const SETTINGS: Settings = Settings { n: 4, f: 1, id: 0, class: 0 };

/// A frame of kinds 1 to 5.
fn frame(kind: u8, sender: u8, view: u8, plan: u8) -> (u8, Vec<u8>) {
    (sender, vec![kind, sender, 0, 0, 0, view, 0, 0, 0, 0, 0, 0, 0, plan])
}

/// The record of a vault that was started with plan 7, and took these frames.
fn record(settings: Settings, frames: &[(u8, Vec<u8>)]) -> Record {
    let mut vault = Vault::new(Record::blank());
    vault.start(settings, 7).expect("right settings");
    for (sender, bytes) in frames {
        vault.frame(*sender, bytes).expect("a right frame");
    }
    vault.record().clone()
}

fn of(id: u8, frames: &[(u8, Vec<u8>)]) -> Record {
    record(Settings { id, ..SETTINGS }, frames)
}

fn a() -> Record {
    of(0, &[frame(2, 1, 0, 7), frame(5, 2, 3, 1)])
}

fn b() -> Record {
    of(3, &[frame(2, 1, 0, 8), frame(5, 2, 4, 2)])
}

/// It sends vote-1 for the proposal itself.
fn c() -> Record {
    of(1, &[frame(5, 2, 3, 9), frame(1, 0, 0, 0x99)])
}

#[test]
fn the_worked_cases() {
    let vote_4 = |plan, senders: [u8; 3]| senders.map(|sender| frame(5, sender, 0, plan));
    let (e, g) = (of(0, &vote_4(7, [1, 2, 3])), of(3, &vote_4(8, [0, 1, 2])));
    assert_eq!(equivocators(&[a(), b()]), Ok(vec![1]));
    assert_eq!(equivocators(&[a(), c()]), Ok(vec![1, 2]));
    assert_eq!(equivocators(&[b(), a(), c()]), Ok(vec![1, 2]));
    assert_eq!(equivocators(&[a(), a()]), Ok(vec![]));
    assert_eq!(equivocators(&[e, g]), Ok(vec![1, 2]));
    let other = record(Settings { n: 7, f: 2, ..SETTINGS }, &[]);
    for refused in [vec![a()], vec![a(), Record::blank()], vec![a(), other], vec![]] {
        assert_eq!(equivocators(&refused), Err(Refusal::Records));
    }
}

#[test]
fn records_of_any_length_may_be_given() {
    let whole = a();
    let longer = [whole.as_ref(), &[0]].concat();
    let shorter = &whole.as_ref()[1..];
    assert_eq!(equivocators(&[whole.as_ref(), shorter]), Err(Refusal::Records));
    assert_eq!(equivocators(&[whole.as_ref(), &longer]), Err(Refusal::Records));
    // The sum is right, and neither is a record.
    assert_eq!(longer.len() + shorter.len(), 2 * RECORD_SIZE);
    assert_eq!(equivocators(&[&longer[..], shorter]), Err(Refusal::Records));
}

/// What the program prints, and whether it ended well.
fn program(files: &[PathBuf]) -> (String, bool) {
    let done = Command::new(env!("CARGO_BIN_EXE_equivocators")).args(files).output().expect("the program runs");
    let said = [done.stdout, done.stderr].concat();
    (String::from_utf8(said).expect("text"), done.status.success())
}

#[test]
fn the_program_reads_record_files() {
    let folder = PathBuf::from(env!("CARGO_TARGET_TMPDIR"));
    let stored = |name: &str, record: &Record| {
        let file = folder.join(name);
        std::fs::write(&file, record.as_bytes()).expect("a file");
        file
    };
    let (a, c) = (stored("a.record", &a()), stored("c.record", &c()));
    assert_eq!(program(&[a.clone(), c]), ("vault 1 spoke twice\nvault 2 spoke twice\n".to_owned(), true));
    assert_eq!(program(&[a.clone(), a.clone()]), ("no vault spoke twice\n".to_owned(), true));
    let (said, well) = program(std::slice::from_ref(&a));
    assert!(said.starts_with("refusal 24: there are not 2 to 64 records") && !well, "{said}");
    let (said, well) = program(&[a, folder.join("not there")]);
    assert!(said.contains("not there: ") && !well, "{said}");
}

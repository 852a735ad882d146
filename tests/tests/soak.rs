//! The soak finds what it is for: each sabotage within its minute, with a short script that shows it, and again by the command that it prints.
use std::process::Command;

/// What the soak prints on finding something.
fn found(arguments: &[&str]) -> String {
    let output = Command::new(env!("CARGO_BIN_EXE_soak")).args(arguments).output().expect("it runs");
    let said = String::from_utf8(output.stdout).expect("text");
    println!("{said}");
    assert!(!output.status.success(), "nothing was found");
    said
}

fn line<'a>(said: &'a str, begin: &str) -> &'a str {
    said.lines().find_map(|line| line.strip_prefix(begin)).expect(begin)
}

/// Finds this within a minute from a seed on, and again by the command; gives the script.
fn finds(seed: &str, sabotage: &str, what: &str) -> Vec<String> {
    let said = found(&["1", seed, "--sabotage", sabotage]);
    assert!(line(&said, "FOUND: ").starts_with(what), "{said}");
    let command: Vec<&str> = line(&said, "again: bash scripts/soak ").split(' ').collect();
    assert_eq!(line(&found(&command), "FOUND: "), line(&said, "FOUND: "));
    let script = said.lines().skip_while(|line| !line.starts_with("the shortest script")).skip(1);
    script.map(|line| line.trim().to_owned()).collect()
}

/// "A vault that comes back with an older record may vote twice: then the promise of one plan is gone."
#[test]
fn an_older_record_is_found() {
    let script = finds("1", "older-record", "disagreement: ");
    assert!(script.iter().any(|line| line.ends_with(" restore")) && script.len() < 100);
}

/// "A vault returned from an older remnant belongs to the f": with as many liars beside it, two plans are decided.
#[test]
fn an_older_remnant_is_found() {
    let script = finds("1", "older-remnant", "disagreement: ");
    assert!(script[0].starts_with("cuts ") && script.len() == 1, "{script:?}");
}

#[test]
fn more_liars_than_f_are_found() {
    let script = finds("1", "more-liars", "disagreement: ");
    assert!(script[0].starts_with("network ") && script.len() < 100);
}

/// In a network of 4 and one of 64 the call alone is the script: n - f - 1 votes and settings.
#[test]
fn another_byte_in_a_network_is_found() {
    assert_eq!(finds("4", "other-byte", "difference: ").len(), 4);
    let script = finds("10", "other-byte", "difference: ");
    assert!(script[0].starts_with("call ") && script.len() == 44, "{script:?}");
}

#[test]
fn another_byte_in_random_calls_is_found() {
    let script = finds("18", "other-byte", "difference: ");
    assert!(script[0].starts_with("call ") && script.len() < 70, "{script:?}");
}

/// The start, the view-changes and votes that a quorum needs, and nothing else.
#[test]
fn another_byte_in_lines_is_found() {
    let script = finds("49", "other-byte", "difference: ");
    assert!(script[0] == "lines" && script.len() < 12, "{script:?}");
}

/// Three starts, the proposal at two vaults, each vote of the first three kinds at two others, and two votes more where it is decided.
#[test]
fn another_byte_in_a_rehearsal_is_found() {
    let script = finds("11", "other-byte", "difference: ");
    assert!(script[0] == "rehearsal" && script.len() == 1 + 3 + 2 + 3 * 3 * 2 + 2, "{script:?}");
}

#[test]
fn another_byte_in_a_list_is_found() {
    let script = finds("20", "other-byte", "difference: ");
    assert!(script[0].starts_with("list ") && script.len() == 1, "{script:?}");
}

#[test]
fn another_view_that_a_claim_reaches_is_found() {
    let script = finds("17", "other-byte", "difference: ");
    assert!(script[0].starts_with("reach ") && script.len() == 1, "{script:?}");
}

#[test]
fn another_byte_after_a_restart_is_found() {
    let script = finds("13", "other-byte", "difference: ");
    assert!(script[0].starts_with("cuts ") && script.len() == 1, "{script:?}");
}

#[test]
fn a_byte_read_too_far_is_found() {
    let script = finds("4", "overrun", "fault: memory beyond what was lent");
    assert!(script[0].starts_with("call After "), "{script:?}");
    let script = finds("20", "overrun", "fault: memory beyond what was lent");
    assert!(script[0].starts_with("list "), "{script:?}");
    let script = finds("13", "overrun", "fault: memory beyond what was lent");
    assert!(script[0].starts_with("cuts "), "{script:?}");
    let script = finds("17", "overrun", "fault: memory beyond what was lent");
    assert!(script[0].starts_with("reach "), "{script:?}");
}

//! The Rattle rehearsal (document 02, wish 2) against the reference's, on random scripts; and what our readings of it say, word for word.
use std::fmt::Write;

use comparison::program::{talk, Talk, REHEARSAL};
use reference::rehearsals::{cover, script, Coverage};

const SCRIPTS: u64 = 1_000;
const SEED: u64 = 700_000;

#[test]
fn random_scripts_print_the_same() {
    let mut coverage = Coverage::default();
    for seed in SEED..SEED + SCRIPTS {
        let script = script(seed);
        REHEARSAL.same(&format!("seed {seed}"), &script);
        cover(&script, &mut coverage);
    }
    println!("{coverage:?}");
    // "the rehearsal can show no two plans decided by the others"
    assert_eq!(coverage.disagreements, 0);
    assert_eq!([coverage.missing(), coverage.unexpected()].concat(), [String::new(); 0]);
}

/// A line and what it prints; where the line is left out, what the line above prints too.
const ONE_SCRIPT: &str = include_str!("../../reference/tests/rehearsal.txt");

fn one_script() -> Talk {
    let talk = talk(ONE_SCRIPT);
    assert_eq!(talk.len(), 18);
    talk
}

/// The stage is full, and then one place is free.
fn another() -> Talk {
    let mut talk = vec![("0300\n".into(), String::new())];
    talk.extend((0..256).map(|number| ("0400\n".into(), format!("fc{number:02x}ff\n"))));
    let start = "fe0b0000000000000384\nfbff0100000000000000000000000007\nfbff0200000000000000000000000007\n";
    let rest = [("0400", "fbff\n"), ("0000020000000000000007", start), ("0205", ""), ("0500", "fc05ff060000000001\n")];
    talk.extend(rest.map(|(line, printed)| (format!("{line}\n"), printed.into())));
    talk
}

/// Each of these is a script of its own.
fn alone() -> [Talk; 3] {
    let long = format!("04{}", "00".repeat(47));
    [("0004080000000000000000", "fd17\n"), ("0000080000000000000007", "fd08\n"), (&long, "fd14\n")]
        .map(|(line, printed)| vec![(format!("{line}\n"), printed.into())])
}

/// Document 02, wish 3: vaults 0 and 1 enter view 1 by the frame with which vault 2 asks for view 2.
fn hang() -> Talk {
    let talk = talk(include_str!("../../reference/tests/rehearsal_hang.txt"));
    assert_eq!(talk.len(), 48);
    talk
}

fn worked_scripts() -> Vec<Talk> {
    [one_script(), another(), hang()].into_iter().chain(alone()).collect()
}

#[test]
fn the_worked_scripts_print_what_the_readings_say() {
    for talk in worked_scripts() {
        let (lines, answers): (String, String) = talk.into_iter().unzip();
        for text in [lines.as_str(), lines.trim_end()] {
            assert_eq!(String::from_utf8_lossy(&REHEARSAL.printed("worked", text.as_bytes())), answers);
        }
    }
}

#[test]
fn answers_come_before_more_input() {
    for talk in worked_scripts() {
        REHEARSAL.answers_in_turn(talk.iter().map(|(line, answer)| (line.as_str(), answer.as_str())));
    }
}

/// "Here 20 allows 94 digits"; a made-up frame shows the bytes that its digits spell.
#[test]
fn ends_of_lines_and_of_input() {
    let start = "0303\n0000020000000000000007";
    REHEARSAL.same_at_ends(start, "0403");
    for digits in 90..=98 {
        let [zeros, eights] = ["0", "8"].map(|digit| digit.repeat(digits));
        REHEARSAL.same("digits", format!("{start}\n{zeros}\n{eights}\n0403{}\n0403{}\n", &zeros[4..], &eights[4..]).as_bytes());
    }
}

/// 1,000,000 lines in 3 megabytes of address space, the program and its libraries included. A frame is made up, delivered and dropped; then two
/// timers send. Soon one place is free, so that the first timer's frame takes it until it is dropped, and the other's is lost.
#[test]
fn a_long_input_needs_little_memory() {
    let mut text = String::from("0303\n0000020000000000000007\n0001020000000000000007\n0002020000000000000007\n");
    for turn in 0..1_000_000 / 6 {
        let number = (2 + 2 * turn).min(255);
        writeln!(text, "04030203{turn:08x}0000000000000007\n01{number:02x}00\n02{number:02x}\n0500\n0501\n02ff").unwrap();
    }
    let text = text.as_bytes();
    assert!(REHEARSAL.printed_within(3_000, "long", text) == REHEARSAL.expected(text));
}

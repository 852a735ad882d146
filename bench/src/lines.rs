//! Part 5: both line programs on one long file.

use std::fmt::Write;
use std::fs::File;
use std::path::Path;
use std::process::Command;
use std::time::Instant;

use crate::folder::Folder;
use crate::summary::{Aim, Summary};

const RATTLE: &str = concat!(env!("CARGO_MANIFEST_DIR"), "/../target/bin/vaultlines");
const REFERENCE: &str =
    concat!(env!("CARGO_MANIFEST_DIR"), "/../reference/target/release/vaultlines-reference");
const LINES: u32 = 1_000_000;
const ROUNDS: u32 = 2;
const INPUT: &str = "input";

/// A start of vault 0 of 4, then of every ten lines: five votes of a new view, and one each of a
/// vote repeated (17), a timer (accepted), an empty line (9), a start (4), and in turn a proof
/// with a bad report (14) and an odd count of digits (20).
fn text() -> String {
    const START: &str = "00040100020000000000000007\n";
    let mut text = String::from(START);
    for i in 1..LINES {
        let view = i / 10 + 1;
        let written = match i % 10 {
            place @ 0..=4 => {
                let (kind, sender) = (2 + place % 4, 1 + place % 3);
                writeln!(text, "{kind:02x}{sender:02x}{view:08x}{i:016x}")
            }
            5 => writeln!(text, "0201{view:08x}{:016x}", 5),
            6 => writeln!(text, "0900000000"),
            7 => writeln!(text),
            8 => write!(text, "{START}"),
            _ if view % 2 == 0 => writeln!(text, "0801{view:08x}{}", "02".repeat(39)),
            _ => writeln!(text, "020"),
        };
        written.expect("writing to memory");
    }
    text
}

/// Seconds by the clock, and those of a processor: other processes lengthen only the former.
#[derive(Clone, Copy)]
struct Seconds {
    clock: f64,
    processor: f64,
}

impl Seconds {
    fn best(self, other: Seconds) -> Seconds {
        Seconds {
            clock: self.clock.min(other.clock),
            processor: self.processor.min(other.processor),
        }
    }
}

/// The processor's seconds of all programs that were run so far, as Linux tells them: the 16th and
/// the 17th word, in hundredths. The second word is the only one that may hold a blank.
fn processor_seconds() -> f64 {
    let stat = std::fs::read_to_string("/proc/self/stat").expect("Linux has this file");
    let after_name = stat.rsplit(')').next().expect("there is a last part");
    let words = after_name.split_whitespace().skip(13).take(2);
    words.map(|word| word.parse::<f64>().expect("a number") / 100.0).sum()
}

/// What a program prints for the input, by way of a file, and the seconds that it takes.
fn run(program: &str, folder: &Path) -> (Vec<u8>, Seconds) {
    let input = File::open(folder.join(INPUT)).expect("the input is there");
    let output = folder.join("output");
    let file = File::create(&output).expect("a place for the output");
    let (begin, before) = (Instant::now(), processor_seconds());
    let status = Command::new(program).stdin(input).stdout(file).status();
    let clock = begin.elapsed().as_secs_f64();
    let seconds = Seconds { clock, processor: processor_seconds() - before };
    assert!(status.is_ok_and(|status| status.success()), "{program} failed");
    (std::fs::read(&output).expect("the output is there"), seconds)
}

pub fn print(summary: &mut Summary) {
    let folder = Folder::new("lines");
    std::fs::write(folder.path().join(INPUT), text()).expect("a place for the input");
    let never = Seconds { clock: f64::INFINITY, processor: f64::INFINITY };
    let (mut rattle, mut reference) = (never, never);
    let mut bytes = 0;
    for _ in 0..ROUNDS {
        let (ours, our_seconds) = run(RATTLE, folder.path());
        let (theirs, their_seconds) = run(REFERENCE, folder.path());
        assert!(ours == theirs, "the line programs print different lines");
        rattle = rattle.best(our_seconds);
        reference = reference.best(their_seconds);
        bytes = ours.len();
    }
    println!();
    println!("5. Line programs, {LINES} lines, n = 4; both print the same {bytes} bytes to a file");
    println!(
        "   Of ten lines five are accepted votes of new views and one is an accepted timer; one"
    );
    println!(
        "   each is refused with 17, 9 (empty) and 4 (a start), and one with 14 or 20 in turn."
    );
    let head = ["seconds", "lines/s", "CPU seconds", "lines/CPU s"];
    println!("{:12} {:>12} {:>12} {:>12} {:>12}", "", head[0], head[1], head[2], head[3]);
    for (name, Seconds { clock, processor }) in [("vaultlines", rattle), ("reference", reference)] {
        let [by_clock, by_processor] = [clock, processor].map(|seconds| f64::from(LINES) / seconds);
        println!("{name:12} {clock:>12.2} {by_clock:>12.0} {processor:>12.2} {by_processor:>12.0}");
    }
    let by_processor = reference.processor / rattle.processor;
    println!(
        "{:12} {:>12} {:>12.2} {:>12} {by_processor:>12.2}",
        "ratio",
        "",
        reference.clock / rattle.clock,
        ""
    );
    summary.add_ratio(Aim::Lines, String::from("by the processor's seconds"), by_processor);
}

//! The line program (01, "The line program").
mod common;
use common::*;
use std::io::Read;

const EXAMPLE: &str = "00040100020000000000000007
0201000000000000000000000007
0202000000000000000000000007
0201000000000000000000000007
";
const EXAMPLE_OUTPUT: &str = "fe0b0000000000000384
ff0100000000000000000000000007
ff0200000000000000000000000007
ff0300000000000000000000000007
fd11
";

#[test]
fn the_example_to_the_byte() {
    assert_eq!(run_lines(EXAMPLE.as_bytes()), EXAMPLE_OUTPUT);
    // "A line ends at byte 0a or at the input's end"
    assert_eq!(run_lines(EXAMPLE.trim_end().as_bytes()), EXAMPLE_OUTPUT);
}

/// A reader that hands out so many bytes at a time.
struct Small<'a>(&'a [u8], usize);

impl Read for Small<'_> {
    fn read(&mut self, out: &mut [u8]) -> std::io::Result<usize> {
        let count = self.1.min(self.0.len()).min(out.len());
        out[..count].copy_from_slice(&self.0[..count]);
        self.0 = &self.0[count..];
        Ok(count)
    }
}

#[test]
fn chunks_of_input_make_no_difference() {
    for size in 1..40 {
        let mut output = Vec::new();
        reference::lines::run(Small(EXAMPLE.as_bytes(), size), &mut output).expect("runs");
        assert_eq!(output, EXAMPLE_OUTPUT.as_bytes());
    }
}

#[test]
fn where_lines_end() {
    assert_eq!(run_lines(b""), "", "an empty input has no line");
    // "an empty line is an empty frame": on a blank record 2, on a started one 9
    assert_eq!(run_lines(b"\n"), "fd02\n");
    assert_eq!(run_lines(b"\n\n"), "fd02\nfd02\n");
    let start = "00040101020000000000000007\n";
    let timer = "fe0b0000000000000384\n";
    assert_eq!(run_lines(format!("{start}\n").as_bytes()), format!("{timer}fd09\n"));
    assert_eq!(run_lines(start.as_bytes()), timer, "after a final 0a there is no further line");
    // a carriage return is no digit
    assert_eq!(run_lines(b"00040101020000000000000007\r\n"), "fd14\n");
}

#[test]
fn frames_too_short_for_a_sender() {
    let start = "00040101020000000000000007\n";
    let timer = "fe0b0000000000000384\n";
    for (line, number) in [("", "09"), ("02", "0a"), ("0a", "09"), ("ff", "09"), ("0201", "0a")] {
        assert_eq!(run_lines(format!("{line}\n").as_bytes()), "fd02\n");
        let input = format!("{start}{line}\n");
        assert_eq!(run_lines(input.as_bytes()), format!("{timer}fd{number}\n"));
    }
}

#[test]
fn wrong_lengths_of_start_and_timer_come_before_the_call() {
    // 10 before 2, 4 and 5
    for line in [
        "00",
        "000401010200000000000000",
        "0004010102000000000000000700",
        "0003",
        "09",
        "09000000",
        "090000000000",
    ] {
        assert_eq!(run_lines(format!("{line}\n").as_bytes()), "fd0a\n", "{line}");
    }
    let input = "00040101020000000000000007\n00\n09\n00040101020000000000000007\n";
    assert_eq!(run_lines(input.as_bytes()), "fe0b0000000000000384\nfd0a\nfd0a\nfd04\n");
}

#[test]
fn refusal_20_comes_before_all_else() {
    let digits = |count: usize| "0".repeat(count);
    for line in [
        "0".to_string(),
        "000".to_string(),
        "0G".to_string(),
        "0A".to_string(),
        "0004010102000000000000000F".to_string(),
        " 00".to_string(),
        "00 ".to_string(),
        "+0".to_string(),
        "0x".to_string(),
        "g".repeat(91),
        digits(91),
        digits(92),
        digits(1_000_001),
        format!("{}g", digits(200)),
    ] {
        assert_eq!(run_lines(format!("{line}\n").as_bytes()), "fd14\n");
        assert_eq!(run_lines(line.as_bytes()), "fd14\n");
    }
    // 90 digits are a line: here a wrong length for 00
    assert_eq!(run_lines(format!("{}\n", digits(90)).as_bytes()), "fd0a\n");
    assert_eq!(run_lines(&[0xff, 0x00, b'\n', 0xc3, 0xa9]), "fd14\nfd14\n");
    // the next line is read afresh
    assert_eq!(
        run_lines(format!("{}\n{EXAMPLE}", digits(99)).as_bytes()),
        format!("fd14\n{EXAMPLE_OUTPUT}")
    );
}

#[test]
fn a_call_without_entries_prints_nothing() {
    let input = "00040101020000000000000007\n0202000000000000000000000007\n";
    assert_eq!(run_lines(input.as_bytes()), "fe0b0000000000000384\n");
}

/// The worked lines of the readings of wish 1 (document 02), as they are printed there, at vault 3 of
/// 4: a view in the first report and a bad mark in the third; previous alone, and the lock at 4;
/// previous alone, and so in a suggest to a vault that does not lead; that suggest without a fault;
/// previous alone in view 0.
#[test]
fn the_worked_lines_of_wish_1() {
    let worked = "\
080100000004010000000400000000000000050000000000000000000000000002000000000000000000000000 fd0e
080100000004000000000000000000000000000100000002000000000000000601000000040000000000000001 fd15
080100000004000000000000000000000000000100000002000000000000000600000000000000000000000000 fd16
070100000004000000000000000000000000000100000002000000000000000600000000000000000000000000 fd16
070100000004000000000000000000000000000000000000000000000000000000000000000000000000000000 fd0f
080100000000000000000000000000000000000100000002000000000000000600000000000000000000000000 fd0d";
    let pairs = worked.lines().map(|line| line.split_once(' ').expect("a line and its answer"));
    let (lines, answers): (Vec<&str>, Vec<&str>) = pairs.unzip();
    let input = format!("00040103020000000000000007\n{}\n", lines.join("\n"));
    let output = format!("fe0b0000000000000384\n{}\n", answers.join("\n"));
    assert_eq!(run_lines(input.as_bytes()), output);
}

/// The worked lines of the readings of wish 3 (document 02), as they are printed there: the hang; A and
/// B at two views in one pass, and a timer that repeats what A asked for; A and B at one view.
#[test]
fn the_worked_lines_of_wish_3() {
    let parts: Vec<&str> = include_str!("wish_3.txt").split("\n\n").collect();
    assert_eq!(parts.len(), 3);
    for part in parts {
        let (mut input, mut output) = (String::new(), String::new());
        for (line, printed) in worked(part) {
            input += &format!("{line}\n");
            output += &printed;
            assert_eq!(run_lines(input.as_bytes()), output, "{line}");
        }
    }
}

#[test]
fn a_timer_and_a_longest_line() {
    // vault 0 of 4 in view 0; its timer; then two view-changes enter view 1
    let input = "00040100070000000000000009\n0900000000\n0900000001\n060200000001\n060300000001\n";
    let output = "fe0b000000000000afc8\n\
        ff0100000000000000000000000009\n\
        ff0200000000000000000000000009\n\
        ff060000000001\n\
        fd12\n\
        fe0b000000010000afc8\n\
        ff080000000001010000000000000000000000090000000000000000000000000000000000000000000000000000\n\
        01070000000001000000000000000000000000000000000000000000000000000000000000000000000000000000\n";
    assert_eq!(run_lines(input.as_bytes()), output);
}

/// The program against the calls, over random scripts.
#[test]
fn lines_do_what_the_calls_do() {
    use reference::{entry::Entry, frame, rng::Rng};
    let mut rng = Rng(77);
    for _ in 0..200 {
        let mut vault = Vault::blank();
        let (mut input, mut expected) = (String::new(), String::new());
        let mut note = |line: &[u8], result: Result<Vec<Entry>, u8>| {
            input += &(hex(line) + "\n");
            match result {
                Ok(entries) => {
                    entries.iter().for_each(|entry| expected += &(hex(&entry.bytes()) + "\n"))
                }
                Err(number) => expected += &format!("fd{number:02x}\n"),
            }
        };
        for call in 0..60 {
            if call == 0 || rng.one_in(50) {
                let s = likely_settings(&mut rng);
                let plan = rng.next();
                let mut line = vec![0, s.n, s.f, s.id, s.class];
                line.extend(plan.to_be_bytes());
                note(&line, vault.start(s.n, s.f, s.id, s.class, plan));
            } else if rng.one_in(8) {
                let view = vault.record().view.wrapping_add(u32::from(rng.one_in(6)));
                let mut line = vec![9];
                line.extend(view.to_be_bytes());
                note(&line, vault.timer(view));
            } else {
                let mut line = frame::write(&likely_frame(&mut rng, &vault.record()));
                if rng.one_in(10) {
                    let at = rng.below(line.len() as u64) as usize;
                    line[at] = rng.pick(&[1, 2, 3, 5, 60, 64, 255]);
                }
                note(&line, vault.bytes(line[1], &line));
            }
        }
        assert_eq!(run_lines(input.as_bytes()), expected);
    }
}

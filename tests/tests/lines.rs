//! The Rattle line program against the reference's, on random scripts; and what document 01 and our readings say of its input and output.
use comparison::program::{talk, Talk, PROGRAM};
use reference::scripts::{cover, script, Coverage};

const SCRIPTS: u64 = 2_500;
const SEED: u64 = 900_000;

#[test]
fn random_scripts_print_the_same() {
    let mut coverage = Coverage::default();
    let mut sizes = [0u32; 256];
    for seed in SEED..SEED + SCRIPTS {
        let script = script(seed);
        PROGRAM.same(&format!("seed {seed}"), &script);
        cover(&script, &mut coverage);
        for line in script.split(|&byte| byte == b'\n').filter(|line| line.len() == 26 && line.starts_with(b"00")) {
            let n = std::str::from_utf8(&line[2..4]).ok().and_then(|n| u8::from_str_radix(n, 16).ok());
            sizes[usize::from(n.unwrap_or(0))] += 1;
        }
    }
    println!("{coverage:?}");
    assert!(coverage.steps.iter().all(|&count| count > 0));
    // Lines can't reach 1, 3 and 12.
    assert!((1..=22).all(|number| (coverage.refusals[number] > 0) != [1, 3, 12].contains(&number)));
    // Each fault of a report alone, and each pair of which the later number stands in the earlier report.
    assert_eq!(coverage.missing(), [String::new(); 0]);
    assert!(coverage.one_set > 0 && coverage.two_sets > 0 && coverage.last_views > 0 && coverage.decisions_of_64 > 0);
    assert!([4, 7, 64].iter().all(|&n| sizes[n] > 20), "{sizes:?}");
}

#[test]
fn the_example_prints_its_five_lines() {
    assert_eq!(PROGRAM.printed("example", include_bytes!("../example.in")), include_bytes!("../example.out"));
}

/// Document 02, wish 1, at vault 3 of 4, which does not lead view 4: each line and what is printed for it.
#[test]
fn a_bad_report_is_told_by_its_part() {
    let absent = "0".repeat(26);
    let (highest, previous, lock) = ("01000000040000000000000005", "01000000020000000000000006", "01000000040000000000000001");
    let bad_mark = format!("02{}", "0".repeat(24));
    let talk = [
        ("00040103020000000000000007".into(), "fe0b0000000000000384"),
        (format!("080100000004{highest}{absent}{bad_mark}"), "fd0e"),
        (format!("080100000004{absent}{previous}{lock}"), "fd15"),
        (format!("080100000004{absent}{previous}{absent}"), "fd16"),
        (format!("070100000004{absent}{previous}{absent}"), "fd16"),
        (format!("070100000004{absent}{absent}{absent}"), "fd0f"),
        (format!("080100000000{absent}{previous}{absent}"), "fd0d"),
    ];
    let [said, answers] =
        [talk.clone().map(|(line, _)| line), talk.map(|(_, answer)| answer.into())].map(|lines: [String; 7]| lines.join("\n") + "\n");
    assert_eq!(String::from_utf8_lossy(&PROGRAM.printed("wish 1", said.as_bytes())), answers);
}

/// Document 02, wish 3: a line and what it prints; where the line is left out, what the line above prints too. An empty row ends an input.
const BACKED: &str = include_str!("../../reference/tests/wish_3.txt");

#[test]
fn a_later_view_change_backs_the_earlier_views() {
    let talks: Vec<Talk> = BACKED.split("\n\n").map(talk).collect();
    assert_eq!(talks.iter().map(Vec::len).collect::<Vec<_>>(), [5, 6, 4]);
    for talk in talks {
        PROGRAM.answers_in_turn(talk.iter().map(|(line, answer)| (line.as_str(), answer.as_str())));
    }
}

/// "A line ends at byte 0a or at the input's end; after a final 0a there is no further line, and an empty line is an empty frame."
#[test]
fn ends_of_lines_and_of_input() {
    let start = "00040100020000000000000007";
    PROGRAM.same_at_ends(start, "");
    for digits in 86..96 {
        PROGRAM.same("digits", format!("{start}\n{}\n{}\n", "0".repeat(digits), "8".repeat(digits)).as_bytes());
    }
}

/// "its output is flushed when the input runs dry"
#[test]
fn answers_come_before_more_input() {
    PROGRAM.answers_in_turn([
        ("00040100020000000000000007\n", "fe0b0000000000000384\nff0100000000000000000000000007\nff0200000000000000000000000007\n"),
        ("0\n", "fd14\n"),
        ("0900000000\n", "ff060000000001\n"),
    ]);
}

/// 1,000,000 lines in 20 megabytes of address space, the program and its libraries included.
#[test]
fn a_long_input_needs_little_memory() {
    let mut text = String::from("00040100020000000000000007\n");
    for i in 0..1_000_000u32 {
        match i % 3 {
            0 => text.push_str(&format!("0201{:08x}0000000000000007\n", i / 3)),
            1 => text.push_str("0900000000\n"),
            _ => text.push('\n'),
        }
    }
    let text = text.as_bytes();
    assert!(PROGRAM.printed_within(20_000, "long", text) == PROGRAM.expected(text));
}

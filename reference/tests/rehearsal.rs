//! The rehearsal (document 02, wish 2) by the worked scripts of document 03, its readings one by one,
//! and random scripts: what they reach, that no two plans are decided by vaults that are not declared,
//! and that a second stage, written here from document 03 alone, prints the same.

mod common;

use std::collections::BTreeMap;

use common::worked;
use reference::entry::Entry;
use reference::record::Record;
use reference::rehearsal::{run, Decision, Rehearsal};
use reference::rehearsals::{cover, script, Coverage};
use reference::rng::Rng;
use reference::vault::{self, Fault};

const SEED: u64 = 50_000;

fn rehearsed(input: &[u8]) -> String {
    let mut output = Vec::new();
    run(input, &mut output).expect("reading and writing memory");
    String::from_utf8(output).expect("text")
}

/// What a line prints on this stage.
fn print(stage: &mut Rehearsal, line: &str) -> String {
    let mut printed = Vec::new();
    stage.obey(line.as_bytes(), &mut printed);
    String::from_utf8(printed).expect("text")
}

/// Obeys lines of which nothing is asked.
fn obey_all(stage: &mut Rehearsal, lines: &[&str]) {
    for line in lines {
        print(stage, line);
    }
}

// ---------------------------------------------------------------------------------------------
// The worked scripts of document 03.

const ONE_SCRIPT: &str = include_str!("rehearsal.txt");

/// The hang of document 02, wish 3: "vaults 0, 1, 2 ask for view 1; only 2 hears both others and
/// enters; its frame (the view-change for 1) is dropped before the others hear it; its timer asks for
/// 2; that frame then lets 0 and 1 enter view 1." Then the three go on to decide.
const HANG: &str = include_str!("rehearsal_hang.txt");

#[test]
fn worked_scripts_in_order() {
    assert_worked(ONE_SCRIPT, 18);
    assert_worked(HANG, 48);
}

/// Line by line on one stage, and the whole script with and without its final line feed.
fn assert_worked(script: &str, count: usize) {
    let lines = worked(script);
    assert_eq!(lines.len(), count);
    let mut stage = Rehearsal::new();
    for (line, printed) in &lines {
        assert_eq!(&print(&mut stage, line), printed, "{line}");
    }
    let (input, output): (Vec<&str>, Vec<String>) = lines.into_iter().unzip();
    assert_eq!(rehearsed((input.join("\n") + "\n").as_bytes()), output.concat());
    assert_eq!(rehearsed(input.join("\n").as_bytes()), output.concat());
}

/// The same hang where a view-change counts for its own view only: the lines that bring vaults 0 and 1
/// into view 1 print nothing, and timers and frames, however often they come, are no help.
#[test]
fn the_hang_under_the_old_count() {
    let lines = worked(HANG);
    let last = lines.iter().position(|(line, _)| *line == "010401").expect("vault 1 enters");
    let mut input = String::new();
    let mut expected = String::new();
    for (line, printed) in &lines[..=last] {
        input += &format!("{line}\n");
        expected += if ["010400", "010401"].contains(line) { "" } else { printed };
    }
    assert_eq!(by_second(Fault::OwnViewOnly, input.as_bytes()), expected);
    for _ in 0..10 {
        input += "0500\n0501\n0502\n";
        for number in 0..64 {
            input.extend((0..3).map(|vault| format!("01{number:02x}{vault:02x}\n")));
        }
    }
    let decisions = |fault| by_second(fault, input.as_bytes()).matches("fe0a").count();
    assert_eq!(decisions(Fault::OwnViewOnly), 0);
    assert_eq!(decisions(Fault::None), 3);
}

#[test]
fn another_with_a_full_stage() {
    let mut stage = Rehearsal::new();
    assert_eq!(print(&mut stage, "0300"), "");
    for number in 0..256 {
        assert_eq!(print(&mut stage, "0400"), format!("fc{number:02x}ff\n"));
    }
    assert_eq!(print(&mut stage, "0400"), "fbff\n");
    assert_eq!(
        print(&mut stage, "0000020000000000000007"),
        "fe0b0000000000000384\n\
         fbff0100000000000000000000000007\n\
         fbff0200000000000000000000000007\n"
    );
    assert_eq!(print(&mut stage, "0205"), "");
    assert_eq!(print(&mut stage, "0500"), "fc05ff060000000001\n");
}

#[test]
fn lines_alone() {
    assert_eq!(rehearsed(b"0004080000000000000000\n"), "fd17\n");
    assert_eq!(rehearsed(b"0000080000000000000007\n"), "fd08\n");
    assert_eq!(rehearsed(format!("04{}\n", "00".repeat(47)).as_bytes()), "fd14\n");
}

// ---------------------------------------------------------------------------------------------
// Lines and refusals.

#[test]
fn where_lines_end() {
    let timer = "fe0b0000000000000384\n";
    for (input, output) in [
        ("", String::new()),
        ("\n", "fd09\n".into()),
        ("\n\n", "fd09\nfd09\n".into()),
        ("0001020000000000000007", timer.into()),
        ("0001020000000000000007\n", timer.into()),
        ("0001020000000000000007\n\n", format!("{timer}fd09\n")),
        ("\n0001020000000000000007", format!("fd09\n{timer}")),
        ("0001020000000000000007\r\n", "fd14\n".into()),
        ("\r", "fd14\n".into()),
        ("0", "fd14\n".into()),
        ("05", "fd0a\n".into()),
        ("0300\n05\r\n0400", "fd14\nfc00ff\n".into()),
    ] {
        assert_eq!(rehearsed(input.as_bytes()), output, "{input:?}");
    }
}

#[test]
fn digits_and_their_limit() {
    for (digits, printed) in
        [(93, "fd14\n"), (94, "fd0a\n"), (95, "fd14\n"), (96, "fd14\n"), (1_000_000, "fd14\n")]
    {
        assert_eq!(rehearsed("0".repeat(digits).as_bytes()), printed, "{digits} digits");
    }
    // the longest line: 45 bytes made up, of anything
    let longest = "f".repeat(90);
    assert_eq!(
        rehearsed(format!("0302\n0402{longest}\n0402{longest}f\n0402{longest}ff").as_bytes()),
        format!("fc00ff{longest}\nfd14\nfd14\n")
    );
    for text in ["0A", "0g", " 0400", "0400 ", "0x", "+0", "\u{e9}", "04\t00"] {
        assert_eq!(rehearsed(text.as_bytes()), "fd14\n", "{text:?}");
    }
}

/// Lines on a stage where vault 1 is started and vault 3 is the liar, with an empty frame under 00. Most
/// have faults of several numbers; the first in the order counts.
const IN_ORDER: [(&str, u8); 43] = [
    // 20 before 9, 10 and 23
    ("0", 20),
    ("060", 20),
    ("0G", 20),
    ("05040", 20),
    ("0504A0", 20),
    // 9 before 10 and 23
    ("", 9),
    ("06", 9),
    ("07ff", 9),
    ("ff04040404", 9),
    // 10 before 23 and before the call
    ("00", 10),
    ("0004", 10),
    ("00010200000000000000", 10),
    ("000102000000000000000700", 10),
    ("01", 10),
    ("01ff", 10),
    ("01ff0404", 10),
    ("02", 10),
    ("02ff00", 10),
    ("03", 10),
    ("030400", 10),
    ("04", 10),
    ("05", 10),
    ("050400", 10),
    // 23 before 2, 4, 8 and 9
    ("0004080000000000000000", 23),
    ("00ff020000000000000007", 23),
    ("010004", 23),
    ("010101", 23),
    ("010102", 23),
    ("01ffff", 23),
    ("0201", 23),
    ("02ff", 23),
    ("0304", 23),
    ("0302", 23),
    ("0404", 23),
    ("0401", 23),
    ("0401000000", 23),
    ("0504", 23),
    ("05ff", 23),
    // the call's own: 4 before 8, 2 before 9, 9
    ("0001080000000000000007", 4),
    ("0000080000000000000007", 8),
    ("010002", 2),
    ("010001", 9),
    ("0500", 2),
];

#[test]
fn refusals_in_order() {
    let mut stage = Rehearsal::new();
    obey_all(&mut stage, &["0001020000000000000007", "0303", "0403"]);
    for (line, number) in IN_ORDER {
        let mut printed = Vec::new();
        let outcome = stage.obey(line.as_bytes(), &mut printed);
        assert_eq!(outcome.refusal, Some(number), "{line}");
        assert_eq!(printed, format!("fd{number:02x}\n").as_bytes(), "{line}");
    }
    // nothing of all this changed the stage
    assert_eq!(print(&mut stage, "0501"), "fc01ff060100000001\n");
}

// ---------------------------------------------------------------------------------------------
// The readings.

#[test]
fn who_is_declared() {
    let mut stage = Rehearsal::new();
    assert_eq!(print(&mut stage, "0402"), "fd17\n", "nobody is declared");
    assert_eq!(print(&mut stage, "0302"), "");
    assert_eq!(print(&mut stage, "0302"), "", "the declared vault again");
    assert_eq!(print(&mut stage, "0301"), "fd17\n", "another one");
    assert_eq!(stage.liar(), Some(2));
    // the liar keeps its record and may be started, delivered to and timed
    assert_eq!(print(&mut stage, "0002000000000000000009"), "fe0b00000000000000b4\n");
    obey_all(&mut stage, &["0000000000000000000009"]);
    assert_eq!(print(&mut stage, "010002"), "fc02ff0202000000000000000000000009\n");
    assert_eq!(print(&mut stage, "0502"), "fc03ff060200000001\n");
}

/// All vaults are started with plan 7 and every frame goes to everybody.
fn all_decide(stage: &mut Rehearsal) -> Vec<Decision> {
    for vault in 0..4 {
        print(stage, &format!("00{vault:02x}020000000000000007"));
    }
    let mut decisions = Vec::new();
    for number in 0..17 {
        for vault in 0..4 {
            let line = format!("01{number:02x}{vault:02x}");
            decisions.extend(stage.obey(line.as_bytes(), &mut Vec::new()).decisions);
        }
    }
    decisions
}

#[test]
fn decisions_are_told_and_a_vault_may_be_declared_after_it_decided() {
    let mut stage = Rehearsal::new();
    let mut decisions = all_decide(&mut stage);
    decisions.sort_by_key(|decision| decision.vault);
    assert_eq!(decisions, [0, 1, 2, 3].map(|vault| Decision { vault, view: 0, plan: 7 }));
    assert_eq!(print(&mut stage, "0301"), "");
    assert_eq!(print(&mut stage, "04010203000000010000000000000007").len(), 35);
    // its frames from before and those made up have the same link
    let waiting: Vec<_> = (0..=255).filter_map(|number| stage.waiting(number)).collect();
    assert_eq!(waiting.len(), 18);
    assert_eq!(waiting.iter().filter(|waiting| waiting.writer == 1).count(), 5);
}

/// A frame made up by the liar comes over the liar's link, whatever its sender byte says.
#[test]
fn the_link_is_the_writers() {
    let mut stage = Rehearsal::new();
    obey_all(&mut stage, &["0001020000000000000007", "0303", "04030200000000000000000000000007"]);
    assert_eq!(print(&mut stage, "010001"), "fd0c\n");
    obey_all(&mut stage, &["0003020000000000000007"]);
    assert_eq!(print(&mut stage, "010003"), "fd0b\n", "11 before 12");
}

#[test]
fn a_frame_for_one_vault_may_be_delivered_to_any() {
    let mut stage = Rehearsal::new();
    obey_all(&mut stage, &["0000020000000000000007", "0001020000000000000007"]);
    obey_all(&mut stage, &["0002020000000000000007", "0500", "0501", "0502"]);
    // view-changes 02, 03 and 04 bring vault 0 into view 1, which vault 1 leads
    let printed = print(&mut stage, "010300") + &print(&mut stage, "010400");
    let absent = "00000000000000000000000000";
    let suggest = format!("fc0601070000000001{absent}{absent}{absent}\n");
    assert!(printed.ends_with(&suggest), "{printed}");
    assert_eq!(print(&mut stage, "010600"), "fd0b\n", "at its sender");
    assert_eq!(print(&mut stage, "010602"), "fd0f\n", "elsewhere");
    assert_eq!(print(&mut stage, "010603"), "fd02\n", "on a blank record");
    assert_eq!(print(&mut stage, "010601"), "", "at the leader");
    assert_eq!(print(&mut stage, "010601"), "fd11\n", "it stays");
}

/// "the record keeps what the step did"
#[test]
fn a_lost_frame_was_sent_all_the_same() {
    let mut stage = Rehearsal::new();
    obey_all(&mut stage, &["0000020000000000000007", "0001020000000000000007", "0303"]);
    for _ in 2..256 {
        print(&mut stage, "0403");
    }
    assert_eq!(print(&mut stage, "010001"), "fbff0201000000000000000000000007\n");
    assert_eq!(print(&mut stage, "010001"), "fd11\n");
    let kept = stage.record(1).and_then(|record| record.own(2).copied());
    assert_eq!(kept.and_then(|vote| vote.plan()), Some(7));
}

/// With one place left, the first frame of a step takes it and the next is lost.
#[test]
fn a_step_may_have_place_for_its_first_frame_only() {
    let mut stage = Rehearsal::new();
    print(&mut stage, "0303");
    for _ in 0..255 {
        print(&mut stage, "0403");
    }
    assert_eq!(
        print(&mut stage, "0000020000000000000007"),
        "fe0b0000000000000384\n\
         fcffff0100000000000000000000000007\n\
         fbff0200000000000000000000000007\n"
    );
}

#[test]
fn a_new_frame_gets_the_smallest_free_number() {
    let mut stage = Rehearsal::new();
    obey_all(&mut stage, &["0303", "0403", "0403aa", "0403bb", "0202", "0200"]);
    assert_eq!(print(&mut stage, "0403cc"), "fc00ffcc\n");
    assert_eq!(print(&mut stage, "0403dd"), "fc02ffdd\n");
    assert_eq!(print(&mut stage, "0403ee"), "fc03ffee\n");
    assert_eq!(stage.waiting(1).map(|waiting| waiting.bytes.as_slice()), Some(&[0xaa][..]));
}

// ---------------------------------------------------------------------------------------------
// Random scripts.

#[test]
fn scripts_reach_everything_and_no_two_plans_are_decided() {
    let mut coverage = Coverage::default();
    for seed in SEED..SEED + 1000 {
        let text = script(seed);
        cover(&text, &mut coverage);
        assert_eq!(coverage.disagreements, 0, "script {seed}");
    }
    println!("{coverage:#?}");
    let mut counts: Vec<(u64, &String)> =
        coverage.met.iter().map(|(name, &count)| (count, name)).collect();
    counts.sort();
    println!("rarest: {:?}", &counts[..12]);
    assert_eq!(coverage.scripts, 1000);
    assert_eq!(coverage.missing(), Vec::<String>::new());
    assert_eq!(coverage.unexpected(), Vec::<String>::new());
}

#[test]
fn missing_names_what_was_not_met() {
    let mut coverage = Coverage::default();
    let wanted = coverage.missing().len();
    cover(b"", &mut coverage);
    assert_eq!((coverage.scripts, coverage.lines, coverage.missing().len()), (1, 0, wanted));
    cover(b"06\n06\n", &mut coverage);
    assert_eq!((coverage.lines, coverage.missing().len()), (2, wanted - 1));
    assert!(!coverage.missing().contains(&"9 by a kind above 05".to_string()));
    coverage.disagreements = 1;
    assert_eq!(coverage.missing().len(), wanted);
}

#[test]
fn a_seed_gives_one_script() {
    assert!((0..20).all(|seed| script(seed) == script(seed) && script(seed) != script(seed + 1)));
}

/// Lines of random bytes, mostly small, so that every kind and vault is named often.
#[test]
fn no_line_brings_the_rehearsal_down() {
    let mut rng = Rng(SEED);
    for _ in 0..20 {
        let mut stage = Rehearsal::new();
        for _ in 0..2000 {
            let mut bytes = vec![0; rng.pick(&[0, 1, 2, 2, 2, 3, 3, 3, 11, 11, 16, 47, 48])];
            rng.fill(&mut bytes);
            if !rng.one_in(4) {
                bytes.iter_mut().for_each(|byte| *byte %= 6);
            }
            let text: String = bytes.iter().map(|byte| format!("{byte:02x}")).collect();
            print(&mut stage, &text);
        }
    }
}

// ---------------------------------------------------------------------------------------------
// A second stage.

#[test]
fn the_second_stage_prints_the_same() {
    assert_eq!(by_second(Fault::None, b"0300\n0400\n\r"), "fc00ff\nfd14\n");
    let count = if cfg!(debug_assertions) { 250 } else { 1000 };
    for seed in SEED..SEED + count {
        let input = script(seed);
        assert!(rehearsed(&input) == by_second(Fault::None, &input), "script {seed}");
    }
}

/// The vaults by contents, and the waiting frames by number, each with its writer.
struct Second {
    fault: Fault,
    vaults: [Option<Box<Record>>; 4],
    waiting: BTreeMap<u8, (u8, Vec<u8>)>,
    liar: Option<u8>,
}

fn by_second(fault: Fault, input: &[u8]) -> String {
    let mut stage =
        Second { fault, vaults: [const { None }; 4], waiting: BTreeMap::new(), liar: None };
    let text = input.strip_suffix(b"\n").unwrap_or(input);
    let lines = text.split(|&byte| byte == b'\n').filter(|_| !input.is_empty());
    lines
        .map(|line| stage.line(line).unwrap_or_else(|number| format!("fd{number:02x}\n")))
        .collect()
}

fn read(text: &[u8]) -> Result<Vec<u8>, u8> {
    let lower_hex = |byte: &u8| b"0123456789abcdef".contains(byte);
    if text.len() > 94 || text.len() % 2 == 1 || !text.iter().all(lower_hex) {
        return Err(20);
    }
    let pairs = text.chunks(2).map(|pair| std::str::from_utf8(pair).expect("digits"));
    Ok(pairs.map(|pair| u8::from_str_radix(pair, 16).expect("two digits")).collect())
}

impl Second {
    fn line(&mut self, text: &[u8]) -> Result<String, u8> {
        let line = read(text)?;
        let &kind = line.first().filter(|&&kind| kind <= 5).ok_or(9)?;
        let lengths = [11..=11, 3..=3, 2..=2, 2..=2, 2..=47, 2..=2];
        if !lengths[usize::from(kind)].contains(&line.len()) {
            return Err(10);
        }
        // the vault that the line names; 02 names none
        let vault = if kind == 1 { line[2] } else { line[1] };
        let second_liar = kind == 3 && self.liar.is_some_and(|liar| liar != vault);
        let undeclared = kind == 4 && self.liar != Some(vault);
        let nothing_there = matches!(kind, 1 | 2) && !self.waiting.contains_key(&line[1]);
        if kind != 2 && vault > 3 || second_liar || undeclared || nothing_there {
            return Err(23);
        }
        match kind {
            2 => drop(self.waiting.remove(&line[1])),
            3 => self.liar = Some(vault),
            4 => return Ok(self.store(vault, [&[0xff], &line[2..]].concat())),
            _ => return self.call(kind, vault, &line),
        }
        Ok(String::new())
    }

    fn call(&mut self, kind: u8, vault: u8, line: &[u8]) -> Result<String, u8> {
        let record = self.vaults[usize::from(vault)].as_deref();
        let done = match (kind, record) {
            (0, Some(_)) => Err(4),
            (0, None) => {
                let plan = u64::from_be_bytes(line[3..].try_into().expect("8 bytes"));
                vault::start_with(self.fault, 4, 1, vault, line[2], plan)
            }
            (_, None) => Err(2),
            (1, Some(record)) => {
                let (writer, bytes) = &self.waiting[&line[1]];
                vault::frame_with(self.fault, record, *writer, bytes)
            }
            (_, Some(record)) => vault::timer_with(self.fault, record, record.view),
        }?;
        self.vaults[usize::from(vault)] = Some(Box::new(done.record));
        let printed = done.entries.iter().map(|entry| match entry {
            Entry::Timer { .. } | Entry::Decision { .. } => hex_line(&entry.bytes()),
            Entry::All(_) | Entry::To(..) => self.store(vault, entry.bytes()),
        });
        Ok(printed.collect())
    }

    fn store(&mut self, writer: u8, entry: Vec<u8>) -> String {
        match (0..=255).find(|number| !self.waiting.contains_key(number)) {
            None => hex_line(&[&[0xfb], &entry[..]].concat()),
            Some(number) => {
                self.waiting.insert(number, (writer, entry[1..].to_vec()));
                hex_line(&[&[0xfc, number], &entry[..]].concat())
            }
        }
    }
}

fn hex_line(bytes: &[u8]) -> String {
    bytes.iter().map(|byte| format!("{byte:02x}")).chain(["\n".to_string()]).collect()
}

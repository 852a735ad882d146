//! Part 6: instructions of single calls, counted by callgrind.

use std::path::{Path, PathBuf};
use std::process::{Command, Stdio};

use comparison::case::Case;
use comparison::cases;
use comparison::sides::{Answer, Call, InPlace, Rattle, Reference, Side};

use crate::clock::Times;
use crate::folder::Folder;
use crate::table;

/// The cases that are counted, by their names in part 1.
const COUNTED: [&str; 19] = [
    "start, does not lead view 0",
    "vote, nothing kept",
    "vote, all kept",
    "suggest: C, no votes",
    "suggest: C, no locks",
    "suggest: C, locks, largest plan of all",
    "proof: D, no votes",
    "proof: D, no locks",
    "proof: D, locks, one set",
    "view-change: A (n = 4: and B)",
    "view-change, views apart: A (n = 4: and B)",
    "view-change: B",
    "view-change, views apart: B (n = 4: and A)",
    "vote-1: E",
    "frame refused 9 (empty), nothing kept",
    "frame refused 9 (empty), all kept",
    "frame refused 17 (kept), all kept",
    "timer, nothing kept",
    "timer, all kept",
];
const SIZES: [(u8, u8); 2] = [(4, 1), (64, 21)];

/// The functions that callgrind watches: a call, and nothing besides.
const RATTLE: &str = "counted_rattle_call";
const IN_PLACE: &str = "counted_in_place_call";
const REFERENCE: &str = "counted_reference_call";

#[no_mangle]
#[inline(never)]
pub fn counted_rattle_call(call: &Call, rec: &mut [u8], out: &mut [u8]) -> Answer {
    call.on::<Rattle>(rec, out)
}

#[no_mangle]
#[inline(never)]
pub fn counted_in_place_call(call: &Call, rec: &mut [u8], out: &mut [u8]) -> Answer {
    call.on::<InPlace>(rec, out)
}

#[no_mangle]
#[inline(never)]
pub fn counted_reference_call(call: &Call, rec: &mut [u8], out: &mut [u8]) -> Answer {
    call.on::<Reference>(rec, out)
}

/// The counted cases of every size, in the order in which they are called and printed.
fn counted() -> Vec<(u8, Case)> {
    let mut counted = Vec::new();
    for (n, f) in SIZES {
        let cases = cases::all(n, f).into_iter();
        counted.extend(
            cases.filter(|case| COUNTED.contains(&case.name.as_str())).map(|case| (n, case)),
        );
    }
    assert_eq!(counted.len(), COUNTED.len() * SIZES.len(), "every counted case is there");
    counted
}

/// The record that is lent to a call, in a folder.
fn record_file(folder: &Path, number: usize) -> PathBuf {
    folder.join(format!("record.{number}"))
}

/// Makes each call once by a watched function, with the records of a folder. This runs under
/// callgrind, where the calls that make the records would take long.
pub fn call_each(watched: &str, folder: &Path) {
    let call = match watched {
        RATTLE => counted_rattle_call,
        IN_PLACE => counted_in_place_call,
        REFERENCE => counted_reference_call,
        _ => panic!("nothing is called {watched}"),
    };
    for (number, (_, case)) in counted().iter().enumerate() {
        let mut rec = std::fs::read(record_file(folder, number)).expect("the record is there");
        let _ = call(&case.call, &mut rec, &mut vec![0; case.space]);
    }
}

/// Callgrind counts a string instruction once for each byte, so the C library is told to copy and
/// fill memory without them.
const NO_STRING_INSTRUCTIONS: (&str, &str) = (
    "GLIBC_TUNABLES",
    "glibc.cpu.x86_rep_movsb_threshold=1000000000:glibc.cpu.x86_rep_stosb_threshold=1000000000",
);

/// The instructions of each call of a side.
fn instructions<S: Side>(watched: &str, cases: &[(u8, Case)]) -> Vec<f64> {
    let folder = Folder::new(watched);
    for (number, (_, case)) in cases.iter().enumerate() {
        let record = record_file(folder.path(), number);
        std::fs::write(record, case.lend::<S>()).expect("a place for the record");
    }
    let output = folder.path().join("out");
    let status = Command::new("valgrind")
        .args(["--tool=callgrind", "--quiet"])
        .arg(format!("--toggle-collect={watched}"))
        .arg(format!("--dump-after={watched}"))
        .arg(format!("--callgrind-out-file={}", output.display()))
        .arg(std::env::current_exe().expect("this program's file"))
        .arg(watched)
        .arg(folder.path())
        .env(NO_STRING_INSTRUCTIONS.0, NO_STRING_INSTRUCTIONS.1)
        .stdout(Stdio::null())
        .status();
    assert!(status.is_ok_and(|status| status.success()), "callgrind failed");
    // After each watched call a file is written, with the call's number from 1 as its suffix.
    (1..=cases.len()).map(|number| total(&output.with_extension(number.to_string()))).collect()
}

/// The total that a file of callgrind's tells.
fn total(file: &Path) -> f64 {
    let text = std::fs::read_to_string(file).expect("callgrind wrote a file for each call");
    let total = text.lines().find_map(|line| line.strip_prefix("totals: "));
    total.and_then(|total| total.trim().parse().ok()).expect("a file of callgrind's has a total")
}

fn valgrind_runs() -> bool {
    let status = Command::new("valgrind").arg("--version").stdout(Stdio::null()).status();
    status.is_ok_and(|status| status.success())
}

pub fn print() {
    let title =
        "6. Instructions of one call, by callgrind: they do not depend on the machine's load
   The C library copies and fills without string instructions, which count once for each byte";
    table::head(title, "instructions");
    if !valgrind_runs() {
        return println!("skipped: there is no valgrind on this machine");
    }
    let cases = counted();
    let library = instructions::<Rattle>(RATTLE, &cases);
    let in_place = instructions::<InPlace>(IN_PLACE, &cases);
    let reference = instructions::<Reference>(REFERENCE, &cases);
    for (number, (n, case)) in cases.iter().enumerate() {
        let [library, in_place, reference] =
            [&library, &in_place, &reference].map(|counts| counts[number]);
        let counts = Times { library, in_place, reference };
        table::row(&format!("n = {n}: {}", case.name), counts);
    }
}

//! The programs that obey lines, run on inputs, and what the reference's print for them.
use std::fs::File;
use std::io::{self, Read, Write};
use std::path::PathBuf;
use std::process::{Command, Stdio};

use reference::{lines, rehearsal};

/// Lines with their ends, each with what it prints.
pub type Talk = Vec<(String, String)>;

/// Of rows: a line and what it prints; where the line is left out, what the line above prints too.
pub fn talk(rows: &str) -> Talk {
    let mut talk = Talk::new();
    for row in rows.lines() {
        let (line, printed) = row.split_once(' ').map_or((row, String::new()), |(line, printed)| (line, format!("{}\n", printed.trim())));
        match talk.last_mut() {
            Some(above) if line.is_empty() => above.1 += &printed,
            _ => talk.push((format!("{line}\n"), printed)),
        }
    }
    talk
}

/// A program, and what the reference makes of the same lines.
pub struct Program {
    path: &'static str,
    run: fn(&[u8], &mut Vec<u8>) -> io::Result<()>,
}

/// The line program of document 01.
pub const PROGRAM: Program =
    Program { path: concat!(env!("CARGO_MANIFEST_DIR"), "/../target/bin/vaultlines"), run: |input, output| lines::run(input, output) };

/// Document 02, wish 2.
pub const REHEARSAL: Program =
    Program { path: concat!(env!("CARGO_MANIFEST_DIR"), "/../target/bin/rehearsal"), run: |input, output| rehearsal::run(input, output) };

impl Program {
    /// What the reference prints.
    pub fn expected(&self, input: &[u8]) -> Vec<u8> {
        let mut output = Vec::new();
        (self.run)(input, &mut output).expect("reading and writing memory");
        output
    }

    /// What the program prints.
    pub fn printed(&self, name: &str, input: &[u8]) -> Vec<u8> {
        output_of(&mut Command::new(self.path), &Input::new(name, input))
    }

    /// What it prints in so many kilobytes of address space, its libraries included.
    pub fn printed_within(&self, kilobytes: u32, name: &str, input: &[u8]) -> Vec<u8> {
        let limited = format!("ulimit -v {kilobytes}; exec {}", self.path);
        output_of(Command::new("sh").args(["-c", &limited]), &Input::new(name, input))
    }

    pub fn same(&self, name: &str, input: &[u8]) {
        assert!(self.printed(name, input) == self.expected(input), "{name}:\n{}", String::from_utf8_lossy(input));
    }

    /// The same where lines and the input end in every way after these lines, and with every byte as either digit of a byte after `before`.
    pub fn same_at_ends(&self, start: &str, before: &str) {
        let long = "0".repeat(200_000);
        let ended = ["", "\n", "\n\n", "\r\n"].map(|end| format!("{start}{end}"));
        for text in ["", "\n", "\n\n", "0", "00", "09", &long].into_iter().chain(ended.iter().map(String::as_str)) {
            self.same("ends", text.as_bytes());
        }
        let [start, before] = [start, before].map(str::as_bytes);
        for byte in 0..=255u8 {
            self.same("bytes", &[start, b"\n", before, b"0", &[byte], b"\n", before, &[byte], b"0\n", &[byte]].concat());
        }
    }

    /// Each line's answer is there before the next line is sent, and nothing else is, also where a line comes in pieces.
    pub fn answers_in_turn<'a>(&self, talk: impl IntoIterator<Item = (&'a str, &'a str)>) {
        let mut child = Command::new(self.path).stdin(Stdio::piped()).stdout(Stdio::piped()).spawn().expect("the program runs");
        let (mut input, mut output) = (child.stdin.take().unwrap(), child.stdout.take().unwrap());
        for (said, answer) in talk {
            for piece in said.as_bytes().chunks(5) {
                input.write_all(piece).unwrap();
                input.flush().unwrap();
            }
            let mut got = vec![0; answer.len()];
            output.read_exact(&mut got).unwrap();
            assert_eq!(String::from_utf8_lossy(&got), answer, "{said}");
        }
        drop(input);
        let mut rest = Vec::new();
        output.read_to_end(&mut rest).unwrap();
        assert!(rest.is_empty() && child.wait().unwrap().success());
    }
}

/// A place for an input that is removed again.
struct Input(PathBuf);

impl Input {
    fn new(name: &str, bytes: &[u8]) -> Input {
        let path = std::env::temp_dir().join(format!("lines-{}-{name}", std::process::id()));
        std::fs::write(&path, bytes).expect("a place for the input");
        Input(path)
    }
}

impl Drop for Input {
    fn drop(&mut self) {
        let _ = std::fs::remove_file(&self.0);
    }
}

/// What the command prints; it ends plainly, and says nothing on standard error.
fn output_of(command: &mut Command, input: &Input) -> Vec<u8> {
    let output = command.stdin(File::open(&input.0).expect("the input")).output().expect("the program runs");
    assert!(output.status.success(), "difference: the line program ends with {:?}", output.status);
    assert!(output.stderr.is_empty(), "difference: the line program writes on standard error");
    output.stdout
}

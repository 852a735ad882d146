//! The line program (01, "The line program") over any input and output, and what the rehearsal (02,
//! wish 2) shares with it: where lines end, how their digits are read, how bytes are printed. The
//! memory does not grow with the input: a line's digits are kept up to the program's limit, and
//! counted no further than one more.

use std::io::{self, BufWriter, ErrorKind, Read, Write};

use crate::calls::{self, OUTPUT_LEN};
use crate::entry;
use crate::frame::{number4, number8};
use crate::record::RECORD_LEN;

/// The highest limit of any program that reads lines; the rehearsal has it.
pub(crate) const MOST_DIGITS: usize = 94;
const CHUNK: usize = 1 << 16;

/// A program that obeys lines one after the other.
pub(crate) trait Program {
    /// A line of more digits is refused; at most `MOST_DIGITS`.
    const MAX_DIGITS: usize;

    /// The line is whole: it is obeyed and its result printed.
    fn end_line<W: Write>(&mut self, line: &Line, output: &mut W) -> io::Result<()>;
}

/// "begins with a blank record and reads lines"
pub fn run<R: Read, W: Write>(input: R, output: W) -> io::Result<()> {
    run_program(VaultLines { record: [0; RECORD_LEN] }, input, output)
}

/// Reads the lines of an input and lets the program obey them.
pub(crate) fn run_program<P: Program, R: Read, W: Write>(
    mut program: P,
    mut input: R,
    output: W,
) -> io::Result<()> {
    let mut output = BufWriter::with_capacity(CHUNK, output);
    let mut chunk = vec![0; CHUNK];
    let mut line = Line::new(P::MAX_DIGITS);
    loop {
        // What was printed goes out before more input is awaited.
        output.flush()?;
        let count = match input.read(&mut chunk) {
            Ok(count) => count,
            Err(error) if error.kind() == ErrorKind::Interrupted => continue,
            Err(error) => return Err(error),
        };
        // "A line ends at byte 0a or at the input's end; after a final 0a there is no further line"
        if count == 0 {
            if line.begun {
                program.end_line(&line, &mut output)?;
            }
            return output.flush();
        }
        for &byte in &chunk[..count] {
            if byte == b'\n' {
                program.end_line(&line, &mut output)?;
                line = Line::new(P::MAX_DIGITS);
            } else {
                line.push(byte);
            }
        }
    }
}

/// The line read so far.
pub(crate) struct Line {
    digits: [u8; MOST_DIGITS],
    /// How many digits are allowed.
    limit: usize,
    /// How many digits there were, counted up to one above the limit.
    count: usize,
    /// A byte that is no lower-case hex digit was met.
    bad: bool,
    /// Any byte was met.
    begun: bool,
}

impl Line {
    pub(crate) fn new(limit: usize) -> Line {
        Line { digits: [0; MOST_DIGITS], limit, count: 0, bad: false, begun: false }
    }

    pub(crate) fn push(&mut self, byte: u8) {
        self.begun = true;
        match hex_value(byte) {
            None => self.bad = true,
            Some(value) if self.count < self.limit => {
                self.digits[self.count] = value;
                self.count += 1;
            }
            Some(_) => self.count = self.limit + 1,
        }
    }

    /// The line's bytes and their count. 20: "not an even count of lower-case hex digits, or over
    /// 90 digits"; the rehearsal allows 94.
    pub(crate) fn bytes(&self) -> Result<([u8; MOST_DIGITS / 2], usize), u8> {
        if self.bad || self.count > self.limit || !self.count.is_multiple_of(2) {
            return Err(20);
        }
        let mut bytes = [0; MOST_DIGITS / 2];
        for (byte, pair) in bytes.iter_mut().zip(self.digits[..self.count].chunks_exact(2)) {
            *byte = pair[0] * 16 + pair[1];
        }
        Ok((bytes, self.count / 2))
    }
}

struct VaultLines {
    record: [u8; RECORD_LEN],
}

impl Program for VaultLines {
    /// "over 90 digits" is refused.
    const MAX_DIGITS: usize = 90;

    fn end_line<W: Write>(&mut self, line: &Line, output: &mut W) -> io::Result<()> {
        let mut out = [0; OUTPUT_LEN];
        match self.call(line, &mut out) {
            Ok(count) => print_entries(&out[..count], output),
            Err(number) => print_line(&[0xfd, number], output),
        }
    }
}

impl VaultLines {
    /// "20 is tested before all else"; then the call that the line's kind names.
    fn call(&mut self, line: &Line, out: &mut [u8]) -> Result<usize, u8> {
        let (bytes, count) = line.bytes()?;
        let bytes = &bytes[..count];
        match bytes.first() {
            Some(0x00) => self.start(bytes, out),
            Some(0x09) => self.timer(bytes, out),
            _ => self.frame(bytes, out),
        }
    }

    /// "Kind 00 starts (n, f, id, class, one byte each, then plan; 13 bytes)"
    fn start(&mut self, bytes: &[u8], out: &mut [u8]) -> Result<usize, u8> {
        // "A wrong length for 00 or 09 gives 10, before the call"
        if bytes.len() != 13 {
            return Err(10);
        }
        let [n, f, id, class] = [bytes[1], bytes[2], bytes[3], bytes[4]];
        calls::start(&mut self.record, n, f, id, class, number8(&bytes[5..13]), out)
    }

    /// "kind 09 is a timer (view; 5 bytes)"
    fn timer(&mut self, bytes: &[u8], out: &mut [u8]) -> Result<usize, u8> {
        if bytes.len() != 5 {
            return Err(10);
        }
        calls::timer(&mut self.record, number4(&bytes[1..5]), out)
    }

    /// "other lines are frames whose byte 1 is also the link's sender". Without a byte 1 the frame
    /// is refused before the sender is looked at, so any number serves.
    fn frame(&mut self, bytes: &[u8], out: &mut [u8]) -> Result<usize, u8> {
        let link = bytes.get(1).copied().unwrap_or(0);
        calls::frame(&mut self.record, link, bytes, out)
    }
}

fn hex_value(digit: u8) -> Option<u8> {
    match digit {
        b'0'..=b'9' => Some(digit - b'0'),
        b'a'..=b'f' => Some(digit - b'a' + 10),
        _ => None,
    }
}

/// "It prints one output entry a line"; "a call without entries prints nothing".
fn print_entries<W: Write>(mut bytes: &[u8], output: &mut W) -> io::Result<()> {
    while let Some((_, count)) = entry::parse_first(bytes) {
        print_line(&bytes[..count], output)?;
        bytes = &bytes[count..];
    }
    Ok(())
}

fn print_line<W: Write>(bytes: &[u8], output: &mut W) -> io::Result<()> {
    let mut line = [b'\n'; 2 * entry::MAX_LEN + 1];
    for (place, digit) in line.iter_mut().zip(digits(bytes)) {
        *place = digit;
    }
    output.write_all(&line[..2 * bytes.len() + 1])
}

/// "Output digits are lower-case."
pub(crate) fn digits(bytes: &[u8]) -> impl Iterator<Item = u8> + '_ {
    const DIGITS: &[u8; 16] = b"0123456789abcdef";
    bytes.iter().flat_map(|&byte| [DIGITS[usize::from(byte >> 4)], DIGITS[usize::from(byte & 15)]])
}

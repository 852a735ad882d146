//! What document 01 says of a call on lent bytes, by the reference's vault over contents.
use reference::record::Settings;
use reference::vault::{self, Done};

use crate::records::{class, contents, spell, Class};
use crate::sides::{Answer, Call};

/// Record and output, before a call or after it.
#[derive(Clone)]
pub struct Lent {
    pub rec: Vec<u8>,
    pub out: Vec<u8>,
}

pub fn expected(rec: &[u8], call: &Call, space: usize) -> Result<Done, u8> {
    if space < 256 {
        return Err(1);
    }
    let record = match (class(rec), call) {
        (Class::Blank, &Call::Start { settings: Settings { n, f, id, class }, plan }) => return vault::start(n, f, id, class, plan),
        (_, Call::Start { .. }) => return Err(4),
        (Class::Blank, _) => return Err(2),
        (Class::Unsound, _) => return Err(3),
        (Class::Sound, _) => contents(rec).unwrap(),
    };
    match call {
        Call::Frame { link, bytes } => vault::frame(&record, *link, bytes),
        Call::Timer { view } => vault::timer(&record, *view),
        Call::Start { .. } => unreachable!(),
    }
}

/// The answer, and every byte of record and output, are what document 01 says.
pub fn check(before: &Lent, call: &Call, after: &Lent, answer: Answer) -> Result<Done, u8> {
    let expected = expected(&before.rec, call, before.out.len());
    match &expected {
        Ok(done) => {
            let written: Vec<u8> = done.entries.iter().flat_map(|entry| entry.bytes()).collect();
            assert_eq!(answer, Ok(written.len()), "difference: the answers, library and reference");
            assert!(after.rec == spell(&done.record), "difference: the record is not the reference's");
            assert!(after.out == [&written[..], &before.out[written.len()..]].concat(), "difference: the output is not the reference's");
        }
        Err(number) => {
            assert_eq!(answer, Err(*number), "difference: the answers, library and reference");
            assert!(after.rec == before.rec && after.out == before.out, "difference: a refused call changed something");
        }
    }
    expected
}

//! Calls as words, and back: `start N F ID CLASS PLAN`, `frame LINK DIGITS`, `timer VIEW`.
use reference::record::Settings;

use crate::sides::Call;

pub fn hex(bytes: &[u8]) -> String {
    const DIGITS: &[u8; 16] = b"0123456789abcdef";
    bytes.iter().flat_map(|&byte| [byte >> 4, byte & 15]).map(|digit| char::from(DIGITS[usize::from(digit)])).collect()
}

/// The bytes that digits spell, where they spell any.
pub fn bytes_of(digits: &[u8]) -> Option<Vec<u8>> {
    let text = std::str::from_utf8(digits).ok()?;
    (0..text.len() / 2).map(|i| u8::from_str_radix(text.get(2 * i..2 * i + 2)?, 16).ok()).collect()
}

pub fn words_of(call: &Call) -> String {
    match call {
        Call::Start { settings: Settings { n, f, id, class }, plan } => format!("start {n} {f} {id} {class} {plan}"),
        Call::Frame { link, bytes } => format!("frame {link} {}", hex(bytes)),
        Call::Timer { view } => format!("timer {view}"),
    }
}

pub fn call_of(words: &[&str]) -> Option<Call> {
    let byte = |place: usize| words.get(place)?.parse::<u8>().ok();
    Some(match *words.first()? {
        "start" => {
            let settings = Settings { n: byte(1)?, f: byte(2)?, id: byte(3)?, class: byte(4)? };
            Call::Start { settings, plan: words.get(5)?.parse().ok()? }
        }
        "frame" => Call::Frame { link: byte(1)?, bytes: bytes_of(words.get(2).unwrap_or(&"").as_bytes())? },
        "timer" => Call::Timer { view: words.get(1)?.parse().ok()? },
        _ => return None,
    })
}

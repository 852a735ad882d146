//! Delta debugging.
use std::time::Instant;

/// Lines with their ends; the first says what the others are for.
pub type Script = Vec<Vec<u8>>;

/// The fewest lines found in time that still show it: parts are left out, larger ones first, until no line can be spared.
pub fn shortest(whole: Script, until: Instant, shows: impl Fn(&[Vec<u8>]) -> bool) -> Script {
    let mut kept = whole;
    let mut size = kept.len() / 2;
    while size > 0 && Instant::now() < until {
        let before = kept.len();
        let mut at = 1;
        while at < kept.len() && Instant::now() < until {
            let end = (at + size).min(kept.len());
            let fewer = [&kept[..at], &kept[end..]].concat();
            if shows(&fewer) {
                kept = fewer;
            } else {
                at = end;
            }
        }
        if size > 1 || kept.len() == before {
            size /= 2;
        }
    }
    kept
}

#[cfg(test)]
mod tests {
    use super::*;
    use std::time::Duration;

    /// Three lines of a hundred show it together.
    #[test]
    fn what_can_be_spared_is_left_out() {
        let whole: Script = (0..100u8).map(|line| vec![line]).collect();
        let needed = [0, 17, 18, 83].map(|line| vec![line]);
        let short = shortest(whole, Instant::now() + Duration::from_secs(60), |kept| needed.iter().all(|line| kept.contains(line)));
        assert_eq!(short, needed);
    }
}

//! Part 3: the test for soundness, apart from the calls.

use std::hint::black_box;

use comparison::record_class;
use comparison::records::{reached, spell, Class};
use reference::record::{classify, encode, Lent, Record};

use crate::clock::{race, Clock, Group};
use crate::table;

const ROUNDS: u32 = 150;

/// A record with the most kept frames of those that scripts reach for n vaults.
fn fullest(records: &[Record], n: u8) -> &Record {
    let kept = |record: &&Record| record.rows.iter().flatten().flatten().count();
    let of_n = records.iter().filter(|record| record.settings.n == n);
    of_n.max_by_key(kept).expect("scripts reach a record of n vaults")
}

fn group<'a>(clock: &'a Clock, record: &Record) -> Group<'a> {
    Group {
        library: clock.repeated(spell(record), |bytes| {
            assert!(record_class(black_box(bytes)) == Class::Sound);
        }),
        in_place: clock.repeated(spell(record), |bytes| {
            assert!(inplace::sound(black_box(bytes)));
        }),
        reference: clock.repeated(encode(record), |bytes| {
            assert!(matches!(classify(black_box(bytes)), Lent::Sound(_)));
        }),
    }
}

pub fn print(clock: &Clock) {
    let records = reached(7, 60);
    table::head("3. Records, the fullest that scripts reach", "nanoseconds");
    for n in [4, 64] {
        let groups = vec![group(clock, fullest(&records, n))];
        table::row(&format!("tested for soundness, n = {n}"), race(ROUNDS, groups)[0]);
    }
}

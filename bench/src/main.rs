//! Run times of the Rattle vault next to the in-place vault's and the reference's, in one run.
//! `scripts/bench` builds what it needs and runs it.

mod calls;
mod clock;
mod counts;
mod equivocation;
mod folder;
mod lines;
mod offsets;
mod reaches;
mod records;
mod remnants;
mod runs;
mod searches;
mod shapes;
mod summary;
mod table;

use std::path::Path;

use clock::Clock;
use comparison::sides::{Rattle, Reference, Side};
use reference::record::Record;
use summary::Summary;

/// n and f: the fewest vaults, the most, and some between.
const SIZES: [(u8, u8); 3] = [(4, 1), (16, 5), (64, 21)];

/// What is measured and how, for a reader who has the output alone.
fn print_head(clock: &Clock) {
    let load = std::fs::read_to_string("/proc/loadavg").unwrap_or_else(|_| String::from("unknown"));
    println!(
        "The Rattle vault (libvault_c.a), an in-place vault and the reference, all built for release.
Load of the machine at the beginning: {}

Times are the best of some rounds; rounds of the sides take turns. A ratio is the library's time
over the other's: above 1 the library is the slower; where the other's is too short to be told well
there is none. Before it is timed each call is made once at all sides, on records of the same
contents, made by the same calls (an unsound record is one of these with its contents changed):
answer, output bytes and contents afterwards are the same. In parts 1 and 10 each accepted call gets
a fresh copy of its record, made outside the timed section; refused calls, which change nothing,
follow each other on one copy. So records are warm in the cache. Outputs are not cleared between
calls. The clock's own {:.0} ns are taken off each timed section.

The in-place vault (bench/inplace) is what plain Rust reaches on the library's own {} bytes: whole
calls, nothing decoded, wide scans. It is compared with the library byte for byte. The reference is
written to be read: each call makes a record of {} bytes, decodes into it the {} bytes lent, and
writes all of them back; its search tries every plan against every view.",
        load.trim(),
        clock.own_nanos(),
        Rattle::RECORD_LEN,
        size_of::<Record>(),
        Reference::RECORD_LEN,
    );
}

fn main() {
    let arguments: Vec<String> = std::env::args().skip(1).collect();
    if let [watched, folder] = &arguments[..] {
        return counts::call_each(watched, Path::new(folder));
    }
    let clock = Clock::new();
    let mut summary = Summary::default();
    print_head(&clock);
    for (n, f) in SIZES {
        calls::print(&clock, &mut summary, n, f);
    }
    searches::print(&clock, &mut summary, &SIZES);
    records::print(&clock);
    runs::print(&mut summary, &[SIZES[0], SIZES[2]]);
    lines::print(&mut summary);
    counts::print();
    equivocation::print(&clock, &mut summary, &SIZES);
    remnants::print(&clock, &mut summary, &[SIZES[0], SIZES[2]]);
    reaches::print(&clock, &mut summary);
    offsets::print(&clock, &mut summary, &[SIZES[0], SIZES[2]]);
    summary.print();
}

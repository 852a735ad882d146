//! Calls in which a step acts, with record and output at every pair of offsets modulo 4,096: the library leaves the bytes that the in-place
//! vault leaves, and touches none around them.
use comparison::case::{Case, Class};
use comparison::cases;
use comparison::compared::same;
use comparison::offsets::{Offsets, Placed, OFFSETS};
use comparison::sides::{Answer, InPlace, Rattle, Side};

/// What an output holds before a call.
const UNWRITTEN: u8 = 0xa5;

/// What a side answers, and leaves of record and output that lie there.
fn left<S: Side>(case: &Case, lent: &[u8], at: Offsets) -> (Answer, Vec<u8>, Vec<u8>) {
    let mut rec = Placed::new(lent, at.rec);
    let mut out = Placed::new(&vec![UNWRITTEN; case.space], at.out);
    let answer = case.call.on::<S>(rec.as_mut(), out.as_mut());
    assert!(rec.kept_within() && out.kept_within(), "{}, {at:?}: bytes around were touched", case.name);
    (answer, rec.as_mut().to_vec(), out.as_mut().to_vec())
}

/// Both sides leave the same at each pair of offsets, and at each what they leave at the first.
fn check(case: &Case) {
    let lent = case.lend::<Rattle>();
    let mut first = None;
    for at in Offsets::all() {
        let name = format!("{}, {at:?}", case.name);
        let (library, in_place) = (left::<Rattle>(case, &lent, at), left::<InPlace>(case, &lent, at));
        assert_eq!(library.0, in_place.0, "{name}");
        same(&format!("record ({name})"), &library.1, "in-place vault", &in_place.1);
        same(&format!("output ({name})"), &library.2, "in-place vault", &in_place.2);
        assert!(first.get_or_insert_with(|| library.clone()) == &library, "{name}: not what other offsets leave");
    }
}

#[test]
fn acting_calls_leave_the_same_bytes_at_every_offset() {
    for (n, f) in [(4, 1), (64, 21)] {
        let mut acting = cases::all(n, f);
        acting.retain(|case| case.class() == Class::Acting);
        acting.iter().for_each(Case::check);
        acting.iter().for_each(check);
        println!("{} acting calls at {} pairs of offsets, n = {n}", acting.len(), Offsets::all().count());
    }
}

/// The measure itself: a byte changed on either side of what is lent shows.
#[test]
fn a_touched_byte_shows() {
    for offset in OFFSETS {
        let placed = || Placed::new(&[1, 2, 3], offset);
        let (mut before, mut after) = (placed(), placed());
        assert!(before.kept_within() && before.as_mut() == [1, 2, 3]);
        before.memory[before.lent.start - 1] ^= 1;
        after.memory[after.lent.end] ^= 1;
        assert!(!before.kept_within() && !after.kept_within(), "{offset}");
    }
}

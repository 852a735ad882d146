//! Lists of records at the library's call that names the vaults which spoke twice, on memory at the edge of closed pages, against the
//! reference: the answer, and every byte that was lent.
use reference::collections::{collection, Collection, Item};
use reference::equivocation;
use reference::record::{encode, Record};
use reference::rng::Rng;

use crate::case::SPACE;
use crate::compared::{overrun, same, Harm};
use crate::pages::{Closed, Edge};
use crate::random::filler;
use crate::records::{class, contents, spell, Class, LEN};
use crate::vaults;

/// The named vaults by rising number, or a refusal's number.
pub type Named = Result<Vec<u8>, u8>;

/// The most lengths that are lent, and records of which each is as long as it should be.
pub const MOST: usize = 1_000;

/// Records end to end, and the lengths given with them.
pub struct List {
    pub records: Vec<u8>,
    pub lengths: Vec<u32>,
}

impl List {
    /// With the true lengths.
    pub fn of<T: AsRef<[u8]>>(records: &[T]) -> List {
        let lengths = records.iter().map(|record| record.as_ref().len() as u32).collect();
        List { records: records.iter().flat_map(|record| record.as_ref().iter().copied()).collect(), lengths }
    }

    fn spelled(list: &Collection, layout: fn(&Record) -> Vec<u8>) -> List {
        let (records, lengths) = list.spelled(layout);
        List { records, lengths }
    }

    /// The bytes of each record; None where the lengths don't add up.
    fn parts(&self) -> Option<Vec<&[u8]>> {
        let (mut parts, mut rest) = (Vec::new(), &self.records[..]);
        for &length in &self.lengths {
            let (part, after) = rest.split_at_checked(length as usize)?;
            parts.push(part);
            rest = after;
        }
        rest.is_empty().then_some(parts)
    }

    /// What the reference says of the contents that the records spell in the library's layout.
    fn expected(&self, space: usize) -> Named {
        if space < SPACE {
            return Err(1);
        }
        let contents: Vec<Option<Record>> = self.parts().ok_or(24)?.into_iter().map(sound).collect();
        equivocation::named_by_contents(&contents.iter().map(Option::as_ref).collect::<Vec<_>>())
    }
}

fn sound(bytes: &[u8]) -> Option<Record> {
    (class(bytes) == Class::Sound).then(|| contents(bytes))?
}

/// The byte count for names, as a call answers it.
fn counted(named: &Named) -> Result<usize, u8> {
    named.as_ref().map(Vec::len).map_err(|&number| number)
}

/// The pages that lists are lent on.
pub struct Desk {
    records: Closed,
    lengths: Closed,
    out: Closed,
    harm: Harm,
}

impl Desk {
    pub fn new(harm: Harm) -> Desk {
        let [records, lengths, out] = [MOST * LEN, MOST * size_of::<u32>(), 2 * SPACE].map(Closed::new);
        Desk { records, lengths, out, harm }
    }

    /// Lends a list with so much space, at any edges and over any filler. A difference tells where the list comes from.
    pub fn ask(&mut self, rng: &mut Rng, from: &str, list: &List, space: usize) -> Named {
        let mut out = filler(rng, space);
        self.call(rng, from, list, &mut out)
    }

    /// The output becomes what the call leaves.
    fn call(&mut self, rng: &mut Rng, from: &str, list: &List, out: &mut [u8]) -> Named {
        let mut edge = || rng.pick(&[Edge::Before, Edge::After]);
        let (records, lengths) = (self.records.lend(&list.records, edge()), self.lengths.lend(&list.lengths, edge()));
        let lent_out = self.out.lend(out, edge());
        let answer = vaults::equivocators(records, lengths, lent_out);
        if let Ok(count @ 1..) = answer {
            harm(self.harm, records, &mut lent_out[count - 1]);
        }
        let named = list.expected(out.len());
        let wanted = counted(&named);
        assert!(answer == wanted, "difference: the library answers {answer:?}, the reference {wanted:?}, on {from}");
        if let Ok(names) = &named {
            out[..names.len()].copy_from_slice(names);
        }
        same(&format!("output on {from}"), lent_out, "reference", out);
        assert!(*records == list.records && *lengths == list.lengths, "difference: what was lent to be read was changed, on {from}");
        named
    }

    /// The generator's list of a seed, with enough space and now and then with less: the library, the reference by contents, and the
    /// reference's own call on the list in its own layout leave the same. Gives the list and the answer to it.
    pub fn list(&mut self, seed: u64) -> (Collection, Named) {
        let (list, mut rng, from) = (collection(seed), Rng(!seed), format!("list {seed}"));
        list.items.iter().for_each(|item| check_class(item, &from));
        let layouts = [spell, encode].map(|layout| List::spelled(&list, layout));
        if rng.one_in(4) {
            let space = rng.below(SPACE as u64) as usize;
            assert!(self.both(&mut rng, &from, &layouts, space) == Err(1), "difference: little space is not refused, on {from}");
        }
        let space = SPACE + rng.below(SPACE as u64) as usize;
        let named = self.both(&mut rng, &from, &layouts, space);
        assert!(named == list.answer(), "difference: another answer than that of the list's items, on {from}");
        (list, named)
    }

    /// One list in the library's layout and in the reference's own.
    fn both(&mut self, rng: &mut Rng, from: &str, [ours, theirs]: &[List; 2], space: usize) -> Named {
        let mut out = filler(rng, space);
        let mut own_out = out.clone();
        let named = self.call(rng, from, ours, &mut out);
        let own = equivocation::equivocators(&theirs.records, &theirs.lengths, &mut own_out);
        assert!(own == counted(&named), "difference: {named:?} by contents, {own:?} by the reference's own call, on {from}");
        same(&format!("output on {from}"), &out, "reference's own call", &own_out);
        named
    }
}

/// An item is in the library's layout what it says.
fn check_class(item: &Item, from: &str) {
    let wanted = match item {
        Item::Sound(_) => Class::Sound,
        Item::Blank(_) => Class::Blank,
        Item::Unsound(_) | Item::WrongLength(..) => Class::Unsound,
    };
    let found = class(&item.spelled(spell));
    assert!(found == wanted, "difference: a record is {found:?} and not {wanted:?}, on {from}");
}

/// Does the harm where the call named somebody.
fn harm(harm: Harm, records: &[u8], last: &mut u8) {
    match harm {
        Harm::None => {}
        Harm::OtherByte => *last ^= 1,
        Harm::Overrun => overrun(records),
    }
}

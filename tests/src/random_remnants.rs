//! Random remnants: sound ones, changed in a few places where it matters, of other lengths, or any bytes.
use reference::remnant::REMNANT_SIZE;
use reference::rng::Rng;

use crate::faults::{current_view, kept, place, put};
use crate::random::{any_of, other_length};

/// A view at an edge of what is asked of a slot: about the current one, about another slot's, or one that the vault leads.
fn view_about(rng: &mut Rng, remnant: &[u8]) -> u32 {
    let (n, id, current) = (u32::from(remnant[0]).max(1), u32::from(remnant[2]), current_view(remnant));
    let led = (current - current % n).saturating_add(id);
    let other = kept(remnant, rng.below(17) as usize).map_or(1, |(view, _)| view);
    let view = rng.pick(&[0, 1, current, current, led, led.saturating_sub(n), led.saturating_add(n), other, other, u32::MAX]);
    view.saturating_add(rng.below(3) as u32).saturating_sub(1)
}

/// One change: a byte, the settings, a slot's mark or contents, or a slot that is left out.
fn change(rng: &mut Rng, remnant: &mut [u8]) {
    let slot = rng.below(17) as usize;
    match rng.below(10) {
        0 => remnant[rng.below(REMNANT_SIZE as u64) as usize] = rng.next() as u8,
        1 => {
            let near = remnant[0].wrapping_add(rng.below(3) as u8).wrapping_sub(1);
            remnant[rng.below(4) as usize] = rng.pick(&[0, 1, 2, 3, 7, 8, 63, 64, 65, 254, 255, near]);
        }
        2 => {
            let view = view_about(rng, remnant);
            remnant[4..8].copy_from_slice(&view.to_be_bytes());
        }
        3 => remnant[place(slot)] = rng.below(4) as u8,
        4 => remnant[place(slot)..place(slot + 1)].fill(0),
        5 => remnant[place(slot) + 1 + rng.below(12) as usize] ^= 1 << rng.below(8),
        _ => {
            let other = kept(remnant, rng.below(17) as usize).map_or(0, |(_, plan)| plan);
            let planless = (5..8).contains(&slot) && !rng.one_in(8);
            let plan = if planless { 0 } else { rng.pick(&[0, 1, other, other]) };
            let view = view_about(rng, remnant);
            put(remnant, slot, view, plan);
        }
    }
}

/// One of the sound ones: as it is, changed in one to three places, of another length, or any bytes.
pub fn any_remnant(rng: &mut Rng, pool: &[Vec<u8>]) -> Vec<u8> {
    let mut remnant = any_of(rng, pool).clone();
    match rng.below(12) {
        0 => remnant.resize(other_length(rng, REMNANT_SIZE), 0),
        1 => rng.fill(&mut remnant),
        2 => rng.fill(&mut remnant[4..]),
        3 => {}
        4 | 5 => (0..2 + rng.below(2)).for_each(|_| change(rng, &mut remnant)),
        _ => change(rng, &mut remnant),
    }
    remnant
}

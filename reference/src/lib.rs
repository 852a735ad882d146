//! An independent reference vault. Every function renders a sentence of document 01, or of those
//! wishes of document 02 that were made (so far wishes 1 to 3 and 5 to 7; wish 4 changes no
//! answers); where they are silent the reading taken is in READINGS.md.

pub mod calls;
pub mod collection_cover;
pub mod collections;
pub mod cuts;
pub mod cuts_cover;
pub mod entry;
pub mod equivocation;
pub mod frame;
pub mod lines;
pub mod literal;
pub mod reach;
pub mod reach_cover;
pub mod reaches;
pub mod record;
pub mod rehearsal;
pub mod rehearsal_cover;
pub mod rehearsals;
pub mod remnant;
pub mod report_faults;
pub mod rng;
pub mod rules;
pub mod scripts;
pub mod sim;
pub mod vault;

//! The worst ratio of each class of work, against what is aimed at.

use comparison::case::{Case, Class};

use crate::clock::Times;
use crate::table;

/// What a ratio is judged by.
#[derive(Clone, Copy, PartialEq)]
pub enum Aim {
    Quiet,
    Vain,
    Refused,
    /// Wherever record and output lie: the worst offsets of part 10 count too.
    Acting,
    Run,
    Search,
    /// Who spoke twice: no record is written, so it counts as a quiet call.
    Twice,
    /// Remnants and restarts: no step acts, so they count as quiet calls.
    Remnant,
    /// How high claims reach: nothing is written, so it counts as a quiet call.
    Reach,
    /// The reference's time over the library's.
    Lines,
}

impl Aim {
    const ALL: [Aim; 10] = [
        Aim::Quiet,
        Aim::Vain,
        Aim::Refused,
        Aim::Acting,
        Aim::Run,
        Aim::Search,
        Aim::Twice,
        Aim::Remnant,
        Aim::Reach,
        Aim::Lines,
    ];

    pub fn of(case: &Case) -> Aim {
        match case.class() {
            Class::Quiet if case.searches => Aim::Vain,
            Class::Quiet => Aim::Quiet,
            Class::Refused => Aim::Refused,
            Class::Acting => Aim::Acting,
        }
    }

    fn name(self) -> &'static str {
        match self {
            Aim::Quiet => "call accepted, no step acts or searches",
            Aim::Vain => "call accepted, no step acts, C or D searches",
            Aim::Refused => "call refused",
            Aim::Acting => "call in which a step acts, at every offset",
            Aim::Run => "whole run of 4 or of 64 vaults",
            Aim::Search => "slowest search at n = 64",
            Aim::Twice => "who spoke twice, in 2 to 64 records",
            Aim::Remnant => "remnant written, restart from one",
            Aim::Reach => "how high claims reach",
            Aim::Lines => "lines a second, over the reference's",
        }
    }

    /// The most of a ratio to the in-place vault; for lines the least of one to the reference.
    fn bound(self) -> f64 {
        match self {
            Aim::Quiet | Aim::Vain | Aim::Refused | Aim::Acting => 2.5,
            Aim::Twice | Aim::Remnant | Aim::Reach => 2.5,
            Aim::Run => 1.9,
            Aim::Search => 5.0,
            Aim::Lines => 3.0,
        }
    }

    fn worse(self, one: f64, other: f64) -> bool {
        if self == Aim::Lines {
            one < other
        } else {
            one > other
        }
    }
}

/// All ratios, and whose they are.
#[derive(Default)]
pub struct Summary(Vec<(Aim, f64, String)>);

impl Summary {
    pub fn add_ratio(&mut self, aim: Aim, name: String, ratio: f64) {
        self.0.push((aim, ratio, name));
    }

    /// A line of a table, which it also prints.
    pub fn row(&mut self, aim: Aim, of: &str, name: &str, times: Times) {
        table::row(name, times);
        if let Some(ratio) = times.to_in_place() {
            self.add_ratio(aim, format!("{of}{}", name.trim()), ratio);
        }
    }

    pub fn print(&self) {
        println!();
        println!(
            "Summary: the worst ratio of each class to the in-place vault, and what is aimed at"
        );
        for aim in Aim::ALL {
            let of_aim = self.0.iter().filter(|(other, ..)| *other == aim);
            let worst =
                of_aim.reduce(|one, other| if aim.worse(other.1, one.1) { other } else { one });
            let Some((_, ratio, name)) = worst else { continue };
            let reached = if aim.worse(*ratio, aim.bound()) { "MISSED" } else { "reached" };
            let sign = if aim == Aim::Lines { "≥" } else { "≤" };
            println!(
                "{:46} {ratio:>6.2} {sign} {:.1}  {reached:8} {name}",
                aim.name(),
                aim.bound()
            );
        }
    }
}

//! Plain text tables of a fixed width.

use crate::clock::Times;

/// The width of what stands before the numbers.
const NAME: usize = 52;

/// A table's title and the names of its columns.
pub fn head(title: &str, unit: &str) {
    println!();
    println!("{title}");
    let in_place = format!("{:>11} {:>11} {:>8}", "library", "in-place", "ratio");
    println!("{unit:NAME$} {in_place} {:>11} {:>8}", "reference", "ratio");
}

/// One line. A ratio is the library's number over the other's: below 1 the library is the better.
pub fn row(name: &str, times: Times) {
    let Times { library, in_place, reference } = times;
    let [to_in_place, to_reference] = [times.to_in_place(), times.to_reference()].map(ratio);
    let sides = format!("{library:>11.0} {in_place:>11.0} {to_in_place:>8}");
    println!("{name:NAME$} {sides} {reference:>11.0} {to_reference:>8}");
}

pub fn ratio(ratio: Option<f64>) -> String {
    ratio.map_or_else(|| String::from("-"), |ratio| format!("{ratio:.2}"))
}

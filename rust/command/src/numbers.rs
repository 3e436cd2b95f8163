//! The numbers of records that a word asks for.

use crate::choice::number_in;
use std::ops::RangeInclusive;

/// Records from one number to another, both included.
pub type Range = RangeInclusive<usize>;

/// Reads numbers and ranges with commas between them, and keeps their order.
/// A number is a range of one.
pub fn ranges_in(word: &str) -> Result<Vec<Range>, String> {
    word.split(',').map(range_in).collect()
}

fn range_in(part: &str) -> Result<Range, String> {
    let (first, last) = part.split_once('-').unwrap_or((part, part));
    if first.is_empty() || last.is_empty() {
        return Err(format!("NUMBERS '{part}': neither a number nor a range"));
    }
    let first = number_in("NUMBERS", first, usize::MAX)?;
    let last = number_in("NUMBERS", last, usize::MAX)?;
    if first > last {
        return Err(format!("NUMBERS {part}: a range goes from low to high"));
    }
    Ok(first..=last)
}

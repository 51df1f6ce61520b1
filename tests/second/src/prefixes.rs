//! 01, Other answers: prefixes into ranges and back. Sums are in 64 bits, where 2^32 is a plain number.

use crate::refusal::{refuse, refuse_at, Refusal};

/// Answers low and high of a prefix, or 9, 10.
pub fn prefix_to_range(value: u32, length: u32, width: u32) -> Result<(u32, u32), Refusal> {
    if width < 1 || width > 32 {
        return Err(refuse(9));
    }
    if length > width {
        return Err(refuse(10));
    }
    let value = value as u64;
    if value >= 1u64 << width {
        return Err(refuse(10));
    }
    // how many numbers share the prefix: 2^32 of them for length 0 at width 32
    let size = 1u64 << (width - length);
    if value % size != 0 {
        return Err(refuse(10));
    }
    Ok((value as u32, (value + size - 1) as u32))
}

/// The exponent of the largest aligned block that starts at low and stays within low to high.
fn largest_block(low: u64, high: u64, width: u32) -> u32 {
    let mut largest = 0;
    for exponent in 0..=width {
        let size = 1u64 << exponent;
        if low % size == 0 && low + size - 1 <= high {
            largest = exponent;
        }
    }
    largest
}

/// The pairs (value, length) of low to high, from the low end, always the largest aligned block.
pub fn pairs_of(low: u32, high: u32, width: u32) -> Vec<(u32, u32)> {
    let mut pairs = Vec::new();
    let mut next = low as u64;
    while next <= high as u64 {
        let exponent = largest_block(next, high as u64, width);
        pairs.push((next as u32, width - exponent));
        next += 1u64 << exponent;
    }
    pairs
}

/// Writes the pairs into the run and answers how many, or 9, 11, 12.
/// Reading 6: 12's place is how many are needed, then 0; an odd last number of the run stays.
pub fn range_to_prefixes(low: u32, high: u32, width: u32, run: &mut [u32]) -> Result<usize, Refusal> {
    if width < 1 || width > 32 {
        return Err(refuse(9));
    }
    if low > high || high as u64 >= 1u64 << width {
        return Err(refuse(11));
    }
    let pairs = pairs_of(low, high, width);
    let places = run.len() / 2;
    if places < pairs.len() {
        return Err(refuse_at(12, pairs.len(), 0));
    }
    for (i, (value, length)) in pairs.iter().enumerate() {
        run[2 * i] = *value;
        run[2 * i + 1] = *length;
    }
    Ok(pairs.len())
}

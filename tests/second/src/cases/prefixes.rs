//! Cases of layer 1: prefixes into ranges and back.

use super::lines::Lines;
use super::shapes::TOP;
use crate::prefixes::pairs_of;
use crate::seed::Seed;

/// Widths that 9 refuses, some of which wrap to a good one in 8 or 16 bits.
const BAD_WIDTHS: [u32; 11] = [0, 33, 34, 63, 64, 256, 257, 288, 65541, 2147483648, TOP];

/// The largest number of this width.
fn top_of(width: u32) -> u32 {
    ((1u64 << width) - 1) as u32
}

/// A run of this length with numbers in it that tell whether they stayed.
pub fn lent(length: usize) -> Vec<u32> {
    (0..length as u32).map(|i| (7 * i + 3) % 10).collect()
}

/// One range into runs that are empty, one pair short, one number short, exact, one and three numbers too long.
pub fn into_runs(out: &mut Lines, low: u32, high: u32, width: u32) {
    let exact = 2 * pairs_of(low, high, width).len();
    let mut lengths = vec![0, exact - 2, exact - 1, exact, exact + 1, exact + 3];
    lengths.dedup();
    for length in lengths {
        out.r2p(low, high, width, &lent(length));
    }
}

/// B10, B11, and B12 with the way back.
pub fn marked(out: &mut Lines) {
    out.r2p(16, 23, 5, &lent(2));
    out.r2p(1, 30, 5, &lent(16));
    out.r2p(0, TOP, 32, &lent(2));
    out.p2r(0, 0, 32);
}

/// All widths with 0, 1, the top and the top less one at either end, also where low > high.
fn ends_of_all_widths(out: &mut Lines) {
    for width in 1..=32 {
        let top = top_of(width);
        let mut ends = vec![0, 1, top - 1, top];
        ends.sort();
        ends.dedup();
        for low in ends.iter().copied() {
            for high in ends.iter().copied() {
                if low <= high {
                    into_runs(out, low, high, width);
                } else {
                    out.r2p(low, high, width, &lent(4));
                }
            }
        }
        // 11 comes before 12
        out.r2p(1, 0, width, &[]);
        if width < 32 {
            out.r2p(0, top + 1, width, &lent(4));
            out.r2p(top + 1, top + 1, width, &[]);
            out.r2p(0, TOP, width, &lent(4));
        }
    }
    out.r2p(1, TOP - 1, 32, &lent(200));
}

/// All ranges of the widths up to 6, and of the widths up to 2 also those that 11 refuses.
fn small_widths(out: &mut Lines) {
    for width in 1..=6 {
        for low in 0..=top_of(width) {
            for high in low..=top_of(width) {
                if width <= 5 {
                    into_runs(out, low, high, width);
                } else {
                    out.r2p(low, high, width, &lent(2 * pairs_of(low, high, width).len() + 1));
                }
            }
        }
    }
    for width in 1..=2 {
        for low in 0..=top_of(width) + 2 {
            for high in 0..=top_of(width) + 2 {
                if low > high || high > top_of(width) {
                    out.r2p(low, high, width, &lent(8));
                }
            }
        }
    }
}

/// The smallest width that holds this number.
fn bits_of(number: u32) -> u32 {
    (1..32).find(|width| number <= top_of(*width)).unwrap_or(32)
}

/// 0 and every power of two, each also one more.
fn lows() -> Vec<u32> {
    let mut lows: Vec<u32> = (0..32).map(|a| 1 << a).chain([0]).flat_map(|low| [low, low + 1]).collect();
    lows.sort();
    lows.dedup();
    lows
}

/// Every power of two up to 2^32, one less and one more, as far as 32 bits hold them.
fn highs() -> Vec<u32> {
    let near = |b: u32| [(1u64 << b) - 1, 1 << b, (1 << b) + 1];
    let mut highs: Vec<u32> =
        (0..=32).flat_map(near).filter(|high| *high <= TOP as u64).map(|high| high as u32).collect();
    highs.sort();
    highs.dedup();
    highs
}

/// Where counts of zeros change by one: from each of those lows to each of those highs, also where low > high, at width
/// 32 and at the smallest width that holds high.
fn around_powers(out: &mut Lines) {
    for low in lows() {
        for high in highs() {
            let length = if low <= high { 2 * pairs_of(low, high, 32).len() + 1 } else { 4 };
            out.r2p(low, high, 32, &lent(length));
            if bits_of(high) < 32 {
                out.r2p(low, high, bits_of(high), &lent(length));
            }
        }
    }
}

/// 9 comes first: with a fine call else, with one that 10 or 11 would refuse, and with no room.
fn bad_widths(out: &mut Lines) {
    for width in BAD_WIDTHS {
        out.r2p(0, 0, width, &lent(4));
        out.r2p(16, 23, width, &lent(4));
        out.r2p(5, 3, width, &lent(4));
        out.r2p(0, 0, width, &[]);
        out.p2r(0, 0, width);
        out.p2r(16, 2, width);
        out.p2r(5, 3, width);
        out.p2r(0, TOP, width);
    }
}

/// Every prefix of the widths up to 4, and the calls just outside, which 10 refuses.
fn small_prefixes(out: &mut Lines) {
    for width in 1..=4 {
        for value in 0..=top_of(width) + 2 {
            for length in 0..=width + 1 {
                out.p2r(value, length, width);
            }
        }
    }
}

/// All widths and lengths: the last prefix, the same with its lowest bit set, with the bit below the prefix set, and
/// with a bit past the width.
fn prefixes_of_all_widths(out: &mut Lines) {
    for width in 1..=32 {
        let top = top_of(width);
        for length in 0..=width {
            let size = 1u64 << (width - length);
            let last = (top as u64 + 1 - size) as u32;
            out.p2r(last, length, width);
            if length < width {
                out.p2r(last + 1, length, width);
                out.p2r(last + (size / 2) as u32, length, width);
            }
            if width < 32 {
                out.p2r(top + 1, length, width);
            }
        }
        for length in [width + 1, 33, 64, 256, 288, TOP] {
            out.p2r(0, length, width);
            out.p2r(top, length, width);
        }
    }
}

pub fn edges(out: &mut Lines) {
    marked(out);
    ends_of_all_widths(out);
    small_widths(out);
    around_powers(out);
    bad_widths(out);
    small_prefixes(out);
    prefixes_of_all_widths(out);
}

/// A number of this width: any, near an end, or with a long row of zeros or ones at its low end.
fn drawn_number(seed: &mut Seed, width: u32) -> u32 {
    let top = top_of(width);
    let any = (seed.next() & top as u64) as u32;
    let row = (1u64 << seed.below(width as usize + 1)) - 1;
    match seed.below(5) {
        0 => any,
        1 => any & !(row as u32),
        2 => any | row as u32,
        3 => top - seed.between(0, 3).min(top),
        _ => seed.between(0, 3).min(top),
    }
}

/// A few drawn calls.
pub fn drawn(seed: &mut Seed, out: &mut Lines) {
    let width = if seed.once_in(3) { 32 } else { seed.between(1, 32) };
    let (a, b) = (drawn_number(seed, width), drawn_number(seed, width));
    let (low, high) = (a.min(b), a.max(b));
    let exact = 2 * pairs_of(low, high, width).len();
    let length = match seed.below(6) {
        0 => exact - 1,
        1 => exact - 2,
        2 => seed.below(exact + 1),
        3 => exact + seed.below(8),
        _ => exact,
    };
    out.r2p(low, high, width, &lent(length));
    out.r2p(a, b, seed.between(0, 34), &lent(length));
    let length = seed.between(0, width);
    let below = (1u64 << (width - length)) - 1;
    out.p2r(a & !(below as u32), length, width);
    out.p2r(b, length, seed.between(0, 34));
}

//! Cases of layer 1: where a number lies as against both ends of a range, of dates or not.

use super::characters::drawn_shape;
use super::lines::Lines;
use super::shapes::{dated, ALL, ODD_FIELDS, TOP};
use crate::seed::Seed;

/// Numbers at and beside the ends of 32 bits, and where their highest bit changes.
const NUMBERS: [u32; 9] = [0, 1, 2, 2147483647, 2147483648, 2147483649, TOP - 2, TOP - 1, TOP];

/// All ranges of small numbers, also those with low > high, and all numbers beside them; the same under each field, with
/// no date and with all of them dates.
fn small(out: &mut Lines) {
    for low in 0..=4 {
        for high in 0..=4 {
            for number in 0..=6 {
                out.side(8, number, low, high, number);
                out.side(dated(8, ALL), number, low, high, number);
            }
        }
    }
}

/// Each end at either end of 32 bits, and beside it.
fn ends(out: &mut Lines) {
    for low in NUMBERS {
        for high in NUMBERS {
            for number in NUMBERS {
                out.side(1, 0, low, high, number);
                out.side(dated(1, 1), 0, low, high, number);
            }
        }
    }
}

/// D alters nothing, whatever it is; FIELD neither, where no flag is set.
fn any_field(out: &mut Lines) {
    for d in ODD_FIELDS.into_iter().chain(1..=8) {
        for field in [0, 1, 7, 8, 31, 32, TOP] {
            for number in [4, 5, 7, 9, 10] {
                out.side(d, field, 5, 9, number);
            }
            out.side(dated(d, 0b10000010), field, 5, 9, 9);
        }
    }
}

/// 02, W8: the flag of FIELD is taken, also from d on, and no other; none from FIELD 8 on, also where it wraps to less.
fn each_flag(out: &mut Lines) {
    for field in (0..=9).chain([15, 16, 31, 32, 33, 39, 64, 255, 256, 257, 65536, 65543, 2147483648, TOP]) {
        for flags in (0..8).flat_map(|f| [1 << f, ALL - (1 << f)]).chain([0, ALL]) {
            out.zeros = flags == 0;
            out.side(dated(1 + flags % 8, flags), field, 5, 9, 8);
            out.side(dated(1, flags), field, 5, 9, 9);
        }
    }
    out.zeros = false;
}

pub fn edges(out: &mut Lines) {
    small(out);
    ends(out);
    any_field(out);
    each_flag(out);
}

/// A drawn range, its ends now and then turned around, and numbers at, beside and between them; the flags are drawn.
pub fn drawn(seed: &mut Seed, out: &mut Lines) {
    let low = if seed.once_in(4) { seed.pick(&NUMBERS) } else { seed.any() };
    let high = match seed.below(4) {
        0 => low,
        1 => low.wrapping_add(seed.between(0, 3)),
        2 => seed.pick(&NUMBERS),
        _ => seed.any(),
    };
    let between = seed.between(low.min(high), low.max(high));
    for end in [low, high, between] {
        for number in [end.wrapping_sub(1), end, end.wrapping_add(1)] {
            let d = seed.between(0, 9);
            out.side(drawn_shape(seed, d), seed.between(0, 9), low, high, number);
        }
    }
}

//! Cases of layer 2: the check of a list, the plain scan, order independence.

use super::characters::{dated_list, drawn_header, drawn_shape, spoiled_list};
use super::lines::Lines;
use super::shapes::{
    all_headers, all_lists, as_dates, chain, dated, header_of, nested, reversed, stairs, twins, ALL, BENCH, ODD_FIELDS,
    TOP,
};
use crate::lists::Shape;
use crate::seed::Seed;

/// The three calls on one list; the scan for a header of sevens.
pub fn three(out: &mut Lines, shape: impl Into<Shape>, list: &[u32]) {
    let shape = shape.into();
    out.check(shape, list);
    out.scan(shape, list, &[7; 8]);
    out.independent(shape, list);
}

/// 1: d is not 1 to 8, for lists that a d of 1, 2, 4 or 8 would take, or 2 or 4 refuse.
fn fields(out: &mut Lines) {
    for d in ODD_FIELDS {
        three(out, d, &[]);
        three(out, d, &[7, 7]);
        three(out, d, &[7; 16]);
        out.check(d, &[9, 7]);
        out.check(d, &[7; 3]);
        three(out, dated(d, ALL), &[7, 7]);
    }
    for d in 1..=8 {
        three(out, d, &[]);
        three(out, d, &twins(1, d));
        three(out, d, &stairs(9, d));
        three(out, dated(d, ALL), &[]);
        three(out, dated(d, ALL), &stairs(9, d));
    }
}

/// 2: lengths around 0, 1 and 2 rules, and whole multiples of d that are none of 2d.
fn lengths(out: &mut Lines) {
    for d in 1..=8u32 {
        let rule = 2 * d as usize;
        for length in [1, rule - 1, rule + 1, 2 * rule - 1, 2 * rule + 1, d as usize, 3 * d as usize] {
            three(out, d, &vec![7; length]);
            out.check(dated(d, ALL), &vec![7; length]);
        }
    }
}

/// 3: 1,024 rules and 1,025, at d = 1 and d = 8, and lengths between, which are 2.
fn many_rules(out: &mut Lines) {
    for length in [2047, 2048, 2049, 2050, 2052, 4096] {
        out.check(1, &vec![7; length]);
    }
    for length in [16383, 16384, 16385, 16399, 16400] {
        out.check(8, &vec![7; length]);
    }
    let full = stairs(1024, 1);
    out.scan(1, &full, &[2046; 8]);
    out.scan(1, &full, &[2048; 8]);
    out.independent(1, &full);
    out.independent(1, &nested(1024, 1));
    let over = stairs(1025, 1);
    three(out, 1, &over);
    let mut last_two_meet = full.clone();
    last_two_meet[2046] = 2045;
    out.independent(1, &last_two_meet);
    out.scan(8, &stairs(1024, 8), &[2047; 8]);
}

/// 4: its place is the smallest rule with low > high, and of that rule the smallest field.
fn low_above_high(out: &mut Lines) {
    for (low, high) in [(1, 0), (8, 7), (TOP, 0), (TOP, TOP - 1), (2147483648, 2147483647)] {
        three(out, 1, &[low, high]);
    }
    // one fault at each place of three rules on three fields, and then every two faults
    for first in 0..9 {
        for second in first..9 {
            let mut list = vec![7; 18];
            list[2 * first] = 8;
            list[2 * second] = 9;
            out.check(3, &list);
        }
    }
    // after a first rule that fits the header the scan still refuses
    let mut last = twins(3, 8);
    last[47] = 6;
    three(out, 8, &last);
    let mut last = twins(1024, 1);
    last[2046] = 8;
    three(out, 1, &last);
    let mut last = twins(1024, 8);
    last[16383] = 6;
    out.check(8, &last);
}

/// 02, W8: low equal to high is 4 in a date field alone, low > high in every field; 4's place is the smallest as ever.
fn dates_of_no_day(out: &mut Lines) {
    for (low, high) in [(0, 0), (7, 7), (TOP, TOP), (1, 0), (TOP, TOP - 1)] {
        three(out, dated(1, 1), &[low, high]);
        three(out, dated(1, ALL - 1), &[low, high]);
    }
    // one such range at each place of three rules on three fields, then all of them; some fields are dates
    for flags in 0..8 {
        let shape = dated(3, flags);
        for place in 0..9 {
            let mut list = [7, 8].repeat(9);
            list[2 * place + 1] = 7;
            out.check(shape, &list);
        }
        three(out, shape, &twins(3, 3));
        // low equal to high in one field of rules 0 and 1, and a last rule that is refused under any flags
        out.check(shape, &[7, 7, 7, 8, 7, 8, 7, 8, 7, 7, 7, 8, 9, 8, 9, 8, 9, 8]);
    }
    let mut last = [7, 8].repeat(1024);
    last[2047] = 7;
    three(out, dated(1, 1), &last);
    out.check(1, &last);
}

/// 1 before 2 before 3 before 4.
fn order_of_checks(out: &mut Lines) {
    for flags in [0, 1] {
        three(out, dated(9, flags), &[9, 7, 7]);
        three(out, dated(1, flags), &[9, 7, 7]);
        let mut long = vec![7; 2051];
        long[0] = 9;
        out.check(dated(1, flags), &long);
        long.pop();
        out.check(dated(1, flags), &long);
        out.check(dated(0, flags), &long);
    }
}

/// Scans at and beside the ends of each range, and each two of them in one list.
fn at_ends(out: &mut Lines, shape: Shape, rules: &[[u32; 2]]) {
    let numbers = [0, 1, 6, 7, 8, 2147483646, 2147483647, 2147483648, 2147483649, TOP - 2, TOP - 1, TOP];
    for rule in rules {
        for number in numbers {
            out.scan(shape, rule, &header_of(&[number], 7));
        }
        for other in rules {
            let both = [*rule, *other].concat();
            out.independent(shape, &both);
            out.scan(shape, &both, &header_of(&[1], TOP));
            out.scan(shape, &both, &header_of(&[TOP], 0));
        }
    }
}

/// 0 and 4294967295 at either end, low equal to high; dates too, of which one day is the least.
fn ends(out: &mut Lines) {
    let many: [[u32; 2]; 5] = [[0, TOP], [1, TOP - 1], [0, 1], [TOP - 1, TOP], [2147483647, 2147483648]];
    at_ends(out, Shape::from(1), &[&many[..], &[[0, 0], [TOP, TOP], [7, 7]]].concat());
    at_ends(out, dated(1, 1), &[&many[..], &[[1, 7], [7, 8]]].concat());
}

/// Each field is compared, and none past d is read.
fn each_field(out: &mut Lines) {
    for d in 1..=8u32 {
        let list = vec![5; 2 * d as usize];
        for rest in [0, 5, TOP] {
            out.scan(d, &list, &header_of(&vec![5; d as usize], rest));
        }
        for f in 0..d as usize {
            for off in [4, 6] {
                let mut header = [5; 8];
                header[f] = off;
                out.scan(d, &list, &header);
            }
            // two rules that part in field f alone
            let mut apart = vec![5; 4 * d as usize];
            apart[2 * f] = 4;
            apart[2 * f + 1] = 4;
            out.independent(d, &apart);
        }
    }
}

/// 02, W8: a flag is its own field's alone, and none past d is read.
fn each_date(out: &mut Lines) {
    for d in 1..=8u32 {
        let list = [5, 6].repeat(d as usize);
        for f in 0..8u32 {
            let shape = dated(d, 1 << f);
            out.scan(shape, &list, &[5; 8]);
            out.scan(shape, &list, &[6; 8]);
            out.scan(dated(d, ALL - (1 << f)), &list, &header_of(&vec![5; d as usize], 6));
            // the due day in field f alone, and in all the others
            let mut header = [5; 8];
            header[f as usize] = 6;
            out.scan(shape, &list, &header);
            out.scan(shape, &list, &header.map(|number| 11 - number));
            // 4 in a field before d alone; two rules that touch in every field
            out.check(shape, &twins(1, d));
            out.independent(shape, &chain(2, d));
        }
    }
}

/// The bench list, at and beside its ends.
fn bench(out: &mut Lines) {
    out.check(2, &BENCH);
    out.independent(2, &BENCH);
    out.independent(2, &reversed(2, &BENCH));
    for model in [0, 6, 7, 8, 9, 10] {
        for serial in [0, 99, 100, 101, 199, 200, 299, 300, 999, 1000] {
            out.scan(2, &BENCH, &header_of(&[model, serial], TOP));
        }
    }
    for flags in 1..=3 {
        three(out, dated(2, flags), &BENCH);
        three(out, dated(2, flags), &as_dates(dated(2, flags), &BENCH));
    }
}

/// All lists of two and of three rules on one field of a small space, and of two rules on two fields.
fn small_spaces(out: &mut Lines) {
    for list in all_lists(2, 3).iter().chain(&all_lists(3, 2)) {
        out.independent(1, list);
    }
    for list in all_lists(2, 2) {
        for header in all_headers(1, 3) {
            out.scan(1, &list, &header);
        }
    }
    for list in all_lists(4, 1) {
        out.independent(2, &list);
    }
}

/// The same as dates: they hold what the ranges without dates held, which ended one before.
fn small_spaces_of_dates(out: &mut Lines) {
    let one = dated(1, 1);
    for list in all_lists(2, 3).iter().chain(&all_lists(3, 2)) {
        out.independent(one, &as_dates(one, list));
    }
    for list in all_lists(2, 1) {
        for header in all_headers(1, 3) {
            out.scan(one, &as_dates(one, &list), &header);
        }
    }
    for (i, list) in all_lists(4, 1).iter().enumerate() {
        let two = dated(2, 1 + i as u32 % 3);
        out.independent(two, &as_dates(two, list));
    }
}

/// The pair named is the least: smallest i, then smallest j. Twins, and a last rule that catches all (reading 8).
fn least_pairs(out: &mut Lines) {
    // 0 meets 3, 1 meets 2
    out.independent(1, &[0, 1, 4, 5, 5, 6, 1, 2]);
    // 0 meets 2 and 3
    out.independent(1, &[0, 3, 9, 9, 3, 4, 2, 2]);
    // only the last two meet, in one number
    out.independent(1, &[0, 1, 2, 3, 4, 6, 6, 8]);
    // neighbours without a number in common
    out.independent(1, &[0, 1, 2, 3, 4, 5, 6, 8]);
    out.independent(2, &[0, 1, 0, 9, 2, 3, 0, 9, 0, TOP, 0, TOP]);
    out.independent(8, &twins(2, 8));
    // dates that touch: no number in common; then the last two meet in one day
    for list in [[0, 1, 1, 3, 3, 4, 4, 8], [0, 1, 1, 3, 3, 5, 4, 8]] {
        out.independent(dated(1, 1), &list);
        out.independent(dated(1, ALL - 1), &list);
    }
    // the fields of either kind touch: the date keeps the rules apart
    for flags in 0..4 {
        out.independent(dated(2, flags), &[0, 5, 0, 5, 5, 9, 5, 9]);
    }
}

pub fn edges(out: &mut Lines) {
    fields(out);
    lengths(out);
    many_rules(out);
    low_above_high(out);
    dates_of_no_day(out);
    order_of_checks(out);
    ends(out);
    each_field(out);
    each_date(out);
    bench(out);
    small_spaces(out);
    small_spaces_of_dates(out);
    least_pairs(out);
}

/// A few drawn calls on one drawn list, once in four a spoiled one; the last scan has flags of its own.
pub fn drawn(seed: &mut Seed, out: &mut Lines) {
    let (mut shape, mut list) = dated_list(seed);
    if seed.once_in(4) {
        spoiled_list(seed, &mut shape, &mut list);
    }
    out.check(shape, &list);
    out.independent(shape, &list);
    for _ in 0..3 {
        out.scan(shape, &list, &drawn_header(seed, shape, &list));
    }
    let other = drawn_shape(seed, shape.d);
    out.scan(other, &list, &drawn_header(seed, other, &list));
}

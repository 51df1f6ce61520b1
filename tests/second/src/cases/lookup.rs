//! Cases of layer 4: the lookup, mostly over tables that are not what the build writes.

use super::characters::{dated_list, drawn_header, drawn_shape, spoiled_list, turned};
use super::lines::Lines;
use super::shapes::{
    all_headers, altered, as_dates, built, chain, dated, grid, header_of, laid, nested, permutations, reversed, stairs,
    twins, with, ALL, BENCH, ODD_FIELDS, TOP,
};
use super::tables::{damage, drawn_choice, looks_right};
use crate::lists::{Header, Shape};
use crate::seed::Seed;
use crate::table::{least_at, run_from_at, starts_at, ORDER_AT};

/// The headers of B2 to B8.
pub const MARKED: [[u32; 2]; 7] = [[7, 250], [7, 100], [7, 150], [8, 5], [9, 5], [10, 0], [7, 1000]];

/// 02, W5: lines that were worked out by hand, and their answers, of three rules 0 to 9 and the run 2 0 1, whose smallest
/// numbers are 1 2 0: the second partition is skipped after rule 1, and the third is not. Then with other stored numbers:
/// past n before the first candidate, equal to the candidate, all 0, all 65535, and where nothing fits. Then with a rule
/// number of n in a partition that is skipped and in one that is not, and a start that is the next one; the last partition
/// after rule 1 and after rule 0. Reports, and audits.
pub const WORKED: [(&str, &str); 23] = [
    ("lookup 1 6 0 9 0 9 0 9 19 3 1 3 1 2 0 0 1 2 3 1 2 0 0 1 2 1 2 3 5 0 0 0 0 0 0 0", "ok 0 2 plain"),
    ("lookup 1 6 0 9 0 9 0 9 19 3 1 3 1 2 0 0 1 2 3 65535 2 0 0 1 2 1 2 3 5 0 0 0 0 0 0 0", "ok 0 2 plain"),
    ("lookup 1 6 0 9 0 9 0 9 19 3 1 3 1 2 0 0 1 2 3 1 1 0 0 1 2 1 2 3 5 0 0 0 0 0 0 0", "ok 0 3 plain"),
    ("lookup 1 6 0 9 0 9 0 9 19 3 1 3 1 2 0 0 1 2 3 0 0 0 0 1 2 1 2 3 5 0 0 0 0 0 0 0", "ok 0 3 plain"),
    ("lookup 1 6 0 9 0 9 0 9 19 3 1 3 1 2 0 0 1 2 3 65535 65535 65535 0 1 2 1 2 3 5 0 0 0 0 0 0 0", "ok 1 1 plain"),
    ("lookup 1 6 0 9 0 9 0 9 19 3 1 3 1 2 0 0 1 2 3 65535 65535 65535 0 1 2 1 2 3 10 0 0 0 0 0 0 0", "ok none 3 plain"),
    ("lookup 1 6 0 9 0 9 0 9 19 3 1 3 1 3 0 0 1 2 3 1 2 0 0 1 2 1 2 3 5 0 0 0 0 0 0 0", "ok 0 2 plain"),
    ("lookup 1 6 0 9 0 9 0 9 19 3 1 3 1 3 0 0 1 2 3 1 1 0 0 1 2 1 2 3 5 0 0 0 0 0 0 0", "refused 6 0 0"),
    ("lookup 1 6 0 9 0 9 0 9 19 3 1 3 1 2 0 0 1 1 3 1 2 0 0 1 2 1 2 3 5 0 0 0 0 0 0 0", "ok 0 2 plain"),
    ("lookup 1 6 0 9 0 9 0 9 19 3 1 3 1 2 0 0 1 1 3 1 1 0 0 1 2 1 2 3 5 0 0 0 0 0 0 0", "refused 6 0 0"),
    ("lookup 1 6 0 9 0 9 0 9 19 3 1 3 1 2 3 0 1 2 3 1 2 0 0 1 2 1 2 3 5 0 0 0 0 0 0 0", "refused 6 0 0"),
    ("lookup 1 6 0 9 0 9 0 9 19 3 1 3 0 1 3 0 1 2 3 0 1 2 0 1 2 1 2 3 5 0 0 0 0 0 0 0", "ok 0 1 plain"),
    ("report 1 6 0 9 0 9 0 9 19 3 1 3 1 2 0 0 1 2 3 1 2 0 0 1 2 1 2 3 0", "ok 1 1"),
    ("report 1 6 0 9 0 9 0 9 19 3 1 3 1 2 0 0 1 2 3 1 2 0 0 1 2 1 2 3 2", "ok 1 0"),
    ("report 1 6 0 9 0 9 0 9 19 3 1 3 1 2 0 0 1 2 3 65535 2 0 0 1 2 1 2 3 0", "refused 6 0 0"),
    ("report 1 6 0 9 0 9 0 9 19 3 1 3 1 2 0 0 1 2 3 65535 2 0 0 1 2 1 2 3 1", "ok 1 2"),
    ("report 1 6 0 9 0 9 0 9 19 3 1 3 1 2 0 0 1 2 3 3 2 0 0 1 2 1 2 3 0", "refused 6 0 0"),
    ("report 1 6 0 9 0 9 0 9 19 3 1 3 9 9 9 0 1 2 3 0 2 0 9 9 9 9 9 9 0", "ok 1 0"),
    ("audit 1 6 0 9 0 9 0 9 19 3 1 3 1 2 0 0 1 2 3 1 2 0 0 1 2 1 2 3", "ok yes"),
    ("audit 1 6 0 9 0 9 0 9 19 3 1 3 1 2 0 0 1 2 3 65535 2 0 0 1 2 1 2 3", "ok no"),
    ("audit 1 6 0 9 0 9 0 9 19 3 1 3 1 2 0 0 1 2 3 1 2 1 0 1 2 1 2 3", "ok no"),
    ("audit 1 4 1 1 3 3 14 2 1 1 0 1 0 2 0 0 0 0 1 1 2", "ok yes"),
    ("audit 1 4 1 1 3 3 14 2 1 1 0 1 0 2 0 0 1 0 1 1 2", "ok no"),
];

/// Looks a header up in the table that the build writes.
pub fn look(out: &mut Lines, shape: impl Into<Shape>, list: &[u32], header: &Header) {
    let shape = shape.into();
    out.lookup(shape, list, &built(shape, list), header);
}

/// B2 to B9, with other numbers past d too.
fn marked(out: &mut Lines) {
    for rest in [0, 7, TOP] {
        for numbers in MARKED {
            look(out, 2, &BENCH, &header_of(&numbers, rest));
        }
        for d in 1..=8 {
            look(out, d, &[], &[rest; 8]);
        }
    }
}

/// The bench list at and beside its ends, in both orders.
fn bench(out: &mut Lines) {
    for list in [BENCH.to_vec(), reversed(2, &BENCH)] {
        for model in [0, 6, 7, 8, 9, 10] {
            for serial in [0, 99, 100, 101, 199, 200, 299, 300, 999, 1000] {
                look(out, 2, &list, &header_of(&[model, serial], TOP));
            }
        }
    }
}

/// A header that takes d + k tests, its like at the other end, misses beyond both ends and in between.
fn counts(out: &mut Lines) {
    for d in 1..=8 {
        for m in [1, 2, 3, 4, 5, 7, 8, 9] {
            let mut list = stairs(m, d);
            for end in &mut list {
                *end += 1;
            }
            let last = 2 * m as u32;
            for number in [0, 1, last, last + 1] {
                look(out, d, &list, &[number; 8]);
            }
            // inside in every field but the last
            let mut header = [1; 8];
            header[d as usize - 1] = 0;
            look(out, d, &list, &header);
        }
    }
    for d in 1..=3 {
        for header in all_headers(d, 4) {
            look(out, d, &grid(d), &header);
        }
    }
}

/// The smallest candidate: a later partition may hold it.
fn partitions(out: &mut Lines) {
    let list = [0, 5, 3, 9, 6, 9, 0, 9, 10, 10, 0, 2];
    for number in 0..=11 {
        look(out, 1, &list, &header_of(&[number], 3));
        look(out, 1, &reversed(1, &list), &header_of(&[number], 3));
    }
    for n in [2, 3, 5] {
        for number in [0, 1, 6, 7, 8, 2999, 3000] {
            look(out, 1, &twins(n, 1), &[number; 8]);
            look(out, 1, &nested(n, 1), &[number; 8]);
            look(out, 1, &reversed(1, &nested(n, 1)), &[number; 8]);
        }
    }
}

/// 0 and 4294967295 at either end.
fn ends(out: &mut Lines) {
    let list = [TOP, TOP, 0, 0, 1, TOP - 1, 0, TOP, 2147483648, 2147483648];
    for number in [0, 1, 2147483647, 2147483648, 2147483649, TOP - 1, TOP] {
        look(out, 1, &list, &header_of(&[number], 0));
    }
}

/// 02, W2: one number of a header at an end of its range, the others between: in each field alone, at either end, and in
/// the field past d, which is not read; a range of one number; the rule met between the ends in all fields.
fn edge_fields(out: &mut Lines) {
    for d in 1..=8 {
        let list = [10, 20].repeat(d as usize);
        for number in [10, 11, 19, 20] {
            for f in 0..8 {
                let mut header = [15; 8];
                header[f] = number;
                look(out, d, &list, &header);
            }
        }
        look(out, d, &list, &[15; 8]);
        look(out, d, &[&list[2..], &[15, 15]].concat(), &[15; 8]);
    }
}

/// 02, W8: the same of dates, whose high end is the day before high; in a field that is a date, and in one that is
/// none; flags past d alter nothing; one day is at both ends.
fn edge_dates(out: &mut Lines) {
    for d in 1..=8 {
        let list = [10, 20].repeat(d as usize);
        for f in 0..8 {
            for number in [10, 18, 19, 20] {
                let mut header = [15; 8];
                header[f as usize] = number;
                look(out, dated(d, 1 << f), &list, &header);
            }
            let mut header = [15; 8];
            header[f as usize] = 19;
            look(out, dated(d, ALL - (1 << f)), &list, &header);
        }
        for header in [[15; 8], [16; 8]] {
            look(out, dated(d, ALL), &[&list[2..], &[15, 16]].concat(), &header);
        }
    }
}

/// 02, W8: dates that touch, met on each day; a header that is due in its last field alone; the bench list with dates
/// that end one later; dates at the ends of 32 bits.
fn dates(out: &mut Lines) {
    for d in 1..=3 {
        for flags in [1, ALL] {
            let shape = dated(d, flags);
            for number in 0..=6 {
                look(out, shape, &chain(5, d), &[number; 8]);
            }
            let mut header = [2; 8];
            header[d as usize - 1] = 3;
            look(out, shape, &chain(5, d), &header);
        }
    }
    for flags in 1..=3 {
        let shape = dated(2, flags);
        let list = as_dates(shape, &BENCH);
        for numbers in MARKED.iter().chain(&[[10, 999], [9, 1000], [8, 101]]) {
            look(out, shape, &list, &header_of(numbers, TOP));
        }
    }
    let list = [0, TOP, TOP - 1, TOP, 0, 1, 1, TOP - 1, 2147483647, 2147483648];
    for number in [0, 1, 2147483647, 2147483648, TOP - 2, TOP - 1, TOP] {
        look(out, dated(1, 1), &list, &header_of(&[number], 0));
    }
}

/// A table of two rules on two fields, in which place 1's run of field 0 reaches back over place 0: the walk at 1, 0 ends
/// at place 0, whose field 0 it never tested.
pub const WIDE_RUN: [u16; 18] = [2, 2, 1, 0, 1, 0, 2, 0, 0, 0, 0, 0, 0, 1, 1, 1, 2, 2];

/// 02, W8: a date that is due in a field which the confirming comparison alone reads; and the day before.
fn confirmed_dates(out: &mut Lines) {
    for flags in 0..4 {
        for high in [1, 2] {
            out.lookup(dated(2, flags), &[0, high, 0, 1, 1, 2, 5, 6], &WIDE_RUN, &header_of(&[1], 0));
        }
    }
}

/// 02, W8: flags other than the build's: the walk goes by the lookup's, and a rule that is returned fits under them.
fn other_flags(out: &mut Lines) {
    for list in [[1, 5, 5, 9, 0, 9], [5, 9, 1, 5, 5, 6], [5, 6, 6, 7, 7, 8]] {
        for (built_as, looked_as) in [(1, 0), (0, 1)] {
            let table = built(dated(1, built_as), &list);
            for number in 4..=9 {
                out.lookup(dated(1, looked_as), &list, &table, &header_of(&[number], 0));
            }
        }
    }
    let list = chain(4, 2);
    for flags in 0..16 {
        for header in [[2, 2], [2, 3], [3, 2]] {
            out.lookup(dated(2, flags % 4), &list, &built(dated(2, flags / 4), &list), &header_of(&header, 0));
        }
    }
}

/// The winner's edge, and not a loser's: between its ends where a later rule is at one, and the other way round; each way
/// with the winner in a later partition too.
fn edge_of_the_winner(out: &mut Lines) {
    for list in [[0, 9, 5, 5, 5, 7], [5, 5, 0, 9, 3, 5], [4, 4, 0, 9, 5, 5], [0, 4, 4, 9, 2, 7]] {
        for number in 0..=9 {
            look(out, 1, &list, &header_of(&[number], 5));
            look(out, 1, &reversed(1, &list), &header_of(&[number], 5));
        }
    }
}

/// Every single number of small tables altered, under all headers of a small space.
fn altered_tables(out: &mut Lines) {
    let mut all = |shape: Shape, list: &[u32], headers: &[Header]| {
        for table in altered(&built(shape, list), list.len() / (2 * shape.d as usize)) {
            for header in headers {
                out.lookup(shape, list, &table, header);
            }
        }
    };
    let (one, two) = (Shape::from(1), Shape::from(2));
    all(one, &[], &[[0; 8]]);
    all(one, &[1, 2], &all_headers(1, 3));
    all(one, &[1, 5, 3, 3], &all_headers(1, 6));
    all(dated(1, ALL - 1), &[1, 1, 3, 3, 5, 5], &all_headers(1, 6));
    all(dated(1, 1), &[3, 5, 1, 3, 5, 6], &all_headers(1, 6));
    all(one, &[2, 3, 0, 1, 1, 2], &all_headers(1, 4));
    all(two, &[1, 1, 1, 1, 1, 1, 3, 3, 3, 3, 2, 2], &all_headers(2, 3));
    all(dated(2, 2), &[0, 1, 0, 2, 1, 1, 1, 2], &all_headers(2, 2));
    all(Shape::from(3), &[1, 1, 0, 0, 0, 0, 1, 1, 0, 0, 1, 1], &all_headers(3, 1));
    all(two, &BENCH, &MARKED.map(|numbers| header_of(&numbers, 0)));
}

/// Reading 3: all b and starts of 0 to 3 for two rules on one field; after a hit in partition 0 the next is visited, by its
/// stored number, and then skipped.
fn all_starts(out: &mut Lines) {
    for code in 0..512u16 {
        let digit = |i: u16| code >> (2 * i) & 3;
        let head = [2, 1, digit(0), 0, 1, digit(1), digit(2), digit(3)];
        out.lookup(1, &[1, 1, 3, 3], &[&head[..], &[0, digit(4), 0, 1, 1, 2]].concat(), &[1; 8]);
    }
}

/// All runs of two rules on one field; of rules that do not meet, and of rules that both fit 2, where a group of two
/// places at field d is 6 though the rule of its first place fits.
fn all_runs(out: &mut Lines) {
    for code in 0..144u16 {
        let (from, to) = ([code % 3, code / 3 % 3], [code / 9 % 4, code / 36]);
        let table = [2, 1, 1, 0, 1, 0, 2, 0, 0, 0, from[0], from[1], to[0], to[1]];
        for number in [0, 1, 3, 4] {
            out.lookup(1, &[1, 1, 3, 3], &table, &header_of(&[number], 0));
        }
        out.lookup(1, &[1, 3, 0, 4], &table, &header_of(&[2], 0));
    }
}

/// Order entries in all orders, and all that name a rule twice or one that is not there; every rule returned fits.
fn unsorted(out: &mut Lines) {
    let list = stairs(4, 1);
    for order in permutations(&[0, 1, 2, 3]) {
        let mut table = built(1, &list);
        table[ORDER_AT..starts_at(4)].copy_from_slice(&order);
        for number in 0..=8 {
            out.lookup(1, &list, &table, &header_of(&[number], 0));
        }
    }
    let list = [1, 1, 3, 3, 0, 4];
    for code in 0..64 {
        let mut table = built(1, &list);
        table[ORDER_AT..starts_at(3)].copy_from_slice(&[code & 3, code >> 2 & 3, code >> 4]);
        for number in [0, 1, 3, 5] {
            out.lookup(1, &list, &table, &header_of(&[number], 0));
        }
        // the second partition is not skipped
        table[least_at(3)..run_from_at(3)].fill(0);
        for number in [1, 3] {
            out.lookup(1, &list, &table, &header_of(&[number], 0));
        }
    }
}

/// 02, W5: three rules that fit alike, each in a partition, in every order, so that a later number is smaller, greater, or
/// both. Each partition is damaged in turn, in its place and in its start, with its own stored number, a lower and a
/// greater one: skipped it refuses nothing, and visited 6, the last one too.
fn skips(out: &mut Lines) {
    let (n, list) = (3, twins(3, 1));
    for run in permutations(&[0, 1, 2]) {
        let table = laid(1, &list, &run);
        for number in [7, 8] {
            out.lookup(1, &list, &table, &[number; 8]);
        }
        for k in 0..n {
            for broken in [with(&table, ORDER_AT + k, 3), with(&table, starts_at(n) + k, 3)] {
                out.lookup(1, &list, &broken, &[7; 8]);
                for number in [0, 1, 2, 3, 65535] {
                    out.lookup(1, &list, &with(&broken, least_at(n) + k, number), &[7; 8]);
                }
            }
        }
    }
}

/// 02, W5: all small stored numbers, n and 65535, over minima that do not ascend; where every rule fits, and where a
/// partition misses, so that there is no candidate yet.
fn stored_numbers(out: &mut Lines) {
    let numbers = [0, 1, 2, 3, 4, 65535];
    for (list, run) in [([0, 9, 0, 9, 0, 9], [2, 0, 1]), ([0, 9, 5, 5, 0, 9], [1, 0, 2])] {
        let mut table = laid(1, &list, &run);
        for code in 0..216 {
            let least = [numbers[code % 6], numbers[code / 6 % 6], numbers[code / 36]];
            table[least_at(3)..run_from_at(3)].copy_from_slice(&least);
            out.lookup(1, &list, &table, &header_of(&[7], 0));
        }
    }
}

/// 02, W5: a candidate that is not its partition's smallest number, and the best of several: with 5, one partition has 2,
/// one has 5 and a smallest of 0, one has 3; the partitions come in every order.
fn best_so_far(out: &mut Lines) {
    let list = [0, 1, 20, 20, 0, 9, 0, 9, 30, 30, 5, 9];
    for order in permutations(&[0, 1, 2]) {
        let run = [1, 1, 0, 2, 1, 1].map(|k: usize| order[k]);
        let table = laid(1, &list, &run);
        for number in [0, 3, 5, 20, 30, 40] {
            out.lookup(1, &list, &table, &header_of(&[number], 0));
        }
        for (k, least) in (0..3).flat_map(|k| (0..7).map(move |least| (k, least))) {
            out.lookup(1, &list, &with(&table, least_at(6) + k, least), &header_of(&[5], 0));
        }
    }
}

/// Reading 2: lists with low > high under tables that look right. Never 4.
fn low_above_high(out: &mut Lines) {
    for number in 0..=8 {
        let header = header_of(&[number, number], 0);
        out.lookup(1, &[5, 3], &built(1, &[3, 5]), &header);
        out.lookup(1, &[1, 1, 5, 3, 7, 7], &built(1, &stairs(3, 1)), &header);
        out.lookup(1, &[3, 1, 7, 5], &built(1, &twins(2, 1)), &header);
        out.lookup(2, &[0, 9, 6, 2, 0, 9, 8, 7], &built(2, &[0, 9, 2, 6, 0, 9, 7, 8]), &header);
        out.lookup(2, &[TOP, 0, 1, 1, 4, 4, TOP, 0], &built(2, &stairs(2, 2)), &header);
    }
}

/// 02, W8: lists with dates of no day, 5-5 and 7-0, under tables that look right: a number less than low is below, else
/// it is above. Never 4.
fn dates_of_no_day(out: &mut Lines) {
    for number in (0..=8).chain([TOP - 1, TOP]) {
        let header = header_of(&[number, number], 0);
        for void in [[5, 5], [7, 0], [0, 0], [TOP, TOP]] {
            out.lookup(dated(1, 1), &void, &built(1, &[3, 5]), &header);
        }
        out.lookup(dated(1, 1), &[4, 5, 5, 5, 5, 9], &built(1, &stairs(3, 1)), &header);
        out.lookup(dated(1, ALL - 1), &[4, 5, 5, 5, 5, 9], &built(1, &stairs(3, 1)), &header);
        out.lookup(dated(1, 1), &[0, 7, 7, 0, 7, TOP], &built(1, &stairs(3, 1)), &header);
        out.lookup(dated(2, 2), &[0, 9, 5, 5, 0, 9, 5, 6], &built(2, &[0, 9, 2, 6, 0, 9, 7, 8]), &header);
    }
}

/// 1, 2, 3, 5, 6 in this order.
fn refusals(out: &mut Lines) {
    let mut at_zero = |shape: Shape, list: &[u32], table: &[u16]| out.lookup(shape, list, table, &[0; 8]);
    for d in ODD_FIELDS {
        at_zero(Shape::from(d), &[], &[0, d as u16, 0, 0]);
        at_zero(dated(d, ALL), &[9, 7, 7], &[]);
    }
    for d in 1..=8 {
        let shape = if d % 2 == 0 { Shape::from(d) } else { dated(d, ALL) };
        let list = stairs(2, d);
        let right = built(shape, &list);
        at_zero(shape, &list, &right);
        at_zero(shape, &list, &right[..right.len() - 1]);
        at_zero(shape, &list, &[&right[..], &[0]].concat());
        at_zero(shape, &list, &[]);
        // as long as 01 has it
        at_zero(shape, &list, &right[..right.len() - 2]);
        at_zero(shape, &list[1..], &right);
        at_zero(shape, &[&list[..], &[7]].concat(), &right);
        // 5 before 6: short, and n wrong
        at_zero(shape, &list, &[&[9], &right[1..right.len() - 1]].concat());
    }
    at_zero(dated(1, 1), &twins(1025, 1), &[]);
    let mut long = twins(1025, 1);
    long.push(7);
    at_zero(Shape::from(1), &long, &[]);
}

/// 1,024 rules: one partition of them, and 1,024 partitions, of which all but the first are skipped, and then none.
fn many_rules(out: &mut Lines) {
    let list = stairs(1024, 1);
    for number in [0, 2047, 2048] {
        look(out, 1, &list, &[number; 8]);
    }
    look(out, 1, &twins(1024, 1), &[7; 8]);
    let down: Vec<u16> = (0..1024).rev().collect();
    out.lookup(1, &twins(1024, 1), &laid(1, &twins(1024, 1), &down), &[7; 8]);
    look(out, dated(8, ALL), &stairs(1024, 8), &[0; 8]);
}

pub fn edges(out: &mut Lines) {
    for (line, _) in WORKED {
        out.raw(line.as_bytes());
    }
    marked(out);
    bench(out);
    counts(out);
    partitions(out);
    ends(out);
    edge_fields(out);
    edge_of_the_winner(out);
    edge_dates(out);
    dates(out);
    confirmed_dates(out);
    other_flags(out);
    altered_tables(out);
    all_starts(out);
    all_runs(out);
    unsorted(out);
    skips(out);
    stored_numbers(out);
    best_so_far(out);
    low_above_high(out);
    dates_of_no_day(out);
    refusals(out);
    many_rules(out);
}

/// A few drawn lookups on one drawn list: over its table, or that of a choice that was brought, under other flags, damaged,
/// under a list with ends turned around, and over a table that was never built; last with a wrong length.
pub fn drawn(seed: &mut Seed, out: &mut Lines) {
    let (shape, list) = dated_list(seed);
    let n = list.len() / (2 * shape.d as usize);
    let brought = drawn_choice(seed, shape, &list);
    let table = if seed.once_in(2) { built(shape, &list) } else { laid(shape, &list, &brought) };
    let other_shape = drawn_shape(seed, shape.d);
    for shape in [shape, shape, shape, other_shape] {
        out.lookup(shape, &list, &table, &drawn_header(seed, shape, &list));
    }
    for _ in 0..3 {
        let mut damaged = table.clone();
        damage(seed, &mut damaged, n);
        out.lookup(shape, &list, &damaged, &drawn_header(seed, shape, &list));
    }
    let mut other = list.clone();
    turned(seed, &mut other);
    for _ in 0..2 {
        out.lookup(shape, &other, &table, &drawn_header(seed, shape, &other));
    }
    for _ in 0..3 {
        let never_built = looks_right(seed, n, shape.d as usize);
        let header = drawn_header(seed, shape, &list);
        out.lookup(shape, &list, &never_built, &header);
        out.lookup(shape, &other, &never_built, &header);
    }
    let (mut shape, mut list, mut table) = (shape, list, table);
    match seed.below(4) {
        0 => drop(table.pop()),
        1 => table.push(0),
        _ => spoiled_list(seed, &mut shape, &mut list),
    }
    out.lookup(shape, &list, &table, &[7; 8]);
}

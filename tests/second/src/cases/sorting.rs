//! Cases of layer 3: the build, the audit, the report.

use super::characters::{dated_list, drawn_shape, spoiled_list, turned};
use super::lines::Lines;
use super::shapes::{
    all_lists, altered, as_dates, built, chain, dated, filled, grid, laid, nested, permutations, reversed, stairs,
    twins, unwritten, with, ALL, BENCH, ODD_FIELDS, TOP,
};
use super::tables::{damage, looks_right};
use crate::lists::Shape;
use crate::seed::Seed;
use crate::table::{least_at, run_from_at, starts_at, table_length, ORDER_AT};

/// Builds into a table of the right length that holds other numbers.
pub fn build(out: &mut Lines, shape: impl Into<Shape>, list: &[u32]) {
    let shape = shape.into();
    out.build(shape, list, &unwritten(list.len() / (2 * shape.d as usize), shape.d));
}

/// B1; B9 for every d.
fn marked(out: &mut Lines) {
    build(out, 2, &BENCH);
    for d in 1..=8 {
        build(out, d, &[]);
        out.audit(d, &[], &[0, d as u16, 0, 0]);
        out.report(d, &[], &[0, d as u16, 0, 0], 0);
    }
}

/// Twins take a partition each, nested ranges too; ranges that meet are not ordered by their low ends; runs over
/// several fields; rules that come in every order.
fn small_lists(out: &mut Lines) {
    for d in 1..=8 {
        for n in [1, 2, 3, 5] {
            for list in [twins(n, d), nested(n, d), stairs(n, d)] {
                build(out, d, &list);
                build(out, d, &reversed(d, &list));
            }
        }
    }
    for d in 1..=3 {
        build(out, d, &grid(d));
        build(out, d, &reversed(d, &grid(d)));
        build(out, d, &[grid(d), grid(d)].concat());
    }
    let rules: Vec<&[u32]> = BENCH.chunks(4).collect();
    for order in permutations(&rules) {
        build(out, 2, &order.concat());
    }
    // ends at 0 and 4294967295, ranges of one number, neighbours without a gap
    build(out, 1, &[TOP, TOP, 0, 0, 1, TOP - 1]);
    build(out, 1, &[0, TOP, 0, TOP - 1, TOP, TOP]);
    build(out, 1, &[2147483648, TOP, 0, 2147483647, 2147483647, 2147483648]);
    // a rule that goes back to partition 0 after another went to 1; one that fits only the last partition
    build(out, 1, &[0, 5, 3, 9, 6, 9, 0, 9, 10, 10, 0, 2]);
}

/// 02, W8: dates that touch share a partition, and ranges that touch do not; a flag is its own field's alone, and none
/// past d is read; the bench list has the same table where its dates end one later.
fn lists_of_dates(out: &mut Lines) {
    for d in 1..=8 {
        for flags in [0, ALL].into_iter().chain((0..8).map(|f| 1 << f)) {
            build(out, dated(d, flags), &chain(3, d));
        }
        build(out, dated(d, ALL), &reversed(d, &chain(5, d)));
        build(out, dated(d, ALL), &nested(3, d));
        build(out, dated(d, ALL), &[7, 8].repeat(3 * d as usize));
    }
    for flags in 0..4 {
        let shape = dated(2, flags);
        build(out, shape, &as_dates(shape, &BENCH));
        build(out, shape, &as_dates(shape, &reversed(2, &grid(2))));
        // equal in field 0, and touching in field 1; then the other way round
        build(out, shape, &[7, 8, 5, 9, 7, 8, 1, 5, 7, 8, 9, 10]);
        build(out, shape, &[5, 9, 7, 8, 1, 5, 7, 8, 9, 10, 7, 8]);
    }
    // dates that end at the top, touch it, and lie beside it
    build(out, dated(1, 1), &[TOP - 1, TOP, 0, 1, 1, TOP - 1]);
    build(out, dated(1, 1), &[0, TOP, TOP - 1, TOP, 0, TOP - 1]);
    build(out, dated(1, 1), &[2147483648, TOP, 0, 2147483648, 2147483647, 2147483648]);
}

/// All lists of two and of three rules on one field of a small space, and of two rules on two fields.
fn small_spaces(out: &mut Lines) {
    for list in all_lists(2, 3).iter().chain(&all_lists(3, 2)) {
        build(out, 1, list);
    }
    for list in all_lists(4, 2) {
        build(out, 2, &list);
    }
}

/// The same as dates, which end one later; fewer of two fields, of which one or both are dates.
fn small_spaces_of_dates(out: &mut Lines) {
    for list in all_lists(2, 3).iter().chain(&all_lists(3, 2)) {
        build(out, dated(1, 1), &as_dates(dated(1, 1), list));
    }
    for (i, list) in all_lists(4, 2).iter().enumerate().step_by(5) {
        let shape = dated(2, 1 + i as u32 % 3);
        build(out, shape, &as_dates(shape, list));
    }
}

/// 1,024 rules in one partition and in 1,024; 1,025.
fn many_rules(out: &mut Lines) {
    build(out, 1, &stairs(1024, 1));
    build(out, 1, &reversed(1, &stairs(1024, 1)));
    build(out, 1, &twins(1024, 1));
    build(out, 1, &nested(1024, 1));
    build(out, 8, &stairs(1024, 8));
    build(out, 1, &twins(1025, 1));
    build(out, dated(1, 1), &reversed(1, &chain(1024, 1)));
    let list = twins(1024, 1);
    let mut table = built(1, &list);
    out.audit(1, &list, &table);
    out.report(1, &list, &table, 1023);
    out.report(1, &list, &table, 1024);
    *table.last_mut().unwrap() -= 1;
    out.audit(1, &list, &table);
}

/// Lists of the three calls that follow, and their shapes.
fn small_built(out: &mut Lines, each: fn(&mut Lines, Shape, &[u32])) {
    each(out, Shape::from(2), &BENCH);
    each(out, Shape::from(1), &[]);
    each(out, Shape::from(3), &[]);
    each(out, Shape::from(1), &[4, 6]);
    each(out, Shape::from(1), &twins(3, 1));
    each(out, dated(1, ALL - 1), &[6, 7, 4, 5, 0, 9, 2, 3]);
    each(out, dated(1, 1), &[6, 9, 4, 6, 0, 9, 2, 4]);
    each(out, Shape::from(2), &reversed(2, &grid(2)));
    each(out, dated(3, 0b101), &[7, 9, 8, 8, 9, 10, 7, 9, 8, 8, 5, 9, 7, 9, 0, 3, 9, 10]);
}

/// The built table is yes; of these lists, with any single number altered it is no.
fn audits(out: &mut Lines, shape: Shape, list: &[u32]) {
    let table = built(shape, list);
    out.audit(shape, list, &table);
    for other in altered(&table, list.len() / (2 * shape.d as usize)) {
        out.audit(shape, list, &other);
    }
}

/// 02, W8: the table of a list under some flags, audited under others: yes where its choice has no clash there and is laid
/// out alike (02, W4), first fit or not. A report is the same.
fn other_flags(out: &mut Lines) {
    for list in [chain(3, 2), as_dates(dated(2, 3), &grid(2)), vec![1, 5, 0, 4, 5, 9, 4, 8, 1, 5, 4, 8]] {
        for built_flags in 0..4 {
            let table = built(dated(2, built_flags), &list);
            for flags in 0..8 {
                out.audit(dated(2, flags), &list, &table);
                out.report(dated(2, flags), &list, &table, 0);
            }
        }
    }
}

/// Every partition of the built table, partition numbers past the last, and each with any single number altered.
fn reports(out: &mut Lines, shape: Shape, list: &[u32]) {
    let table = built(shape, list);
    let b = table[2] as u32;
    for p in [b + 1, 65535, 65536, 65536 + b, 2147483648, TOP] {
        out.report(shape, list, &table, p);
    }
    for p in 0..=b {
        out.report(shape, list, &table, p);
        for other in altered(&table, list.len() / (2 * shape.d as usize)) {
            out.report(shape, list, &other, p);
        }
    }
}

/// 02, W5: a report answers the stored number, where it is less than n, and 6 else, in its own partition alone; it reads
/// no place, though every one holds 65535.
fn stored_numbers(out: &mut Lines) {
    for (d, list, run) in [
        (2, BENCH.to_vec(), vec![2, 2, 2, 0, 1]),
        (1, twins(3, 1), vec![2, 0, 1]),
        (1, stairs(3, 1), vec![0, 0, 0]),
        (1, vec![4, 6], vec![0]),
    ] {
        let (n, table) = (run.len(), laid(d, &list, &run));
        let b = table[2] as u32;
        for at in least_at(n)..run_from_at(n) {
            for number in [0, 1, n as u16 - 1, n as u16, n as u16 + 1, 256, 32768, 65535] {
                for p in 0..=b {
                    out.report(d, &list, &with(&table, at, number), p);
                }
            }
        }
        let mut unread = table;
        unread[ORDER_AT..starts_at(n)].fill(65535);
        unread[run_from_at(n)..].fill(65535);
        for p in 0..=b {
            out.report(d, &list, &unread, p);
        }
    }
}

/// 1 to 5 of all three calls in their order; the report never gives 4.
fn refusals(out: &mut Lines) {
    let mut all = |shape: Shape, list: &[u32], table: &[u16]| {
        out.build(shape, list, table);
        out.audit(shape, list, table);
        out.report(shape, list, table, 0);
        out.report(shape, list, table, TOP);
    };
    for d in ODD_FIELDS {
        all(Shape::from(d), &[], &[0, d as u16, 0, 0]);
        all(dated(d, ALL), &[9, 7, 7], &[]);
    }
    for d in 1..=8 {
        let shape = if d % 2 == 0 { Shape::from(d) } else { dated(d, ALL - 1) };
        let list = stairs(2, d);
        let right = built(shape, &list);
        all(shape, &list, &right[..right.len() - 1]);
        all(shape, &list, &[&right[..], &[0]].concat());
        all(shape, &list, &[]);
        // as long as 01 has it
        all(shape, &list, &right[..right.len() - 2]);
        all(shape, &list[1..], &right);
        all(shape, &[&list[..], &[7]].concat(), &right);
        // 4 and then 5; a report takes this list
        let mut turned = list.clone();
        turned[4 * d as usize - 2] = 9;
        all(shape, &turned, &right);
        all(shape, &turned, &right[1..]);
        // the same where low is high, in a last field that is a date; and in one that is none
        turned[4 * d as usize - 2] = 3;
        all(dated(d, 1 << (d - 1)), &turned, &right);
        all(dated(d, 1 << (d - 1)), &turned, &right[1..]);
        all(dated(d, 1 << (d % 8)), &turned, &right);
    }
    let (bench, right) = (Shape::from(2), table_length(5, 2));
    for length in [right - 1, right, right + 1, right - 5] {
        all(bench, &BENCH, &filled(length));
    }
    // the table that a list of one rule less or more would have
    all(bench, &BENCH, &unwritten(4, 2));
    all(bench, &BENCH, &unwritten(6, 2));
    all(Shape::from(1), &twins(1025, 1), &[]);
    // 2 before 3 before 4 before 5
    let mut long = twins(1025, 1);
    long[0] = 8;
    all(dated(1, 1), &long, &[]);
    long.push(7);
    all(dated(1, 1), &long, &[]);
    all(Shape::from(1), &[8, 7], &[]);
}

pub fn edges(out: &mut Lines) {
    marked(out);
    small_lists(out);
    lists_of_dates(out);
    small_spaces(out);
    small_spaces_of_dates(out);
    many_rules(out);
    small_built(out, audits);
    small_built(out, reports);
    stored_numbers(out);
    other_flags(out);
    refusals(out);
}

/// A few drawn calls on one drawn list: built afresh, audited and reported on, the table right or damaged, the flags
/// those of the build or others.
pub fn drawn(seed: &mut Seed, out: &mut Lines) {
    let (shape, list) = dated_list(seed);
    let n = list.len() / (2 * shape.d as usize);
    let mut table = built(shape, &list);
    let other = drawn_shape(seed, shape.d);
    out.build(shape, &list, &unwritten(n, shape.d));
    out.audit(shape, &list, &table);
    out.audit(other, &list, &table);
    out.report(shape, &list, &table, seed.between(0, table[2] as u32 + 1));
    if seed.once_in(4) {
        table = looks_right(seed, n, shape.d as usize);
    } else {
        damage(seed, &mut table, n);
    }
    out.audit(shape, &list, &table);
    for shape in [shape, other] {
        out.report(shape, &list, &table, seed.between(0, table[2].min(n as u16) as u32));
    }
    let (mut shape, mut list) = (shape, list);
    if seed.once_in(2) {
        turned(seed, &mut list);
    } else {
        spoiled_list(seed, &mut shape, &mut list);
    }
    match seed.below(4) {
        0 => drop(table.pop()),
        1 => table.push(0),
        _ => (),
    }
    out.build(shape, &list, &table);
    out.audit(shape, &list, &table);
    out.report(shape, &list, &table, 0);
}

//! The lines that are stored with the crate `calls`, so that `rt` alone holds the proved program to them: B1 to B12,
//! each word in good cases, with dates too, each refusal of each word in its order, partitions that are skipped, faults of
//! a line, and the edges that 01 names. They are few; the edges of all kinds are compared by tests/run.

use super::choices::{self, choose, lay, renumbered};
use super::lines::Lines;
use super::lists::three;
use super::lookup::{self, look, MARKED, WIDE_RUN};
use super::prefixes::{self, into_runs, lent};
use super::protocol::{replaced, GOOD, WORKED};
use super::shapes::{
    built, chain, chosen, dated, header_of, laid, nested, reversed, stairs, twins, with, ALL, BENCH, TOP,
};
use super::sorting::build;
use super::tables::with_least;
use crate::lists::Shape;
use crate::table::{least_at, run_from_at, run_to_at, starts_at, ORDER_AT};

/// B1 to B12; B9 with several headers, B12 with the way back.
fn marked(out: &mut Lines) {
    build(out, 2, &BENCH);
    for numbers in MARKED {
        look(out, 2, &BENCH, &header_of(&numbers, 0));
    }
    build(out, 1, &[]);
    for number in [0, 7, TOP] {
        look(out, 1, &[], &[number; 8]);
    }
    prefixes::marked(out);
}

/// Every call on one list: its table built, audited, looked up in, and reported on up to the first partition it lacks; its
/// first fit, laid out with the partitions numbered from the last on.
fn every_call(out: &mut Lines, shape: impl Into<Shape>, list: &[u32], header: &[u32]) {
    let shape = shape.into();
    let (table, header) = (built(shape, list), header_of(header, TOP));
    out.check(shape, list);
    out.scan(shape, list, &header);
    out.independent(shape, list);
    build(out, shape, list);
    out.audit(shape, list, &table);
    out.lookup(shape, list, &table, &header);
    for p in 0..=table[2] as u32 {
        out.report(shape, list, &table, p);
    }
    choose(out, shape, list);
    lay(out, shape, list, &renumbered(&chosen(shape, list)));
}

/// No rule; twins; rules in one partition and in several; 0 and 4294967295 at either end, low equal to high.
fn good(out: &mut Lines) {
    every_call(out, 2, &BENCH, &[7, 150]);
    every_call(out, 1, &[], &[0]);
    every_call(out, 8, &stairs(2, 8), &[3; 8]);
    every_call(out, 1, &twins(2, 1), &[7]);
    every_call(out, 8, &twins(2, 8), &[7; 8]);
    every_call(out, 2, &reversed(2, &stairs(3, 2)), &[5, 4]);
    every_call(out, 1, &nested(3, 1), &[2]);
    // ends that touch; a clash in field 0, which field 1 does not mend
    every_call(out, 1, &[3, 5, 5, 9, 0, 3], &[5]);
    every_call(out, 2, &[0, 5, 0, 0, 3, 9, 1, 1], &[4, 1]);
    // a run of three places, whose middle one is tested first
    every_call(out, 2, &[5, 5, 1, 1, 5, 5, 2, 2, 5, 5, 0, 0, 0, 0, 0, 0], &[0, 0]);
    let ends = [TOP, TOP, 0, 0, 1, TOP - 1, 0, TOP];
    every_call(out, 1, &ends, &[TOP]);
    look(out, 1, &ends, &[0; 8]);
    // partition 0 has candidate 2 and partition 1 candidate 1
    every_call(out, 1, &[0, 5, 3, 9, 6, 9, 0, 9, 10, 10, 0, 2], &[9]);
}

/// The four calls that take a table, under a header of sevens and for partition 0.
fn of_a_table(out: &mut Lines, shape: impl Into<Shape>, list: &[u32], table: &[u16]) {
    let shape = shape.into();
    out.build(shape, list, table);
    out.audit(shape, list, table);
    out.lookup(shape, list, table, &[7; 8]);
    out.report(shape, list, table, 0);
}

/// The nine calls that take a list; a run, where the call takes one, has the one number 7.
fn of_a_list(out: &mut Lines, shape: impl Into<Shape>, list: &[u32], table: &[u16]) {
    let shape = shape.into();
    three(out, shape, list);
    of_a_table(out, shape, list, table);
    out.choose(shape, list, &[7]);
    out.layout(shape, list, &[7], table);
}

/// 1 to 5 of every call that has them, each where all that come after it would apply too.
fn refusals(out: &mut Lines) {
    for d in [0, 9] {
        of_a_list(out, d, &[9, 7, 7], &[]);
    }
    of_a_list(out, 1, &[9, 7, 7], &[]);
    of_a_list(out, 8, &[7; 15], &[]);
    let mut long = twins(1025, 1);
    long[0] = 9;
    of_a_list(out, 1, &long, &[]);
    // a lookup and a report never give 4: the first takes the table, the second refuses its length
    let mut turned = twins(2, 2);
    turned[6] = 8;
    let table = built(2, &twins(2, 2));
    of_a_list(out, 2, &turned, &table);
    of_a_table(out, 2, &turned, &table[1..]);
    for d in [1, 8] {
        let list = stairs(1, d);
        let table = built(d, &list);
        of_a_table(out, d, &list, &table[1..]);
        of_a_table(out, d, &list, &[&table[..], &[0]].concat());
    }
    of_a_table(out, 1, &[], &[0, 1, 0]);
    of_a_table(out, 2, &BENCH, &[]);
}

/// 02, W4: lines worked by hand; 5 before 15 to 18, each of these where all that come after it would apply too; runs one
/// number short and too long; the largest number that stands, the next, and 65535.
fn brought_choices(out: &mut Lines) {
    for (line, _) in choices::WORKED {
        out.raw(line.as_bytes());
    }
    let list = [7, 7, 7, 7, 8, 8];
    out.layout(1, &list, &[3, 3, 0, 0], &[0; 18]);
    for run in [&[3, 3, 0, 0][..], &[3, 3, 0], &[2, 2, 0], &[1, 1, 0], &[2, 1, 0]] {
        lay(out, 1, &list, run);
    }
    for run in [&[][..], &[0, 1], &[0, 1, 1, 0], &[0, 1, 3], &[0, 1, 65535], &[0, 2, 2], &[1, 2, 2], &[0, 1, 0]] {
        out.choose(1, &list, run);
        lay(out, 1, &list, run);
    }
    // a clash in a partition other than the first, of rules that have another between them
    lay(out, 2, &BENCH, &[0, 1, 0, 1, 2]);
    lay(out, 2, &BENCH, &[1, 0, 1, 2, 1]);
}

/// 02, W4: audits of choices that are brought: a start that moves to another choice's place, with its smallest number and
/// without, partitions in another order; a clash, an empty partition, an order that is not ascending, a rule twice, and
/// numbers behind the last start; 02, W5: of a partition's smallest number, and behind the last one.
fn brought_tables(out: &mut Lines) {
    let (n, list) = (3, stairs(3, 1));
    for run in [[0, 0, 0], [0, 1, 1], [1, 0, 0], [2, 1, 0]] {
        out.audit(1, &list, &laid(1, &list, &run));
        out.lookup(1, &list, &laid(1, &list, &run), &[4; 8]);
    }
    let (table, starts, least) = (laid(1, &list, &[0, 1, 1]), starts_at(n), least_at(n));
    let of_starts = [(starts + 1, 0), (starts + 1, 2), (starts + 1, 3), (starts + 3, 3)];
    let of_least = [(least, 1), (least + 1, 0), (least + 1, 2), (least + 2, 2)];
    let of_places = [(ORDER_AT, 1), (run_from_at(n) + 1, 0), (run_to_at(n, 1) + 1, 3)];
    for (at, number) in [&of_starts[..], &of_least, &of_places].concat() {
        out.audit(1, &list, &with(&table, at, number));
    }
    out.audit(1, &list, &with(&with(&table, starts + 1, 2), least + 1, 2));
    // the rule that goes over to partition 0 is the smallest of neither
    let other = [0, 1, 4, 5, 2, 3];
    out.audit(1, &other, &with(&laid(1, &other, &[0, 1, 1]), starts + 1, 2));
    for (b, order, starts) in [
        (1, [1, 0, 2], [0, 3, 0, 0]),
        (2, [2, 0, 1], [0, 1, 3, 0]),
        (2, [2, 1, 0], [0, 1, 3, 0]),
        (3, [0, 1, 2], [0, 1, 1, 3]),
        (3, [0, 1, 2], [0, 2, 1, 3]),
        (0, [0, 1, 2], [3, 0, 0, 0]),
        (4, [0, 1, 2], [0, 1, 2, 3]),
        (65535, [0, 1, 2], [0, 1, 2, 3]),
    ] {
        let head = [&[3, 1, b][..], &order, &starts].concat();
        out.audit(1, &list, &[&with_least(&head)[..], &[0, 1, 2, 1, 2, 3]].concat());
    }
}

/// 02, W5: lines worked by hand; the largest number that stands in a report, the next, and what stands past b.
fn stored_numbers(out: &mut Lines) {
    for (line, _) in lookup::WORKED {
        out.raw(line.as_bytes());
    }
    let (list, table) = (stairs(3, 1), laid(1, &stairs(3, 1), &[0, 1, 1]));
    for (at, number) in [(0, 0), (1, 0), (1, 2), (1, 3), (2, 65535)] {
        let other = with(&table, least_at(3) + at, number);
        for p in 0..=2 {
            out.report(1, &list, &other, p);
        }
        out.lookup(1, &list, &other, &[0; 8]);
    }
}

/// 4's place: the smallest rule, then the smallest field of it.
fn places_of_4(out: &mut Lines) {
    for first in 0..9 {
        let mut list = twins(3, 3);
        list[2 * first] = 8;
        list[16] = 9;
        out.check(3, &list);
    }
    for (low, high) in [(1, 0), (TOP, TOP - 1), (TOP, 0)] {
        out.check(1, &[low, high]);
    }
}

/// 1,024 rules, in one partition and in 1,024; 2 before 3 for a length past 1,025 rules.
fn many_rules(out: &mut Lines) {
    let (one, each) = (stairs(1024, 1), twins(1024, 1));
    out.check(1, &each);
    out.check(1, &[7; 2051]);
    out.scan(1, &each, &[8; 8]);
    out.independent(1, &one);
    build(out, 1, &each);
    choose(out, 1, &each);
    lay(out, 1, &each, &(0..1024).rev().collect::<Vec<u16>>());
    look(out, 1, &one, &[0; 8]);
    out.report(1, &each, &built(1, &each), 1023);
}

/// 6 for the opening: n, d, b, the first start, start b. It comes before 7; an audit says no.
fn broken_openings(out: &mut Lines) {
    let list = [1, 1, 7, 7];
    let (table, starts) = (built(1, &list), starts_at(2));
    for (at, number) in [(0, 1), (1, 2), (2, 0), (2, 3), (starts, 1), (starts + 1, 1), (starts + 1, 3)] {
        let broken = with(&table, at, number);
        out.audit(1, &list, &broken);
        out.lookup(1, &list, &broken, &[7; 8]);
        out.report(1, &list, &broken, 0);
        out.report(1, &list, &broken, TOP);
    }
}

/// 6 for a partition: its start, and the next one. A lookup comes to it where it is not skipped, a report after 7, and for
/// its own partition alone.
fn broken_partitions(out: &mut Lines) {
    let list = twins(3, 1);
    let table = built(1, &list);
    for (k, number) in [(1, 0), (1, 3), (1, 4), (2, 1)] {
        let broken = with(&table, starts_at(3) + k, number);
        out.lookup(1, &list, &broken, &[7; 8]);
        out.lookup(1, &list, &with(&broken, least_at(3) + 1, 0), &[7; 8]);
        for p in 0..=3 {
            out.report(1, &list, &broken, p);
        }
    }
    for p in [4, 65536, 65537, TOP] {
        out.report(1, &list, &table, p);
    }
}

/// 6 at a step, where the walk comes to it: the rule number at mid, and both ends of its run. A report reads no place.
fn broken_steps(out: &mut Lines) {
    let list = [1, 1, 3, 3, 5, 5];
    let (table, from, to) = (built(1, &list), run_from_at(3), run_to_at(3, 1));
    let of_order = [(ORDER_AT + 1, 3), (ORDER_AT + 1, 65535)];
    let of_runs = [(from + 1, 2), (from + 2, 1), (from + 2, 3), (to, 0), (to, 2), (to + 1, 1), (to + 1, 4)];
    for (at, number) in [&of_order[..], &of_runs].concat() {
        let broken = with(&table, at, number);
        for number in [2, 3, 4] {
            out.lookup(1, &list, &broken, &header_of(&[number], 0));
        }
        out.report(1, &list, &broken, 0);
    }
}

/// 6 at field d: a group of two places, of which both rules fit; a rule that does not fit in the field before the last.
fn broken_ends(out: &mut Lines) {
    out.lookup(1, &[1, 3, 0, 4], &[2, 1, 1, 0, 1, 0, 2, 0, 0, 0, 0, 0, 2, 2], &header_of(&[2], 0));
    let list = [1, 1, 7, 7, 2, 2, 7, 7, 3, 3, 7, 7];
    let table = built(2, &list);
    // the run of place 1 in field 0 reaches over place 2, whose rule is then the one tested in field 1
    for model in [1, 2, 3] {
        out.lookup(2, &list, &with(&table, run_to_at(3, 2) + 2, 3), &header_of(&[model, 7], 0));
    }
}

/// A rule 5 to 3 in the middle of a table that looks right: 4 is below it, since below is tried first, and 5 above.
fn turned_ends(out: &mut Lines) {
    let (list, table) = ([4, 4, 5, 3, 4, 5], built(1, &stairs(3, 1)));
    for number in [3, 4, 5] {
        out.lookup(1, &list, &table, &header_of(&[number], 0));
    }
    out.report(1, &list, &table, 0);
}

/// 02, W2: each of the six outcomes; low > high; 0 and the top at either end.
fn spots(out: &mut Lines) {
    for (low, high, number) in [(5, 9, 4), (5, 9, 5), (5, 9, 7), (5, 9, 9), (5, 5, 5), (5, 9, 10), (5, 3, 4), (5, 3, 5)]
    {
        out.side(1, 0, low, high, number);
    }
    for (low, high, number) in [(0, TOP, 0), (0, TOP, TOP), (0, 0, 0), (TOP, TOP, TOP), (1, TOP - 1, TOP), (1, TOP, 0)]
    {
        out.side(TOP, TOP, low, high, number);
    }
}

/// 02, W2: a rule met between its ends, at each end, and not at all; in field 0 and in the last alone; the winner between
/// its ends where a loser is at one.
fn winners(out: &mut Lines) {
    for number in [0, 5, 9, 10] {
        look(out, 1, &[0, 9], &header_of(&[number], 0));
    }
    look(out, 2, &BENCH, &header_of(&[5, 5], 0));
    for numbers in [[10, 15], [15, 20], [15, 15]] {
        look(out, 2, &[10, 20, 10, 20], &header_of(&numbers, 20));
    }
    look(out, 1, &[0, 9, 5, 5], &header_of(&[5], 5));
    look(out, 1, &[5, 5, 0, 9], &header_of(&[5], 5));
}

/// 02, W8: dates that touch; flags past d; 4 where low is high; the six outcomes, and FIELD; dates of no day in a lookup,
/// and 4294967295, which lies in none; a broken table; other flags than the build's; D with eight zeros.
fn dates(out: &mut Lines) {
    for (line, _) in WORKED {
        out.raw(line.as_bytes());
    }
    every_call(out, dated(2, 2), &[7, 7, 5, 9, 7, 7, 1, 5], &[7, 5]);
    for flags in [0, 1, 2, ALL] {
        lay(out, dated(1, flags), &chain(2, 1), &[0, 0]);
    }
    out.lookup(dated(2, ALL - 2), &chain(2, 2), &built(dated(2, 1), &chain(2, 2)), &header_of(&[1, 2], 0));
    of_a_list(out, dated(2, 2), &[7, 7, 7, 8, 7, 7, 7, 7], &built(2, &stairs(2, 2)));
    for (low, high, number) in [(5, 9, 4), (5, 9, 5), (5, 9, 7), (5, 9, 8), (5, 9, 9), (5, 5, 5), (7, 0, 6), (7, 0, 7)]
    {
        out.side(dated(3, 0b1100), 3, low, high, number);
    }
    for (field, number) in [(1, 9), (8, 9), (32, 9), (0, TOP), (0, TOP - 1)] {
        out.side(dated(8, ALL - 2), field, 0, if field == 0 { TOP } else { 9 }, number);
    }
    // rule 1 has no day: a number less than its low is below, else it is above
    for (list, numbers) in [
        ([4, 5, 5, 5, 5, 9], [4, 5, 8]),
        ([0, 7, 7, 0, 7, TOP], [6, 7, TOP]),
        ([0, 0, 0, 0, 0, TOP], [0, TOP - 1, TOP]),
    ] {
        for number in numbers {
            out.lookup(dated(1, 1), &list, &built(1, &stairs(3, 1)), &header_of(&[number], 0));
        }
    }
    // the confirming comparison alone comes to a due day
    for high in [1, 2] {
        out.lookup(dated(2, 1), &[0, high, 0, 1, 1, 2, 5, 6], &WIDE_RUN, &header_of(&[1], 0));
    }
    for (built_as, looked_as) in [(1, 0), (0, 1)] {
        let table = built(dated(1, built_as), &[1, 5, 5, 9]);
        out.audit(dated(1, looked_as), &[1, 5, 5, 9], &table);
        out.lookup(dated(1, looked_as), &[1, 5, 5, 9], &table, &header_of(&[5], 0));
    }
    out.zeros = true;
    three(out, 1, &[7, 7]);
    out.zeros = false;
}

/// Prefixes: ends at 0 and at the top, runs that are short, odd or too long, widths 1 and 32, 9 to 12 in their order.
fn widths(out: &mut Lines) {
    for (low, high, width) in [(0, 0, 1), (1, 30, 5), (0, TOP, 32), (TOP, TOP, 32)] {
        into_runs(out, low, high, width);
    }
    out.r2p(1, TOP - 1, 32, &lent(123));
    out.r2p(1, TOP - 1, 32, &lent(124));
    for width in [0, 33, TOP] {
        out.p2r(1, TOP, width);
        out.r2p(5, 3, width, &[]);
    }
    for (low, high, width) in [(1, 0, 1), (5, 3, 5), (0, 32, 5), (32, 32, 5), (TOP, 0, 32)] {
        out.r2p(low, high, width, &[]);
        out.r2p(low, high, width, &lent(5));
    }
    for (value, length, width) in [(0, 6, 5), (0, TOP, 5), (32, 5, 5), (17, 4, 5), (16, 0, 5), (1, 31, 32)] {
        out.p2r(value, length, width);
    }
    for (value, length, width) in [(0, 0, 1), (1, 1, 1), (16, 1, 5), (31, 5, 5), (TOP, 32, 32), (2147483648, 1, 32)] {
        out.p2r(value, length, width);
    }
}

/// 02, W3: 0 is aligned to every power; 2^31 and 2^32 numbers left, one fewer and one more; the same from 1 on.
fn counts_of_zeros(out: &mut Lines) {
    let half = 1 << 31;
    for low in [0, 1, half, half + 1] {
        for high in [half - 1, half, half + 1, TOP - 1, TOP] {
            out.r2p(low, high, 32, &lent(125));
        }
    }
    for width in 1..=31 {
        out.r2p(0, (1 << width) - 1, width, &lent(2));
    }
}

/// Words that are none, also in capitals and with a byte more; bytes beside the digits; lengths that are not held, and
/// lengths and a table's and a run's number too large by one; flags fewer, more and others, and a colon where none belongs.
const FAULTY: [&[u8]; 32] = [
    b"",
    b" ",
    b"check",
    b" check 1 0",
    b"check 1 0 ",
    b"chec 1 0",
    b"checks 1 0",
    b"Check 1 0",
    b"check\0 1 0",
    b"help",
    b"\xff",
    b"check 1 2 7 /",
    b"check 1 2 7 :",
    b"check 1 2 7 +7",
    b"check 1 16501",
    b"build 1 0 19501",
    b"r2p 0 0 5 4294967295",
    b"p2r 0 0 4294967296",
    b"audit 1 0 4 0 1 0 65536",
    b"lay_out 1 0 0 4 0 0 0 0",
    b"choose 1 0 1101",
    b"choose 1 2 5 6 1 65536",
    b"layout 1 2 5 6 1 65536 9 7 7 7 7 7 7 7 7 7",
    b"check 1:0000000 0",
    b"check 1:000000000 0",
    b"check 1:00000002 0",
    b"check :00000000 0",
    b"check 1: 0",
    b"check 1:00000000: 0",
    b"check 1 0:00000000",
    b"p2r 16:00000000 2 5",
    b"r2p 16:00000000 23 5 2 9 9",
];

/// Faults of a good line of each word: cut short, too long, a number that is none, blanks and CR where none belong.
fn faults(out: &mut Lines) {
    for line in GOOD {
        let words: Vec<&str> = line.split(' ').collect();
        let last = words.len() - 1;
        out.raw(line.as_bytes());
        out.raw(words[..last].join(" ").as_bytes());
        out.raw(format!("{} 0", line).as_bytes());
        out.raw(replaced(line, last, "00").as_bytes());
        out.raw(replaced(line, 1, " 1").as_bytes());
        out.raw(format!("{}\r", line).as_bytes());
    }
    for line in FAULTY {
        out.raw(line);
    }
}

/// Lengths and numbers at the most that is held, and past it.
fn limits(out: &mut Lines) {
    out.r2p(0, 0, 5, &lent(200));
    out.r2p(0, 0, 5, &lent(201));
    for length in [1100, 1101] {
        out.choose(1, &[], &vec![0; length]);
        out.layout(1, &[], &vec![0; length], &[7; 4]);
    }
    out.build(1, &[], &[]);
    out.audit(1, &[], &[0, 1, 0, 65535]);
    out.check(TOP, &[]);
    out.p2r(TOP, TOP, TOP);
}

pub fn lines(out: &mut Lines) {
    marked(out);
    good(out);
    refusals(out);
    brought_choices(out);
    brought_tables(out);
    stored_numbers(out);
    places_of_4(out);
    many_rules(out);
    broken_openings(out);
    broken_partitions(out);
    broken_steps(out);
    broken_ends(out);
    turned_ends(out);
    spots(out);
    winners(out);
    dates(out);
    widths(out);
    counts_of_zeros(out);
    limits(out);
    faults(out);
}

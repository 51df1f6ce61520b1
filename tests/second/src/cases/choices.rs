//! Cases of 02, W4: choices of partitions, made by first fit and brought; their tables laid out, audited and looked up in;
//! tables that are near to one.

use super::characters::{dated_list, drawn_header, drawn_shape, spoiled_list, turned};
use super::lines::Lines;
use super::lookup::MARKED;
use super::shapes::{
    all_choices, all_headers, all_lists, all_runs, altered, as_dates, built, chain, chosen, dated, filled, grid,
    header_of, laid, nested, permutations, reversed, rules_in, stairs, twins, unwritten, with, ALL, BENCH, ODD_FIELDS,
    TOP,
};
use super::tables::{damage, drawn_choice, looks_right, spoiled_run, with_least};
use crate::choices::partitions_of;
use crate::lists::{Header, Shape};
use crate::seed::Seed;
use crate::table::{least_at, run_from_at, run_to_at, starts_at, ORDER_AT};

/// Lines that were worked out by hand, and their answers: a choice that is brought; no rule; 15; 16, 17 and 18 of three
/// twins; the bench list's first fit, and its partitions in another order; dates that touch and ranges that do; the
/// audit of a choice that is no first fit, of one with a clash, and of an empty partition.
pub const WORKED: [(&str, &str); 18] = [
    (
        "layout 1 6 0 9 0 9 0 9 3 2 0 1 19 7 7 7 7 7 7 7 7 7 7 7 7 7 7 7 7 7 7 7",
        "ok 3 table 3 1 3 1 2 0 0 1 2 3 1 2 0 0 1 2 1 2 3",
    ),
    ("choose 1 0 0", "ok 0 run"),
    ("choose 1 0 1 7", "refused 15 0 0 run 7"),
    ("layout 1 0 0 4 7 7 7 7", "ok 0 table 0 1 0 0"),
    ("layout 8 0 0 4 7 7 7 7", "ok 0 table 0 8 0 0"),
    ("layout 1 0 1 0 4 7 7 7 7", "refused 15 0 0 table 7 7 7 7"),
    (
        "layout 1 6 7 7 7 7 7 7 3 0 3 0 19 1 1 1 1 1 1 1 1 1 1 1 1 1 1 1 1 1 1 1",
        "refused 16 0 0 table 1 1 1 1 1 1 1 1 1 1 1 1 1 1 1 1 1 1 1",
    ),
    (
        "layout 1 6 7 7 7 7 7 7 3 0 0 2 19 1 1 1 1 1 1 1 1 1 1 1 1 1 1 1 1 1 1 1",
        "refused 17 0 0 table 1 1 1 1 1 1 1 1 1 1 1 1 1 1 1 1 1 1 1",
    ),
    (
        "layout 1 6 7 7 7 7 7 7 3 1 1 1 19 1 1 1 1 1 1 1 1 1 1 1 1 1 1 1 1 1 1 1",
        "refused 17 0 0 table 1 1 1 1 1 1 1 1 1 1 1 1 1 1 1 1 1 1 1",
    ),
    (
        "layout 1 6 7 7 7 7 7 7 3 0 0 1 19 1 1 1 1 1 1 1 1 1 1 1 1 1 1 1 1 1 1 1",
        "refused 18 0 0 table 1 1 1 1 1 1 1 1 1 1 1 1 1 1 1 1 1 1 1",
    ),
    ("choose 2 20 7 7 100 100 7 7 200 299 8 8 0 999 7 7 0 999 0 9 0 999 5 9 9 9 9 9", "ok 3 run 0 0 0 1 2"),
    (
        "audit 2 20 7 7 100 100 7 7 200 299 8 8 0 999 7 7 0 999 0 9 0 999 39 5 2 3 4 3 0 1 2 0 1 2 5 0 0 4 3 0 0 0 0 0 1 1 2 2 2 3 4 4 1 1 2 2 4 3 4 4 5 5",
        "ok yes",
    ),
    ("choose 1:10000000 4 1 5 5 9 2 9 9", "ok 1 run 0 0"),
    (
        "layout 1:10000000 4 1 5 5 9 2 0 0 14 9 9 9 9 9 9 9 9 9 9 9 9 9 9",
        "ok 1 table 2 1 1 0 1 0 2 0 0 0 0 1 1 2",
    ),
    ("layout 1 4 1 5 5 9 2 0 0 14 9 9 9 9 9 9 9 9 9 9 9 9 9 9", "refused 18 0 0 table 9 9 9 9 9 9 9 9 9 9 9 9 9 9"),
    ("audit 1 6 0 9 0 9 0 9 19 3 1 3 1 2 0 0 1 2 3 1 2 0 0 1 2 1 2 3", "ok yes"),
    ("audit 1 4 7 7 7 7 14 2 1 1 0 1 0 2 0 0 0 0 0 2 2", "ok no"),
    ("audit 1 6 1 1 3 3 5 5 19 3 1 3 0 1 2 0 1 1 3 0 0 1 0 1 2 1 2 3", "ok no"),
];

/// Chooses into a run of the right length that holds other numbers.
pub fn choose(out: &mut Lines, shape: impl Into<Shape>, list: &[u32]) {
    let shape = shape.into();
    out.choose(shape, list, &filled(rules_in(shape, list)));
}

/// Lays a run out in a table of the right length that holds other numbers.
pub fn lay(out: &mut Lines, shape: impl Into<Shape>, list: &[u32], run: &[u16]) {
    let shape = shape.into();
    out.layout(shape, list, run, &unwritten(rules_in(shape, list), shape.d));
}

/// Lays a choice out, audits its table, reports on its last partition, and looks headers up in it.
fn bring(out: &mut Lines, shape: impl Into<Shape>, list: &[u32], run: &[u16], headers: &[Header]) {
    let shape = shape.into();
    let table = laid(shape, list, run);
    lay(out, shape, list, run);
    out.audit(shape, list, &table);
    out.report(shape, list, &table, table[2].max(1) as u32 - 1);
    for header in headers {
        out.lookup(shape, list, &table, header);
    }
}

/// Each rule in a partition of its own, from the first on and from the last on.
fn one_each(n: usize) -> [Vec<u16>; 2] {
    let up: Vec<u16> = (0..n as u16).collect();
    let down = up.iter().rev().copied().collect();
    [up, down]
}

/// The run with its partitions numbered from the last on.
pub fn renumbered(run: &[u16]) -> Vec<u16> {
    run.iter().map(|k| partitions_of(run) as u16 - 1 - k).collect()
}

/// No rule, on any number of fields: the empty run stands, and a run of one number is 15.
fn no_rules(out: &mut Lines) {
    for d in 1..=8 {
        for shape in [Shape::from(d), dated(d, ALL)] {
            out.choose(shape, &[], &[]);
            lay(out, shape, &[], &[]);
            for k in [0, 7, 65535] {
                out.choose(shape, &[], &[k]);
                lay(out, shape, &[], &[k]);
            }
        }
    }
}

/// First fit of small lists, with dates too, as the build's cases have them.
fn first_fits(out: &mut Lines) {
    for d in 1..=8 {
        for n in [1, 2, 3, 5] {
            for list in [twins(n, d), nested(n, d), stairs(n, d), chain(n, d)] {
                choose(out, d, &list);
                choose(out, d, &reversed(d, &list));
            }
        }
        for flags in [ALL].into_iter().chain((0..8).map(|f| 1 << f)) {
            choose(out, dated(d, flags), &chain(3, d));
        }
    }
    let rules: Vec<&[u32]> = BENCH.chunks(4).collect();
    for order in permutations(&rules) {
        choose(out, 2, &order.concat());
    }
    choose(out, 1, &[0, 5, 3, 9, 6, 9, 0, 9, 10, 10, 0, 2]);
    choose(out, 1, &[TOP, TOP, 0, 0, 1, TOP - 1]);
    choose(out, dated(1, 1), &[TOP - 1, TOP, 0, 1, 1, TOP - 1]);
}

/// First fit of all lists of three rules on one field of a small space, and for half of them every run without a gap, with
/// a clash or none; fewer lists of two rules on two fields. Some lists have dates, and hold what they held without.
fn small_spaces(out: &mut Lines) {
    let runs = all_choices(1, &stairs(3, 1));
    for (i, list) in all_lists(3, 2).iter().enumerate() {
        let shape = dated(1, i as u32 / 3 % 2);
        let list = as_dates(shape, list);
        choose(out, shape, &list);
        for run in runs.iter().filter(|_| i % 2 == 0) {
            lay(out, shape, &list, run);
        }
    }
    for (i, list) in all_lists(4, 2).iter().enumerate().step_by(11) {
        let shape = dated(2, i as u32 % 4);
        let list = as_dates(shape, list);
        choose(out, shape, &list);
        for run in [[0, 0], [0, 1], [1, 0]] {
            lay(out, shape, &list, &run);
        }
    }
}

/// Every run of small numbers, for lists that clash everywhere, nowhere and here and there: 16, 17 and 18 as they come.
fn small_runs(out: &mut Lines) {
    for list in [twins(1, 1), twins(2, 1), stairs(2, 1), twins(3, 1), stairs(3, 1), vec![0, 5, 3, 9, 6, 9]] {
        let n = list.len() / 2;
        for run in all_runs(n, n as u16 + 1) {
            lay(out, 1, &list, &run);
        }
    }
    for run in all_runs(4, 3) {
        lay(out, 1, &[0, 5, 3, 9, 6, 9, 0, 9], &run);
    }
    // numbers past n, also such as wrap to less in 8 bits, at each place of a run that is right else
    let (list, run) = (stairs(4, 2), [0, 1, 2, 0]);
    for at in 0..4 {
        for k in [3, 4, 5, 255, 256, 257, 260, 1023, 1024, 32767, 32768, 65534, 65535] {
            let mut other = run;
            other[at] = k;
            lay(out, 2, &list, &other);
        }
    }
}

/// Runs shorter and longer than n, empty, as long as the list, longer by 256, and at the most that is held.
fn lengths(out: &mut Lines) {
    for (d, n) in [(1, 1), (1, 2), (1, 3), (2, 2), (8, 2), (3, 5)] {
        let list = stairs(n, d);
        for length in (0..2 * n + 2).chain([n * d as usize, 2 * n * d as usize]) {
            let run: Vec<u16> = (0..length as u16).collect();
            out.choose(d, &list, &run);
            lay(out, d, &list, &run);
            lay(out, d, &list, &vec![0; length]);
        }
    }
    for length in [257, 258, 1023, 1024, 1025, 1099, 1100] {
        out.choose(1, &stairs(2, 1), &vec![0; length]);
        lay(out, 1, &stairs(2, 1), &vec![0; length]);
    }
}

/// A call in which these refusals apply, on three rules of one field, of which the first two are twins. 3 has 15 and 5
/// with it, 16 has 17.
pub fn call_with(faults: &[u32]) -> (u32, Vec<u32>, Vec<u16>, Vec<u16>) {
    let has = |number: u32| faults.contains(&number);
    let d = if has(1) { 9 } else { 1 };
    let mut list = vec![7, 7, 7, 7, 8, 8];
    if has(3) {
        list.resize(2050, 7);
    }
    if has(2) {
        list.push(7);
    }
    if has(4) {
        list[0] = 9;
    }
    let mut run = match (has(17), has(18)) {
        (false, false) => vec![0, 1, 1],
        (false, true) => vec![0, 0, 1],
        (true, false) => vec![0, 2, 0],
        (true, true) => vec![0, 0, 2],
    };
    if has(16) {
        run[2] = 3;
    }
    if has(15) {
        run.push(0);
    }
    let mut table = unwritten(3, 1);
    if has(5) {
        table.pop();
    }
    (d, list, run, table)
}

/// Every set of refusals but 3 that can apply at once; 3 with its neighbours. A refused call leaves what was lent.
fn orders_of_refusals(out: &mut Lines) {
    let numbers = [1, 2, 4, 5, 15, 16, 17, 18];
    let some = |bits: u32| (0..8).filter(|i| bits >> i & 1 == 1).map(|i| numbers[i]).collect::<Vec<u32>>();
    let with_3 = [vec![3], vec![2, 3], vec![3, 4], vec![1, 3], vec![3, 5, 15, 16, 17, 18]];
    for faults in (0..256).map(some).chain(with_3) {
        let (d, list, run, table) = call_with(&faults);
        out.choose(d, &list, &run);
        out.layout(d, &list, &run, &table);
    }
}

/// 1, 2, 4 and 5 at their edges: values of d, lengths of a list, places of 4, of a date of no day too, and lengths of a
/// table, which 15 comes after.
fn other_refusals(out: &mut Lines) {
    let mut both = |shape: Shape, list: &[u32], run: &[u16], table: &[u16]| {
        out.choose(shape, list, run);
        out.layout(shape, list, run, table);
    };
    for d in ODD_FIELDS {
        both(Shape::from(d), &[], &[], &[0, d as u16, 0, 0]);
        both(dated(d, ALL), &[9, 7, 7], &[9], &[]);
    }
    for d in 1..=8 {
        let shape = if d % 2 == 0 { Shape::from(d) } else { dated(d, ALL - 1) };
        let (list, run) = (stairs(2, d), [1, 0]);
        let table = unwritten(2, d);
        both(shape, &list, &run, &table);
        both(shape, &list[1..], &run, &table);
        both(shape, &[&list[..], &[7]].concat(), &run, &table);
        both(shape, &list, &run, &table[1..]);
        both(shape, &list, &run, &[&table[..], &[7]].concat());
        both(shape, &list, &run, &[]);
        // as long as 01 has it
        both(shape, &list, &run, &table[2..]);
        both(shape, &list, &[], &table[1..]);
        // 4 in the last field, and where low is high: in a date, and in a field that is none
        let mut other = list.clone();
        other[4 * d as usize - 2] = 9;
        both(shape, &other, &run, &table);
        both(shape, &other, &[1], &table[1..]);
        other[4 * d as usize - 2] = 3;
        both(dated(d, 1 << (d - 1)), &other, &run, &table);
        both(dated(d, 1 << (d - 1)), &other, &[1], &table[1..]);
        both(dated(d, 1 << (d % 8)), &other, &run, &table);
    }
    for first in 0..9 {
        let mut list = twins(3, 3);
        list[2 * first] = 8;
        list[16] = 9;
        both(Shape::from(3), &list, &[0, 1, 2], &unwritten(3, 3));
    }
}

/// Choices of lists on few and on many fields: one partition for each rule, all in one, halves, every second; looked up in
/// at some numbers.
fn choices_of_many_kinds(out: &mut Lines) {
    for d in [1, 2, 3, 8] {
        let headers = [[0; 8], [1; 8], [4; 8], [7; 8]];
        let one_or_more = [vec![0; 4], vec![0, 0, 1, 1], vec![1, 0, 1, 0], vec![1, 1, 2, 0]];
        for run in one_each(4).iter().chain(&one_or_more) {
            bring(out, d, &stairs(4, d), run, &headers);
            bring(out, d, &reversed(d, &stairs(4, d)), run, &headers[1..3]);
        }
        for run in one_each(3) {
            bring(out, d, &twins(3, d), &run, &headers[2..]);
            bring(out, d, &nested(3, d), &run, &headers);
            bring(out, dated(d, ALL), &chain(3, d), &run, &headers[..2]);
        }
    }
    // rules that share runs: all in one partition, in two of either kind, and one by one
    for d in 2..=3 {
        let n = 1 << d;
        let halves = [|i: u16| i % 2, |i: u16| i / 2 % 2, |i: u16| 1 - i / 2 % 2];
        let mut runs: Vec<Vec<u16>> = halves.iter().map(|half| (0..n).map(half).collect()).collect();
        runs.push(vec![0; n as usize]);
        runs.extend(one_each(n as usize));
        for list in [grid(d), reversed(d, &grid(d))] {
            for run in &runs {
                bring(out, d, &list, run, &[header_of(&[1, 2], 3), header_of(&[3, 0], 1)]);
            }
        }
    }
}

/// The bench list: half of its 228 choices laid out and audited; its first fit with the partitions in every order, and each
/// rule in a partition of its own, looked up in at B2 to B8.
fn bench(out: &mut Lines) {
    for run in all_choices(2, &BENCH).into_iter().step_by(2) {
        lay(out, 2, &BENCH, &run);
        out.audit(2, &BENCH, &laid(2, &BENCH, &run));
    }
    let headers = MARKED.map(|numbers| header_of(&numbers, 0));
    for order in permutations(&[0, 1, 2]) {
        let run: Vec<u16> = chosen(2, &BENCH).iter().map(|k| order[*k as usize]).collect();
        bring(out, 2, &BENCH, &run, &headers);
    }
    for run in one_each(5) {
        bring(out, 2, &BENCH, &run, &headers);
    }
    for flags in 1..=3 {
        let list = as_dates(dated(2, flags), &BENCH);
        bring(out, dated(2, flags), &list, &renumbered(&chosen(2, &BENCH)), &headers[..3]);
    }
}

/// Small lists under each of their choices, looked up at every number: the first match, whichever partition has it.
fn lookups(out: &mut Lines) {
    for (list, flags) in [
        (vec![0, 5, 3, 9, 6, 9], 0),
        (vec![6, 9, 0, 9, 1, 4], 1),
        (vec![2, 2, 0, 4, 4, 4], 0),
        (vec![5, 7, 3, 5, 0, 3], 1),
        (twins(3, 1), 0),
    ] {
        for run in all_choices(dated(1, flags), &list) {
            for number in 0..=9 {
                let table = laid(dated(1, flags), &list, &run);
                out.lookup(dated(1, flags), &list, &table, &header_of(&[number], 0));
            }
        }
    }
    let list = [1, 1, 0, 1, 1, 1, 2, 2, 0, 2, 0, 2];
    for run in all_choices(2, &list) {
        for header in all_headers(2, 2) {
            out.lookup(2, &list, &laid(2, &list, &run), &header);
        }
    }
}

/// 02, W8: whether two rules clash goes by the flags: rules that touch, all in one partition, under each of them.
fn clashes_of_dates(out: &mut Lines) {
    for d in 1..=8 {
        for flags in [0, ALL].into_iter().chain((0..8).map(|f| 1 << f)) {
            lay(out, dated(d, flags), &chain(3, d), &[0; 3]);
            lay(out, dated(d, flags), &chain(3, d), &[1, 0, 0]);
        }
    }
    // equal in field 0 and touching in field 1; then the other way round; then touching in both
    for list in [[7, 8, 5, 9, 7, 8, 1, 5], [5, 9, 7, 8, 1, 5, 7, 8], [5, 9, 5, 9, 1, 5, 1, 5]] {
        for flags in 0..8 {
            lay(out, dated(2, flags), &list, &[0, 0]);
            lay(out, dated(2, flags), &list, &[1, 0]);
        }
    }
    // equal dates, and dates that meet in one day
    for list in [[7, 8, 7, 8], [1, 6, 5, 9], [0, TOP, TOP - 1, TOP], [0, TOP - 1, TOP - 1, TOP]] {
        for run in [[0, 0], [1, 0]] {
            lay(out, dated(1, 1), &list, &run);
        }
    }
}

/// Lists, and choices of their partitions that are no first fit.
fn brought_choices() -> Vec<(Shape, Vec<u32>, Vec<u16>)> {
    vec![
        (Shape::from(2), BENCH.to_vec(), vec![2, 2, 2, 0, 1]),
        (Shape::from(1), vec![4, 6], vec![0]),
        (Shape::from(1), stairs(3, 1), vec![0, 1, 1]),
        (Shape::from(1), vec![0, 1, 4, 5, 2, 3], vec![0, 1, 1]),
        (Shape::from(1), stairs(4, 1), vec![1, 0, 1, 0]),
        (Shape::from(1), twins(3, 1), vec![2, 0, 1]),
        (dated(1, ALL - 1), vec![6, 7, 4, 5, 0, 9, 2, 3], vec![1, 2, 0, 1]),
        (dated(1, 1), vec![6, 9, 4, 6, 0, 9, 2, 4], vec![2, 2, 1, 0]),
        (Shape::from(2), reversed(2, &grid(2)), vec![1, 0, 0, 1]),
        (Shape::from(2), grid(2), vec![0, 1, 0, 1]),
        (dated(3, 0b101), vec![7, 9, 8, 8, 9, 10, 7, 9, 8, 8, 5, 9, 7, 9, 0, 3, 9, 10], vec![1, 0, 1]),
    ]
}

/// The table of a choice that was brought is yes. With a single number altered it is no, unless that is another choice's
/// table: a start may move from one place to the next where the order holds and the smallest numbers stay.
fn altered_tables(out: &mut Lines) {
    for (shape, list, run) in brought_choices() {
        let table = laid(shape, &list, &run);
        out.audit(shape, &list, &table);
        for other in altered(&table, rules_in(shape, &list)) {
            out.audit(shape, &list, &other);
        }
        // two numbers that stand beside each other, swapped
        for i in 1..table.len() {
            let mut other = table.clone();
            other.swap(i - 1, i);
            out.audit(shape, &list, &other);
        }
    }
}

/// Two partitions that change places, which is yes; and their order, starts, smallest numbers or runs of places alone,
/// without the rest.
fn swapped_partitions(out: &mut Lines) {
    for (shape, list, run) in brought_choices() {
        let (b, n) = (partitions_of(&run) as u16, run.len());
        let table = laid(shape, &list, &run);
        let cuts = [ORDER_AT, starts_at(n), least_at(n), run_from_at(n), table.len()];
        for (k, l) in (0..b).flat_map(|k| (0..k).map(move |l| (k, l))) {
            let swap = |j: &u16| match *j {
                j if j == k => l,
                j if j == l => k,
                j => j,
            };
            let other = laid(shape, &list, &run.iter().map(swap).collect::<Vec<u16>>());
            out.audit(shape, &list, &other);
            for cut in cuts.windows(2) {
                out.audit(shape, &list, &[&table[..cut[0]], &other[cut[0]..cut[1]], &table[cut[1]..]].concat());
            }
        }
    }
}

/// All small numbers of partitions, orders and starts for two rules that do not meet; all orders and starts for three; all
/// runs of places for two rules, also where they are alike in field 0. The smallest numbers are as the rest has them; then
/// all small ones for every choice of three rules.
fn all_tables(out: &mut Lines) {
    for code in 0..4 * 9 * 32 {
        let head = [2, 1, code % 4, code / 4 % 3, code / 12 % 3];
        let starts = [code / 36 % 2, code / 72 % 4, code / 288];
        out.audit(1, &[1, 1, 3, 3], &[&with_least(&[&head[..], &starts].concat())[..], &[0, 1, 1, 2]].concat());
    }
    for order in permutations(&[0, 1, 2]) {
        for code in 0..3 * 64 {
            let start = |i: u16| code / 3 >> (2 * i) & 3;
            let head = [&[3, 1, 1 + code % 3], &order[..], &[0, start(0), start(1), start(2)]].concat();
            out.audit(1, &[1, 1, 3, 3, 5, 5], &[&with_least(&head)[..], &[0, 1, 2, 1, 2, 3]].concat());
        }
    }
    for code in 0..256 {
        let place = |i: u16| code >> (2 * i) & 3;
        for head in [[2, 1, 1, 0, 1, 0, 2, 0], [2, 1, 2, 1, 0, 0, 1, 2]].map(|head| with_least(&head)) {
            let places = [place(0), place(1), place(2), place(3)];
            out.audit(1, &[1, 1, 3, 3], &[&head[..], &places[..]].concat());
            // the same in field 0 of rules that part in field 1
            let places = [place(0), 0, place(1), 1, place(2), 1, place(3), 2];
            out.audit(2, &[7, 7, 1, 1, 7, 7, 3, 3], &[&[2, 2][..], &head[2..], &places[..]].concat());
        }
    }
    let list = stairs(3, 1);
    for mut table in all_choices(1, &list).iter().map(|run| laid(1, &list, run)) {
        for least in all_runs(3, 3) {
            table[least_at(3)..run_from_at(3)].copy_from_slice(&least);
            out.audit(1, &list, &table);
        }
    }
}

/// Every table that some list of a small space has, audited under many lists of it: three rules on one field, two on two.
fn other_lists(out: &mut Lines) {
    for (d, lists) in [(1, all_lists(3, 2)), (2, all_lists(4, 1))] {
        let tables = |list: &Vec<u32>| all_choices(d, list).iter().map(|run| laid(d, list, run)).collect::<Vec<_>>();
        let mut all: Vec<Vec<u16>> = lists.iter().flat_map(tables).collect();
        all.sort();
        all.dedup();
        for (i, list) in lists.iter().enumerate().step_by(5) {
            let shape = dated(d, i as u32 % (1 << d));
            for table in &all {
                out.audit(shape, &as_dates(shape, list), table);
            }
        }
    }
}

/// 1,024 rules: in one partition, in two, one by one from either end; 16, 17 and 18 by a number or two; on eight fields; runs
/// of one number too few, and one too many.
fn many_rules(out: &mut Lines) {
    let (list, alike) = (stairs(1024, 1), twins(1024, 1));
    let [up, down] = one_each(1024);
    let halves: Vec<u16> = (0..1024).map(|i| i % 2).collect();
    choose(out, 1, &list);
    choose(out, 1, &alike);
    for length in [1023, 1025] {
        out.choose(1, &alike, &vec![7; length]);
    }
    lay(out, 1, &alike, &[7; 1025]);
    lay(out, dated(1, 1), &reversed(1, &chain(1024, 1)), &[0; 1024]);
    lay(out, 1, &list, &halves);
    lay(out, 1, &alike, &up);
    for last in [1024, 1022] {
        let mut run = up.clone();
        run[1023] = last;
        lay(out, 1, &alike, &run);
    }
    // 0 is the only number without a rule, and then 1
    let mut gap = up.clone();
    gap[0] = 1023;
    lay(out, 1, &alike, &gap);
    gap[1] = 0;
    lay(out, 1, &alike, &gap);
    lay(out, 8, &twins(1024, 8), &down);
    let table = laid(1, &alike, &down);
    out.audit(1, &alike, &table);
    for at in [run_from_at(1024) - 1, table.len() - 1] {
        out.audit(1, &alike, &with(&table, at, table[at] + 1));
    }
}

pub fn edges(out: &mut Lines) {
    for (line, _) in WORKED {
        out.raw(line.as_bytes());
    }
    no_rules(out);
    first_fits(out);
    small_spaces(out);
    small_runs(out);
    lengths(out);
    orders_of_refusals(out);
    other_refusals(out);
    choices_of_many_kinds(out);
    bench(out);
    lookups(out);
    clashes_of_dates(out);
    altered_tables(out);
    swapped_partitions(out);
    all_tables(out);
    other_lists(out);
    many_rules(out);
}

/// A table near to one of a choice: damaged, of another choice in part, with a start moved, and the smallest numbers with it
/// or not, or one that only looks right.
fn near_table(seed: &mut Seed, shape: Shape, list: &[u32], table: &[u16]) -> Vec<u16> {
    let n = rules_in(shape, list);
    let mut near = table.to_vec();
    match seed.below(4) {
        0 => damage(seed, &mut near, n),
        1 => {
            let other = laid(shape, list, &drawn_choice(seed, shape, list));
            let cut = seed.pick(&[ORDER_AT, starts_at(n), least_at(n), run_from_at(n), run_to_at(n, shape.d as usize)]);
            near[cut..].copy_from_slice(&other[cut..]);
        }
        2 if table[2] > 1 => {
            let start = starts_at(n) + 1 + seed.below(table[2] as usize - 1);
            near[start] = if seed.once_in(2) { near[start] + 1 } else { near[start] - 1 };
            if seed.once_in(2) {
                near = [&with_least(&near[..least_at(n)]), &near[run_from_at(n)..]].concat();
            }
        }
        _ => near = looks_right(seed, n, shape.d as usize),
    }
    near
}

/// A few drawn calls on one drawn list and a drawn choice: its first fit, the choice laid out, audited, looked up in and
/// reported on; tables near to the choice's, and other flags; spoiled runs, and last a spoiled list or table.
pub fn drawn(seed: &mut Seed, out: &mut Lines) {
    let (shape, list) = dated_list(seed);
    let n = rules_in(shape, &list);
    let mut run = drawn_choice(seed, shape, &list);
    let mut table = laid(shape, &list, &run);
    let other = drawn_shape(seed, shape.d);
    choose(out, shape, &list);
    lay(out, shape, &list, &run);
    lay(out, other, &list, &run);
    out.audit(shape, &list, &table);
    out.audit(other, &list, &table);
    out.audit(shape, &list, &built(shape, &list));
    out.report(shape, &list, &table, seed.between(0, table[2].max(1) as u32 - 1));
    for _ in 0..3 {
        out.lookup(shape, &list, &table, &drawn_header(seed, shape, &list));
        let near = near_table(seed, shape, &list, &table);
        out.audit(shape, &list, &near);
    }
    for _ in 0..3 {
        let mut spoiled = run.clone();
        spoiled_run(seed, &mut spoiled);
        lay(out, shape, &list, &spoiled);
    }
    spoiled_run(seed, &mut run);
    out.choose(shape, &list, &run);
    let (mut shape, mut list) = (shape, list);
    match seed.below(3) {
        0 => turned(seed, &mut list),
        1 => spoiled_list(seed, &mut shape, &mut list),
        _ => table.resize(seed.below(2 * table.len()), n as u16),
    }
    out.choose(shape, &list, &run);
    out.layout(shape, &list, &run, &table);
}

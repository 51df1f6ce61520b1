//! Lists, tables and headers that several kinds of cases are made from, none of them drawn.

use crate::choices::brought;
use crate::lists::{rules_of, Header, Shape};
use crate::sorting::first_fit;
use crate::table::{table_length, table_of};

pub const TOP: u32 = 4294967295;

/// 01, A small bench list: d = 2, n = 5.
pub const BENCH: [u32; 20] = [7, 7, 100, 100, 7, 7, 200, 299, 8, 8, 0, 999, 7, 7, 0, 999, 0, 9, 0, 999];

/// Values of d at and around 1 to 8, and such as wrap to one of them in 8, 16 or 32 bits, doubled or not.
pub const ODD_FIELDS: [u32; 14] =
    [0, 9, 10, 16, 255, 256, 257, 264, 65536, 65537, 2147483647, 2147483648, 2147483649, TOP];

/// Flags that make every field a date.
pub const ALL: u32 = 255;

/// d fields, of which field f is a date where bit f of the flags is 1.
pub fn dated(d: u32, flags: u32) -> Shape {
    Shape { d, dates: std::array::from_fn(|f| flags >> f & 1 == 1) }
}

/// The rules of a list without dates, under this shape: where a field is a date its high goes one up, so that each rule
/// holds what it held. No such high may be 4294967295.
pub fn as_dates(shape: Shape, list: &[u32]) -> Vec<u32> {
    let d = shape.d as usize;
    let end = |(i, number): (usize, &u32)| number + (i % 2 == 1 && shape.is_date(i / 2 % d)) as u32;
    list.iter().enumerate().map(end).collect()
}

/// A header of these numbers, and then of `rest`.
pub fn header_of(numbers: &[u32], rest: u32) -> Header {
    let mut header = [rest; 8];
    header[..numbers.len()].copy_from_slice(numbers);
    header
}

/// n rules that fit into one partition: rule i is 2i to 2i + 1 in every field.
pub fn stairs(n: usize, d: u32) -> Vec<u32> {
    (0..n as u32).flat_map(|i| [2 * i, 2 * i + 1].repeat(d as usize)).collect()
}

/// n rules, each within the one before it: rule i is i to 3000 - i in every field.
pub fn nested(n: usize, d: u32) -> Vec<u32> {
    (0..n as u32).flat_map(|i| [i, 3000 - i].repeat(d as usize)).collect()
}

/// n rules, each of which begins where the one before it ends: rule i is i to i + 1 in every field.
pub fn chain(n: usize, d: u32) -> Vec<u32> {
    (0..n as u32).flat_map(|i| [i, i + 1].repeat(d as usize)).collect()
}

/// n rules, all of them 7 to 7 in every field.
pub fn twins(n: usize, d: u32) -> Vec<u32> {
    vec![7; 2 * d as usize * n]
}

/// The same rules, last first.
pub fn reversed(d: u32, list: &[u32]) -> Vec<u32> {
    list.chunks(2 * d as usize).rev().flatten().copied().collect()
}

/// Every rule on d fields whose fields are each 0 to 1 or 2 to 3: 2^d rules that share runs and one partition.
pub fn grid(d: u32) -> Vec<u32> {
    let field = |i: u32, f: u32| if i >> f & 1 == 0 { [0, 1] } else { [2, 3] };
    (0..1u32 << d).flat_map(|i| (0..d).flat_map(move |f| field(i, f))).collect()
}

/// How many rules a list of the right length has.
pub fn rules_in(shape: Shape, list: &[u32]) -> usize {
    list.len() / (2 * shape.d as usize)
}

/// All ranges within 0 to top, both counted.
pub fn all_ranges(top: u32) -> Vec<[u32; 2]> {
    (0..=top).flat_map(|low| (low..=top).map(move |high| [low, high])).collect()
}

/// All lists of this many ranges, each within 0 to top.
pub fn all_lists(ranges: usize, top: u32) -> Vec<Vec<u32>> {
    let mut lists = vec![Vec::new()];
    for _ in 0..ranges {
        lists = lists
            .iter()
            .flat_map(|list: &Vec<u32>| all_ranges(top).into_iter().map(move |range| [&list[..], &range[..]].concat()))
            .collect();
    }
    lists
}

/// All headers whose first d numbers are each 0 to top.
pub fn all_headers(d: u32, top: u32) -> Vec<Header> {
    let mut headers = vec![[0; 8]];
    for f in 0..d as usize {
        headers = headers
            .iter()
            .flat_map(|header| {
                (0..=top).map(move |number| {
                    let mut next = *header;
                    next[f] = number;
                    next
                })
            })
            .collect();
    }
    headers
}

/// All runs of n numbers, each 0 to top.
pub fn all_runs(n: usize, top: u16) -> Vec<Vec<u16>> {
    let mut runs = vec![Vec::new()];
    for _ in 0..n {
        let longer = |run: &Vec<u16>| (0..=top).map(|k| [&run[..], &[k]].concat()).collect::<Vec<Vec<u16>>>();
        runs = runs.iter().flat_map(longer).collect();
    }
    runs
}

/// All choices of partitions for a list, of few rules, that the laying out takes.
pub fn all_choices(shape: impl Into<Shape>, list: &[u32]) -> Vec<Vec<u16>> {
    let rules = rules_of(shape.into(), list).expect("a list of the right length");
    let runs = all_runs(rules.len(), rules.len() as u16);
    runs.into_iter().filter(|run| brought(&rules, run).is_ok()).collect()
}

/// The first-fit choice of a list of the right length.
pub fn chosen(shape: impl Into<Shape>, list: &[u32]) -> Vec<u16> {
    first_fit(&rules_of(shape.into(), list).expect("a list of the right length"))
}

/// The table of a list and a choice, which the laying out does not refuse.
pub fn laid(shape: impl Into<Shape>, list: &[u32], run: &[u16]) -> Vec<u16> {
    let shape = shape.into();
    let rules = rules_of(shape, list).expect("a list of the right length");
    table_of(&rules, run, shape.d as usize)
}

/// The table that the build writes for a list of the right length, which the build does not refuse with 4.
pub fn built(shape: impl Into<Shape>, list: &[u32]) -> Vec<u16> {
    let shape = shape.into();
    laid(shape, list, &chosen(shape, list))
}

/// A table of the right length for n rules on d fields, filled with numbers that the build would not leave.
pub fn unwritten(n: usize, d: u32) -> Vec<u16> {
    filled(table_length(n, d as usize))
}

/// A table of this length, filled with numbers of one digit.
pub fn filled(length: usize) -> Vec<u16> {
    (0..length).map(|i| ((7 * i + 3) % 10) as u16).collect()
}

/// The table with one number written over.
pub fn with(table: &[u16], at: usize, number: u16) -> Vec<u16> {
    let mut other = table.to_vec();
    other[at] = number;
    other
}

/// The table with each single number altered in turn: to 0, to n, to 65535, and by one either way.
pub fn altered(table: &[u16], n: usize) -> Vec<Vec<u16>> {
    let mut tables = Vec::new();
    for i in 0..table.len() {
        let old = table[i];
        let mut others = vec![0, n as u16, 65535, old.wrapping_add(1), old.wrapping_sub(1)];
        others.sort();
        others.dedup();
        tables.extend(others.into_iter().filter(|other| *other != old).map(|other| with(table, i, other)));
    }
    tables
}

/// All orders of the items.
pub fn permutations<T: Clone>(items: &[T]) -> Vec<Vec<T>> {
    if items.is_empty() {
        return vec![Vec::new()];
    }
    let mut all = Vec::new();
    for i in 0..items.len() {
        let mut rest = items.to_vec();
        let first = rest.remove(i);
        for mut tail in permutations(&rest) {
            tail.insert(0, first.clone());
            all.push(tail);
        }
    }
    all
}

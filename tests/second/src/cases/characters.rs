//! Drawn lists of many characters, flags that make some of their fields dates, headers drawn near their ends, and ways
//! to spoil a list.

use super::shapes::{ODD_FIELDS, TOP};
use crate::lists::Shape;
use crate::seed::Seed;

type Ends = [u32; 2];

fn sorted(a: u32, b: u32) -> Ends {
    [a.min(b), a.max(b)]
}

/// The range of a prefix of this length at width 32.
fn prefix(value: u32, length: u32) -> Ends {
    let below = ((1u64 << (32 - length)) - 1) as u32;
    [value & !below, value | below]
}

/// Rules whose ranges are drawn one by one.
fn each_drawn(seed: &mut Seed, n: usize, d: u32, draw: fn(&mut Seed) -> Ends) -> Vec<u32> {
    (0..n * d as usize).flat_map(|_| draw(seed)).collect()
}

/// Single numbers of a small space.
fn point(seed: &mut Seed) -> Ends {
    let number = seed.between(0, 5);
    [number, number]
}

/// Any range of a small space.
fn small(seed: &mut Seed) -> Ends {
    sorted(seed.between(0, 7), seed.between(0, 7))
}

/// Two numbers of any size.
fn any(seed: &mut Seed) -> Ends {
    sorted(seed.any(), seed.any())
}

/// Prefixes of width 32 below few values.
fn any_prefix(seed: &mut Seed) -> Ends {
    let value = seed.pick(&[0, 0x0a000000, 0x0a010203, 0xc0a80000, 0xfffffffe]);
    prefix(value, seed.between(0, 32))
}

/// 0, 4294967295 and their neighbours at either end.
fn extreme(seed: &mut Seed) -> Ends {
    let ends = [0, 1, 2147483647, 2147483648, TOP - 1, TOP];
    sorted(seed.pick(&ends), seed.pick(&ends))
}

/// One of few ranges that do not meet: many rules share a partition and its runs.
fn tile(seed: &mut Seed) -> Ends {
    let tile = seed.between(0, 4);
    [10 * tile, 10 * tile + 9]
}

/// Tiles, and now and then a range over several of them.
fn mostly_tile(seed: &mut Seed) -> Ends {
    if seed.once_in(8) {
        return [0, 10 * seed.between(1, 5) - 1];
    }
    tile(seed)
}

/// Access lists: source and destination prefix, two port ranges, protocol; fields past these are points.
fn access(seed: &mut Seed, n: usize, d: u32) -> Vec<u32> {
    let nets = [0x0a000000, 0x0a010000, 0x0a010200, 0xac100000, 0xc0a80100, 0xc0a80200, 0xcb007100];
    let lengths = [0, 8, 16, 24, 24, 32, 32];
    let mut list = Vec::new();
    for _ in 0..n {
        for f in 0..d {
            list.extend(match f {
                0 | 1 => prefix(seed.pick(&nets) + seed.between(0, 3), seed.pick(&lengths)),
                2 => seed.pick(&[[0, 65535], [0, 65535], [1024, 65535], [53, 53]]),
                3 => seed.pick(&[[0, 65535], [22, 22], [80, 80], [443, 443], [1024, 65535], [6000, 6063]]),
                4 => seed.pick(&[[6, 6], [6, 6], [17, 17], [1, 1], [0, 255]]),
                _ => point(seed),
            });
        }
    }
    list
}

/// Each rule within the one before it, in all fields.
fn nested(seed: &mut Seed, n: usize, d: u32) -> Vec<u32> {
    let mut rule: Vec<Ends> = vec![[0, TOP]; d as usize];
    let mut list = Vec::new();
    for _ in 0..n {
        list.extend(rule.concat());
        for ends in &mut rule {
            let room = (ends[1] - ends[0]) / 3;
            *ends = [ends[0] + seed.between(0, room.min(9)), ends[1] - seed.between(0, room)];
        }
    }
    list
}

/// Rules that do not meet, in any order.
fn stairs(seed: &mut Seed, n: usize, d: u32) -> Vec<u32> {
    let mut numbers: Vec<u32> = (0..n as u32).collect();
    seed.shuffle(&mut numbers);
    numbers.iter().flat_map(|i| [3 * i, 3 * i + 1].repeat(d as usize)).collect()
}

/// Few rules, each several times.
fn twins(seed: &mut Seed, n: usize, d: u32) -> Vec<u32> {
    let few: Vec<Vec<u32>> = (0..3).map(|_| each_drawn(seed, 1, d, tile)).collect();
    (0..n).flat_map(|_| seed.pick(&few)).collect()
}

/// Rules alike in all fields but the last, which are points.
fn last_field(seed: &mut Seed, n: usize, d: u32) -> Vec<u32> {
    let mut list = Vec::new();
    for _ in 0..n {
        for f in 0..d {
            list.extend(if f + 1 < d { [7, 7] } else { [seed.between(0, n as u32); 2] });
        }
    }
    list
}

/// n rules of a drawn character on d fields.
pub fn list_of(seed: &mut Seed, n: usize, d: u32) -> Vec<u32> {
    match seed.below(13) {
        0 => each_drawn(seed, n, d, point),
        1 => each_drawn(seed, n, d, small),
        2 => each_drawn(seed, n, d, any),
        3 => each_drawn(seed, n, d, any_prefix),
        4 => each_drawn(seed, n, d, extreme),
        5 => each_drawn(seed, n, d, tile),
        6 => each_drawn(seed, n, d, mostly_tile),
        7 | 8 => access(seed, n, d),
        9 => nested(seed, n, d),
        10 => stairs(seed, n, d),
        11 => twins(seed, n, d),
        _ => last_field(seed, n, d),
    }
}

/// d and how many rules: mostly up to a dozen, now and then up to a hundred.
fn drawn_size(seed: &mut Seed) -> (u32, usize) {
    let d = seed.pick(&[1, 1, 2, 2, 2, 3, 3, 4, 5, 5, 5, 6, 7, 8]);
    let n = match seed.below(20) {
        0..=4 => seed.below(4),
        5..=16 => seed.below(13),
        17 | 18 => seed.below(41),
        _ => seed.below(101),
    };
    (d, n)
}

/// d and a list without dates.
pub fn drawn_list(seed: &mut Seed) -> (u32, Vec<u32>) {
    let (d, n) = drawn_size(seed);
    (d, list_of(seed, n, d))
}

/// d fields with drawn flags: none, all, or each drawn; those past d, which alter nothing, none or each drawn.
pub fn drawn_shape(seed: &mut Seed, d: u32) -> Shape {
    let (choice, past) = (seed.below(5), seed.once_in(3));
    let mut shape = Shape::from(d);
    for f in 0..8 {
        let drawn = seed.once_in(2);
        shape.dates[f] = match choice {
            _ if f >= d as usize => past && drawn,
            0 | 1 => false,
            2 => true,
            _ => drawn,
        };
    }
    shape
}

/// A range as one of dates, of one day at least: with the numbers it had, as far as a date can end past them, or with its
/// ends.
fn dates_of(ends: Ends, same_numbers: bool) -> Ends {
    let [low, high] = ends;
    if low == TOP {
        return [TOP - 1, TOP];
    }
    if same_numbers || low == high {
        return [low, high.saturating_add(1)];
    }
    ends
}

/// Rules in any order, each of which ends where another begins, in all fields; now and then the last ends at the top.
fn chain(seed: &mut Seed, n: usize, d: u32) -> Vec<u32> {
    let mut ends = vec![seed.between(0, 5)];
    for i in 0..n {
        ends.push(ends[i] + seed.between(1, 3));
    }
    let up = if seed.once_in(4) { TOP - ends[n] } else { 0 };
    let mut numbers: Vec<usize> = (0..n).collect();
    seed.shuffle(&mut numbers);
    numbers.iter().flat_map(|i| [ends[*i] + up, ends[i + 1] + up].repeat(d as usize)).collect()
}

/// n rules of a drawn character, which a check under this shape does not refuse.
pub fn list_for(seed: &mut Seed, n: usize, shape: Shape) -> Vec<u32> {
    if seed.once_in(12) {
        return chain(seed, n, shape.d);
    }
    let same_numbers = seed.once_in(2);
    let mut list = list_of(seed, n, shape.d);
    for (i, ends) in list.chunks_mut(2).enumerate() {
        if shape.is_date(i % shape.d as usize) {
            ends.copy_from_slice(&dates_of([ends[0], ends[1]], same_numbers));
        }
    }
    list
}

/// A shape and a list of it; none, some or all of the fields are dates.
pub fn dated_list(seed: &mut Seed) -> (Shape, Vec<u32>) {
    let (d, n) = drawn_size(seed);
    let shape = drawn_shape(seed, d);
    (shape, list_for(seed, n, shape))
}

/// A number of a range, its ends more often than not.
fn inside(seed: &mut Seed, low: u32, high: u32) -> u32 {
    match seed.below(3) {
        0 => low,
        1 => high,
        _ => seed.between(low.min(high), low.max(high)),
    }
}

/// A number of a range, beside it, or anywhere.
fn near(seed: &mut Seed, low: u32, high: u32) -> u32 {
    match seed.below(8) {
        0 => low.wrapping_sub(1),
        1 => high.wrapping_add(1),
        2 => seed.any(),
        _ => inside(seed, low, high),
    }
}

/// A number inside a range where it is to hit, else near it. Of dates the last day is the high end, and now and then
/// the number is 4294967295, which lies in none.
fn drawn_number(seed: &mut Seed, [low, high]: Ends, date: bool, hit: bool) -> u32 {
    let high = high.saturating_sub(date as u32);
    if hit {
        return inside(seed, low, high);
    }
    if date && seed.once_in(8) {
        return TOP;
    }
    near(seed, low, high)
}

/// A header of the list: one in two inside a rule, else near one or several. Its numbers past d are any.
pub fn drawn_header(seed: &mut Seed, shape: impl Into<Shape>, list: &[u32]) -> [u32; 8] {
    let shape = shape.into();
    let mut header = [0; 8];
    for number in &mut header {
        *number = seed.any();
    }
    let d = shape.d.min(8) as usize;
    if d == 0 || list.len() < 2 * d {
        return header;
    }
    let n = list.len() / (2 * d);
    let hit = seed.once_in(2);
    let mut rule = seed.below(n);
    for f in 0..d {
        let at = 2 * d * rule + 2 * f;
        header[f] = drawn_number(seed, [list[at], list[at + 1]], shape.is_date(f), hit);
        if !hit && seed.once_in(6) {
            rule = seed.below(n);
        }
    }
    header
}

/// Turns the ends of some ranges around, so that low > high where they differ, or makes the low or 0 the high, which
/// leaves no day to a date.
pub fn turned(seed: &mut Seed, list: &mut [u32]) {
    let ranges = list.len() / 2;
    for _ in 0..1 + seed.below(3) {
        if ranges > 0 {
            let at = 2 * seed.below(ranges);
            match seed.below(6) {
                0 | 1 => list[at + 1] = list[at],
                2 => list[at + 1] = 0,
                _ => list.swap(at, at + 1),
            }
        }
    }
}

/// Spoils d, the list's length, its number of rules, the flags, or the ends of some ranges.
pub fn spoiled_list(seed: &mut Seed, shape: &mut Shape, list: &mut Vec<u32>) {
    let per_rule = 2 * shape.d as usize;
    match seed.below(9) {
        0 => shape.d = seed.pick(&ODD_FIELDS),
        1 => shape.d = seed.between(1, 8),
        2 => drop(list.pop()),
        3 => list.push(seed.any()),
        4 => list.resize(1024 * per_rule + seed.below(per_rule + 1), 7),
        5 => *shape = drawn_shape(seed, shape.d),
        _ => turned(seed, list),
    }
}

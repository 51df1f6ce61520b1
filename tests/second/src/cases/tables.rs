//! Drawn choices of partitions, right ones and spoiled ones; and drawn tables: damaged ones, and ones that look right and
//! were never built.

use crate::lists::{rules_of, Shape};
use crate::seed::Seed;
use crate::sorting::{standing, Standing};
use crate::table::{least_at, run_from_at, starts_at, table_length, ORDER_AT};

/// A choice that the laying out takes: each rule, in a drawn order, goes into a drawn partition in which it clashes with no
/// member, or opens one, as it must or now and then; then the partitions are numbered in a drawn order.
pub fn drawn_choice(seed: &mut Seed, shape: Shape, list: &[u32]) -> Vec<u16> {
    let rules = rules_of(shape, list).expect("a list of the right length");
    let opens = seed.pick(&[2, 4, 100]);
    let mut order: Vec<usize> = (0..rules.len()).collect();
    seed.shuffle(&mut order);
    let mut partitions: Vec<Vec<usize>> = Vec::new();
    for i in order {
        let apart = |j: &usize| standing(&rules[i], &rules[*j]) != Standing::Clash;
        let free: Vec<usize> = (0..partitions.len()).filter(|k| partitions[*k].iter().all(apart)).collect();
        if free.is_empty() || seed.once_in(opens) {
            partitions.push(vec![i]);
        } else {
            partitions[seed.pick(&free)].push(i);
        }
    }
    seed.shuffle(&mut partitions);
    let mut run = vec![0; rules.len()];
    for (k, members) in partitions.iter().enumerate() {
        for i in members {
            run[*i] = k as u16;
        }
    }
    run
}

/// Spoils a run, which by chance may still be right: its length; a number of n or more; a gap at 0, or below the largest
/// number; two rules put together; any numbers.
pub fn spoiled_run(seed: &mut Seed, run: &mut Vec<u16>) {
    let n = run.len();
    let (at, to) = (seed.below(n + 1), seed.below(n + 1));
    match seed.below(9) {
        0 => drop(run.pop()),
        1 => run.push(seed.below(n + 1) as u16),
        2 => run.resize(seed.below(1101), seed.below(n + 1) as u16),
        _ if n == 0 => (),
        3 => run[at % n] = seed.pick(&[n as u16, n as u16 + 1, 32768, 65535]),
        4 => run.iter_mut().for_each(|k| *k += 1),
        5 => run[at % n] = n as u16 - 1,
        6 | 7 => run[at % n] = run[to % n],
        _ => run.iter_mut().for_each(|k| *k = seed.below(n) as u16),
    }
}

/// A number that a table of n rules could hold, or just could not.
fn drawn_number(seed: &mut Seed, n: usize) -> u16 {
    match seed.below(8) {
        0 => 65535,
        1 => n as u16,
        2 => n as u16 + 1,
        3 => 0,
        _ => seed.below(n + 1) as u16,
    }
}

/// Where one number of a table of n rules stands: any, and one in four a smallest rule number of its partitions.
fn drawn_place(seed: &mut Seed, table: &[u16], n: usize) -> usize {
    if n > 0 && seed.once_in(4) {
        return least_at(n) + seed.below((table[2] as usize).clamp(1, n));
    }
    seed.below(table.len())
}

/// Alters up to three numbers, or swaps two.
pub fn damage(seed: &mut Seed, table: &mut [u16], n: usize) {
    for _ in 0..1 + seed.below(3) {
        let at = drawn_place(seed, table, n);
        match seed.below(4) {
            0 => table[at] = drawn_number(seed, n),
            1 => table[at] = table[at].wrapping_add(1),
            2 => table[at] = table[at].wrapping_sub(1),
            _ => {
                let other = (at + 1 + seed.below(4)) % table.len();
                table.swap(at, other);
            }
        }
    }
}

/// The first parts of a table, up to its starts, and then the smallest rule numbers that they call for: of a partition the
/// smallest that stands in its places, and 0 where it has none, or places that are not there.
pub fn with_least(head: &[u16]) -> Vec<u16> {
    let n = (head.len() - 4) / 2;
    let (order, starts) = (&head[ORDER_AT..starts_at(n)], &head[starts_at(n)..]);
    let least = |k: usize| {
        let places = order.get(starts[k] as usize..starts[k + 1] as usize);
        places.and_then(|places| places.iter().min().copied()).unwrap_or(0)
    };
    let b = (head[2] as usize).min(n);
    let mut table = [head, &(0..b).map(least).collect::<Vec<u16>>()].concat();
    table.resize(run_from_at(n), 0);
    table
}

/// Strictly ascending starts from 0 to n for a drawn number of partitions.
fn drawn_starts(seed: &mut Seed, n: usize) -> Vec<usize> {
    let mut starts = vec![0];
    while starts[starts.len() - 1] < n {
        let last = starts[starts.len() - 1];
        let size = if seed.once_in(3) { 1 } else { 1 + seed.below(n - last) };
        starts.push(last + size);
    }
    starts
}

/// A table whose starts are right; its order is drawn, now and then with a rule twice; its smallest rule numbers are those
/// of its places, or all 0, so that nothing is skipped, or drawn; its runs mostly hold their place, lie within their
/// partition, shrink from field to field, and mostly end as one place.
pub fn looks_right(seed: &mut Seed, n: usize, d: usize) -> Vec<u16> {
    let starts = drawn_starts(seed, n);
    let b = starts.len() - 1;
    let mut order: Vec<usize> = (0..n).collect();
    if seed.once_in(2) {
        seed.shuffle(&mut order);
    }
    if n > 0 && seed.once_in(4) {
        let at = seed.below(n);
        order[at] = seed.below(n);
    }
    let (mut run_from, mut run_to) = (Vec::new(), Vec::new());
    for k in 0..b {
        for place in starts[k]..starts[k + 1] {
            let (mut from, mut to) = (starts[k], starts[k + 1]);
            for f in 0..d {
                let last = f + 1 == d && !seed.once_in(8);
                from = if last || seed.once_in(2) { place } else { from + seed.below(place - from + 1) };
                to = if last || seed.once_in(2) { place + 1 } else { to - seed.below(to - place) };
                run_from.push(from);
                run_to.push(to);
            }
        }
    }
    let mut padded = starts;
    padded.resize(n + 1, 0);
    let short = |numbers: &[usize]| numbers.iter().map(|x| *x as u16).collect::<Vec<u16>>();
    let mut table = with_least(&short(&[vec![n, d, b], order, padded].concat()));
    match seed.below(4) {
        0 => table[least_at(n)..].fill(0),
        1 => table[least_at(n)..].iter_mut().for_each(|number| *number = drawn_number(seed, n)),
        _ => (),
    }
    table.extend(short(&[run_from, run_to].concat()));
    assert_eq!(table.len(), table_length(n, d));
    table
}

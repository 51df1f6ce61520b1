//! Properties on drawn and on whole small spaces, each worked out another way than the program does it. Drawn lists
//! have dates or none.

use crate::cases::characters::{dated_list, drawn_header, drawn_shape, list_for, turned};
use crate::cases::shapes::{
    all_headers, all_lists, altered, as_dates, built, dated, grid, reversed, stairs, BENCH, TOP,
};
use crate::cases::tables::{damage, looks_right};
use crate::lists::{fits, independence, rules_of, scan, Rule, Shape};
use crate::lookup::{lookup, walk, Looked};
use crate::prefixes::{pairs_of, prefix_to_range};
use crate::ranges::{holds, is_void, side_of, spot_of, Range, Side, Spot};
use crate::seed::Seed;
use crate::sorting::{standing, Standing};
use crate::table::{audit, least_at, open, report, run_from_at, run_to_at, starts_at, ORDER_AT};

/// All ranges within 0 to 5, also with low > high, of dates and not.
fn small_ranges() -> Vec<Range> {
    let ends = (0..=5).flat_map(|low| (0..=5).map(move |high| (low, high)));
    ends.flat_map(|(low, high)| [false, true].map(|date| Range { low, high, date })).collect()
}

/// The largest whole number k with 2^k ≤ m.
fn k_of(m: usize) -> usize {
    let mut k = 0;
    while 1 << (k + 1) <= m {
        k += 1;
    }
    k
}

#[test]
fn lookup_is_first_match() {
    let mut seed = Seed::new(1);
    let mut found = 0;
    for _ in 0..4000 {
        let (shape, list) = dated_list(&mut seed);
        let table = built(shape, &list);
        for _ in 0..5 {
            let header = drawn_header(&mut seed, shape, &list);
            let rule = lookup(shape, &list, &table, &header).unwrap().rule;
            assert_eq!(rule, scan(shape, &list, &header).unwrap());
            found += rule.iter().count();
        }
    }
    // the draw is worth something: neither all headers hit nor all miss
    assert!(5000 < found && found < 15000, "{} of 20000 found", found);
}

#[test]
fn lookup_is_first_match_for_1024_rules() {
    let mut seed = Seed::new(2);
    for _ in 0..12 {
        let d = seed.between(1, 8);
        let shape = drawn_shape(&mut seed, d);
        let list = list_for(&mut seed, 1024, shape);
        let table = built(shape, &list);
        for _ in 0..50 {
            let header = drawn_header(&mut seed, shape, &list);
            assert_eq!(lookup(shape, &list, &table, &header).unwrap().rule, scan(shape, &list, &header).unwrap());
        }
    }
}

/// Walks every partition that has places; answers how many walks were not refused.
pub fn walks_keep_the_bound(shape: Shape, list: &[u32], table: &[u16], header: &[u32; 8]) -> usize {
    let mut walked = 0;
    if let Ok((rules, table)) = open(shape, list, table) {
        for k in 0..table.b() {
            if let Ok((s, e)) = table.partition(k) {
                if let Ok(walk) = walk(&rules, &table, header, s, e) {
                    assert!(walk.tests <= shape.d as usize + k_of(e - s));
                    assert!(walk.candidate.iter().all(|rule| fits(&rules[*rule], header)));
                    walked += 1;
                }
            }
        }
    }
    walked
}

#[test]
fn tests_are_at_most_d_plus_k_and_a_rule_returned_fits_whatever_the_table() {
    let mut seed = Seed::new(3);
    let mut walked = 0;
    for _ in 0..5000 {
        let (shape, mut list) = dated_list(&mut seed);
        let n = list.len() / (2 * shape.d as usize);
        let mut table = built(shape, &list);
        let header = drawn_header(&mut seed, shape, &list);
        walked += walks_keep_the_bound(shape, &list, &table, &header);
        // flags other than the build's
        walked += walks_keep_the_bound(drawn_shape(&mut seed, shape.d), &list, &table, &header);
        damage(&mut seed, &mut table, n);
        walked += walks_keep_the_bound(shape, &list, &table, &header);
        turned(&mut seed, &mut list);
        walked += walks_keep_the_bound(shape, &list, &looks_right(&mut seed, n, shape.d as usize), &header);
    }
    assert!(walked > 13000, "{} walked", walked);
}

#[test]
fn d_plus_k_is_reached() {
    for d in 1..=8 {
        for m in (1..=33).chain([63, 64, 65, 127, 128, 1023, 1024]) {
            let list = stairs(m, d);
            assert_eq!(
                lookup(Shape::from(d), &list, &built(d, &list), &[0; 8]),
                Ok(Looked { rule: Some(0), tests: d as usize + k_of(m), edge: true })
            );
        }
    }
}

#[test]
fn all_but_below_and_above_are_inside() {
    for range in small_ranges() {
        for number in 0..=6 {
            let side = match spot_of(range, number) {
                Spot::Below => Side::Below,
                Spot::Above => Side::Above,
                _ => Side::Inside,
            };
            assert_eq!(side, side_of(range, number));
            assert_eq!(side == Side::Inside, holds(range, number));
        }
    }
}

#[test]
fn a_range_is_void_where_it_holds_nothing() {
    for range in small_ranges() {
        assert_eq!(is_void(range), (0..=6).all(|number| !holds(range, number)));
    }
}

#[test]
fn the_edge_is_that_of_the_winners_spots() {
    let mut seed = Seed::new(14);
    let mut edges = 0;
    for _ in 0..4000 {
        let (shape, list) = dated_list(&mut seed);
        let header = drawn_header(&mut seed, shape, &list);
        let looked = lookup(shape, &list, &built(shape, &list), &header).unwrap();
        let at_end = |spot: Spot| matches!(spot, Spot::Low | Spot::High | Spot::Both);
        let rules = rules_of(shape, &list).unwrap();
        let winner = looked.rule.map_or(Vec::new(), |rule| rules[rule].clone());
        assert_eq!(looked.edge, winner.iter().enumerate().any(|(f, range)| at_end(spot_of(*range, header[f]))));
        edges += looked.edge as usize;
    }
    assert!(500 < edges && edges < 3500, "{} of 4000 at an edge", edges);
}

#[test]
fn numbers_past_d_alter_nothing() {
    let mut seed = Seed::new(4);
    for _ in 0..1000 {
        let (shape, list) = dated_list(&mut seed);
        let (d, table) = (shape.d as usize, built(shape, &list));
        let header = drawn_header(&mut seed, shape, &list);
        let mut other = [TOP; 8];
        other[..d].copy_from_slice(&header[..d]);
        assert_eq!(lookup(shape, &list, &table, &header), lookup(shape, &list, &table, &other));
        assert_eq!(scan(shape, &list, &header), scan(shape, &list, &other));
    }
}

/// The partition of each rule, read off a table place by place.
pub fn choice_of(table: &[u16], n: usize) -> Vec<usize> {
    let mut choice = vec![0; n];
    for k in 0..table[2] as usize {
        for place in table[starts_at(n) + k]..table[starts_at(n) + k + 1] {
            choice[table[ORDER_AT + place as usize] as usize] = k;
        }
    }
    choice
}

/// Rule i stands before rule j by their first `fields` fields alone.
fn before(rules: &[Rule], i: usize, j: usize, fields: usize) -> bool {
    standing(&rules[i][..fields].to_vec(), &rules[j][..fields].to_vec()) == Standing::Before
}

/// The choice is first fit: no clash within a partition, and in each lower one a clash with an earlier rule.
pub fn assert_first_fit(rules: &[Rule], choice: &[usize]) {
    let clash = |i: usize, j: usize| standing(&rules[i], &rules[j]) == Standing::Clash;
    for i in 0..rules.len() {
        assert!((0..i).all(|j| choice[j] != choice[i] || !clash(i, j)));
        assert!((0..choice[i]).all(|k| (0..i).any(|j| choice[j] == k && clash(i, j))));
    }
}

/// The table by counting alone: the place of a rule is how many rules have a lower partition, or the same and come
/// before it; run-from is that count by fields 0 to f, and run-to adds how many are alike there. A rule is its partition's
/// smallest where no lower number has the same one.
pub fn assert_counted(rules: &[Rule], d: usize, choice: &[usize], table: &[u16]) {
    let n = rules.len();
    let count = |test: &dyn Fn(usize) -> bool| (0..n).filter(|j| test(*j)).count();
    for i in 0..n {
        let lower = count(&|j| choice[j] < choice[i]);
        let same = |j: usize| choice[j] == choice[i];
        let place = lower + count(&|j| same(j) && before(rules, j, i, d));
        assert_eq!(table[ORDER_AT + place] as usize, i);
        assert_eq!(table[starts_at(n) + choice[i]] as usize, lower);
        assert_eq!(table[least_at(n) + choice[i]] as usize == i, count(&|j| j < i && same(j)) == 0);
        for f in 0..d {
            let from = lower + count(&|j| same(j) && before(rules, j, i, f + 1));
            let alike = count(&|j| same(j) && rules[j][..=f] == rules[i][..=f]);
            assert_eq!(table[run_from_at(n) + place * d + f] as usize, from);
            assert_eq!(table[run_to_at(n, d) + place * d + f] as usize, from + alike);
        }
    }
    let b = choice.iter().map(|k| k + 1).max().unwrap_or(0);
    assert_eq!(table[..3], [n as u16, d as u16, b as u16]);
    assert_eq!(table[starts_at(n) + b] as usize, n);
    assert!(table[starts_at(n) + b + 1..least_at(n)].iter().all(|x| *x == 0));
    assert!(table[least_at(n) + b..run_from_at(n)].iter().all(|x| *x == 0));
}

#[test]
fn a_built_table_is_what_counting_gives() {
    let mut seed = Seed::new(5);
    let drawn: Vec<(Shape, Vec<u32>)> = (0..1500).map(|_| dated_list(&mut seed)).collect();
    let lists = all_lists(4, 2).into_iter().enumerate();
    let small = lists.map(|(i, list)| (dated(2, i as u32 % 4), as_dates(dated(2, i as u32 % 4), &list)));
    let grids = (1..=3).map(|d| (Shape::from(d), reversed(d, &grid(d))));
    for (shape, list) in drawn.into_iter().chain(small).chain(grids) {
        let rules = rules_of(shape, &list).unwrap();
        let table = built(shape, &list);
        let choice = choice_of(&table, rules.len());
        assert_first_fit(&rules, &choice);
        assert_counted(&rules, shape.d as usize, &choice, &table);
    }
}

#[test]
fn an_audit_says_no_to_every_single_change_of_some_built_tables() {
    for (d, list) in [(2, BENCH.to_vec()), (1, vec![]), (1, stairs(5, 1)), (3, grid(3))] {
        let (shape, table) = (Shape::from(d), built(d, &list));
        assert_eq!(audit(shape, &list, &table), Ok(true));
        for other in altered(&table, list.len() / (2 * d as usize)) {
            assert_eq!(audit(shape, &list, &other), Ok(false));
        }
    }
}

#[test]
fn reports_add_up() {
    let mut seed = Seed::new(6);
    for _ in 0..500 {
        let (shape, list) = dated_list(&mut seed);
        let table = built(shape, &list);
        let n = list.len() / (2 * shape.d as usize);
        let choice = choice_of(&table, n);
        for k in 0..table[2] as u32 {
            let members: Vec<usize> = (0..n).filter(|i| choice[*i] == k as usize).collect();
            assert_eq!(report(shape, &list, &table, k), Ok((members.len(), members[0])));
        }
    }
}

#[test]
fn twins_take_two_partitions() {
    assert_eq!(built(1, &[7, 7, 7, 7])[2], 2);
}

#[test]
fn independence_is_what_all_headers_say() {
    let spaces = [
        (Shape::from(1), all_lists(3, 2), all_headers(1, 2)),
        (Shape::from(2), all_lists(4, 2), all_headers(2, 2)),
        (Shape::from(1), all_lists(2, 4), all_headers(1, 4)),
        (dated(1, 1), all_lists(3, 2), all_headers(1, 3)),
        (dated(2, 1), all_lists(4, 1), all_headers(2, 2)),
        (dated(2, 2), all_lists(4, 1), all_headers(2, 2)),
        (dated(2, 3), all_lists(4, 2), all_headers(2, 3)),
    ];
    for (shape, lists, headers) in spaces {
        for list in lists {
            let list = as_dates(shape, &list);
            let rules = rules_of(shape, &list).unwrap();
            let meet = |i: usize, j: usize| headers.iter().any(|h| fits(&rules[i], h) && fits(&rules[j], h));
            let pairs = (0..rules.len()).flat_map(|i| (i + 1..rules.len()).map(move |j| (i, j)));
            let first = pairs.into_iter().find(|(i, j)| meet(*i, *j));
            assert_eq!(independence(shape, &list), Ok(first));
        }
    }
}

/// The blocks follow each other from low to high, and none could be larger.
fn assert_blocks(low: u32, high: u32, width: u32) {
    let pairs = pairs_of(low, high, width);
    let mut next = low as u64;
    for (value, length) in &pairs {
        assert_eq!(*value as u64, next);
        let (first, last) = prefix_to_range(*value, *length, width).unwrap();
        assert_eq!(first as u64, next);
        assert!(last <= high);
        // a prefix one bit shorter is none, or leaves the range
        if *length > 0 {
            assert!(prefix_to_range(*value, *length - 1, width).map_or(true, |(_, end)| end > high));
        }
        next = last as u64 + 1;
    }
    assert_eq!(next, high as u64 + 1);
    assert!(pairs.len() <= if width == 1 { 1 } else { 2 * width as usize - 2 });
}

#[test]
fn blocks_of_all_small_ranges() {
    for width in 1..=8 {
        for low in 0..1 << width {
            for high in low..1 << width {
                assert_blocks(low, high, width);
            }
        }
    }
}

#[test]
fn blocks_of_drawn_ranges() {
    let mut seed = Seed::new(7);
    for _ in 0..5000 {
        let (a, b) = (seed.any(), seed.any());
        assert_blocks(a.min(b), a.max(b), 32);
    }
    for width in 2..=32 {
        let top = ((1u64 << width) - 1) as u32;
        assert_blocks(1, top - 1, width);
        assert_eq!(pairs_of(1, top - 1, width).len(), 2 * width as usize - 2);
    }
}

//! 02, W5: each partition's smallest rule number. Where the parts of a table stand; a lookup is held to the search of all
//! partitions, which skips none, and to its visits worked out beforehand; what is skipped is not read; a report is its
//! starts and its stored number.

use crate::calls::{answer, MOST_TABLE};
use crate::cases::characters::{dated_list, drawn_header, turned};
use crate::cases::lookup::{MARKED, WORKED};
use crate::cases::shapes::{
    all_choices, all_headers, all_lists, as_dates, built, dated, header_of, laid, rules_in, with, BENCH,
};
use crate::cases::tables::{damage, drawn_choice, looks_right};
use crate::lists::{fits, rules_of, scan, Header, Shape};
use crate::lookup::{lookup, walk, Looked, Walked};
use crate::refusal::{refuse, Refusal};
use crate::seed::Seed;
use crate::table::{least_at, open, report, run_from_at, run_to_at, starts_at, table_length, ORDER_AT};

#[test]
fn lines_that_were_worked_by_hand() {
    for (line, said) in WORKED {
        assert_eq!(answer(line.as_bytes()), said, "{}", line);
    }
}

#[test]
fn the_parts_fill_a_table_and_a_line_holds_the_longest() {
    for n in (0..40).chain([1023, 1024]) {
        for d in 1..=8 {
            assert_eq!([ORDER_AT, starts_at(n), least_at(n)], [3, 3 + n, 4 + 2 * n]);
            assert_eq!([run_from_at(n), run_to_at(n, d)], [4 + 3 * n, 4 + 3 * n + n * d]);
            assert_eq!(table_length(n, d), run_to_at(n, d) + n * d);
        }
    }
    assert_eq!((table_length(5, 2), table_length(1024, 8), MOST_TABLE), (39, 19460, 19500));
}

/// A rule or none, and the tests; or a refusal.
type Answer = Result<(Option<usize>, usize), Refusal>;

/// What each partition answers by itself, whatever the others do and whatever is stored.
fn walks(shape: Shape, list: &[u32], table: &[u16], header: &Header) -> Result<Vec<Result<Walked, Refusal>>, Refusal> {
    let (rules, table) = open(shape, list, table)?;
    let of_partition = |k: usize| {
        let (s, e) = table.partition(k)?;
        walk(&rules, &table, header, s, e)
    };
    Ok((0..table.b()).map(of_partition).collect())
}

/// 01, The walk: the search of all partitions. The smallest candidate, or none, and the sum of the tests; 6 where any
/// partition is broken.
fn search_of_all(shape: Shape, list: &[u32], table: &[u16], header: &Header) -> Answer {
    let walked: Vec<Walked> = walks(shape, list, table, header)?.into_iter().collect::<Result<_, _>>()?;
    let candidates = walked.iter().filter_map(|walked| walked.candidate);
    Ok((candidates.min(), walked.iter().map(|walked| walked.tests).sum()))
}

/// Which partitions a lookup visits: those before which none is visited whose candidate is smaller than their number.
fn visits(walks: &[Result<Walked, Refusal>], least: &[u16]) -> Vec<bool> {
    let mut visited: Vec<bool> = Vec::new();
    for k in 0..walks.len() {
        let candidate = |j: usize| walks[j].as_ref().ok().and_then(|walked| walked.candidate);
        let better = |j: usize| visited[j] && candidate(j).map_or(false, |rule| rule < least[k] as usize);
        visited.push(!(0..k).any(better));
    }
    visited
}

/// What a lookup answers, without its edge.
fn looked(shape: Shape, list: &[u32], table: &[u16], header: &Header) -> Answer {
    lookup(shape, list, table, header).map(|Looked { rule, tests, .. }| (rule, tests))
}

/// The same match as the search of all partitions, in no more tests. Answers how many fewer.
fn tests_saved(shape: Shape, list: &[u32], table: &[u16], header: &Header) -> usize {
    let (rule, tests) = looked(shape, list, table, header).unwrap();
    let (same, all) = search_of_all(shape, list, table, header).unwrap();
    assert_eq!(rule, same, "{:?} under {:?} in {:?}", header, list, table);
    assert!(tests <= all, "{:?} under {:?} in {:?}", header, list, table);
    all - tests
}

#[test]
fn same_match_in_no_more_tests_than_the_search_of_all_partitions() {
    let mut seed = Seed::new(28);
    let mut fewer = 0;
    for _ in 0..4000 {
        let (shape, list) = dated_list(&mut seed);
        for table in [built(shape, &list), laid(shape, &list, &drawn_choice(&mut seed, shape, &list))] {
            let header = drawn_header(&mut seed, shape, &list);
            fewer += (tests_saved(shape, &list, &table, &header) > 0) as usize;
        }
    }
    assert!(1000 < fewer && fewer < 7000, "{} of 8000 with fewer tests", fewer);
}

#[test]
fn same_match_in_no_more_tests_under_every_choice_of_small_lists() {
    let one = all_lists(3, 2).into_iter().enumerate().map(|(i, list)| (dated(1, i as u32 % 2), list));
    let two = all_lists(4, 1).into_iter().enumerate().map(|(i, list)| (dated(2, i as u32 % 4), list));
    let mut fewer = 0;
    for (shape, list) in one.chain(two) {
        let list = as_dates(shape, &list);
        for table in all_choices(shape, &list).iter().map(|run| laid(shape, &list, run)) {
            for header in all_headers(shape.d, 3) {
                fewer += (tests_saved(shape, &list, &table, &header) > 0) as usize;
            }
        }
    }
    assert!(fewer > 1000, "{} with fewer tests", fewer);
}

#[test]
fn the_bench_list_has_fewer_tests_than_01_has() {
    let table = built(2, &BENCH);
    let saved = MARKED.map(|numbers| tests_saved(Shape::from(2), &BENCH, &table, &header_of(&numbers, 0)));
    assert_eq!(saved, [4, 4, 2, 3, 0, 0, 0]);
}

/// A drawn list and header, and a table for them: of a choice, damaged or not, with any stored numbers, or one that was
/// never built; now and then under a list with ends turned around.
fn drawn_call(seed: &mut Seed) -> (Shape, Vec<u32>, Vec<u16>, Header) {
    let (shape, mut list) = dated_list(seed);
    let n = rules_in(shape, &list);
    let mut table = laid(shape, &list, &drawn_choice(seed, shape, &list));
    match seed.below(4) {
        0 => damage(seed, &mut table, n),
        1 => any_least(seed, &mut table, n),
        2 => table = looks_right(seed, n, shape.d as usize),
        _ => (),
    }
    if seed.once_in(4) {
        turned(seed, &mut list);
    }
    let header = drawn_header(seed, shape, &list);
    (shape, list, table, header)
}

/// Writes any numbers over the stored ones: small ones, n, and such as are past it.
fn any_least(seed: &mut Seed, table: &mut [u16], n: usize) {
    for number in &mut table[least_at(n)..run_from_at(n)] {
        *number = if seed.once_in(4) { seed.next() as u16 } else { seed.below(n + 2) as u16 };
    }
}

#[test]
fn a_lookup_over_any_table_is_what_its_visits_answer() {
    let mut seed = Seed::new(29);
    let mut said = [0; 3];
    for _ in 0..20000 {
        let (shape, list, table, header) = drawn_call(&mut seed);
        let n = rules_in(shape, &list);
        let answer = looked(shape, &list, &table, &header);
        let walks = match walks(shape, &list, &table, &header) {
            Ok(walks) => walks,
            Err(refusal) => {
                assert_eq!(answer, Err(refusal));
                continue;
            }
        };
        let visited = visits(&walks, &table[least_at(n)..run_from_at(n)]);
        let of_visited: Vec<&Result<Walked, Refusal>> =
            (0..walks.len()).filter(|k| visited[*k]).map(|k| &walks[k]).collect();
        if of_visited.iter().any(|walk| walk.is_err()) {
            assert_eq!(answer, Err(refuse(6)));
            said[0] += 1;
            continue;
        }
        let fine: Vec<&Walked> = of_visited.iter().filter_map(|walk| walk.as_ref().ok()).collect();
        let tests = fine.iter().map(|walked| walked.tests).sum();
        assert_eq!(answer, Ok((fine.iter().filter_map(|walked| walked.candidate).min(), tests)));
        said[1] += 1;
        // a broken partition that is skipped refuses nothing
        said[2] += walks.iter().any(|walk| walk.is_err()) as usize;
    }
    assert!(said[0] > 500 && said[1] > 5000 && said[2] > 50, "{:?}", said);
}

#[test]
fn stored_zeros_make_any_lookup_the_search_of_all_partitions() {
    let mut seed = Seed::new(30);
    for _ in 0..10000 {
        let (shape, list, mut table, header) = drawn_call(&mut seed);
        let n = rules_in(shape, &list);
        table[least_at(n)..run_from_at(n)].fill(0);
        assert_eq!(looked(shape, &list, &table, &header), search_of_all(shape, &list, &table, &header));
    }
}

#[test]
fn what_is_skipped_is_not_read() {
    let mut seed = Seed::new(31);
    let mut skipped = 0;
    for _ in 0..10000 {
        let (shape, list, table, header) = drawn_call(&mut seed);
        let (n, d) = (rules_in(shape, &list), shape.d as usize);
        let Ok(walks) = walks(shape, &list, &table, &header) else { continue };
        let visited = visits(&walks, &table[least_at(n)..run_from_at(n)]);
        let start = |k: usize| table[starts_at(n) + k] as usize;
        // else a place may be that of two partitions, of which one is visited
        let apart = (0..walks.len()).all(|k| start(k) < start(k + 1));
        let mut other = table.clone();
        for k in (0..walks.len()).filter(|k| !visited[*k]) {
            if apart {
                other[ORDER_AT + start(k)..ORDER_AT + start(k + 1)].fill(65535);
                other[run_from_at(n) + start(k) * d..run_from_at(n) + start(k + 1) * d].fill(65535);
                other[run_to_at(n, d) + start(k) * d..run_to_at(n, d) + start(k + 1) * d].fill(65535);
                skipped += 1;
            }
            // a start between two that are skipped
            if !visited[k - 1] {
                other[starts_at(n) + k] = 65535;
            }
        }
        assert_eq!(lookup(shape, &list, &table, &header), lookup(shape, &list, &other, &header));
    }
    assert!(skipped > 3000, "{} skipped", skipped);
}

#[test]
fn before_the_first_candidate_no_stored_number_is_read_nor_past_b() {
    let mut seed = Seed::new(32);
    for _ in 0..10000 {
        let (shape, list, table, header) = drawn_call(&mut seed);
        let n = rules_in(shape, &list);
        let Ok(walks) = walks(shape, &list, &table, &header) else { continue };
        let hit = |walk: &Result<Walked, Refusal>| walk.as_ref().map_or(false, |walked| walked.candidate.is_some());
        let first = walks.iter().position(hit).map_or(walks.len(), |k| k + 1);
        let mut other = table.clone();
        for k in (0..first).chain(walks.len()..n) {
            other[least_at(n) + k] = seed.pick(&[0, n as u16, n as u16 + 1, 65535]);
        }
        assert_eq!(lookup(shape, &list, &table, &header), lookup(shape, &list, &other, &header));
    }
}

#[test]
fn a_wrong_stored_number_may_hide_a_rule_and_never_finds_one_that_does_not_fit() {
    let mut seed = Seed::new(33);
    let (mut hidden, mut same) = (0, 0);
    for _ in 0..5000 {
        let (shape, list) = dated_list(&mut seed);
        let mut table = laid(shape, &list, &drawn_choice(&mut seed, shape, &list));
        any_least(&mut seed, &mut table, rules_in(shape, &list));
        let header = drawn_header(&mut seed, shape, &list);
        // no stored number refuses
        let (rule, _) = looked(shape, &list, &table, &header).unwrap();
        let first = scan(shape, &list, &header).unwrap();
        assert_eq!(rule.is_some(), first.is_some());
        if let (Some(rule), Some(first)) = (rule, first) {
            assert!(fits(&rules_of(shape, &list).unwrap()[rule], &header) && first <= rule);
            hidden += (first < rule) as usize;
            same += (first == rule) as usize;
        }
    }
    assert!(hidden > 100 && same > 1000, "{} hidden and {} not", hidden, same);
}

#[test]
fn a_report_is_its_starts_and_its_stored_number() {
    let mut seed = Seed::new(34);
    let mut said = [0; 2];
    for _ in 0..10000 {
        let (shape, list, mut table, _) = drawn_call(&mut seed);
        let n = rules_in(shape, &list);
        if open(shape, &list, &table).is_err() {
            continue;
        }
        for k in 0..table[2] as usize {
            let [start, next] = [k, k + 1].map(|k| table[starts_at(n) + k] as usize);
            let least = table[least_at(n) + k] as usize;
            let stands = start < next && next <= n && least < n;
            let answer = report(shape, &list, &table, k as u32);
            assert_eq!(answer, if stands { Ok((next - start, least)) } else { Err(refuse(6)) });
            said[stands as usize] += 1;
        }
        // no place is read
        let b = table[2] as u32;
        let answers: Vec<_> = (0..=b).map(|k| report(shape, &list, &table, k)).collect();
        table[ORDER_AT..starts_at(n)].fill(65535);
        table[run_from_at(n)..].fill(65535);
        assert_eq!((0..=b).map(|k| report(shape, &list, &table, k)).collect::<Vec<_>>(), answers);
        assert_eq!(answers[b as usize], Err(refuse(7)));
    }
    assert!(said[0] > 500 && said[1] > 5000, "{:?}", said);
}

#[test]
fn stored_numbers_0_n_and_65535() {
    let (one, list) = (Shape::from(1), [0, 9, 0, 9, 0, 9]);
    let (table, header) = (laid(1, &list, &[2, 0, 1]), [5; 8]);
    for k in 0..3 {
        for (number, said) in [(0, Ok((1, 0))), (2, Ok((1, 2))), (3, Err(refuse(6))), (65535, Err(refuse(6)))] {
            let other = with(&table, least_at(3) + k, number);
            assert_eq!(report(one, &list, &other, k as u32), said);
            // partition 1 alone is skipped, unless its number is 0; partition 2 too where its number is more than 1
            let looked = looked(one, &list, &other, &header);
            let said = match (k, number) {
                (1, 0) => (Some(0), 3),
                (2, 2..) => (Some(1), 1),
                _ => (Some(0), 2),
            };
            assert_eq!(looked, Ok(said), "{} at {}", number, k);
        }
    }
}

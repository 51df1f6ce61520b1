//! 02, W4: choices of partitions. Runs are refused as another count says; first fit is a choice; the table of any choice is
//! what counting gives, is looked up in as the plain scan, and gives the run back; the audit is held to trying all runs.

use std::collections::BTreeSet;

use super::properties::{assert_counted, assert_first_fit, choice_of, walks_keep_the_bound};
use crate::calls::answer;
use crate::cases::characters::{dated_list, drawn_header, spoiled_list};
use crate::cases::choices::{call_with, renumbered, WORKED};
use crate::cases::shapes::{
    all_choices, all_lists, all_runs, as_dates, built, chain, dated, filled, grid, laid, nested, reversed, rules_in,
    stairs, twins, unwritten, with, ALL, BENCH,
};
use crate::cases::tables::{drawn_choice, spoiled_run, with_least};
use crate::choices::choose;
use crate::lists::{check, rules_of, scan, Rule, Shape};
use crate::lookup::lookup;
use crate::ranges::holds;
use crate::refusal::{refuse, Refusal};
use crate::seed::Seed;
use crate::table::{
    audit, build, lay_out, least_at, open, run_from_at, run_off, run_to_at, starts_at, table_length, ORDER_AT,
};

#[test]
fn lines_that_were_worked_by_hand() {
    for (line, said) in WORKED {
        assert_eq!(answer(line.as_bytes()), said, "{}", line);
    }
}

/// Lists of few rules on one field and on two, with dates and without.
fn small_lists() -> Vec<(Shape, Vec<u32>)> {
    let one = (0..=3).flat_map(|n| all_lists(n, 2)).map(|list| (1, list));
    let two = (0..=2).flat_map(|n| all_lists(2 * n, 1)).map(|list| (2, list));
    let with_dates = |(i, (d, list)): (usize, (u32, Vec<u32>))| {
        let shape = dated(d, i as u32 % (1 << d));
        (shape, as_dates(shape, &list))
    };
    one.chain(two).enumerate().map(with_dates).collect()
}

/// Two rules of a small space clash: they are twins, or in the first field in which they are not alike some number lies in
/// both.
fn clash(a: &Rule, b: &Rule) -> bool {
    let apart = a.iter().zip(b).find(|(x, y)| x.low != y.low || x.high != y.high);
    apart.map_or(true, |(x, y)| (0..=9).any(|number| holds(*x, number) && holds(*y, number)))
}

/// What the laying out answers to a run, by its numbers sorted and by all pairs of rules.
fn answer_to(rules: &[Rule], run: &[u16]) -> Result<usize, Refusal> {
    let n = rules.len();
    let mut used = run.to_vec();
    used.sort();
    used.dedup();
    if run.len() != n {
        return Err(refuse(15));
    }
    if used.last().map_or(false, |largest| *largest as usize > n - 1) {
        return Err(refuse(16));
    }
    if used.iter().enumerate().any(|(i, k)| i != *k as usize) {
        return Err(refuse(17));
    }
    if (0..n).any(|i| (0..i).any(|j| run[i] == run[j] && clash(&rules[i], &rules[j]))) {
        return Err(refuse(18));
    }
    Ok(used.len())
}

#[test]
fn a_run_is_refused_where_its_numbers_sorted_and_all_pairs_say_so() {
    let mut said = BTreeSet::new();
    for (shape, list) in small_lists() {
        let (n, rules) = (rules_in(shape, &list), rules_of(shape, &list).unwrap());
        for run in (0..n + 2).flat_map(|length| all_runs(length, n as u16 + 1)) {
            let mut table = unwritten(n, shape.d);
            let answer = lay_out(shape, &list, &run, &mut table);
            assert_eq!(answer, answer_to(&rules, &run), "{:?} under {:?} for {:?}", list, shape, run);
            // a refused call leaves the table, and one that is not writes every number of it
            assert_eq!(table == unwritten(n, shape.d), answer.is_err());
            if answer.is_ok() {
                assert_eq!(table, laid(shape, &list, &run));
            }
            said.insert(answer.map_or_else(|refusal| refusal.number, |_| 0));
        }
    }
    assert_eq!(said, [0, 15, 16, 17, 18].into());
}

#[test]
fn the_first_of_the_refusals_that_apply_is_given() {
    let numbers = [1, 2, 3, 4, 5, 15, 16, 17, 18];
    for bits in 0..512 {
        let faults: Vec<u32> = (0..9).filter(|i| bits >> i & 1 == 1).map(|i| numbers[i]).collect();
        let (d, list, mut run, mut table) = call_with(&faults);
        let (lent_run, lent_table) = (run.clone(), table.clone());
        let laid_out = lay_out(Shape::from(d), &list, &run, &mut table);
        assert_eq!(laid_out, faults.first().map_or(Ok(2), |number| Err(refuse(*number))), "{:?}", faults);
        assert_eq!(table == lent_table, laid_out.is_err());
        // the choosing is lent no table, and reads no number of the run
        let first = faults.iter().find(|number| [1, 2, 3, 4, 15].contains(*number));
        let chosen = choose(Shape::from(d), &list, &mut run);
        assert_eq!(chosen, first.map_or(Ok(2), |number| Err(refuse(*number))), "{:?}", faults);
        assert_eq!(run, if chosen.is_ok() { vec![0, 1, 0] } else { lent_run });
    }
}

#[test]
fn no_rules_have_the_empty_run_alone() {
    for d in 1..=8 {
        for shape in [Shape::from(d), dated(d, ALL)] {
            let mut table = [7; 4];
            assert_eq!(choose(shape, &[], &mut []), Ok(0));
            assert_eq!(lay_out(shape, &[], &[], &mut table), Ok(0));
            assert_eq!(table, [0, d as u16, 0, 0]);
            assert_eq!(choose(shape, &[], &mut [7]), Err(refuse(15)));
            assert_eq!(lay_out(shape, &[], &[0], &mut table), Err(refuse(15)));
        }
    }
}

/// The choosing and the laying out in turn, into a run of the right length; the choice is first fit.
fn in_turn(shape: Shape, list: &[u32], table: &mut [u16]) -> Result<usize, Refusal> {
    let mut run = filled(check(shape, list)?);
    let b = choose(shape, list, &mut run)?;
    let laid_out = lay_out(shape, list, &run, table)?;
    assert_eq!(b, laid_out);
    let numbers: Vec<usize> = run.iter().map(|k| *k as usize).collect();
    assert_first_fit(&rules_of(shape, list).unwrap(), &numbers);
    Ok(b)
}

#[test]
fn choosing_and_laying_out_in_turn_is_the_build() {
    let mut seed = Seed::new(21);
    let mut refused = 0;
    for i in 0..4000 {
        let (mut shape, mut list) = dated_list(&mut seed);
        let mut table = unwritten(rules_in(shape, &list), shape.d);
        if i % 3 == 0 {
            spoiled_list(&mut seed, &mut shape, &mut list);
        }
        let mut other = table.clone();
        let answer = build(shape, &list, &mut table);
        assert_eq!(answer, in_turn(shape, &list, &mut other));
        assert_eq!(table, other);
        refused += answer.is_err() as usize;
    }
    assert!(300 < refused && refused < 1300, "{} refused", refused);
}

/// The table of a choice is what counting gives, gives the run back, and is audited yes.
fn assert_laid(shape: Shape, list: &[u32], run: &[u16]) {
    let (n, rules) = (rules_in(shape, list), rules_of(shape, list).unwrap());
    let mut table = unwritten(n, shape.d);
    let b = lay_out(shape, list, run, &mut table).unwrap();
    assert_eq!(table[2] as usize, b);
    let numbers: Vec<usize> = run.iter().map(|k| *k as usize).collect();
    assert_counted(&rules, shape.d as usize, &numbers, &table);
    assert_eq!(choice_of(&table, n), numbers);
    assert_eq!(run_off(&open(shape, list, &table).unwrap().1), Some(run.to_vec()));
    assert_eq!(audit(shape, list, &table), Ok(true));
}

#[test]
fn the_run_read_off_a_laid_table_is_the_run() {
    let mut seed = Seed::new(22);
    let mut other_than_first_fit = 0;
    for _ in 0..2000 {
        let (shape, list) = dated_list(&mut seed);
        let run = drawn_choice(&mut seed, shape, &list);
        assert_laid(shape, &list, &run);
        assert_laid(shape, &list, &renumbered(&run));
        other_than_first_fit += (built(shape, &list) != laid(shape, &list, &run)) as usize;
    }
    assert!(other_than_first_fit > 1000, "{}", other_than_first_fit);
    for (shape, list) in small_lists() {
        for run in all_choices(shape, &list) {
            assert_laid(shape, &list, &run);
        }
    }
}

#[test]
fn lookup_over_a_brought_choice_is_first_match_within_d_plus_k() {
    let mut seed = Seed::new(23);
    let mut found = 0;
    for _ in 0..3000 {
        let (shape, list) = dated_list(&mut seed);
        let table = laid(shape, &list, &drawn_choice(&mut seed, shape, &list));
        for _ in 0..4 {
            let header = drawn_header(&mut seed, shape, &list);
            let rule = lookup(shape, &list, &table, &header).unwrap().rule;
            assert_eq!(rule, scan(shape, &list, &header).unwrap());
            assert_eq!(walks_keep_the_bound(shape, &list, &table, &header), table[2] as usize);
            found += rule.iter().count();
        }
    }
    assert!(3000 < found && found < 9000, "{} of 12000 found", found);
}

#[test]
fn spoiled_runs_are_refused_in_every_way_and_some_stand() {
    let mut seed = Seed::new(24);
    let mut said = BTreeSet::new();
    for _ in 0..2000 {
        let (shape, list) = dated_list(&mut seed);
        let mut run = drawn_choice(&mut seed, shape, &list);
        spoiled_run(&mut seed, &mut run);
        let answer = lay_out(shape, &list, &run, &mut unwritten(rules_in(shape, &list), shape.d));
        said.insert(answer.map_or_else(|refusal| refusal.number, |_| 0));
    }
    assert_eq!(said, [0, 15, 16, 17, 18].into());
}

/// Every table that some run makes the laying out write; a run of another length than n is refused.
fn written(shape: Shape, list: &[u32]) -> BTreeSet<Vec<u16>> {
    let n = rules_in(shape, list);
    let mut tables = BTreeSet::new();
    for run in all_runs(n, n as u16) {
        let mut table = unwritten(n, shape.d);
        if lay_out(shape, list, &run, &mut table).is_ok() {
            tables.insert(table);
        }
    }
    tables
}

/// Tables near to one of n rules: each number altered to every one up to n + 1 and to 65535, and each two numbers swapped.
fn near(table: &[u16], n: usize) -> Vec<Vec<u16>> {
    let mut tables = Vec::new();
    for i in 0..table.len() {
        tables.extend((0..n as u16 + 2).chain([65535]).map(|number| with(table, i, number)));
        for j in 0..i {
            let mut other = table.to_vec();
            other.swap(i, j);
            tables.push(other);
        }
    }
    tables
}

/// One table with a part of another: each table up to where its order, starts, smallest numbers, run-from or run-to begins.
fn joined(one: &[u16], other: &[u16], n: usize, d: usize) -> [Vec<u16>; 5] {
    let cuts = [ORDER_AT, starts_at(n), least_at(n), run_from_at(n), run_to_at(n, d)];
    cuts.map(|cut| [&one[..cut], &other[cut..]].concat())
}

/// The audit says yes to exactly the tables that some run makes the laying out write: those of this list, tables near to
/// each, and parts of each two joined. Answers how many were tried.
fn assert_audited(shape: Shape, list: &[u32]) -> usize {
    let (n, d, written) = (rules_in(shape, list), shape.d as usize, written(shape, list));
    let mut tried = 0;
    let mut hold = |table: &[u16]| {
        let said = audit(shape, list, table);
        assert_eq!(said, Ok(written.contains(table)), "{:?} under {:?}: {:?}", list, shape, table);
        tried += 1;
    };
    for table in &written {
        hold(table);
        for other in near(table, n) {
            hold(&other);
        }
        for other in &written {
            for parts in joined(table, other, n, d) {
                hold(&parts);
            }
        }
    }
    tried
}

#[test]
fn the_audit_is_what_trying_all_runs_says_near_the_tables_of_small_lists() {
    let four = all_lists(4, 2).into_iter().step_by(43).enumerate();
    let four = four.map(|(i, list)| (dated(1, i as u32 % 2), as_dates(dated(1, i as u32 % 2), &list)));
    let three = all_lists(6, 1).into_iter().step_by(23).enumerate();
    let three = three.map(|(i, list)| (dated(2, i as u32 % 4), as_dates(dated(2, i as u32 % 4), &list)));
    let some = [
        (Shape::from(1), stairs(4, 1)),
        (Shape::from(1), twins(4, 1)),
        (Shape::from(1), nested(4, 1)),
        (Shape::from(1), vec![0, 5, 3, 9, 6, 9, 0, 9]),
        (dated(1, 1), reversed(1, &chain(4, 1))),
        (Shape::from(2), grid(2)),
        (dated(2, 2), as_dates(dated(2, 2), &reversed(2, &grid(2)))),
        (Shape::from(2), BENCH[..16].to_vec()),
    ];
    let mut tried = 0;
    for (shape, list) in small_lists().into_iter().chain(three).chain(four).chain(some) {
        tried += assert_audited(shape, &list);
    }
    assert!(tried > 500_000, "{} tried", tried);
}

/// The audit of these tables is what trying all runs says; answers how many are yes.
fn audited(shape: Shape, list: &[u32], tables: impl Iterator<Item = Vec<u16>>) -> usize {
    let written = written(shape, list);
    let mut yes = 0;
    for table in tables {
        let said = audit(shape, list, &table).unwrap();
        assert_eq!(said, written.contains(&table), "{:?}: {:?}", list, table);
        yes += said as usize;
    }
    yes
}

#[test]
fn the_audit_of_all_tables_of_small_numbers_is_what_trying_all_runs_says() {
    // no rule and one: every number is 0 to 3, or 0 to 2
    assert_eq!(audited(Shape::from(2), &[], all_runs(4, 3).into_iter()), 1);
    assert_eq!(audited(Shape::from(1), &[4, 6], all_runs(9, 2).into_iter()), 1);
    // two rules: n and d stand, and every other number is 0 to 2
    for (list, yes) in [([1, 1, 3, 3], 3), ([3, 3, 1, 1], 3), ([7, 7, 7, 7], 2), ([0, 5, 3, 9], 2)] {
        let tables = all_runs(12, 2).into_iter().map(|numbers| [&[2, 1], &numbers[..]].concat());
        assert_eq!(audited(Shape::from(1), &list, tables), yes);
    }
    // three rules: all numbers of partitions, orders and starts of 0 to 3, and the runs that every choice has; the smallest
    // numbers that the rest calls for, and for each choice all of 0 to 3
    for (list, yes) in [(stairs(3, 1), 13), (vec![0, 5, 3, 9, 6, 9], 8), (twins(3, 1), 6)] {
        let runs = [0, 1, 2, 1, 2, 3];
        let head = |numbers: Vec<u16>| with_least(&[&[3, 1], &numbers[..]].concat());
        let tables = all_runs(8, 3).into_iter().map(|numbers| [&head(numbers)[..], &runs].concat());
        assert_eq!(audited(Shape::from(1), &list, tables), yes);
        let head = |run: Vec<u16>| laid(1, &list, &run)[..least_at(3)].to_vec();
        let heads: Vec<Vec<u16>> = all_choices(1, &list).into_iter().map(head).collect();
        let with_all =
            |least: Vec<u16>| heads.iter().map(|head| [&head[..], &least, &runs].concat()).collect::<Vec<_>>();
        assert_eq!(audited(Shape::from(1), &list, all_runs(3, 3).into_iter().flat_map(with_all)), yes);
    }
}

#[test]
fn the_audit_under_other_lists_is_what_trying_all_runs_says() {
    let spaces = [(Shape::from(1), all_lists(3, 2)), (dated(1, 1), all_lists(3, 2)), (Shape::from(2), all_lists(4, 1))];
    for (shape, lists) in spaces {
        let lists: Vec<Vec<u32>> = lists.iter().map(|list| as_dates(shape, list)).collect();
        // every table that some list of the space has, tried under each of them
        let all: BTreeSet<Vec<u16>> = lists.iter().flat_map(|list| written(shape, list)).collect();
        for list in &lists {
            let yes = audited(shape, list, all.iter().cloned());
            assert_eq!(yes, all_choices(shape, list).len());
        }
    }
}

#[test]
fn a_start_may_move_to_another_choice() {
    let (one, starts, least) = (Shape::from(1), starts_at(3), least_at(3));
    // the rule that goes over to partition 0 is the smallest of neither
    let list = [0, 1, 4, 5, 2, 3];
    let (table, moved) = (laid(1, &list, &[0, 1, 1]), laid(1, &list, &[0, 1, 0]));
    assert_eq!(with(&table, starts + 1, 2), moved);
    assert_eq!((audit(one, &list, &table), audit(one, &list, &moved)), (Ok(true), Ok(true)));
    // here it was partition 1's smallest, whose number moves with it
    let list = stairs(3, 1);
    let moved = with(&laid(1, &list, &[0, 1, 1]), starts + 1, 2);
    assert_eq!(audit(one, &list, &moved), Ok(false));
    let moved = with(&moved, least + 1, 2);
    assert_eq!(moved, laid(1, &list, &[0, 0, 1]));
    assert_eq!(audit(one, &list, &moved), Ok(true));
    // the rules of places 1 and 2 are not in order here, so the start between them stays
    let list = reversed(1, &list);
    let table = laid(1, &list, &[0, 1, 2]);
    assert_eq!(audit(one, &list, &table), Ok(true));
    let head = [3, 1, 2, 0, 1, 2, 0, 1, 3, 0];
    assert_eq!(audit(one, &list, &[&with_least(&head)[..], &table[run_from_at(3)..]].concat()), Ok(false));
}

#[test]
fn an_audit_never_says_6_and_gives_1_to_5_alone() {
    let mut seed = Seed::new(25);
    let mut said = BTreeSet::new();
    for _ in 0..20000 {
        let (mut shape, mut list) = dated_list(&mut seed);
        let n = rules_in(shape, &list);
        let mut table: Vec<u16> = (0..table_length(n, shape.d as usize))
            .map(|_| if seed.once_in(4) { seed.next() as u16 } else { seed.below(n + 2) as u16 })
            .collect();
        match seed.below(4) {
            0 => spoiled_list(&mut seed, &mut shape, &mut list),
            1 => drop(table.pop()),
            _ => (table[0], table[1]) = (n as u16, shape.d as u16),
        }
        said.insert(audit(shape, &list, &table).map_or_else(|refusal| refusal.number, |_| 0));
    }
    assert_eq!(said, [0, 1, 2, 3, 4, 5].into());
}

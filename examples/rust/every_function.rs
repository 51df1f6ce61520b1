//! Calls every function of the wrapper on 01's worked cases and on inputs that it refuses, and prints each answer: what is
//! answered, or refused, the number and the place. Prints what `examples/c/every_function.c` prints. No field is a date here;
//! `due_date.rs` has dates.
mod cuyenalot;

use cuyenalot::*;

const FIELDS: usize = 2;
const SHAPE: Shape = Shape::of(FIELDS);
const NUMBERS: usize = 20;
const TABLE: usize = table_length(5, FIELDS);

/// Where a table has its first rule number, after n, d and b; and the first partition's smallest, after n + 1 starts.
const ORDER: usize = 3;
const LEAST: usize = ORDER + 5 + 6;

/// The bench list.
const BENCH: [u32; NUMBERS] = [7, 7, 100, 100, 7, 7, 200, 299, 8, 8, 0, 999, 7, 7, 0, 999, 0, 9, 0, 999];

/// The same, but for rule 3, whose range in field 1 is 9-3.
const CROSSED: [u32; NUMBERS] = [7, 7, 100, 100, 7, 7, 200, 299, 8, 8, 0, 999, 7, 7, 9, 3, 0, 9, 0, 999];

/// 1,025 rules of one field.
const MANY: [u32; 2 * 1025] = [0; 2 * 1025];

const B4: Header = [7, 150, 0, 0, 0, 0, 0, 0];
const B7: Header = [10, 0, 0, 0, 0, 0, 0, 0];

/// Between the ends of rule 4 in both fields.
const PLAIN: Header = [5, 5, 0, 0, 0, 0, 0, 0];

/// Prints a line: what was called, and the numbers that it answered or its refusal.
fn say<const K: usize>(what: &str, answer: Result<[usize; K], Refusal>) {
    match answer {
        Ok(numbers) => println!("{}:{}", what, listed(&numbers)),
        Err(refusal) => println!("{}: refused {} at {} then {}", what, refusal.number, refusal.at, refusal.then),
    }
}

/// Numbers with a space before each.
fn listed<T: ToString>(numbers: &[T]) -> String {
    numbers.iter().map(|number| " ".to_string() + &number.to_string()).collect()
}

/// A match as the C functions answer one: 1 and the rule number, or 0 and 0.
fn matched(rule: Option<usize>) -> [usize; 2] {
    rule.map_or([0, 0], |rule| [1, rule])
}

/// A test of order independence as the C function answers it: 1, 0, 0, or 0 and the pair.
fn paired(pair: Option<(usize, usize)>) -> [usize; 3] {
    pair.map_or([1, 0, 0], |(i, j)| [0, i, j])
}

/// A lookup as the C function answers it: the match, then the tests, then 1 at an edge.
fn looked(looked: Looked) -> [usize; 4] {
    let [found, rule] = matched(looked.rule);
    [found, rule, looked.tests, looked.edge as usize]
}

/// The longest list, its table, and the numbers that say how long they are.
fn limits() {
    let list = vec![0; MAX_LIST + 2 * MAX_FIELDS];
    let mut table = vec![0; MAX_TABLE];
    println!("limits: {} {} {} {}", MAX_FIELDS, MAX_RULES, MAX_LIST, MAX_TABLE);
    say("check the longest list", check(Shape::of(MAX_FIELDS), &list[..MAX_LIST]).map(|n| [n]));
    say("check one rule more", check(Shape::of(MAX_FIELDS), &list).map(|n| [n]));
    say("build the longest list", build(Shape::of(MAX_FIELDS), &list[..MAX_LIST], &mut table).map(|b| [b]));
    assert_eq!(table_length(usize::MAX, 8), usize::MAX);
}

/// The choice of partitions by first fit, and one that is brought: single serials in partition 0, whole models in 1, and the
/// rule for all that is left in 2. Both are laid out; the brought one is then audited and searched.
fn choices() {
    let (mut chosen, mut table, mut small) = ([65535; 5], [65535; TABLE], [65535; 4]);
    say("choose with 9-3", choose(SHAPE, &CROSSED, &mut chosen).map(|b| [b]));
    say("choose one number short", choose(SHAPE, &BENCH, &mut chosen[..4]).map(|b| [b]));
    println!("choice:{}", listed(&chosen));
    say("choose", choose(SHAPE, &BENCH, &mut chosen).map(|b| [b]));
    println!("choice:{}", listed(&chosen));
    say("lay out what was chosen", lay_out(SHAPE, &BENCH, &chosen, &mut table).map(|b| [b]));
    println!("table:{}", listed(&table));
    say("choose for no rules", choose(SHAPE, &[], &mut []).map(|b| [b]));
    say("choose for no rules, one number lent", choose(SHAPE, &[], &mut small[..1]).map(|b| [b]));
    say("lay out no rules", lay_out(SHAPE, &[], &[], &mut small).map(|b| [b]));
    println!("table:{}", listed(&small));

    say("lay out a brought choice", lay_out(SHAPE, &BENCH, &[0, 0, 1, 1, 2], &mut table).map(|b| [b]));
    println!("table:{}", listed(&table));
    say("audit it", audit(SHAPE, &BENCH, &table).map(|laid| [laid as usize]));
    say("look up 7, 150 in it", lookup(SHAPE, &BENCH, &table, &B4).map(looked));
    say("report on its partition 1", report(SHAPE, &BENCH, &table, 1).map(|part| [part.size, part.least]));

    // rule 3 clashes with rules 0 and 1; what is tested first is refused first, and the table stays
    say("lay out with 9-3", lay_out(SHAPE, &CROSSED, &[0; 4], &mut table[..TABLE - 1]).map(|b| [b]));
    say("lay out one number short", lay_out(SHAPE, &BENCH, &[0; 4], &mut table[..TABLE - 1]).map(|b| [b]));
    say("lay out a choice for four rules", lay_out(SHAPE, &BENCH, &[0; 4], &mut table).map(|b| [b]));
    say("lay out 0 0 0 0 5", lay_out(SHAPE, &BENCH, &[0, 0, 0, 0, 5], &mut table).map(|b| [b]));
    say("lay out 0 0 0 0 2", lay_out(SHAPE, &BENCH, &[0, 0, 0, 0, 2], &mut table).map(|b| [b]));
    say("lay out 0 0 0 0 1", lay_out(SHAPE, &BENCH, &[0, 0, 0, 0, 1], &mut table).map(|b| [b]));
    println!("table:{}", listed(&table));
}

fn main() {
    println!("version {}, archive {}", VERSION, version());
    limits();
    for number in 0..=19 {
        println!("{}: {}", number, Refusal { number, at: 0, then: 0 }.name());
    }

    say("check the bench list", check(SHAPE, &BENCH).map(|n| [n]));
    say("check 9 fields", check(Shape::of(9), &BENCH).map(|n| [n]));
    say("check one number short", check(SHAPE, &BENCH[..NUMBERS - 1]).map(|n| [n]));
    say("check 1025 rules", check(Shape::of(1), &MANY).map(|n| [n]));
    say("check 9-3 in rule 3, field 1", check(SHAPE, &CROSSED).map(|n| [n]));

    say("scan for 7, 150", plain_scan(SHAPE, &BENCH, &B4).map(matched));
    say("scan for 10, 0", plain_scan(SHAPE, &BENCH, &B7).map(matched));
    say("scan past 9-3", plain_scan(SHAPE, &CROSSED, &B4).map(matched));

    say("independence of the bench list", independence(SHAPE, &BENCH).map(paired));
    say("independence of its first three rules", independence(SHAPE, &BENCH[..12]).map(paired));
    say("independence with 9-3", independence(SHAPE, &CROSSED).map(paired));

    let mut table = [65535; TABLE];
    say("build with 9-3", build(SHAPE, &CROSSED, &mut table).map(|b| [b]));
    say("build one number short", build(SHAPE, &BENCH, &mut table[..TABLE - 1]).map(|b| [b]));
    println!("table:{}", listed(&table));
    say("build", build(SHAPE, &BENCH, &mut table).map(|b| [b]));
    println!("table:{}", listed(&table));
    let mut small = [65535; 4];
    say("build of no rules", build(Shape::of(1), &[], &mut small).map(|b| [b]));
    println!("table:{}", listed(&small));

    say("look up 7, 150", lookup(SHAPE, &BENCH, &table, &B4).map(looked));
    say("look up 10, 0", lookup(SHAPE, &BENCH, &table, &B7).map(looked));
    say("look up 5, 5", lookup(SHAPE, &BENCH, &table, &PLAIN).map(looked));
    say("look up one number short", lookup(SHAPE, &BENCH, &table[..TABLE - 1], &B4).map(looked));

    say("audit", audit(SHAPE, &BENCH, &table).map(|laid| [laid as usize]));
    say("audit with 9-3", audit(SHAPE, &CROSSED, &table).map(|laid| [laid as usize]));

    say("report on partition 0", report(SHAPE, &BENCH, &table, 0).map(|part| [part.size, part.least]));
    say("report on partition 1", report(SHAPE, &BENCH, &table, 1).map(|part| [part.size, part.least]));
    say("report on partition 3", report(SHAPE, &BENCH, &table, 3).map(|part| [part.size, part.least]));

    // the last number is of the last partition, which a lookup skips once it has found rule 3
    table[TABLE - 1] += 1;
    say("audit with another last number", audit(SHAPE, &BENCH, &table).map(|laid| [laid as usize]));
    say("look up 7, 150 with another last number", lookup(SHAPE, &BENCH, &table, &B4).map(looked));
    say("look up 5, 5 with another last number", lookup(SHAPE, &BENCH, &table, &PLAIN).map(looked));
    table[TABLE - 1] -= 1;

    // a report reads the smallest rule number as it is stored, and no rule number of a place
    table[LEAST] = 1;
    say("audit with smallest rule 1", audit(SHAPE, &BENCH, &table).map(|laid| [laid as usize]));
    say("report with smallest rule 1", report(SHAPE, &BENCH, &table, 0).map(|part| [part.size, part.least]));
    table[LEAST] = 5;
    say("report with smallest rule 5", report(SHAPE, &BENCH, &table, 0).map(|part| [part.size, part.least]));
    table[LEAST] = 0;
    table[ORDER] = 5;
    say("report with rule 5 at its first place", report(SHAPE, &BENCH, &table, 0).map(|part| [part.size, part.least]));

    choices();

    say("range of (16, 2), width 5", prefix_to_range(5, 16, 2).map(|(low, high)| [low as usize, high as usize]));
    say("range of (0, 0), width 32", prefix_to_range(32, 0, 0).map(|(low, high)| [low as usize, high as usize]));
    say("range of (0, 0), width 33", prefix_to_range(33, 0, 0).map(|(low, high)| [low as usize, high as usize]));
    say("range of (17, 2), width 5", prefix_to_range(5, 17, 2).map(|(low, high)| [low as usize, high as usize]));

    let mut run = [4294967295; 17];
    say("prefixes of 1 to 30 in 7 places", range_to_prefixes(5, 1, 30, &mut run[..15]).map(|count| [count]));
    say("prefixes of 3 to 2", range_to_prefixes(5, 3, 2, &mut run).map(|count| [count]));
    say("prefixes of 0 to 1, width 0", range_to_prefixes(0, 0, 1, &mut run).map(|count| [count]));
    println!("run:{}", listed(&run));
    say("prefixes of 1 to 30, width 5", range_to_prefixes(5, 1, 30, &mut run).map(|count| [count]));
    println!("run:{}", listed(&run));
    say("prefixes of all, width 32", range_to_prefixes(32, 0, 4294967295, &mut run).map(|count| [count]));
    println!("run:{}", listed(&run[..2]));
}

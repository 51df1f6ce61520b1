//! Two certificates with a due date: rule 0 is valid from day 1 to before day 5, rule 1 from day 5 to before day 9. Prints what
//! every function that is given a list answers where field 0, the day, is a date, and where it is not. Prints what
//! `examples/c/due_date.c` prints.
#[allow(dead_code)]
mod cuyenalot;

use cuyenalot::{
    audit, build, check, choose, independence, lay_out, lookup, plain_scan, report, table_length, Header, Refusal,
    Shape,
};

const NO_DATES: Shape = Shape::of(1);
const DAY: Shape = Shape { d: 1, dates: [true, false, false, false, false, false, false, false] };
const ALL_BUT_DAY: Shape = Shape { d: 1, dates: [false, true, true, true, true, true, true, true] };

const LIST: [u32; 4] = [1, 5, 5, 9];

/// A certificate that is due on its first day.
const NO_DAY: [u32; 2] = [5, 5];

/// A match in words: the rule number, or none.
fn said(rule: Option<usize>) -> String {
    rule.map_or("none".to_string(), |rule| rule.to_string())
}

/// Builds the table with one shape, asks everything else with another, and prints the answers.
fn show(what: &str, at_build: Shape, shape: Shape) -> Result<(), Refusal> {
    let (mut table, mut chosen, mut laid) = ([0; table_length(2, 1)], [0; 2], [0; table_length(2, 1)]);
    let rules = check(shape, &LIST)?;
    let pair = independence(shape, &LIST)?;
    let partitions = build(at_build, &LIST, &mut table)?;
    choose(shape, &LIST, &mut chosen)?;
    lay_out(shape, &LIST, &chosen, &mut laid)?;
    let audited = audit(shape, &LIST, &table)?;
    let part = report(shape, &LIST, &table, 0)?;
    println!("{}:\nrules {}, partitions {}", what, rules, partitions);
    match pair {
        None => println!("no day fits two rules"),
        Some((i, j)) => println!("a day fits rules {} and {}", i, j),
    }
    let as_built = if laid == table { "as built" } else { "otherwise than built" };
    println!("choice {} {}, laid out {}", chosen[0], chosen[1], as_built);
    println!("partition 0: size {}, smallest rule {}", part.size, part.least);
    println!("audit: {}", if audited { "yes" } else { "no" });
    for day in [0, 1, 3, 4, 5, 8, 9] {
        let header: Header = [day, 0, 0, 0, 0, 0, 0, 0];
        let scanned = plain_scan(shape, &LIST, &header)?;
        let looked = lookup(shape, &LIST, &table, &header)?;
        let edge = if looked.edge { ", edge" } else { "" };
        println!("day {}: scan {}, lookup {}, tests {}{}", day, said(scanned), said(looked.rule), looked.tests, edge);
    }
    Ok(())
}

/// Prints what a check of the one certificate says.
fn check_no_day(what: &str, shape: Shape) {
    match check(shape, &NO_DAY) {
        Ok(rules) => println!("{}: rules {}", what, rules),
        Err(refusal) => println!("{}: {}", what, refusal),
    }
}

fn show_all() -> Result<(), Refusal> {
    show("the day is a date", DAY, DAY)?;
    show("the day is no date", NO_DATES, NO_DATES)?;
    show("flags past d alone", ALL_BUT_DAY, ALL_BUT_DAY)?;
    show("built with the flag, asked without", DAY, NO_DATES)
}

fn main() {
    if let Err(refusal) = show_all() {
        println!("refused {}", refusal.number);
        std::process::exit(1);
    }
    check_no_day("5-5 as a date", DAY);
    check_no_day("5-5 as no date", NO_DATES);
}

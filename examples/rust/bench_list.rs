//! Classifies 01's small bench list: builds its table, looks the headers B2 to B8 up in it, and prints for each the rule
//! and the range tests, as the program gateway does.
#[allow(dead_code)]
mod cuyenalot;

use cuyenalot::{build, lookup, table_length, Header, Refusal, Shape};

const FIELDS: usize = 2;

/// Two fields, none of them a date.
const SHAPE: Shape = Shape::of(FIELDS);

/// Model and serial, low and high of each, of rules 0 to 4.
const LIST: [u32; 20] = [
    7, 7, 100, 100, //
    7, 7, 200, 299, //
    8, 8, 0, 999, //
    7, 7, 0, 999, //
    0, 9, 0, 999,
];

/// The headers' first two numbers; the others are not read.
const HEADERS: [(u32, u32); 7] = [(7, 250), (7, 100), (7, 150), (8, 5), (9, 5), (10, 0), (7, 1000)];

fn classify() -> Result<(), Refusal> {
    let mut table = [0; table_length(5, FIELDS)];
    build(SHAPE, &LIST, &mut table)?;
    println!("rule,tests");
    for (model, serial) in HEADERS {
        let header: Header = [model, serial, 0, 0, 0, 0, 0, 0];
        let looked = lookup(SHAPE, &LIST, &table, &header)?;
        match looked.rule {
            Some(rule) => println!("{},{}", rule, looked.tests),
            None => println!("none,{}", looked.tests),
        }
    }
    Ok(())
}

fn main() {
    if let Err(refusal) = classify() {
        println!("refused,{}", refusal.number);
        std::process::exit(1);
    }
}

//! The `calls` protocol: one library call a line, one answer a line.
//!
//! Lines. A line ends at LF and nowhere else; what follows the last LF, if anything, is a last line and is answered
//! too. Every answer ends in LF. A line has no bound on its length: after a fault the rest of it is skipped.
//!
//! Words. A line is words parted by single blanks. A blank at the line's start or end, two blanks in a row, and an
//! empty line are faults. Any byte but blank and LF belongs to its word: CR, tab and NUL are faults of their word.
//! The first word names the call and is in small letters.
//!
//! Numbers. Plain decimal digits without leading zeros ("0" itself stands), 0 to 4294967295; a number of a TABLE, and
//! of a RUN of choose and layout, is 0 to 65535. LIST, TABLE and RUN are a length and then exactly that many numbers;
//! the length is at most 16500 for a LIST, 19500 for a TABLE, 1100 for a RUN of choose and layout, 200 for that of r2p.
//! HEADER is eight numbers. Each of P, FIELD, NUMBER, VALUE, LENGTH, WIDTH, LOW and HIGH is any number. After the last
//! part nothing may follow.
//!
//! Dates. D is any number, and no field is a date; or it is D:FFFFFFFF, any number, a colon, and eight flags, each 0 or
//! 1, the first for field 0: which fields are dates. The flags from d on alter nothing, but `side` takes the flag of
//! FIELD whatever D is, and none from FIELD 8 on. A colon anywhere else is a fault.
//!
//!     check D LIST                 ok N
//!     scan D LIST HEADER           ok RULE | ok none
//!     build D LIST TABLE           ok B | refused ..       then, either way, " table" and " NUMBER" for each number
//!     choose D LIST RUN            ok B | refused ..       then, either way, " run" and " NUMBER" for each number
//!     layout D LIST RUN TABLE      ok B | refused ..       then, either way, " table" and " NUMBER" for each number
//!     lookup D LIST TABLE HEADER   ok RULE TESTS edge | ok RULE TESTS plain | ok none TESTS plain
//!     audit D LIST TABLE           ok yes | ok no
//!     report D LIST TABLE P        ok SIZE SMALLEST
//!     independent D LIST           ok yes | ok no I J
//!     side D FIELD LOW HIGH NUMBER ok below | ok low | ok between | ok high | ok both | ok above
//!     p2r VALUE LENGTH WIDTH       ok LOW HIGH
//!     r2p LOW HIGH WIDTH RUN       ok COUNT | refused ..   then, either way, " run" and " NUMBER" for each number
//!     any refusal                  refused NUMBER FIRST SECOND
//!     any fault of the line        bad
//!
//! The line is read whole before the call is made, so a fault anywhere in it answers `bad` and nothing else. A table
//! or run of no numbers answers with the bare word " table" or " run". An answer neither starts nor ends in a blank.

use crate::choices::choose;
use crate::decimal::number_of;
use crate::lists::{check, independence, scan, Header, Shape};
use crate::lookup::lookup;
use crate::prefixes::{prefix_to_range, range_to_prefixes};
use crate::ranges::{spot_of, Range, Spot};
use crate::refusal::Refusal;
use crate::table::{audit, build, lay_out, report};

pub const MOST_LIST: usize = 16500;
pub const MOST_TABLE: usize = 19500;
pub const MOST_CHOICE: usize = 1100;
pub const MOST_RUN: usize = 200;

/// The words of a line that are still to be read.
struct Words<'a> {
    rest: std::slice::Split<'a, u8, fn(&u8) -> bool>,
}

impl<'a> Words<'a> {
    fn of(line: &'a [u8]) -> Words<'a> {
        let is_blank: fn(&u8) -> bool = |byte| *byte == b' ';
        Words { rest: line.split(is_blank) }
    }

    fn number(&mut self) -> Option<u32> {
        number_of(self.rest.next()?)
    }

    /// D alone, or D, a colon and eight flags.
    fn shape(&mut self) -> Option<Shape> {
        let word = self.rest.next()?;
        match word.iter().position(|byte| *byte == b':') {
            None => Some(Shape::from(number_of(word)?)),
            Some(at) => Some(Shape { d: number_of(&word[..at])?, dates: flags_of(&word[at + 1..])? }),
        }
    }

    /// A length of at most `most`, and that many numbers.
    fn run(&mut self, most: usize) -> Option<Vec<u32>> {
        let length = self.number()? as usize;
        if length > most {
            return None;
        }
        (0..length).map(|_| self.number()).collect()
    }

    fn list(&mut self) -> Option<Vec<u32>> {
        self.run(MOST_LIST)
    }

    /// A length of at most `most`, and that many numbers of 16 bits.
    fn short_numbers(&mut self, most: usize) -> Option<Vec<u16>> {
        self.run(most)?.into_iter().map(|x| if x > 65535 { None } else { Some(x as u16) }).collect()
    }

    fn table(&mut self) -> Option<Vec<u16>> {
        self.short_numbers(MOST_TABLE)
    }

    /// The run of a choice of partitions.
    fn choice(&mut self) -> Option<Vec<u16>> {
        self.short_numbers(MOST_CHOICE)
    }

    fn header(&mut self) -> Option<Header> {
        let mut header = [0; 8];
        for number in &mut header {
            *number = self.number()?;
        }
        Some(header)
    }

    /// Nothing follows.
    fn end(&mut self) -> Option<()> {
        match self.rest.next() {
            None => Some(()),
            Some(_) => None,
        }
    }
}

/// Reads eight flags, each 0 or 1, or none where the bytes are others, fewer or more.
fn flags_of(bytes: &[u8]) -> Option<[bool; 8]> {
    let flag = |byte: &u8| match *byte {
        b'0' => Some(false),
        b'1' => Some(true),
        _ => None,
    };
    let flags: Vec<bool> = bytes.iter().map(flag).collect::<Option<Vec<bool>>>()?;
    flags.try_into().ok()
}

fn refused(refusal: Refusal) -> String {
    format!("refused {} {} {}", refusal.number, refusal.first, refusal.second)
}

/// What is said of an answer, or of a refusal.
fn said<T>(answer: Result<T, Refusal>, ok: impl Fn(T) -> String) -> String {
    match answer {
        Ok(value) => format!("ok {}", ok(value)),
        Err(refusal) => refused(refusal),
    }
}

fn rule_or_none(rule: Option<usize>) -> String {
    match rule {
        Some(rule) => rule.to_string(),
        None => String::from("none"),
    }
}

/// A word, and each number after a blank.
fn lent<T: ToString>(word: &str, numbers: &[T]) -> String {
    let mut out = format!(" {}", word);
    for number in numbers {
        out.push(' ');
        out += &number.to_string();
    }
    out
}

fn call_check(words: &mut Words) -> Option<String> {
    let (shape, list) = (words.shape()?, words.list()?);
    words.end()?;
    Some(said(check(shape, &list), |n| n.to_string()))
}

fn call_scan(words: &mut Words) -> Option<String> {
    let (shape, list, header) = (words.shape()?, words.list()?, words.header()?);
    words.end()?;
    Some(said(scan(shape, &list, &header), rule_or_none))
}

fn call_build(words: &mut Words) -> Option<String> {
    let (shape, list, mut table) = (words.shape()?, words.list()?, words.table()?);
    words.end()?;
    let answer = said(build(shape, &list, &mut table), |b| b.to_string());
    Some(answer + &lent("table", &table))
}

fn call_choose(words: &mut Words) -> Option<String> {
    let (shape, list, mut run) = (words.shape()?, words.list()?, words.choice()?);
    words.end()?;
    let answer = said(choose(shape, &list, &mut run), |b| b.to_string());
    Some(answer + &lent("run", &run))
}

fn call_layout(words: &mut Words) -> Option<String> {
    let (shape, list, run, mut table) = (words.shape()?, words.list()?, words.choice()?, words.table()?);
    words.end()?;
    let answer = said(lay_out(shape, &list, &run, &mut table), |b| b.to_string());
    Some(answer + &lent("table", &table))
}

fn call_lookup(words: &mut Words) -> Option<String> {
    let (shape, list, table, header) = (words.shape()?, words.list()?, words.table()?, words.header()?);
    words.end()?;
    Some(said(lookup(shape, &list, &table, &header), |looked| {
        let edge = if looked.edge { "edge" } else { "plain" };
        format!("{} {} {}", rule_or_none(looked.rule), looked.tests, edge)
    }))
}

fn call_audit(words: &mut Words) -> Option<String> {
    let (shape, list, table) = (words.shape()?, words.list()?, words.table()?);
    words.end()?;
    Some(said(audit(shape, &list, &table), |laid| String::from(if laid { "yes" } else { "no" })))
}

fn call_report(words: &mut Words) -> Option<String> {
    let (shape, list, table, p) = (words.shape()?, words.list()?, words.table()?, words.number()?);
    words.end()?;
    Some(said(report(shape, &list, &table, p), |(size, smallest)| format!("{} {}", size, smallest)))
}

fn call_independent(words: &mut Words) -> Option<String> {
    let (shape, list) = (words.shape()?, words.list()?);
    words.end()?;
    Some(said(independence(shape, &list), |pair| match pair {
        None => String::from("yes"),
        Some((i, j)) => format!("no {} {}", i, j),
    }))
}

/// D's flag of FIELD tells a date from another field; D itself alters nothing.
fn call_side(words: &mut Words) -> Option<String> {
    let (shape, field) = (words.shape()?, words.number()?);
    let (low, high, number) = (words.number()?, words.number()?, words.number()?);
    words.end()?;
    let date = shape.is_date(field as usize);
    Some(String::from(match spot_of(Range { low, high, date }, number) {
        Spot::Below => "ok below",
        Spot::Low => "ok low",
        Spot::Between => "ok between",
        Spot::High => "ok high",
        Spot::Both => "ok both",
        Spot::Above => "ok above",
    }))
}

fn call_p2r(words: &mut Words) -> Option<String> {
    let (value, length, width) = (words.number()?, words.number()?, words.number()?);
    words.end()?;
    Some(said(prefix_to_range(value, length, width), |(low, high)| format!("{} {}", low, high)))
}

fn call_r2p(words: &mut Words) -> Option<String> {
    let (low, high, width, mut run) = (words.number()?, words.number()?, words.number()?, words.run(MOST_RUN)?);
    words.end()?;
    let answer = said(range_to_prefixes(low, high, width, &mut run), |count| count.to_string());
    Some(answer + &lent("run", &run))
}

/// Makes the call of a line, or answers none where the line has a fault.
fn call(line: &[u8]) -> Option<String> {
    let mut words = Words::of(line);
    match words.rest.next()? {
        b"check" => call_check(&mut words),
        b"scan" => call_scan(&mut words),
        b"build" => call_build(&mut words),
        b"choose" => call_choose(&mut words),
        b"layout" => call_layout(&mut words),
        b"lookup" => call_lookup(&mut words),
        b"audit" => call_audit(&mut words),
        b"report" => call_report(&mut words),
        b"independent" => call_independent(&mut words),
        b"side" => call_side(&mut words),
        b"p2r" => call_p2r(&mut words),
        b"r2p" => call_r2p(&mut words),
        _ => None,
    }
}

/// Answers a line, given without its LF.
pub fn answer(line: &[u8]) -> String {
    call(line).unwrap_or_else(|| String::from("bad"))
}

/// Cuts the input into its lines, without their LF.
pub fn lines_of(input: &[u8]) -> Vec<&[u8]> {
    let mut lines: Vec<&[u8]> = input.split(|byte| *byte == b'\n').collect();
    // what follows the last LF is a line only where it has a byte
    if lines[lines.len() - 1].is_empty() {
        lines.pop();
    }
    lines
}

//! Lines of the `calls` protocol, written from a call's parts.

use crate::lists::{Header, Shape};

/// A length, and that many numbers.
pub fn counted<T: ToString>(numbers: &[T]) -> String {
    let mut out = numbers.len().to_string();
    for number in numbers {
        out.push(' ');
        out += &number.to_string();
    }
    out
}

/// The eight numbers of a header.
fn bare(header: &Header) -> String {
    let words: Vec<String> = header.iter().map(|number| number.to_string()).collect();
    words.join(" ")
}

/// The lines of a kind, in the order in which they are written; bytes, since a faulty line may hold any. Where d alone is
/// given for a shape, no field is a date.
#[derive(Default)]
pub struct Lines {
    pub lines: Vec<Vec<u8>>,
    /// Whether eight zeros are written behind a D of which no flag is set.
    pub zeros: bool,
}

impl Lines {
    pub fn raw(&mut self, line: &[u8]) {
        self.lines.push(line.to_vec());
    }

    fn say(&mut self, line: String) {
        self.lines.push(line.into_bytes());
    }

    /// D, and its flags where one is set.
    fn spelled(&self, shape: impl Into<Shape>) -> String {
        let Shape { d, dates } = shape.into();
        if dates == [false; 8] && !self.zeros {
            return d.to_string();
        }
        let flags: String = dates.iter().map(|date| if *date { '1' } else { '0' }).collect();
        format!("{}:{}", d, flags)
    }

    pub fn check(&mut self, shape: impl Into<Shape>, list: &[u32]) {
        self.say(format!("check {} {}", self.spelled(shape), counted(list)));
    }

    pub fn scan(&mut self, shape: impl Into<Shape>, list: &[u32], header: &Header) {
        self.say(format!("scan {} {} {}", self.spelled(shape), counted(list), bare(header)));
    }

    pub fn build(&mut self, shape: impl Into<Shape>, list: &[u32], table: &[u16]) {
        self.say(format!("build {} {} {}", self.spelled(shape), counted(list), counted(table)));
    }

    pub fn choose(&mut self, shape: impl Into<Shape>, list: &[u32], run: &[u16]) {
        self.say(format!("choose {} {} {}", self.spelled(shape), counted(list), counted(run)));
    }

    pub fn layout(&mut self, shape: impl Into<Shape>, list: &[u32], run: &[u16], table: &[u16]) {
        self.say(format!("layout {} {} {} {}", self.spelled(shape), counted(list), counted(run), counted(table)));
    }

    pub fn lookup(&mut self, shape: impl Into<Shape>, list: &[u32], table: &[u16], header: &Header) {
        self.say(format!("lookup {} {} {} {}", self.spelled(shape), counted(list), counted(table), bare(header)));
    }

    pub fn audit(&mut self, shape: impl Into<Shape>, list: &[u32], table: &[u16]) {
        self.say(format!("audit {} {} {}", self.spelled(shape), counted(list), counted(table)));
    }

    pub fn report(&mut self, shape: impl Into<Shape>, list: &[u32], table: &[u16], p: u32) {
        self.say(format!("report {} {} {} {}", self.spelled(shape), counted(list), counted(table), p));
    }

    pub fn independent(&mut self, shape: impl Into<Shape>, list: &[u32]) {
        self.say(format!("independent {} {}", self.spelled(shape), counted(list)));
    }

    pub fn side(&mut self, shape: impl Into<Shape>, field: u32, low: u32, high: u32, number: u32) {
        self.say(format!("side {} {} {} {} {}", self.spelled(shape), field, low, high, number));
    }

    pub fn p2r(&mut self, value: u32, length: u32, width: u32) {
        self.say(format!("p2r {} {} {}", value, length, width));
    }

    pub fn r2p(&mut self, low: u32, high: u32, width: u32, run: &[u32]) {
        self.say(format!("r2p {} {} {} {}", low, high, width, counted(run)));
    }
}

//! Cases of the `calls` protocol itself: lines with faults, and lines at the limits.

use super::lines::{counted, Lines};
use crate::seed::Seed;

/// One good line for each word.
pub const GOOD: [&str; 12] = [
    "check 1 4 1 2 3 4",
    "scan 1 4 1 2 3 4 3 0 0 0 0 0 0 0",
    "build 1 2 5 6 9 7 7 7 7 7 7 7 7 7",
    "choose 1 4 1 2 2 4 2 9 9",
    "layout 1 2 5 6 1 0 9 7 7 7 7 7 7 7 7 7",
    "lookup 1 2 5 6 9 1 1 1 0 0 1 0 0 1 5 0 0 0 0 0 0 0",
    "audit 1 2 5 6 9 1 1 1 0 0 1 0 0 1",
    "report 1 2 5 6 9 1 1 1 0 0 1 0 0 1 0",
    "independent 1 4 1 2 2 4",
    "side 2 1 5 9 7",
    "p2r 16 2 5",
    "r2p 16 23 5 3 9 9 9",
];

/// 02, W8: lines with dates, and their answers as they were worked out by hand.
pub const WORKED: [(&str, &str); 6] = [
    ("build 1:10000000 4 1 5 5 9 14 9 9 9 9 9 9 9 9 9 9 9 9 9 9", "ok 1 table 2 1 1 0 1 0 2 0 0 0 0 1 1 2"),
    ("check 1:10000000 2 5 5", "refused 4 0 0"),
    ("check 1:01111111 2 5 5", "ok 1"),
    ("independent 1:10000000 4 1 5 5 9", "ok yes"),
    ("side 1:10000000 0 5 6 5", "ok both"),
    ("side 1:10000000 0 0 0 0", "ok above"),
];

/// D with eight flags: of any number, and each flag 0 or 1.
pub const SHAPES: [&str; 6] =
    ["1:00000000", "1:10000000", "2:01111111", "8:11111111", "0:10101010", "4294967295:00000001"];

/// Words that are no D: flags fewer, more, none or others; no number in front; a second colon, and one elsewhere.
pub const NO_SHAPE: [&str; 28] = [
    ":",
    "1:",
    "1:0",
    "1:1",
    "1:0000000",
    "1:000000000",
    "1:0000000010000000",
    "1:00000002",
    "1:20000000",
    "1:0000000/",
    "1:0000000a",
    "1:0000000-",
    "1:+1000000",
    "1:0000,000",
    "1:10000000\r",
    "1:10000000\t",
    "1:10000000\0",
    ":00000000",
    ":10000000",
    "00000000",
    "01:00000000",
    "+1:00000000",
    "x:00000000",
    "4294967296:00000000",
    "1::00000000",
    "1:00000000:",
    "1:0000:0000",
    "1;00000000",
];

/// Words that are no number.
const NO_NUMBER: [&str; 16] = [
    "00",
    "01",
    "007",
    "+1",
    "-1",
    "-0",
    "1.0",
    "1e3",
    "0x1",
    "1,",
    "a",
    "1a",
    "4294967296",
    "18446744073709551617",
    "\t1",
    "1\r",
];

/// The line with word i replaced.
pub fn replaced(line: &str, i: usize, word: &str) -> String {
    let mut words: Vec<&str> = line.split(' ').collect();
    words[i] = word;
    words.join(" ")
}

/// The line with each word in turn taken away, doubled, and no number; cut after each word; blanks where none belong.
fn faults_of(out: &mut Lines, line: &str) {
    let words: Vec<&str> = line.split(' ').collect();
    for i in 0..words.len() {
        out.raw(words[..i].join(" ").as_bytes());
        out.raw([&words[..i], &words[i + 1..]].concat().join(" ").as_bytes());
        out.raw([&words[..i], &[words[i]], &words[i..]].concat().join(" ").as_bytes());
        out.raw(replaced(line, i, "").as_bytes());
        out.raw(replaced(line, i, &format!(" {}", words[i])).as_bytes());
        out.raw(replaced(line, i, &format!("{} ", words[i])).as_bytes());
        out.raw(replaced(line, i, &format!("{}\t", words[i])).as_bytes());
        for word in NO_NUMBER {
            out.raw(replaced(line, i, word).as_bytes());
        }
    }
    out.raw(format!("{} 0", line).as_bytes());
    out.raw(format!("{} x", line).as_bytes());
    out.raw(format!("{}\r", line).as_bytes());
    out.raw(format!("{}\0", line).as_bytes());
    out.raw(line.to_uppercase().as_bytes());
    out.raw(line.replacen(' ', "\t", 1).as_bytes());
    out.raw(line.as_bytes());
}

/// 02, W8: D with flags, well written and not, in every line, and after each a line that must have none of its flags; a
/// colon in every other word.
fn shapes(out: &mut Lines) {
    for (line, _) in WORKED {
        faults_of(out, line);
    }
    for line in GOOD {
        for word in SHAPES.iter().chain(&NO_SHAPE) {
            out.raw(replaced(line, 1, word).as_bytes());
            out.raw(b"check 1 2 5 5");
        }
        let words: Vec<&str> = line.split(' ').collect();
        for i in (0..words.len()).filter(|i| *i != 1) {
            out.raw(replaced(line, i, &format!("{}:00000000", words[i])).as_bytes());
            out.raw(replaced(line, i, &format!("{}:", words[i])).as_bytes());
            out.raw(replaced(line, i, &format!(":{}", words[i])).as_bytes());
        }
        out.raw(line.replacen(" ", " :", 1).as_bytes());
        out.raw(line.replacen(" ", ":", 1).as_bytes());
        out.raw(replaced(line, 1, "1 :00000000").as_bytes());
        out.raw(replaced(line, 1, "1: 00000000").as_bytes());
        out.raw(replaced(line, 1, "1:0000 0000").as_bytes());
    }
    // more flags than eight, also as many as are eight when they are counted in 8 or 16 bits; many digits of d
    for length in [9, 16, 24, 32, 33, 40, 64, 256, 264, 65536, 65544] {
        out.raw(format!("check 1:{} 2 5 5", "1".repeat(length)).as_bytes());
        out.raw(b"check 1:11111110 2 5 5");
    }
    for length in [9, 10, 11, 40, 264] {
        out.raw(format!("check {}:11111111 2 5 5", "1".repeat(length)).as_bytes());
        out.raw(b"check 1:00000000 2 5 5");
    }
}

/// First words that are none.
fn unknown_words(out: &mut Lines) {
    for word in
        ["", " ", "  ", "help", "chec", "checks", "Check", "p2", "p2rr", "r2", "ok", "bad", "#", "check\0", "\u{e9}"]
            .into_iter()
            .chain(["choos", "chooses", "choices", "lay_out", "lay", "layouts", "Layout", "layoutr", "checkoose"])
    {
        out.raw(word.as_bytes());
        out.raw(format!("{} 1 0", word).as_bytes());
    }
    out.raw(&[255]);
    out.raw(&[0]);
    out.raw(b"check 1 2 7 \xb7");
    out.raw(b"check 1 2 7 /");
    out.raw(b"check 1 2 7 :");
}

/// Lengths at and past the most that is held, numbers at and past the largest.
fn limits(out: &mut Lines) {
    let zeros = |length: usize| counted(&vec![0; length]);
    out.raw(format!("check 8 {}", zeros(16500)).as_bytes());
    out.raw(format!("check 8 {}", zeros(16501)).as_bytes());
    out.raw(format!("build 1 0 {}", zeros(19500)).as_bytes());
    out.raw(format!("build 1 0 {}", zeros(19501)).as_bytes());
    out.raw(format!("r2p 0 0 5 {}", zeros(200)).as_bytes());
    out.raw(format!("r2p 0 0 5 {}", zeros(201)).as_bytes());
    for length in [1100, 1101] {
        out.raw(format!("choose 1 0 {}", zeros(length)).as_bytes());
        out.raw(format!("layout 1 0 {} {}", zeros(length), zeros(4)).as_bytes());
    }
    // every part at the most that is held, and each in turn past it
    for (list, run, table) in [(16500, 1100, 19500), (16501, 1100, 19500), (16500, 1101, 19500), (16500, 1100, 19501)] {
        out.raw(format!("layout 8 {} {} {}", zeros(list), zeros(run), zeros(table)).as_bytes());
    }
    for length in ["200", "201", "1100", "1101", "65536", "65537", "4294967295", "4294967296"] {
        out.raw(format!("choose 1 2 5 6 {}", length).as_bytes());
        out.raw(format!("choose 1 2 5 6 {} 0", length).as_bytes());
        out.raw(format!("layout 1 2 5 6 {} 0 9 7 7 7 7 7 7 7 7 7", length).as_bytes());
        out.raw(format!("layout 1 2 5 6 1 0 {} 7 7 7 7 7 7 7 7 7", length).as_bytes());
    }
    for length in ["16500", "16501", "65536", "4294967295", "4294967296"] {
        out.raw(format!("check 1 {}", length).as_bytes());
        out.raw(format!("check 1 {} 0 0", length).as_bytes());
        out.raw(format!("build 1 0 {} 0", length).as_bytes());
        out.raw(format!("r2p 0 0 5 {} 0", length).as_bytes());
    }
    for number in ["65535", "65536", "65537", "131072", "4294967295"] {
        out.raw(format!("build 1 0 4 {} 0 0 0", number).as_bytes());
        out.raw(format!("audit 1 0 4 0 1 0 {}", number).as_bytes());
        out.raw(format!("choose 1 2 5 6 1 {}", number).as_bytes());
        out.raw(format!("choose 1 2 5 6 2 0 {}", number).as_bytes());
        out.raw(format!("layout 1 2 5 6 1 {} 9 7 7 7 7 7 7 7 7 7", number).as_bytes());
        out.raw(format!("layout 1 2 5 6 1 0 9 7 7 7 7 7 7 7 7 {}", number).as_bytes());
        out.raw(format!("lookup 1 0 4 0 1 0 {} 0 0 0 0 0 0 0 0", number).as_bytes());
    }
    out.raw(b"build 1 0 0");
    out.raw(b"choose 1 0 0");
    out.raw(b"layout 1 0 0 0");
    out.raw(b"r2p 0 0 5 0");
    out.raw(b"check 4294967295 0");
    out.raw(b"p2r 4294967295 4294967295 4294967295");
    out.raw(b"scan 1 2 0 4294967295 4294967295 4294967295 4294967295 4294967295 4294967295 4294967295 4294967295 4294967295");
}

/// Faults in front of much text, each with a good line after it.
fn long_lines(out: &mut Lines) {
    for length in [9, 10, 11, 20, 40, 4095, 4096, 4097, 9000] {
        out.raw(format!("check 1 2 0 {}", "9".repeat(length)).as_bytes());
        out.raw(b"check 1 2 0 9");
        out.raw("x".repeat(length).as_bytes());
        out.raw(b"p2r 16 2 5");
        out.raw(format!("check 1 2 7 7{}", " 7".repeat(length)).as_bytes());
        out.raw(b"independent 1 0");
        out.raw(" ".repeat(length).as_bytes());
        out.raw(b"check 1 0");
    }
}

pub fn edges(out: &mut Lines) {
    for line in GOOD {
        faults_of(out, line);
    }
    shapes(out);
    unknown_words(out);
    limits(out);
    long_lines(out);
}

/// A good line, now and then with flags, with up to three bytes changed, taken away or put in.
pub fn drawn(seed: &mut Seed, out: &mut Lines) {
    let mut line = String::from(seed.pick(&GOOD));
    if seed.once_in(3) {
        line = replaced(&line, 1, seed.pick(&SHAPES));
    }
    let mut line = line.into_bytes();
    for _ in 0..seed.below(4) {
        let byte = seed.pick(b"0011223456789 x\r-:");
        let at = seed.below(line.len());
        match seed.below(3) {
            0 => line[at] = byte,
            1 => line.insert(at, byte),
            _ => drop(line.remove(at)),
        }
    }
    out.raw(&line);
}

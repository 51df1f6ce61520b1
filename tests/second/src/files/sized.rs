//! Rules and headers files whose line ends fall on a chosen byte: a program that reads in chunks may split anywhere.
//!
//! d = 8. Rule i is the one number 1000000000 + i in field 0, so that all rules share a partition and every header
//! finds its rule by digits alone; the other fields take as many digits as the length asks for.

use super::Pair;

/// A number of this many digits: 0, or 10 .. 0.
fn low_of(digits: usize) -> String {
    if digits == 1 {
        return String::from("0");
    }
    format!("1{}", "0".repeat(digits - 1))
}

/// A number of this many digits, the largest but for ten, where it would not fit.
fn high_of(digits: usize) -> String {
    if digits == 10 {
        return String::from("4294967295");
    }
    "9".repeat(digits)
}

/// Gives each cell one digit, and the digits that are left to the last cells, ten at most to each.
fn digits_of(cells: usize, mut left: usize) -> Vec<usize> {
    left -= cells;
    let mut digits = vec![1; cells];
    for cell in digits.iter_mut().rev() {
        let more = left.min(9);
        *cell += more;
        left -= more;
    }
    assert_eq!(left, 0, "a line of this length");
    digits
}

/// Rule i as a line of exactly this many bytes, 51 to 177, its CRLF counted.
fn rule_line(i: usize, length: usize) -> String {
    // the two cells of field 0, fourteen more commas and CRLF stand fast
    let digits = digits_of(14, length - 21 - 14 - 2);
    let mut line = format!("{},{}", 1000000000 + i, 1000000000 + i);
    for f in 0..7 {
        // the highs take their digits first, so that low ≤ high
        line += &format!(",{},{}", low_of(digits[f]), high_of(digits[7 + f]));
    }
    line + "\r\n"
}

/// A header for rule i as a line of exactly this many bytes, 26 to 89, its CRLF counted.
fn header_line(i: usize, length: usize) -> String {
    let digits = digits_of(7, length - 10 - 7 - 2);
    let mut line = (1000000000 + i).to_string();
    for digits in digits {
        line += &format!(",{}", low_of(digits));
    }
    line + "\r\n"
}

/// Lines of at most `most` bytes that end at exactly this size.
fn lines_to(size: usize, most: usize, line: fn(usize, usize) -> String) -> Vec<String> {
    let count = (size + most - 1) / most;
    let length = |i: usize| size / count + if i < size % count { 1 } else { 0 };
    (0..count).map(|i| line(i, length(i))).collect()
}

/// Rules and headers whose line ends fall on the given sizes, with a few lines after them.
fn split_at(size: usize) -> Pair {
    let rules = lines_to(size, 177, rule_line);
    let mut headers = lines_to(size, 89, header_line);
    // the rules' last lines are looked up, and a rule that stands after the end
    let n = rules.len();
    headers.extend((n - 2..n + 4).map(|i| header_line(i, 30)));
    let after: Vec<String> = (n..n + 3).map(|i| rule_line(i, 60 + i % 7)).collect();
    Pair::of(&format!("line-ends-at-{}", size), rules.concat() + &after.concat(), headers.concat())
}

/// Files of exactly this size: with their last CRLF, cut inside it, without it, and with one byte more.
fn ends_at(size: usize) -> Vec<Pair> {
    let rules = lines_to(size, 177, rule_line).concat();
    let headers = lines_to(size, 89, header_line).concat();
    let cut = |text: &str, by: usize| String::from(&text[..size - by]);
    let name = |what: &str| format!("size-{}-{}", size, what);
    vec![
        Pair::of(&name("whole"), &rules, &headers),
        Pair::of(&name("no-last-line-end"), cut(&rules, 2), cut(&headers, 2)),
        Pair::of(&name("ends-in-cr"), &rules, cut(&headers, 1)),
        Pair::of(&name("rules-end-in-cr"), cut(&rules, 1), &headers),
        Pair::of(&name("one-byte-more"), &rules, headers.clone() + "7"),
        Pair::of(&name("rules-one-byte-more"), rules.clone() + "\r", &headers),
    ]
}

/// A lone CR, a lone LF, LF before CR and a bad cell on either side of a byte of the headers file.
fn odd_at(size: usize) -> Vec<Pair> {
    let rules = lines_to(3000, 177, rule_line).concat();
    let mut pairs = Vec::new();
    for back in 0..=3 {
        for (name, odd) in [("cr", "\r"), ("lf", "\n"), ("lf-cr", "\n\r"), ("cr-cr", "\r\r"), ("empty-line", "\r\n")] {
            let headers = lines_to(size - back, 89, header_line).concat() + odd + &header_line(3, 30).repeat(2);
            pairs.push(Pair::of(&format!("{}-at-{}", name, size - back), &rules, headers));
        }
    }
    pairs
}

pub fn all() -> Vec<Pair> {
    let mut pairs = Vec::new();
    for chunk in [4096, 65536] {
        for size in chunk - 3..=chunk + 12 {
            pairs.push(split_at(size));
        }
    }
    for chunk in [512, 1024, 2048, 8192, 12288, 16384, 32768] {
        for size in chunk - 1..=chunk + 2 {
            pairs.push(split_at(size));
        }
    }
    for size in [131072, 131073] {
        pairs.push(split_at(size));
    }
    for chunk in [4096, 65536] {
        for size in chunk - 1..=chunk + 2 {
            pairs.extend(ends_at(size));
        }
        pairs.extend(odd_at(chunk));
    }
    pairs
}

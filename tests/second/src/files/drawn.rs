//! Drawn file pairs: lists of many characters with headers near their ends, one in two with some bytes changed.

use super::Pair;
use crate::cases::characters::{drawn_header, drawn_list};
use crate::seed::Seed;

/// The numbers as lines of this many cells; the last CRLF is there or not.
fn text_of(seed: &mut Seed, numbers: &[u32], cells: usize) -> Vec<u8> {
    let line = |numbers: &[u32]| numbers.iter().map(|x| x.to_string()).collect::<Vec<String>>().join(",");
    let lines: Vec<String> = numbers.chunks(cells).map(line).collect();
    let mut text = lines.join("\r\n");
    if !lines.is_empty() && seed.once_in(2) {
        text += "\r\n";
    }
    text.into_bytes()
}

/// Changes, puts in, takes away or doubles some bytes, or cuts the file.
fn spoil(seed: &mut Seed, file: &mut Vec<u8>, times: usize) {
    let odd: [&[u8]; 12] =
        [b"\r\n", b"\r", b"\n", b",", b"0", b"9", b" ", b"\"", b"-", b"x", b"\r\n\r\n", b"4294967296"];
    for _ in 0..times {
        let at = seed.below(file.len() + 1);
        let end = (at + seed.below(4)).min(file.len());
        match seed.below(8) {
            0 => file.truncate(at),
            1 | 2 => drop(file.drain(at..end)),
            3 => {
                let part = file[at..end].to_vec();
                drop(file.splice(at..at, part));
            }
            _ => drop(file.splice(at..at, seed.pick(&odd).to_vec())),
        }
    }
}

fn drawn(seed: &mut Seed, i: usize) -> Pair {
    let (d, list) = drawn_list(seed);
    let headers: Vec<u32> =
        (0..seed.below(30)).flat_map(|_| drawn_header(seed, d, &list)[..d as usize].to_vec()).collect();
    let mut rules = text_of(seed, &list, 2 * d as usize);
    let mut headers = text_of(seed, &headers, d as usize);
    if seed.once_in(3) {
        let times = 1 + seed.below(2);
        spoil(seed, &mut rules, times);
    }
    if seed.once_in(2) {
        let times = 1 + seed.below(8);
        spoil(seed, &mut headers, times);
    }
    Pair::of(&format!("drawn-{}", i), rules, headers)
}

pub fn all(seed: u64, count: usize) -> Vec<Pair> {
    let mut seed = Seed::new(seed);
    (0..count).map(|i| drawn(&mut seed, i)).collect()
}

//! Fixed file pairs: every fault that 01 names, at every place where it can stand. Lines and their ends rest on
//! reading 7, and so do a missing file and the order of 8, 3 and 4.

use super::{sized, File, Pair};

const BENCH_RULES: &str = "7,7,100,100\r\n7,7,200,299\r\n8,8,0,999\r\n7,7,0,999\r\n0,9,0,999\r\n";
const BENCH_HEADERS: &str = "7,250\r\n10,0\r\n";

/// Cells that are no plain decimal of 0 to 4294967295.
const BAD_CELLS: [&[u8]; 36] = [
    b"",
    b" ",
    b" 7",
    b"7 ",
    b"\t7",
    b"\"7\"",
    b"\"7",
    b"'7'",
    b"00",
    b"01",
    b"007",
    b"+7",
    b"-7",
    b"-0",
    b"7.0",
    b"7.",
    b"7e0",
    b"0x7",
    b"7h",
    b"seven",
    b"/",
    b":",
    b"7;8",
    b"4294967296",
    b"4294967302",
    b"9999999999",
    b"42949672950",
    b"18446744073709551616",
    b"18446744073709551623",
    b"340282366920938463463374607431768211463",
    b"\0",
    b"7\0",
    b"\xef\xbb\xbf7",
    b"\xb7",
    b"\xff",
    b"none",
];

/// Line ends that are none, and lines that are empty; a 7,7 line stands if it is whole.
const ODD_LINES: [&str; 25] = [
    "\r",
    "\n",
    "\r\n",
    "\r\r",
    "\n\n",
    "\n\r",
    "\r\n\r\n",
    "\r\r\n",
    "7,7\n",
    "7,7\r",
    "7,7\r\r\n",
    "7,7\n\r\n",
    "\r\n7,7",
    "\n7,7\r\n",
    "\r7,7\r\n",
    "7,7\r\n\r\n",
    "7,7\r\n\r",
    "7,7\r\n\n",
    "7,7\n8,8\n",
    "7,7\r8,8\r",
    "7,7\r\n\r\n8,8\r\n",
    "7\r,7\r\n",
    "7,\r7\r\n",
    "7,7\r\n8,8\n9,9\r\n",
    "7,7\r\n8,8",
];

/// Lines with commas where none belong, or too few.
const ODD_COMMAS: [&str; 8] = [",", ",,", "7", "7,", ",7", "7,,7", "7,7,", ",7,7"];

/// As many cells as asked for, each of them 1.
fn ones(cells: usize) -> String {
    vec!["1"; cells].join(",")
}

/// Joins parts of bytes.
fn joined(parts: &[&[u8]]) -> Vec<u8> {
    parts.concat()
}

/// This many lines of the rule 7,7.
fn sevens(lines: usize) -> String {
    "7,7\r\n".repeat(lines)
}

fn file(text: &str) -> File {
    File::Bytes(text.as_bytes().to_vec())
}

/// Each file missing, a folder, empty and there.
fn standing(pairs: &mut Vec<Pair>) {
    let kinds = ["missing", "folder", "empty", "there", "no-last-line-end"];
    let stands = |kind: &str, text: &str| match kind {
        "missing" => File::Missing,
        "folder" => File::Folder,
        "empty" => file(""),
        "there" => file(text),
        _ => file(&text[..text.len() - 2]),
    };
    for rules in kinds {
        for headers in kinds {
            pairs.push(Pair {
                name: format!("rules-{}-headers-{}", rules, headers),
                rules: stands(rules, BENCH_RULES),
                headers: stands(headers, BENCH_HEADERS),
            });
        }
    }
}

/// A bad cell on the first line, with an odd and with too large a number of cells, on a later line, and on the last.
fn bad_cells(pairs: &mut Vec<Pair>) {
    let mut headers = Vec::new();
    for (i, cell) in BAD_CELLS.iter().enumerate() {
        let mut rules =
            |what: &str, file: Vec<u8>| pairs.push(Pair::of(&format!("bad-cell-{}-{}", i, what), file, "7\r\n"));
        rules("first", joined(&[cell, b",7\r\n7,7\r\n"]));
        rules("second", joined(&[b"7,", cell, b"\r\n7,7\r\n"]));
        rules("of-three", joined(&[b"7,7,", cell, b"\r\n"]));
        rules("of-eighteen", joined(&[ones(17).as_bytes(), b",", cell, b"\r\n"]));
        rules("last", joined(&[b"7,7\r\n8,8\r\n9,", cell]));
        headers.extend(joined(&[cell, b",7\r\n7,", cell, b"\r\n7,250\r\n"]));
    }
    pairs.push(Pair::of("bad-cells-in-headers", BENCH_RULES, &headers));
}

/// The first line's number of cells, and then a later line's; also such as wrap to a good number in 8 or 16 bits.
fn cell_counts(pairs: &mut Vec<Pair>) {
    let headers: String = (1..=9).map(|cells| ones(cells) + "\r\n").collect();
    for cells in (1..=20).chain([32, 33, 34, 256, 257, 258, 260, 272, 1000, 65536, 65537, 65538, 65552]) {
        pairs.push(Pair::of(&format!("first-line-{}-cells", cells), ones(cells), &headers));
        let unreadable = ones(cells) + "x\r\n";
        pairs.push(Pair::of(&format!("first-line-{}-cells-unreadable", cells), unreadable, &headers));
        let later = format!("1,1,1,1\r\n{}\r\n", ones(cells));
        pairs.push(Pair::of(&format!("later-line-{}-cells", cells), later, &headers));
    }
    let long: String = [256, 257, 258, 65536, 65537, 65538].iter().map(|cells| ones(*cells) + "\r\n").collect();
    pairs.push(Pair::of("headers-of-many-cells", "1,1\r\n", &long));
    pairs.push(Pair::of("headers-of-many-cells-two-fields", "1,1,1,1\r\n", &long));
}

fn odd_lines(pairs: &mut Vec<Pair>) {
    for (i, odd) in ODD_LINES.iter().chain(&ODD_COMMAS).enumerate() {
        pairs.push(Pair::of(&format!("odd-rules-{}", i), odd, "7\r\n"));
        pairs.push(Pair::of(&format!("odd-rules-{}-later", i), format!("7,7\r\n{}", odd), "7\r\n"));
        pairs.push(Pair::of(&format!("odd-headers-{}", i), BENCH_RULES, odd));
        pairs.push(Pair::of(&format!("odd-headers-{}-between", i), BENCH_RULES, format!("7,250\r\n{}7,250\r\n", odd)));
    }
}

/// 3, 4 and 8 against each other: line order first, then 4.
fn many_lines(pairs: &mut Vec<Pair>) {
    let mut rules = |name: &str, file: String| pairs.push(Pair::of(name, file, "7\r\n8\r\n"));
    for lines in [1023, 1024, 1025, 1026, 2048] {
        rules(&format!("{}-lines", lines), sevens(lines));
        rules(&format!("{}-lines-no-last-line-end", lines), String::from(sevens(lines).trim_end()));
    }
    for (i, more) in ["\r", "\n", "\r\n", "x", ",", "7", "8,7", "7,7,7,7\r\n", "\r\n\r\n"].iter().enumerate() {
        rules(&format!("1024-lines-and-more-{}", i), sevens(1024) + more);
        rules(&format!("1023-lines-and-more-{}", i), sevens(1023) + more);
    }
    rules("bad-line-5-of-1025", sevens(4) + "x\r\n" + &sevens(1020));
    rules("bad-line-1024-of-1025", sevens(1023) + "7\r\n" + &sevens(1));
    rules("bad-line-1025", sevens(1024) + "x\r\n");
    rules("low-above-high-first-of-1025", String::from("8,7\r\n") + &sevens(1024));
    rules("low-above-high-first-of-1024", String::from("8,7\r\n") + &sevens(1023));
    rules("low-above-high-last-of-1024", sevens(1023) + "8,7\r\n");
    rules("low-above-high-then-bad", String::from("8,7\r\n7,7\r\nx\r\n"));
    rules("bad-then-low-above-high", String::from("7,7\r\nx\r\n8,7\r\n"));
    rules("low-above-high-alone", String::from("8,7"));
    rules("low-above-high-top", String::from("4294967295,4294967294\r\n"));
    rules("low-above-high-last-field", String::from("7,7,7,7\r\n7,7,8,7\r\n"));
    rules("low-above-high-of-18-cells", ones(17) + ",0\r\n");
    rules("low-above-high-of-17-cells", String::from("8,7,") + &ones(15));
}

/// Lines far longer than any buffer, each with a good line after it; many header lines.
fn long_lines(pairs: &mut Vec<Pair>) {
    let nines = "9".repeat(200000);
    let commas = ",".repeat(200000);
    let zeros = "0,".repeat(100000);
    let headers =
        format!("{}\r\n7,250\r\n{}\r\n7,250\r\n{}\r\n7,250\r\n7,{}\r\n7,250\r\n", nines, commas, zeros, nines);
    pairs.push(Pair::of("long-header-lines", BENCH_RULES, headers));
    pairs.push(Pair::of("long-rule-digits", &nines, BENCH_HEADERS));
    pairs.push(Pair::of("long-rule-cells-even", format!("{}0,0\r\n", zeros), BENCH_HEADERS));
    pairs.push(Pair::of("long-rule-cells-odd", format!("{}0\r\n", zeros), BENCH_HEADERS));
    pairs.push(Pair::of("long-rule-commas", &commas, BENCH_HEADERS));
    pairs.push(Pair::of("long-later-rule", format!("7,7\r\n{}\r\n", nines), "7\r\n"));
    let many: String = (0..20000).map(|i| format!("{},{}\r\n", i % 11, i % 1003)).collect();
    pairs.push(Pair::of("many-headers", BENCH_RULES, many));
    pairs.push(Pair::of("many-empty-headers", BENCH_RULES, "\r\n".repeat(50000)));
}

/// 0 and 4294967295 at either end; eight fields.
fn ends(pairs: &mut Vec<Pair>) {
    let headers = "0\r\n1\r\n4294967294\r\n4294967295\r\n4294967296\r\n";
    pairs.push(Pair::of(
        "ends-of-the-space",
        "4294967295,4294967295\r\n0,0\r\n1,4294967294\r\n0,4294967295\r\n",
        headers,
    ));
    let eight = format!("{}\r\n{}\r\n", vec!["0,4294967295"; 8].join(","), vec!["7,7"; 8].join(","));
    let headers =
        format!("{}\r\n{}\r\n{},8\r\n{}\r\n", vec!["7"; 8].join(","), ones(8), vec!["7"; 7].join(","), ones(7));
    pairs.push(Pair::of("eight-fields", &eight, &headers));
}

pub fn all() -> Vec<Pair> {
    let mut pairs = Vec::new();
    standing(&mut pairs);
    bad_cells(&mut pairs);
    cell_counts(&mut pairs);
    odd_lines(&mut pairs);
    many_lines(&mut pairs);
    long_lines(&mut pairs);
    ends(&mut pairs);
    pairs.extend(sized::all());
    pairs
}

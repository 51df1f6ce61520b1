//! The independent second program: documents 01 and 02 written out as plainly as they read, for the proved programs to
//! be held to. It shares no code with them, uses the standard library alone, and makes no attempt at speed.
//! "Reading N" in a comment is entry N of docs/DECISIONS.md, chosen where 01 can be read in two ways.

mod calls;
mod cases;
#[cfg(test)]
mod checks;
mod choices;
mod decimal;
mod files;
mod lists;
mod lookup;
mod prefixes;
mod program;
mod ranges;
mod refusal;
mod seed;
mod sorting;
mod table;

use std::io::{self, BufWriter, Read, Write};

const USAGE: &str = "usage: second calls                   answers lines of the calls protocol
       second gateway RULES HEADERS   prints what the program prints for two files
       second edges KIND              writes the fixed lines of a kind: ranges, prefixes, lists, sorting, choices, lookup,
                                      protocol
       second stored                  writes the lines that are stored with the crate calls
       second cases SEED COUNT KIND   writes drawn lines of such a kind, or of random or large
       second files DIR               writes the fixed file pairs for the program, a folder each
       second files DIR SEED COUNT    writes drawn file pairs";

/// Writes lines, each ended by LF.
fn write_lines<T: AsRef<[u8]>>(lines: impl Iterator<Item = T>) -> io::Result<()> {
    let mut out = BufWriter::new(io::stdout());
    for line in lines {
        out.write_all(line.as_ref())?;
        out.write_all(b"\n")?;
    }
    out.flush()
}

fn calls() -> io::Result<()> {
    let mut input = Vec::new();
    io::stdin().read_to_end(&mut input)?;
    write_lines(calls::lines_of(&input).into_iter().map(calls::answer))
}

/// A file that can't be opened, or is a folder, counts as empty.
fn gateway(rules: &str, headers: &str) -> io::Result<()> {
    let read = |name: &str| std::fs::read(name).unwrap_or_default();
    io::stdout().write_all(program::printed(&read(rules), &read(headers)).as_bytes())
}

fn usage() -> ! {
    eprintln!("{}", USAGE);
    std::process::exit(2);
}

fn number<T: std::str::FromStr>(word: &str) -> T {
    word.parse().unwrap_or_else(|_| usage())
}

fn main() -> io::Result<()> {
    let words: Vec<String> = std::env::args().skip(1).collect();
    let words: Vec<&str> = words.iter().map(|word| word.as_str()).collect();
    match words[..] {
        ["calls"] => calls(),
        ["gateway", rules, headers] => gateway(rules, headers),
        ["edges", kind] => write_lines(cases::edges(kind).unwrap_or_else(|| usage()).lines.iter()),
        ["stored"] => write_lines(cases::stored().lines.iter()),
        ["cases", seed, count, kind] => {
            let drawn = cases::drawn(kind, number(seed), number(count));
            write_lines(drawn.unwrap_or_else(|| usage()).lines.iter())
        }
        ["files", dir] => files::write_edges(dir),
        ["files", dir, seed, count] => files::write_drawn(dir, number(seed), number(count)),
        _ => usage(),
    }
}

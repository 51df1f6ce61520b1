//! 01, The program: what is printed for the bytes of rules.csv and of headers.csv.
//!
//! Reading 7 throughout: a line ends at CRLF and nowhere else, so a lone CR or LF is a bad character of its cell;
//! what follows the last CRLF, if anything, is a last line; an empty line has one empty cell and is bad. No field is a
//! date here (02, W8).

use crate::decimal::number_of;
use crate::lists::{check, Header, Shape};
use crate::lookup::lookup;
use crate::table::{build, table_length};

/// Cuts a file into its lines, without their CRLF.
fn lines_of(file: &[u8]) -> Vec<&[u8]> {
    let mut lines = Vec::new();
    let mut rest = file;
    while !rest.is_empty() {
        match rest.windows(2).position(|two| two == b"\r\n") {
            Some(at) => {
                lines.push(&rest[..at]);
                rest = &rest[at + 2..];
            }
            None => {
                lines.push(rest);
                rest = &[];
            }
        }
    }
    lines
}

/// Reads the numbers of a line, or none where a cell is bad.
fn numbers_of(line: &[u8]) -> Option<Vec<u32>> {
    line.split(|byte| *byte == b',').map(number_of).collect()
}

/// Reads d and the list, or answers the number of the refusal.
fn rules_of_file(file: &[u8]) -> Result<(u32, Vec<u32>), u32> {
    let mut d = 0;
    let mut list = Vec::new();
    for (i, line) in lines_of(file).iter().enumerate() {
        // line 1,025, whatever stands on it
        if i == 1024 {
            return Err(3);
        }
        let cells = numbers_of(line).ok_or(8u32)?;
        if i == 0 {
            if cells.len() % 2 == 1 {
                return Err(8);
            }
            if cells.len() > 16 {
                return Err(1);
            }
            d = cells.len() / 2;
        }
        if cells.len() != 2 * d {
            return Err(8);
        }
        list.extend(cells);
    }
    // an empty file: d is 0, and the check answers 1; the only other refusal left to it is 4
    match check(Shape::from(d as u32), &list) {
        Ok(_) => Ok((d as u32, list)),
        Err(refusal) => Err(refusal.number),
    }
}

/// Reads a header, or none where the line is bad or has not d cells.
fn header_of_line(line: &[u8], d: u32) -> Option<Header> {
    let cells = numbers_of(line)?;
    if cells.len() != d as usize {
        return None;
    }
    let mut header = [0; 8];
    header[..cells.len()].copy_from_slice(&cells);
    Some(header)
}

/// The bytes that the program prints for two files; one that can't be opened is handed in as empty.
pub fn printed(rules: &[u8], headers: &[u8]) -> String {
    let (d, list) = match rules_of_file(rules) {
        Ok(read) => read,
        Err(number) => return format!("refused,{}\r\n", number),
    };
    let n = list.len() / (2 * d as usize);
    let (shape, mut table) = (Shape::from(d), vec![0; table_length(n, d as usize)]);
    build(shape, &list, &mut table).expect("the list was checked");
    let mut out = String::from("rule,tests\r\n");
    for line in lines_of(headers) {
        match header_of_line(line, d) {
            None => out += "refused,8\r\n",
            Some(header) => {
                let looked = lookup(shape, &list, &table, &header).expect("the table is built");
                match looked.rule {
                    Some(rule) => out += &format!("{},{}\r\n", rule, looked.tests),
                    None => out += &format!("none,{}\r\n", looked.tests),
                }
            }
        }
    }
    out
}

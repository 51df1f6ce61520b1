//! The walk of 01 as a plain Rust loop over slices, with every refusal of a lookup, which skips partitions as 02, W5 has it:
//! what the proved walk, which calls itself, is timed against.

/// A lookup's answer: the refusal (0: none), the tests, the rule (-1: none), and 1 where it is at an edge, else 0.
#[repr(C)]
pub struct Answer {
    refusal: u32,
    tests: u32,
    rule: i32,
    edge: u32,
}

const fn refused(refusal: u32) -> Answer {
    Answer { refusal, tests: 0, rule: -1, edge: 0 }
}

fn lookup(d: usize, list: &[u32], table: &[u16], header: &[u32; 8]) -> Answer {
    if !(1..=8).contains(&d) {
        return refused(1);
    }
    if list.len() % (2 * d) != 0 {
        return refused(2);
    }
    let n = list.len() / (2 * d);
    if n > 1024 {
        return refused(3);
    }
    if table.len() != 4 + 3 * n + 2 * n * d {
        return refused(5);
    }
    let (order, rest) = table[3..].split_at(n);
    let (starts, rest) = rest.split_at(n + 1);
    let (least, rest) = rest.split_at(n);
    let (from, to) = rest.split_at(n * d);
    let b = table[2] as usize;
    if table[0] as usize != n || table[1] as usize != d || b > n || starts[0] != 0 || starts[b] as usize != n {
        return refused(6);
    }
    let mut best = n;
    let mut tests = 0;
    for q in 0..b {
        // before the first candidate best is n, and nothing is skipped
        if best < n && best < least[q] as usize {
            continue;
        }
        let (mut s, mut e, mut f) = (starts[q] as usize, starts[q + 1] as usize, 0);
        if s >= e || e > n {
            return refused(6);
        }
        while s < e && f < d {
            let mid = s + (e - s) / 2;
            let rule = order[mid] as usize;
            if rule >= n {
                return refused(6);
            }
            let (left, right) = (from[mid * d + f] as usize, to[mid * d + f] as usize);
            if !(s <= left && left <= mid && mid < right && right <= e) {
                return refused(6);
            }
            let at = 2 * (rule * d + f);
            tests += 1;
            if header[f] < list[at] {
                e = left;
            } else if header[f] > list[at + 1] {
                s = right;
            } else {
                (s, e, f) = (left, right, f + 1);
            }
        }
        if s >= e {
            continue;
        }
        let rule = order[s] as usize;
        if e != s + 1 || rule >= n {
            return refused(6);
        }
        let ranges = &list[2 * rule * d..2 * (rule + 1) * d];
        if !(0..d).all(|f| ranges[2 * f] <= header[f] && header[f] <= ranges[2 * f + 1]) {
            return refused(6);
        }
        best = best.min(rule);
    }
    if best == n {
        return Answer { refusal: 0, tests, rule: -1, edge: 0 };
    }
    let ranges = &list[2 * best * d..2 * (best + 1) * d];
    let edge = (0..d).any(|f| ranges[2 * f] == header[f] || header[f] == ranges[2 * f + 1]);
    Answer { refusal: 0, tests, rule: best as i32, edge: edge as u32 }
}

/// The same for C.
///
/// # Safety
/// The pointers are valid for reads of the lengths given, the header's for eight numbers.
#[no_mangle]
pub unsafe extern "C" fn rust_lookup(d: usize, list: *const u32, length: usize, table: *const u16, table_length: usize, header: *const [u32; 8]) -> Answer {
    lookup(d, std::slice::from_raw_parts(list, length), std::slice::from_raw_parts(table, table_length), &*header)
}

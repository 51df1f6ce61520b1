//! Cuyenalot for Rust on x86-64 Linux: a safe wrapper of the functions that `include/cuyenalot.h` declares and explains.
//!
//! A caller owes those functions valid memory and nothing more, and Rust's references are that: every slice is as long as it
//! says, and a `&mut` overlaps nothing. So no function here tests anything, and each is safe for every input.
//! Link with `-L native=target/staticlib` after `scripts/archive`, or with `-L native=PREFIX/lib` after `scripts/install PREFIX`.

/// A header: eight numbers, of which the first d are read.
pub type Header = [u32; 8];

/// What a list's numbers mean: d, the number of fields of a rule, and which of them are dates, flag f for field f; flags past
/// d alter nothing. In a date a range holds low to before high, in any other field low to high, both counted.
#[derive(Clone, Copy, Debug, PartialEq, Eq)]
pub struct Shape {
    pub d: usize,
    pub dates: [bool; 8],
}

impl Shape {
    /// The shape of a list of d fields a rule, whatever d is, none of them a date.
    pub const fn of(d: usize) -> Shape {
        Shape { d, dates: [false; 8] }
    }

    /// d, and the flags as the C functions take them: bit f for field f.
    fn numbers(&self) -> (usize, u32) {
        (self.d, self.dates.iter().rev().fold(0, |flags, &date| 2 * flags + date as u32))
    }
}

/// The version of the interface that this file is for; `version()` gives that of the archive.
pub const VERSION: u32 = 4;

/// The limits: fields of a rule, rules of a list, numbers of the longest list and of the longest table.
pub const MAX_FIELDS: usize = 8;
pub const MAX_RULES: usize = 1024;
pub const MAX_LIST: usize = 2 * MAX_FIELDS * MAX_RULES;
pub const MAX_TABLE: usize = table_length(MAX_RULES, MAX_FIELDS);

/// A refusal: its number, from the table of the C header, and its place of two numbers.
#[derive(Clone, Copy, Debug, PartialEq, Eq)]
pub struct Refusal {
    pub number: u32,
    pub at: usize,
    pub then: usize,
}

impl Refusal {
    /// What is wrong, in the words of the C header.
    pub fn name(&self) -> &'static str {
        match self.number {
            1 => "d is not 1 to 8",
            2 => "the list's length is no multiple of 2d",
            3 => "more than 1,024 rules",
            4 => "some low is above its high, or equal to it in a date",
            5 => "the table's length is not that of n rules of d fields",
            6 => "broken table: numbers of it that the call reads do not hold together",
            7 => "the partition number is not below the number of partitions",
            8 => "a CSV line is not as it must be",
            9 => "the width is not 1 to 32",
            10 => "the prefix is longer than the width, its value needs more bits, or a bit below it is set",
            11 => "low is above high, or high needs more bits than the width",
            12 => "fewer places lent than prefixes to write",
            15 => "the run of partition numbers is not n long, one a rule",
            16 => "some partition number of the run is not below n",
            17 => "some number below the run's largest partition number has no rule",
            18 => "two rules of one partition clash",
            0 => "nothing is refused",
            _ => "no refusal has this number",
        }
    }
}

impl std::fmt::Display for Refusal {
    fn fmt(&self, f: &mut std::fmt::Formatter) -> std::fmt::Result {
        write!(f, "refused {} at {} then {}: {}", self.number, self.at, self.then, self.name())
    }
}

impl std::error::Error for Refusal {}

/// What a lookup finds: the rule, or none, the number of range tests, and whether the rule is at an edge, which means that in
/// one of the d fields or more the header's number is the first or the last of its range. None has no edge.
#[derive(Clone, Copy, Debug, PartialEq, Eq)]
pub struct Looked {
    pub rule: Option<usize>,
    pub tests: usize,
    pub edge: bool,
}

/// A partition: how many rules it has, and the smallest rule number, as the table stores it.
#[derive(Clone, Copy, Debug, PartialEq, Eq)]
pub struct Part {
    pub size: usize,
    pub least: usize,
}

mod c {
    #[link(name = "cuyenalot", kind = "static")]
    extern "C" {
        pub fn cuy_version() -> u32;
        pub fn cuy_check(d: usize, dates: u32, list: *const u32, list_length: usize, answer: &mut [u64; 4]) -> u32;
        pub fn cuy_plain_scan(
            d: usize,
            dates: u32,
            list: *const u32,
            list_length: usize,
            header: &[u32; 8],
            answer: &mut [u64; 5],
        ) -> u32;
        pub fn cuy_independence(
            d: usize,
            dates: u32,
            list: *const u32,
            list_length: usize,
            answer: &mut [u64; 6],
        ) -> u32;
        pub fn cuy_choose(
            d: usize,
            dates: u32,
            list: *const u32,
            list_length: usize,
            run: *mut u16,
            run_length: usize,
            answer: &mut [u64; 4],
        ) -> u32;
        pub fn cuy_lay_out(
            d: usize,
            dates: u32,
            list: *const u32,
            list_length: usize,
            run: *const u16,
            run_length: usize,
            table: *mut u16,
            table_length: usize,
            answer: &mut [u64; 4],
        ) -> u32;
        pub fn cuy_build(
            d: usize,
            dates: u32,
            list: *const u32,
            list_length: usize,
            table: *mut u16,
            table_length: usize,
            answer: &mut [u64; 4],
        ) -> u32;
        pub fn cuy_lookup(
            d: usize,
            dates: u32,
            list: *const u32,
            list_length: usize,
            table: *const u16,
            table_length: usize,
            header: &[u32; 8],
            answer: &mut [u64; 7],
        ) -> u32;
        pub fn cuy_audit(
            d: usize,
            dates: u32,
            list: *const u32,
            list_length: usize,
            table: *const u16,
            table_length: usize,
            answer: &mut [u64; 4],
        ) -> u32;
        pub fn cuy_report(
            d: usize,
            dates: u32,
            list: *const u32,
            list_length: usize,
            table: *const u16,
            table_length: usize,
            partition: usize,
            answer: &mut [u64; 5],
        ) -> u32;
        pub fn cuy_prefix_to_range(width: u32, value: u32, length: u32, answer: &mut [u64; 5]) -> u32;
        pub fn cuy_range_to_prefixes(
            width: u32,
            low: u32,
            high: u32,
            run: *mut u32,
            run_length: usize,
            answer: &mut [u64; 4],
        ) -> u32;
    }
}

/// How many numbers the table of n rules of d fields has: at most `MAX_TABLE` for n up to `MAX_RULES` and d up to
/// `MAX_FIELDS`. Past these limits there is no such table, and the same sum is given, held at `usize::MAX` where it is larger.
pub const fn table_length(n: usize, d: usize) -> usize {
    n.saturating_mul(3).saturating_add(n.saturating_mul(2).saturating_mul(d)).saturating_add(4)
}

/// The version of the archive, to be held against `VERSION`.
pub fn version() -> u32 {
    unsafe { c::cuy_version() }
}

/// Checks a list: its number of rules.
pub fn check(shape: Shape, list: &[u32]) -> Result<usize, Refusal> {
    let (d, dates) = shape.numbers();
    let mut answer = [0; 4];
    let number = unsafe { c::cuy_check(d, dates, list.as_ptr(), list.len(), &mut answer) };
    told(number, &answer)?;
    Ok(answer[3] as usize)
}

/// Scans a list plainly: the first match, or none.
pub fn plain_scan(shape: Shape, list: &[u32], header: &Header) -> Result<Option<usize>, Refusal> {
    let (d, dates) = shape.numbers();
    let mut answer = [0; 5];
    let number = unsafe { c::cuy_plain_scan(d, dates, list.as_ptr(), list.len(), header, &mut answer) };
    told(number, &answer)?;
    Ok(match_in(&answer))
}

/// Tests a list for order independence: none, or the least pair of rules that some header fits.
pub fn independence(shape: Shape, list: &[u32]) -> Result<Option<(usize, usize)>, Refusal> {
    let (d, dates) = shape.numbers();
    let mut answer = [0; 6];
    let number = unsafe { c::cuy_independence(d, dates, list.as_ptr(), list.len(), &mut answer) };
    told(number, &answer)?;
    Ok(if answer[3] == 1 { None } else { Some((answer[4] as usize, answer[5] as usize)) })
}

/// Chooses the partitions of a list by first fit, each rule's number at its place in the run: how many partitions. A refusal
/// leaves the run as lent.
pub fn choose(shape: Shape, list: &[u32], run: &mut [u16]) -> Result<usize, Refusal> {
    let (d, dates) = shape.numbers();
    let mut answer = [0; 4];
    let number =
        unsafe { c::cuy_choose(d, dates, list.as_ptr(), list.len(), run.as_mut_ptr(), run.len(), &mut answer) };
    told(number, &answer)?;
    Ok(answer[3] as usize)
}

/// Lays out the table of a list and a choice of partitions, which is what `choose` wrote or the caller's own: its number of
/// partitions. A refusal leaves the table as lent.
pub fn lay_out(shape: Shape, list: &[u32], run: &[u16], table: &mut [u16]) -> Result<usize, Refusal> {
    let (d, dates) = shape.numbers();
    let mut answer = [0; 4];
    let number = unsafe {
        c::cuy_lay_out(
            d,
            dates,
            list.as_ptr(),
            list.len(),
            run.as_ptr(),
            run.len(),
            table.as_mut_ptr(),
            table.len(),
            &mut answer,
        )
    };
    told(number, &answer)?;
    Ok(answer[3] as usize)
}

/// Builds the table of a list, `choose` and `lay_out` in turn: its number of partitions. A refusal leaves the table as lent.
pub fn build(shape: Shape, list: &[u32], table: &mut [u16]) -> Result<usize, Refusal> {
    let (d, dates) = shape.numbers();
    let mut answer = [0; 4];
    let number =
        unsafe { c::cuy_build(d, dates, list.as_ptr(), list.len(), table.as_mut_ptr(), table.len(), &mut answer) };
    told(number, &answer)?;
    Ok(answer[3] as usize)
}

/// Looks a header up in a table: the rule, or none, the range tests, and whether the rule is at an edge. In a table that `audit`
/// says no to, as one written with other flags may be, a rule that is given still fits, by the flags of this call, and need not
/// be the first match. Nothing is tested in a partition whose stored number is greater than the smallest rule found so far.
pub fn lookup(shape: Shape, list: &[u32], table: &[u16], header: &Header) -> Result<Looked, Refusal> {
    let (d, dates) = shape.numbers();
    let mut answer = [0; 7];
    let number =
        unsafe { c::cuy_lookup(d, dates, list.as_ptr(), list.len(), table.as_ptr(), table.len(), header, &mut answer) };
    told(number, &answer)?;
    Ok(Looked { rule: match_in(&answer), tests: answer[5] as usize, edge: answer[6] == 1 })
}

/// Audits a table: whether it is, number for number, what `lay_out` writes for this list, this shape and some choice of
/// partitions, as it is where `build` or `lay_out` wrote it for them.
pub fn audit(shape: Shape, list: &[u32], table: &[u16]) -> Result<bool, Refusal> {
    let (d, dates) = shape.numbers();
    let mut answer = [0; 4];
    let number = unsafe { c::cuy_audit(d, dates, list.as_ptr(), list.len(), table.as_ptr(), table.len(), &mut answer) };
    told(number, &answer)?;
    Ok(answer[3] == 1)
}

/// Reports on a partition of a table; its rules are not read, and which fields are dates alters nothing. In a table that `audit`
/// says no to, the number stored may be another than the smallest.
pub fn report(shape: Shape, list: &[u32], table: &[u16], partition: usize) -> Result<Part, Refusal> {
    let (d, dates) = shape.numbers();
    let mut answer = [0; 5];
    let number = unsafe {
        c::cuy_report(d, dates, list.as_ptr(), list.len(), table.as_ptr(), table.len(), partition, &mut answer)
    };
    told(number, &answer)?;
    Ok(Part { size: answer[3] as usize, least: answer[4] as usize })
}

/// Turns a prefix of a width into its range, low and high, both counted.
pub fn prefix_to_range(width: u32, value: u32, length: u32) -> Result<(u32, u32), Refusal> {
    let mut answer = [0; 5];
    let number = unsafe { c::cuy_prefix_to_range(width, value, length, &mut answer) };
    told(number, &answer)?;
    Ok((answer[3] as u32, answer[4] as u32))
}

/// Turns the range low to high into prefixes, pairs of value and length at the front of the run: how many pairs. A refusal
/// leaves the run as lent; 12 says at how many pairs are needed.
pub fn range_to_prefixes(width: u32, low: u32, high: u32, run: &mut [u32]) -> Result<usize, Refusal> {
    let mut answer = [0; 4];
    let number = unsafe { c::cuy_range_to_prefixes(width, low, high, run.as_mut_ptr(), run.len(), &mut answer) };
    told(number, &answer)?;
    Ok(answer[3] as usize)
}

/// The refusal that a call gave, if any.
fn told(number: u32, answer: &[u64]) -> Result<(), Refusal> {
    if number == 0 {
        return Ok(());
    }
    Err(Refusal { number, at: answer[1] as usize, then: answer[2] as usize })
}

/// The match that a call answered, if any.
fn match_in(answer: &[u64]) -> Option<usize> {
    if answer[3] == 1 {
        Some(answer[4] as usize)
    } else {
        None
    }
}

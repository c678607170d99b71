//! The calls of Ullagreth for Rust programs: a module that a program takes with `#[path = ".."] mod ullagreth;` and links with
//! `-L target/staticlib`. `Table` owns its words and tells a refusal as an error; `lent` has the same calls over lent rows, by document 01's
//! numbers. Every `unsafe` of the border stands in `lent`.
#![allow(dead_code)] // a program takes the calls that it needs

use std::fmt;

/// The words of a table, its slots, the words of a slot, the most points, the most k and so the most names on a card. A query's lists of
/// `MOST_POINTS` are never refused, nor is a card's of `MOST_K`.
pub const WORDS: usize = 10_754;
pub const SLOTS: usize = 256;
pub const SLOT_WORDS: usize = 42;
pub const MOST_POINTS: usize = 500;
pub const MOST_K: usize = 16;

/// A record of the candidate list, laid out as the library has it: 24 bytes without a hole.
#[repr(C)]
#[derive(Clone, Copy, PartialEq, Eq, Debug, Default)]
pub struct Candidate {
    pub number: u64,
    pub x: i32,
    pub y: i32,
    /// The squared distance to the query's place.
    pub square: u64,
}

/// n answers, m candidates, o nodes opened.
#[derive(Clone, Copy, PartialEq, Eq, Debug)]
pub struct Counts {
    pub n: usize,
    pub m: usize,
    pub o: usize,
}

/// Document 01's numbers but 0.
#[derive(Clone, Copy, PartialEq, Eq, Debug)]
pub enum Refusal {
    WrongLength,
    /// The lowest-numbered rule of document 01 that is broken, and the lowest slot where it is; the two header words are slot -1, below all others.
    NotWellFormed { rule: u8, slot: i32 },
    NoSuchNumber,
    OffGrid,
    NoSuchK,
    AlreadyEnrolled,
    Full,
    NotEnrolled,
    FewCandidates,
    /// The only refusal that has a count: so many answers there are, or so many names on the card.
    ShortList { n: usize },
    /// This one and the next are of the job sheet: no call here gives them.
    Misshapen,
    SheetTooLong,
}

impl Refusal {
    /// The number and the words of document 01.
    fn line(self) -> (u8, &'static str) {
        match self {
            Refusal::WrongLength => (1, "table not 10,754 words"),
            Refusal::NotWellFormed { .. } => (2, "table not well formed"),
            Refusal::NoSuchNumber => (3, "point number outside 1 to 9,999"),
            Refusal::OffGrid => (4, "a coordinate off the grid"),
            Refusal::NoSuchK => (5, "k missing or outside 1 to 16"),
            Refusal::AlreadyEnrolled => (6, "point already enrolled"),
            Refusal::Full => (7, "500 points enrolled"),
            Refusal::NotEnrolled => (8, "point not enrolled"),
            Refusal::FewCandidates => (9, "candidate list shorter than the points enrolled"),
            Refusal::ShortList { .. } => (10, "list shorter than what it is to get"),
            Refusal::Misshapen => (11, "misshapen line"),
            Refusal::SheetTooLong => (12, "sheet longer than 65,536 bytes"),
        }
    }

    pub fn number(self) -> u8 {
        self.line().0
    }
}

impl fmt::Display for Refusal {
    fn fmt(&self, f: &mut fmt::Formatter) -> fmt::Result {
        f.write_str(self.line().1)?;
        match self {
            Refusal::NotWellFormed { rule, slot } => write!(f, ": rule {rule}, slot {slot}"),
            _ => Ok(()),
        }
    }
}

impl std::error::Error for Refusal {}

/// What a number says; n is of use to 10 alone, rule and slot to 2 alone.
fn granted(number: u8, n: usize, [rule, slot]: [i32; 2]) -> Result<(), Refusal> {
    Err(match number {
        0 => return Ok(()),
        1 => Refusal::WrongLength,
        2 => Refusal::NotWellFormed { rule: rule as u8, slot },
        3 => Refusal::NoSuchNumber,
        4 => Refusal::OffGrid,
        5 => Refusal::NoSuchK,
        6 => Refusal::AlreadyEnrolled,
        7 => Refusal::Full,
        8 => Refusal::NotEnrolled,
        9 => Refusal::FewCandidates,
        10 => Refusal::ShortList { n },
        _ => unreachable!("a call gave {number}, which its promise rules out"),
    })
}

/// A table that the program owns. Its words may be any: each call checks them first.
#[derive(Clone, PartialEq, Eq)]
pub struct Table(Box<[i32]>);

impl Table {
    /// The empty table: no root, no points, every slot free. Made here and not proved; `check` grants it.
    pub fn empty() -> Table {
        let mut words = vec![0; WORDS];
        words[0] = -1;
        (0..SLOTS).for_each(|slot| words[2 + SLOT_WORDS * slot] = -1);
        Table::of_words(words)
    }

    pub fn of_words(words: impl Into<Box<[i32]>>) -> Table {
        Table(words.into())
    }

    pub fn words(&self) -> &[i32] {
        &self.0
    }

    /// Granted exactly if the table is well formed.
    pub fn check(&self) -> Result<(), Refusal> {
        let mut fault = [0; 2];
        granted(lent::check(&self.0, &mut fault), 0, fault)
    }

    /// Enrols a point at a place. A refusal (1, 2, 3, 4, 6, 7) leaves every word as it was.
    pub fn enrol(&mut self, number: i32, x: i32, y: i32) -> Result<(), Refusal> {
        let mut fault = [0; 2];
        granted(lent::enrol(&mut self.0, number, x, y, &mut fault), 0, fault)
    }

    /// Withdraws the point with a number. A refusal (1, 2, 3, 8) leaves every word as it was.
    pub fn withdraw(&mut self, number: i32) -> Result<(), Refusal> {
        let mut fault = [0; 2];
        granted(lent::withdraw(&mut self.0, number, &mut fault), 0, fault)
    }

    /// Lists the points to which fewer than k others are as near as (x, y), or nearer: `list[..m]` are the candidates in the order found,
    /// `answers[..n]` the point numbers, rising; the rest of both stays. A refusal (1, 2, 4, 5, 9, 10) leaves both as they were, but for
    /// `ShortList`, which leaves the list as a success would.
    pub fn query(&self, x: i32, y: i32, k: i32, list: &mut [Candidate], answers: &mut [u32]) -> Result<Counts, Refusal> {
        let (mut row, mut fault) = ([0; 3], [0; 2]);
        let number = lent::query(&self.0, x, y, k, list, answers, &mut row, &mut fault);
        let [n, m, o] = row.map(|count| count as usize);
        granted(number, n, fault).map(|()| Counts { n, m, o })
    }

    /// For each i below the least of the three lengths `counts[i]` becomes n of the query at `(xs[i], ys[i])`, 0 where that query is refused;
    /// the rest stays. The table is checked once, and a refusal (1, 2) leaves every count as it was.
    pub fn sites(&self, xs: &[i32], ys: &[i32], k: i32, counts: &mut [u32]) -> Result<(), Refusal> {
        let mut fault = [0; 2];
        granted(lent::sites(&self.0, xs, ys, k, counts, &mut fault), 0, fault)
    }

    /// The card of the station with a number: its k nearest other holders by squared distance, equal distances by lower number; fewer if fewer
    /// are enrolled. `list[..n]` are their numbers, nearest first, and the rest stays; n is given back. A refusal (1, 2, 3, 5, 8, 10) leaves
    /// the list as it was.
    pub fn card(&self, number: i32, k: i32, list: &mut [u32]) -> Result<usize, Refusal> {
        let (mut names, mut fault) = ([0], [0; 2]);
        let given = lent::card(&self.0, number, k, list, &mut names, &mut fault);
        let [n] = names.map(|count| count as usize);
        granted(given, n, fault).map(|()| n)
    }

    /// For each i below the lesser length the card of `numbers[i]` goes to the front of `cards[i]`, whose rest stays, and all of it where that
    /// card is refused: in rows of zeros a card ends at its first zero. The table is checked once, and a refusal (1, 2) leaves every card as it
    /// was.
    pub fn cards(&self, numbers: &[i32], k: i32, cards: &mut [[u32; MOST_K]]) -> Result<(), Refusal> {
        let mut fault = [0; 2];
        granted(lent::cards(&self.0, numbers, k, cards.as_flattened_mut(), &mut fault), 0, fault)
    }
}

/// The calls over lent rows. Each gives document 01's number. The first two places of `fault` become rule and slot with 2, and 0 and 0 with any other
/// number; the rest of it stays, and a row of fewer than two stays whole.
///
/// What makes every call below sound: a pointer and a length come from one Rust slice, so that many elements are behind the pointer, aligned and
/// never null, and nobody else writes them during the call, nor reads those lent by `&mut`. The library is proved to stay inside the rows and to
/// keep none of them, and every value that it can store is one of the element's type.
pub mod lent {
    use super::Candidate;

    // SAFETY: the signatures are those of crates/export/src/lib.rt, where a slice passes as a pointer and then a length.
    #[link(name = "export", kind = "static")]
    unsafe extern "C" {
        fn ullagreth_check(table: *const i32, table_length: usize, fault: *mut i32, fault_length: usize) -> u8;
        fn ullagreth_enrol(table: *mut i32, table_length: usize, number: i32, x: i32, y: i32, fault: *mut i32, fault_length: usize) -> u8;
        fn ullagreth_withdraw(table: *mut i32, table_length: usize, number: i32, fault: *mut i32, fault_length: usize) -> u8;
        fn ullagreth_query(
            table: *const i32,
            table_length: usize,
            x: i32,
            y: i32,
            k: i32,
            list: *mut Candidate,
            list_length: usize,
            answers: *mut u32,
            answers_length: usize,
            counts: *mut u64,
            counts_length: usize,
            fault: *mut i32,
            fault_length: usize,
        ) -> u8;
        fn ullagreth_sites(
            table: *const i32,
            table_length: usize,
            xs: *const i32,
            xs_length: usize,
            ys: *const i32,
            ys_length: usize,
            k: i32,
            counts: *mut u32,
            counts_length: usize,
            fault: *mut i32,
            fault_length: usize,
        ) -> u8;
        fn ullagreth_card(
            table: *const i32,
            table_length: usize,
            number: i32,
            k: i32,
            list: *mut u32,
            list_length: usize,
            names: *mut u64,
            names_length: usize,
            fault: *mut i32,
            fault_length: usize,
        ) -> u8;
        fn ullagreth_cards(
            table: *const i32,
            table_length: usize,
            numbers: *const i32,
            numbers_length: usize,
            k: i32,
            cards: *mut u32,
            cards_length: usize,
            fault: *mut i32,
            fault_length: usize,
        ) -> u8;
    }

    pub fn check(table: &[i32], fault: &mut [i32]) -> u8 {
        // SAFETY: two slices, and the borrows keep the one that is written apart from the table.
        unsafe { ullagreth_check(table.as_ptr(), table.len(), fault.as_mut_ptr(), fault.len()) }
    }

    pub fn enrol(table: &mut [i32], number: i32, x: i32, y: i32, fault: &mut [i32]) -> u8 {
        // SAFETY: two slices, lent to the library alone and apart.
        unsafe { ullagreth_enrol(table.as_mut_ptr(), table.len(), number, x, y, fault.as_mut_ptr(), fault.len()) }
    }

    pub fn withdraw(table: &mut [i32], number: i32, fault: &mut [i32]) -> u8 {
        // SAFETY: two slices, lent to the library alone and apart.
        unsafe { ullagreth_withdraw(table.as_mut_ptr(), table.len(), number, fault.as_mut_ptr(), fault.len()) }
    }

    /// The first three counts become n, m, o, and zero where the query is refused (but for n of 10); a row of fewer than three stays.
    pub fn query(table: &[i32], x: i32, y: i32, k: i32, list: &mut [Candidate], answers: &mut [u32], counts: &mut [u64], fault: &mut [i32]) -> u8 {
        // SAFETY: five slices, and the borrows keep the four that are written apart from each other and from the table. `Candidate` is
        // `repr(C)` with the fields of record::Candidate, which is `repr(C)` too.
        unsafe {
            ullagreth_query(
                table.as_ptr(),
                table.len(),
                x,
                y,
                k,
                list.as_mut_ptr(),
                list.len(),
                answers.as_mut_ptr(),
                answers.len(),
                counts.as_mut_ptr(),
                counts.len(),
                fault.as_mut_ptr(),
                fault.len(),
            )
        }
    }

    pub fn sites(table: &[i32], xs: &[i32], ys: &[i32], k: i32, counts: &mut [u32], fault: &mut [i32]) -> u8 {
        // SAFETY: five slices, and the borrows keep the two that are written apart from each other and from the three that are read.
        unsafe {
            ullagreth_sites(
                table.as_ptr(),
                table.len(),
                xs.as_ptr(),
                xs.len(),
                ys.as_ptr(),
                ys.len(),
                k,
                counts.as_mut_ptr(),
                counts.len(),
                fault.as_mut_ptr(),
                fault.len(),
            )
        }
    }

    /// The first place of `names` becomes how many names the card has, and 0 where it is refused (but for 10); a row of none stays.
    pub fn card(table: &[i32], number: i32, k: i32, list: &mut [u32], names: &mut [u64], fault: &mut [i32]) -> u8 {
        // SAFETY: four slices, and the borrows keep the three that are written apart from each other and from the table.
        unsafe {
            ullagreth_card(
                table.as_ptr(),
                table.len(),
                number,
                k,
                list.as_mut_ptr(),
                list.len(),
                names.as_mut_ptr(),
                names.len(),
                fault.as_mut_ptr(),
                fault.len(),
            )
        }
    }

    /// Each number has a stretch of `MOST_K` places; what is left behind the last whole one stays.
    pub fn cards(table: &[i32], numbers: &[i32], k: i32, cards: &mut [u32], fault: &mut [i32]) -> u8 {
        // SAFETY: four slices, and the borrows keep the two that are written apart from each other and from the two that are read.
        unsafe {
            ullagreth_cards(
                table.as_ptr(),
                table.len(),
                numbers.as_ptr(),
                numbers.len(),
                k,
                cards.as_mut_ptr(),
                cards.len(),
                fault.as_mut_ptr(),
                fault.len(),
            )
        }
    }
}

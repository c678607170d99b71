//! The proved library as the comparison lends it rows: its calls are those of bindings/rust/ullagreth.rs, with 01's number as the second has it. The
//! row for rule and slot is held to the second's check here, after every call.

use crate::check;
use crate::ullagreth::{lent, Candidate};

/// A row for rule and slot, with a place more, each with a mark that no call writes.
const UNTOLD: [i32; 3] = [-77_777; 3];

/// The number of a call on a table, whose row must tell rule and slot with 2, 0 and 0 with any other. (A refused table is as it was.)
fn told(table: &[i32], given: u8, fault: [i32; 3]) -> i32 {
    let [rule, slot] = if given == 2 { check::judged(table).1 } else { [0, 0] };
    assert_eq!(fault, [rule, slot, UNTOLD[2]], "rule and slot, after {given}");
    i32::from(given)
}

pub fn check(table: &[i32]) -> i32 {
    let mut fault = UNTOLD;
    told(table, lent::check(table, &mut fault), fault)
}

pub fn enrol(table: &mut [i32], number: i32, x: i32, y: i32) -> i32 {
    let mut fault = UNTOLD;
    let given = lent::enrol(table, number, x, y, &mut fault);
    told(table, given, fault)
}

pub fn withdraw(table: &mut [i32], number: i32) -> i32 {
    let mut fault = UNTOLD;
    let given = lent::withdraw(table, number, &mut fault);
    told(table, given, fault)
}

/// The candidate list, the answer list and the row of counts that a query is lent.
#[derive(Clone, PartialEq, Eq, Debug)]
pub struct Lists {
    pub candidates: Vec<Candidate>,
    pub answers: Vec<u32>,
    pub counts: [u64; 4],
}

impl Lists {
    /// So many candidates and answers, and one count more than there are, each word with a mark that no query writes.
    pub fn marked(candidates: usize, answers: usize) -> Lists {
        Lists {
            candidates: vec![Candidate { number: 77_777_777_777, x: -77, y: -77, square: 77_777_777_777_777 }; candidates],
            answers: vec![77_777; answers],
            counts: [77_777; 4],
        }
    }

    /// n, m and o; what is behind them stays.
    pub fn tell(&mut self, n: usize, m: usize, o: usize) {
        for (count, told) in self.counts.iter_mut().zip([n, m, o]) {
            *count = told as u64;
        }
    }
}

pub fn query(table: &[i32], x: i32, y: i32, k: i32, l: &mut Lists) -> i32 {
    let mut fault = UNTOLD;
    told(table, lent::query(table, x, y, k, &mut l.candidates, &mut l.answers, &mut l.counts, &mut fault), fault)
}

pub fn sites(table: &[i32], xs: &[i32], ys: &[i32], k: i32, counts: &mut [u32]) -> i32 {
    let mut fault = UNTOLD;
    told(table, lent::sites(table, xs, ys, k, counts, &mut fault), fault)
}

pub fn card(table: &[i32], number: i32, k: i32, list: &mut [u32], names: &mut [u64]) -> i32 {
    let mut fault = UNTOLD;
    told(table, lent::card(table, number, k, list, names, &mut fault), fault)
}

pub fn cards(table: &[i32], numbers: &[i32], k: i32, cards: &mut [u32]) -> i32 {
    let mut fault = UNTOLD;
    told(table, lent::cards(table, numbers, k, cards, &mut fault), fault)
}

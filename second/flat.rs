//! The holders as a flat list, with no tree: enrolment and withdrawal with document 01's refusals, the query by a scan of every pair, the card by
//! a scan of all others.

use crate::card::{scanned, MOST_K};
use crate::query::scan;
use crate::table::{on_grid, MOST};

#[derive(Default)]
pub struct Flat {
    pub all: Vec<(i32, i64, i64)>,
}

impl Flat {
    fn place_of(&self, number: i32) -> Option<usize> {
        self.all.iter().position(|s| s.0 == number)
    }

    pub fn enrol(&mut self, number: i32, x: i32, y: i32) -> i32 {
        if !(1..=9999).contains(&number) {
            3
        } else if !on_grid(x) || !on_grid(y) {
            4
        } else if self.place_of(number).is_some() {
            6
        } else if self.all.len() == MOST {
            7
        } else {
            self.all.push((number, i64::from(x), i64::from(y)));
            0
        }
    }

    pub fn withdraw(&mut self, number: i32) -> i32 {
        if !(1..=9999).contains(&number) {
            return 3;
        }
        match self.place_of(number) {
            Some(i) => {
                self.all.remove(i);
                0
            }
            None => 8,
        }
    }

    pub fn query(&self, q: [i64; 2], k: usize) -> Vec<i32> {
        scan(&self.all, q, k)
    }

    /// The cards of these numbers, who are all enrolled, each in its stretch of sixteen places.
    pub fn cards(&self, numbers: &[i32], k: usize, cards: &mut [u32]) {
        for (stretch, &number) in cards.chunks_exact_mut(MOST_K).zip(numbers) {
            scanned(&self.all, &self.all[self.place_of(number).expect("one who is enrolled")], k, stretch);
        }
    }
}

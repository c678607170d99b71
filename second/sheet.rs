//! The job sheet of document 01, with the lines that 02 adds, in the second implementation.

use crate::card::card;
use crate::flat::Flat;
use crate::query::{walk, Found};
use crate::table::{on_grid, Table};

/// How a sheet is answered: by the tree and the walk, or with no tree at all, by a scan of every pair (m and o then stay 0).
#[derive(Clone, Copy, PartialEq, Eq)]
pub enum By {
    Walk,
    Scan,
}

enum Job {
    Enrol(i32, i32, i32),
    Withdraw(i32),
    Query(i32, i32, i32),
    Card(i32, i32),
    /// The letter of a line that lacks its k.
    MissingK(char),
    Misshapen,
}

/// A field of the sheet, or of a list once unquoted: a number or none.
pub fn number(f: &[u8]) -> Option<i32> {
    let (minus, digits) = match f.split_first() {
        Some((b'-', rest)) => (true, rest),
        _ => (false, f),
    };
    let plain = (1..=7).contains(&digits.len()) && digits.iter().all(u8::is_ascii_digit) && (digits.len() == 1 || digits[0] != b'0');
    if !plain || (minus && digits[0] == b'0') {
        return None;
    }
    let v = digits.iter().fold(0i32, |v, d| 10 * v + i32::from(d - b'0'));
    Some(if minus { -v } else { v })
}

fn job(line: &[u8]) -> Job {
    let fields: Vec<&[u8]> = line.split(|&b| b == b'\t').collect();
    let n = |i: usize| number(fields[i]);
    let parsed = match (fields[0], fields.len()) {
        (b"E", 4) => (|| Some(Job::Enrol(n(1)?, n(2)?, n(3)?)))(),
        (b"W", 2) => n(1).map(Job::Withdraw),
        (b"Q", 3) => n(1).and(n(2)).map(|_| Job::MissingK('Q')),
        (b"Q", 4) if fields[3].is_empty() => n(1).and(n(2)).map(|_| Job::MissingK('Q')),
        (b"Q", 4) => (|| Some(Job::Query(n(1)?, n(2)?, n(3)?)))(),
        (b"K", 2) => n(1).map(|_| Job::MissingK('K')),
        (b"K", 3) if fields[2].is_empty() => n(1).map(|_| Job::MissingK('K')),
        (b"K", 3) => n(1).zip(n(2)).map(|(p, k)| Job::Card(p, k)),
        _ => None,
    };
    parsed.unwrap_or(Job::Misshapen)
}

/// What stands behind the desk: the tree, or the flat list.
trait Keeper {
    fn enrol(&mut self, number: i32, x: i32, y: i32) -> i32;
    fn withdraw(&mut self, number: i32) -> i32;
    fn query(&self, q: [i64; 2], k: usize) -> Found;
    /// The names, or the number that the card is refused with.
    fn card(&self, number: i32, k: i32) -> Result<Vec<i32>, i32>;
}

impl Keeper for Table {
    fn enrol(&mut self, number: i32, x: i32, y: i32) -> i32 {
        Table::enrol(self, number, x, y)
    }

    fn withdraw(&mut self, number: i32) -> i32 {
        Table::withdraw(self, number)
    }

    fn query(&self, q: [i64; 2], k: usize) -> Found {
        walk(self, q, k)
    }

    fn card(&self, number: i32, k: i32) -> Result<Vec<i32>, i32> {
        card(&self.stations(), number, k)
    }
}

impl Keeper for Flat {
    fn enrol(&mut self, number: i32, x: i32, y: i32) -> i32 {
        Flat::enrol(self, number, x, y)
    }

    fn withdraw(&mut self, number: i32) -> i32 {
        Flat::withdraw(self, number)
    }

    fn query(&self, q: [i64; 2], k: usize) -> Found {
        Found { answers: Flat::query(self, q, k), ..Found::default() }
    }

    fn card(&self, number: i32, k: i32) -> Result<Vec<i32>, i32> {
        card(&self.all, number, k)
    }
}

pub fn run(sheet: &[u8], by: By) -> Vec<u8> {
    match by {
        By::Walk => run_with(sheet, Table::new()),
        By::Scan => run_with(sheet, Flat::default()),
    }
}

/// The lines of a sheet: a line feed at the end opens no further line.
pub fn lines(sheet: &[u8]) -> Vec<&[u8]> {
    let mut lines: Vec<&[u8]> = sheet.split(|&b| b == b'\n').collect();
    if lines.last().is_some_and(|l| l.is_empty()) {
        lines.pop();
    }
    lines
}

fn run_with<K: Keeper>(sheet: &[u8], mut keeper: K) -> Vec<u8> {
    if sheet.len() > 65_536 {
        return b"0\t?\t12\n".to_vec();
    }
    let mut out = Vec::new();
    for (i, line) in lines(sheet).iter().enumerate() {
        let (letter, given, more) = match job(line) {
            Job::Enrol(p, x, y) => ('E', keeper.enrol(p, x, y), vec![]),
            Job::Withdraw(p) => ('W', keeper.withdraw(p), vec![]),
            Job::Query(x, y, _) if !on_grid(x) || !on_grid(y) => ('Q', 4, vec![]),
            Job::Query(_, _, k) if !(1..=16).contains(&k) => ('Q', 5, vec![]),
            Job::Query(x, y, k) => {
                let f = keeper.query([i64::from(x), i64::from(y)], k as usize);
                ('Q', 0, listed(&[f.answers.len(), f.candidates.len(), f.opened], &f.answers))
            }
            Job::Card(p, k) => match keeper.card(p, k) {
                Ok(names) => ('K', 0, listed(&[names.len()], &names)),
                Err(given) => ('K', given, vec![]),
            },
            Job::MissingK(letter) => (letter, 5, vec![]),
            Job::Misshapen => ('?', 11, vec![]),
        };
        put(&mut out, i as i64 + 1);
        out.push(b'\t');
        out.push(letter as u8);
        out.push(b'\t');
        put(&mut out, i64::from(given));
        for v in more {
            out.push(b'\t');
            put(&mut out, v);
        }
        out.push(b'\n');
    }
    out
}

/// The further fields of a granted line: its counts, then the point numbers.
fn listed(counts: &[usize], numbers: &[i32]) -> Vec<i64> {
    counts.iter().map(|&n| n as i64).chain(numbers.iter().map(|&p| i64::from(p))).collect()
}

fn put(out: &mut Vec<u8>, v: i64) {
    let mut digits = [0u8; 20];
    let mut at = digits.len();
    let mut v = v;
    loop {
        at -= 1;
        digits[at] = b'0' + (v % 10) as u8;
        v /= 10;
        if v == 0 {
            break;
        }
    }
    out.extend_from_slice(&digits[at..]);
}

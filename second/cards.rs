//! Cards through the library's calls against those by a sort of all others: the number given back, how many names, every word of the rows.

use crate::card::{card, Holder, MOST_K};
use crate::flat::Flat;
use crate::random::Random;
use crate::table::Table;
use crate::wreck::damaged;
use crate::{check, library, seconds};
use std::hint::black_box;

/// What no call writes.
const MARK: u32 = 77_777;

/// 01's numbers, and how often each was given.
type Tally = [usize; 13];

pub fn cards(seeds: u64) {
    let (mut tally, mut at_a_time) = ([0; 13], 0);
    for seed in 0..seeds {
        let mut r = Random(3000 + seed);
        let whole = tied_table(&mut r, seed, 500, 9_999).words();
        for _ in 0..8 {
            one_card(&mut r, &whole, seed, &mut tally);
        }
        at_a_time += many_cards(&mut r, &whole, seed);
        let mut wrong = damaged(&mut r, &whole);
        one_card(&mut r, &wrong, seed, &mut tally);
        at_a_time += many_cards(&mut r, &wrong, seed);
        wrong.resize(r.below(2 * whole.len() as u64) as usize, 0);
        one_card(&mut r, &wrong, seed, &mut tally);
        at_a_time += many_cards(&mut r, &wrong, seed);
    }
    let given: Vec<String> = (0..tally.len()).filter(|&n| tally[n] > 0).map(|n| format!("{n} {} times", tally[n])).collect();
    println!("cards: {} calls agree in every word of their rows, and so do {at_a_time} cards asked many at a time", tally.iter().sum::<usize>());
    println!("cards: given back were {}", given.join(", "));
}

/// A table of 0 to `most` points, numbered up to `highest`, with many ties: each point by one of two habits, some in the grid's corners, and in every
/// third table some gone again.
pub fn tied_table(r: &mut Random, seed: u64, most: usize, highest: i64) -> Table {
    let mut t = Table::new();
    let most = *r.pick(&[4, 20, 100, most]);
    let want = r.below(most as u64 + 1) as usize;
    while t.points < want {
        let habit = seed + r.below(2);
        let ends = [-1_000_000, 1_000_000];
        let (x, y) = if r.below(40) == 0 { (*r.pick(&ends), *r.pick(&ends)) } else { r.place(habit) };
        let number = if r.below(20) == 0 { *r.pick(&[1, highest]) } else { r.between(1, highest) };
        t.enrol(number as i32, x, y);
    }
    if seed % 3 == 0 {
        t.stations().iter().filter(|_| r.below(3) == 0).for_each(|p| assert_eq!(t.withdraw(p.0), 0));
    }
    t
}

/// Mostly the number of one who is enrolled; or a number that is not, or is out of range, also by what a narrower word would drop.
fn some_number(r: &mut Random, all: &[Holder]) -> i32 {
    let any = r.between(1, 9_999) as i32;
    let enrolled = if all.is_empty() { any } else { r.pick(all).0 };
    match r.below(16) {
        0 => any,
        1 => *r.pick(&[0, 10_000, -1, i32::MAX, i32::MIN]),
        2 => *r.pick(&[-enrolled, enrolled + 16_384, enrolled + 65_536, enrolled ^ i32::MIN]),
        _ => enrolled,
    }
}

fn some_k(r: &mut Random) -> i32 {
    match r.below(12) {
        0 => *r.pick(&[0, 17, -1, 259, 65_539, i32::MAX, i32::MIN]),
        _ => r.between(1, 16) as i32,
    }
}

/// The names on a card, or 1, 2, 3, 5, 8, for any words.
fn wanted(w: &[i32], number: i32, k: i32) -> Result<Vec<i32>, i32> {
    match check::check(w) {
        0 => card(&check::stations(w), number, k),
        given => Err(given),
    }
}

/// The holders of a table that passes the check; of any other none.
fn holders(w: &[i32]) -> Vec<Holder> {
    if check::check(w) == 0 { check::stations(w) } else { vec![] }
}

fn write(names: &[i32], row: &mut [u32]) {
    row.iter_mut().zip(names).for_each(|(place, &name)| *place = name as u32);
}

/// A list that is long enough, just long enough, one place too short, or has no place at all; and a row of 0 to 2 places for how many.
fn one_card(r: &mut Random, w: &[i32], seed: u64, tally: &mut Tally) {
    let (number, k) = (some_number(r, &holders(w)), some_k(r));
    let want = wanted(w, number, k);
    let n = want.as_ref().map_or(0, Vec::len);
    let longer = n + r.between(1, 20) as usize;
    let places = *r.pick(&[n, n.saturating_sub(1), 0, longer, MOST_K, 500]);
    let (mut list, mut names) = (vec![MARK; places], vec![u64::from(MARK); r.below(3) as usize]);
    let (mut list_wanted, mut names_wanted) = (list.clone(), names.clone());
    if let Some(first) = names_wanted.first_mut() {
        *first = n as u64;
    }
    let given_wanted = match want {
        Err(given) => given,
        Ok(card) if places < card.len() => 10,
        Ok(card) => {
            write(&card, &mut list_wanted);
            0
        }
    };
    let before = black_box(w).to_vec();
    let given = library::card(w, number, k, &mut list, &mut names);
    assert_eq!((given, &names, &list), (given_wanted, &names_wanted, &list_wanted), "seed {seed}: number {number}, k {k}");
    assert!(black_box(w) == before, "seed {seed}: number {number}, k {k}: the table's words differ");
    tally[given as usize] += 1;
}

/// Many cards for one check, in rows that have room for all, for fewer, for a part of one more: refused cards, and what is behind, stay.
/// Gives back how many numbers there were.
fn many_cards(r: &mut Random, w: &[i32], seed: u64) -> usize {
    let all = holders(w);
    let numbers: Vec<i32> = (0..r.below(12)).map(|_| some_number(r, &all)).collect();
    let (k, any) = (some_k(r), r.below(200) as usize);
    let mut row = vec![MARK; *r.pick(&[MOST_K * numbers.len(), 200, any])];
    let mut row_wanted = row.clone();
    for (stretch, &number) in row_wanted.chunks_exact_mut(MOST_K).zip(&numbers) {
        write(&wanted(w, number, k).unwrap_or_default(), stretch);
    }
    let before = black_box(w).to_vec();
    assert_eq!((library::cards(w, &numbers, k, &mut row), row), (check::check(w), row_wanted), "seed {seed}: numbers {numbers:?}, k {k}");
    assert!(black_box(w) == before, "seed {seed}: the table's words differ");
    numbers.len()
}

/// All 400 cards at a time, by the library and by a scan of all others for each, turn about; the cards must agree.
pub fn bench() {
    let (mut r, mut t, mut flat) = (Random(42), Table::new(), Flat::default());
    while t.points < 400 {
        let ((x, y), number) = (r.place(0), r.between(1, 9_999) as i32);
        assert_eq!(t.enrol(number, x, y), flat.enrol(number, x, y));
    }
    let (w, numbers) = (t.words(), flat.all.iter().map(|p| p.0).collect::<Vec<i32>>());
    // Known only when it runs, as for the library.
    let k = black_box(5);
    let (mut ours, mut theirs) = (vec![0; MOST_K * numbers.len()], vec![0; MOST_K * numbers.len()]);
    let (calls, mut least) = (20, [f64::INFINITY; 2]);
    for _ in 0..50 {
        least[0] = least[0].min(seconds(|| (0..calls).for_each(|_| assert_eq!(library::cards(&w, &numbers, k as i32, &mut ours), 0))));
        least[1] = least[1].min(seconds(|| (0..calls).for_each(|_| flat.cards(&numbers, k, black_box(&mut theirs)))));
        assert!(ours == theirs);
    }
    let [proved, scan] = least.map(|s| 1e6 * s / (calls * numbers.len()) as f64);
    println!("card, 400 points, k 5, 400 cards a call: proved {proved:.3}, second's scan {scan:.3} microseconds a card (the best of 50 rounds)");
    println!("cards per second against the scan of all others: {:.2} times", scan / proved);
}

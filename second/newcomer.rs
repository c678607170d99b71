//! Document 02 §2 as a test, through the library's calls: to a table with room comes a newcomer numbered above all the enrolled. With each k from 1 to
//! 16 a station's card must then name it exactly if the station answered the query at its place before; and both are held to a count of every pair.

use crate::card::{Holder, MOST_K};
use crate::cards::tied_table;
use crate::library::{self, Lists};
use crate::random::Random;
use crate::table::{on_grid, square, Table, MOST};

/// A case is a station and a k.
#[derive(Default)]
struct Tally {
    newcomers: usize,
    cases: usize,
    /// The station answered.
    named: usize,
    /// It did not, and would have but for others who are exactly as near as the newcomer.
    equal: usize,
}

pub fn newcomers(seeds: u64) {
    let mut tally = Tally::default();
    for seed in 0..seeds {
        let mut r = Random(7000 + seed);
        let highest = *r.pick(&[600, 5_000, 9_998]);
        let mut t = tied_table(&mut r, seed, MOST - 1, highest);
        // The most that leave room for one more.
        while seed % 8 == 0 && t.points < MOST - 1 {
            let (x, y) = r.place(seed / 8);
            t.enrol(r.between(1, highest) as i32, x, y);
        }
        for turn in 0..4 {
            let all = t.stations();
            let highest = all.iter().map(|p| p.0).max().unwrap_or(0);
            if t.points == MOST || highest == 9_999 {
                break;
            }
            let number = if turn == 3 { 9_999 } else { *r.pick(&[highest + 1, highest + 1, (highest + 10_000) / 2]) };
            let (x, y) = some_place(&mut r, &all, seed);
            comes(&mut t, number, x, y, seed, &mut tally);
        }
    }
    let Tally { newcomers, cases, named, equal } = tally;
    println!("newcomer: {newcomers} newcomers, {cases} cases of a station and a k: its card names the newcomer exactly if it answered");
    println!("newcomer: it did in {named} cases; in {equal} it did not only because others are exactly as near as the newcomer");
}

/// By the table's habit; where one is enrolled; as far from one as another is; in a corner of the grid.
fn some_place(r: &mut Random, all: &[Holder], seed: u64) -> (i32, i32) {
    let any = r.place(seed);
    let ends = [-1_000_000, 1_000_000];
    let corner = (*r.pick(&ends), *r.pick(&ends));
    if all.is_empty() {
        return *r.pick(&[any, corner]);
    }
    let (p, c) = (*r.pick(all), *r.pick(all));
    let (across, up) = (c.1 - p.1, c.2 - p.2);
    let (x, y) = *r.pick(&[(p.1 - across, p.2 - up), (p.1 + up, p.2 - across), (p.1 + up, p.2 + across)]);
    let equal = (x as i32, y as i32);
    match r.below(8) {
        0 | 1 => any,
        2 => (p.1 as i32, p.2 as i32),
        3 if r.below(4) == 0 => corner,
        _ if on_grid(equal.0) && on_grid(equal.1) => equal,
        _ => any,
    }
}

/// The newcomer enrols. Whom the query named before, with each k, against whose card names the newcomer afterwards.
fn comes(t: &mut Table, newcomer: i32, x: i32, y: i32, seed: u64, tally: &mut Tally) {
    let (all, before, q) = (t.stations(), t.words(), [i64::from(x), i64::from(y)]);
    let mut after = before.clone();
    assert_eq!((library::enrol(&mut after, newcomer, x, y), t.enrol(newcomer, x, y)), (0, 0), "seed {seed}: {newcomer} enrols");
    assert!(after == t.words(), "seed {seed}: the words differ");
    let numbers: Vec<i32> = all.iter().map(|p| p.0).collect();
    let others: Vec<(usize, usize)> = all.iter().map(|p| others(&all, p, q)).collect();
    for k in 1..=MOST_K {
        let mut l = Lists::marked(all.len(), all.len());
        assert_eq!(library::query(&before, x, y, k as i32, &mut l), 0, "seed {seed}");
        let answers = &l.answers[..l.counts[0] as usize];
        let mut cards = vec![0; MOST_K * all.len()];
        assert_eq!(library::cards(&after, &numbers, k as i32, &mut cards), 0, "seed {seed}");
        for ((p, card), &(as_near, nearer)) in all.iter().zip(cards.chunks_exact(MOST_K)).zip(&others) {
            let answered = answers.contains(&(p.0 as u32));
            let place = card.iter().position(|&name| name == newcomer as u32);
            let case = || format!("seed {seed}: {newcomer} comes to ({x},{y}), k {k}, station {} at ({},{}), {as_near} others as near", p.0, p.1, p.2);
            assert_eq!(answered, place.is_some(), "{}: whether it answered, and whether its card names the newcomer", case());
            // All who are as near come before the newcomer, and nobody else.
            assert_eq!(place, (as_near < k).then_some(as_near), "{}: where on its card the newcomer stands", case());
            tally.cases += 1;
            tally.named += usize::from(answered);
            tally.equal += usize::from(!answered && nearer < k);
        }
    }
    tally.newcomers += 1;
}

/// How many others are as near to p as q is, or nearer; and how many of them are nearer.
fn others(all: &[Holder], p: &Holder, q: [i64; 2]) -> (usize, usize) {
    let at = [p.1, p.2];
    let squares = || all.iter().filter(|c| c.0 != p.0).map(|c| square([c.1, c.2], at));
    (squares().filter(|&s| s <= square(q, at)).count(), squares().filter(|&s| s < square(q, at)).count())
}

//! Compares the proved library with the second implementation, word by word.
//! `compare check|changes|queries|cards|newcomer SEEDS` runs that many seeds and says how many calls agreed; `compare bench` measures.
//! `compare sheets SEEDS [PROGRAM]` runs the built program on random whole sheets, `compare lists SEEDS [PROGRAM]` the other one on station lists,
//! made by hand and random.

mod card;
mod cards;
mod check;
mod checks;
mod damage;
mod flat;
mod library;
mod list;
mod list_edges;
mod lists;
mod newcomer;
mod programs;
mod query;
mod random;
mod sheet;
mod sheets;
mod table;
#[path = "../bindings/rust/ullagreth.rs"]
mod ullagreth;
mod wreck;

use library::Lists;
use random::Random;
use std::time::Instant;
use table::Table;
use ullagreth::Candidate;

fn main() {
    let args: Vec<String> = std::env::args().collect();
    let seeds: u64 = args.get(2).and_then(|s| s.parse().ok()).unwrap_or(1);
    let program = |built| args.get(3).map_or(built, String::as_str);
    match args.get(1).map(String::as_str) {
        Some("check") => checks::checks(seeds),
        Some("changes") => changes(seeds),
        Some("queries") => queries(seeds),
        Some("cards") => cards::cards(seeds),
        Some("newcomer") => newcomer::newcomers(seeds),
        Some("sheets") => programs::sheets(seeds, program("target/bin/ullagreth")),
        Some("lists") => programs::lists(seeds, program("target/bin/stations")),
        Some("bench") => bench(),
        _ => {
            eprintln!("usage: compare check|changes|queries|cards|newcomer SEEDS, compare sheets|lists SEEDS [PROGRAM], or compare bench");
            std::process::exit(2);
        }
    }
}

/// A random table of the second implementation, of up to `most` points, by one of several habits.
fn random_table(r: &mut Random, habit: u64, most: i64) -> Table {
    let mut t = Table::new();
    let want = r.between(0, most) as usize;
    while t.points < want {
        let (x, y) = r.place(habit);
        t.enrol(r.between(1, 9999) as i32, x, y);
    }
    t
}

// ---- enrolments and withdrawals: every word after every call

/// Document 01's nine points: number i at (10 × (i − 1), 0), enrolled in order.
fn nine() -> u64 {
    let mut t = Table::new();
    let mut w = t.words();
    for i in 0..9 {
        assert_eq!((library::enrol(&mut w, i + 1, 10 * i, 0), t.enrol(i + 1, 10 * i, 0)), (0, 0));
        assert!(w == t.words());
    }
    let held = |s: usize| (0..w[3 + 42 * s] as usize).map(|i| w[4 + 42 * s + 5 * i]).collect::<Vec<i32>>();
    assert_eq!((held(0), held(1), w[0]), (vec![1, 2, 3, 4], vec![5, 6, 7, 8, 9], 2));
    9
}

fn changes(seeds: u64) {
    let mut calls = nine();
    for seed in 0..seeds {
        let mut r = Random(1000 + seed);
        let mut t = Table::new();
        let mut w = t.words();
        // Grow to 500 and shrink to none, and again with both mixed.
        for phase in 0..4 {
            let growing = phase % 2 == 0;
            let mixed = phase >= 2;
            let mut turns = 0;
            while turns < 2400 && (if growing { t.points < 500 } else { t.points > 0 }) {
                turns += 1;
                let enrol = if mixed && r.below(4) == 0 { !growing } else { growing };
                let habit = seed + u64::from(r.below(50) == 0);
                let (given, want) = if enrol {
                    let (mut x, mut y) = r.place(habit);
                    let least = if r.below(40) == 0 { -2 } else { 1 };
                    let number = r.between(least, 900) as i32;
                    if r.below(60) == 0 {
                        x = 1_000_001;
                    } else if r.below(60) == 0 {
                        y = i32::MIN;
                    }
                    (library::enrol(&mut w, number, x, y), t.enrol(number, x, y))
                } else {
                    let all = t.stations();
                    let number = if all.is_empty() || r.below(10) == 0 { r.between(-1, 10_001) as i32 } else { all[r.below(all.len() as u64) as usize].0 };
                    (library::withdraw(&mut w, number), t.withdraw(number))
                };
                assert_eq!(given, want, "seed {seed}");
                assert!(w == t.words(), "seed {seed}: the words differ");
                calls += 1;
            }
            if growing && t.points == 500 {
                let before = w.clone();
                let free = (1..=9999).find(|&n| !t.has(n)).unwrap();
                assert_eq!(library::enrol(&mut w, free, 0, 0), 7);
                assert_eq!(w, before);
                calls += 1;
            }
        }
    }
    println!("changes: {calls} calls agree in every word");
}

// ---- queries: answers, candidates, counts, and every word of both lists

fn queries(seeds: u64) {
    let mut calls = 0u64;
    for seed in 0..seeds {
        let mut r = Random(5000 + seed);
        let t = random_table(&mut r, seed, 500);
        let w = t.words();
        let all = t.stations();
        for _ in 0..8 {
            let (mut x, y) = r.place(seed);
            let k = if r.below(20) == 0 { r.between(-1, 18) } else { r.between(1, 16) } as i32;
            if r.below(40) == 0 {
                x = -1_000_001;
            }
            let room = if r.below(20) == 0 { r.below(all.len() as u64 + 1) as usize } else { 500 };
            let places = if r.below(20) == 0 { r.below(6) as usize } else { 500 };
            let mut l = Lists::marked(room, places);
            let mut want = l.clone();
            want.tell(0, 0, 0);
            let given = library::query(&w, x, y, k, &mut l);
            let q = [i64::from(x), i64::from(y)];
            let number = if !table::on_grid(x) || !table::on_grid(y) {
                4
            } else if !(1..=16).contains(&k) {
                5
            } else if room < all.len() {
                9
            } else {
                let f = query::walk(&t, q, k as usize);
                assert_eq!(f.answers, query::scan(&all, q, k as usize));
                for (record, c) in want.candidates.iter_mut().zip(&f.candidates) {
                    *record = Candidate { number: c.0 as u64, x: c.1 as i32, y: c.2 as i32, square: c.3 as u64 };
                }
                if places < f.answers.len() {
                    want.tell(f.answers.len(), 0, 0);
                    10
                } else {
                    for (i, a) in f.answers.iter().enumerate() {
                        want.answers[i] = *a as u32;
                    }
                    want.tell(f.answers.len(), f.candidates.len(), f.opened);
                    0
                }
            };
            assert_eq!(given, number, "seed {seed}");
            assert_eq!(l, want, "seed {seed}");
            calls += 1;
        }
        many_sites(&mut r, &t, seed);
    }
    println!("queries: {calls} calls agree in every word of both lists");
}

/// One call for many sites, in rows of several lengths: n of each query, 0 where it is refused, and the counts behind stay.
fn many_sites(r: &mut Random, t: &Table, seed: u64) {
    let (mut xs, mut ys): (Vec<i32>, Vec<i32>) = (0..r.between(1, 12)).map(|_| r.place(seed)).unzip();
    if r.below(4) == 0 {
        *(if r.below(2) == 0 { &mut xs[0] } else { &mut ys[0] }) = 1_000_001;
    }
    xs.truncate(r.between(8, 12) as usize);
    ys.truncate(r.between(8, 12) as usize);
    let k = r.between(0, 17) as i32;
    let mut counts = vec![77_777; r.below(14) as usize];
    let mut want = counts.clone();
    for (n, (&x, &y)) in want.iter_mut().zip(xs.iter().zip(&ys)) {
        let granted = table::on_grid(x) && table::on_grid(y) && (1..=16).contains(&k);
        *n = if granted { query::scan(&t.stations(), [i64::from(x), i64::from(y)], k as usize).len() as u32 } else { 0 };
    }
    assert_eq!((library::sites(&t.words(), &xs, &ys, k, &mut counts), counts), (0, want), "seed {seed}");
}

// ---- how long things take: the best of some rounds, both sides in one run

fn seconds<F: FnMut()>(mut f: F) -> f64 {
    let began = Instant::now();
    f();
    began.elapsed().as_secs_f64()
}

fn best<F: FnMut()>(rounds: usize, mut f: F) -> f64 {
    (0..rounds).map(|_| seconds(&mut f)).fold(f64::INFINITY, f64::min)
}

fn bench() {
    let mut r = Random(42);
    let mut t = Table::new();
    while t.points < 500 {
        let (x, y) = r.place(0);
        t.enrol(r.between(1, 9999) as i32, x, y);
    }
    let full = t.words();
    let turns = 1000;
    let s = best(5, || {
        for _ in 0..turns {
            assert_eq!(library::check(&full), 0);
        }
    });
    println!("check of a full table: {:.1} microseconds", 1e6 * s / turns as f64);

    bench_sites(&mut r);
    bench_one_place();
    cards::bench();
}

/// All 500 at the place of the query: the worst case before 02 §2, when every one of them answered.
fn bench_one_place() {
    let mut t = Table::new();
    (1..=500).for_each(|number| assert_eq!(t.enrol(number, 7, -7), 0));
    let (w, xs, ys) = (t.words(), [7; 500], [-7; 500]);
    let mut counts = [0; 500];
    let s = best(10, || assert_eq!(library::sites(&w, &xs, &ys, 5, &mut counts), 0));
    println!("query, 500 points at its own place, k 5, {} answers: {:.1} microseconds a site", counts[0], 1e6 * s / counts.len() as f64);
}

/// One call for all sites on the library's side, and on the second's a query for each; every n must agree.
fn bench_sites(r: &mut Random) {
    // The scan has no tree: it keeps the holders as a flat list, in the order in which they came.
    let (mut t, mut flat) = (Table::new(), flat::Flat::default());
    while t.points < 400 {
        let ((x, y), number) = (r.place(0), r.between(1, 9999) as i32);
        assert_eq!(t.enrol(number, x, y), flat.enrol(number, x, y));
    }
    let w = t.words();
    let (xs, ys): (Vec<i32>, Vec<i32>) = (0..10_000).map(|_| r.place(0)).unzip();
    let sites: Vec<[i64; 2]> = xs.iter().zip(&ys).map(|(&x, &y)| [i64::from(x), i64::from(y)]).collect();
    // Known only when it runs, as for the library: a scan that is compiled for k 5 alone would be a sixth faster.
    let k = std::hint::black_box(5);
    // 500 sites at a time, turn about, each the best of ten: so a slower spell of the machine falls on none of the three.
    let (mut proved, mut scanned, mut walked) = (0.0, 0.0, 0.0);
    for ((xs, ys), sites) in xs.chunks(500).zip(ys.chunks(500)).zip(sites.chunks(500)) {
        let (mut counts, mut other) = (vec![0; sites.len()], vec![0; sites.len()]);
        let mut least = [f64::INFINITY; 3];
        for _ in 0..10 {
            least[0] = least[0].min(seconds(|| assert_eq!(library::sites(&w, xs, ys, k as i32, &mut counts), 0)));
            least[1] = least[1].min(seconds(|| other.iter_mut().zip(sites).for_each(|(n, &q)| *n = flat.query(q, k).len() as u32)));
            assert!(counts == other);
            least[2] = least[2].min(seconds(|| other.iter_mut().zip(sites).for_each(|(n, &q)| *n = query::walk(&t, q, k).answers.len() as u32)));
            assert!(counts == other);
        }
        proved += least[0];
        scanned += least[1];
        walked += least[2];
    }
    let per = |s: f64| s * 1e6 / sites.len() as f64;
    println!("query, 400 points, k 5: proved {:.1}, second's walk {:.1}, second's scan {:.1} microseconds a site", per(proved), per(walked), per(scanned));
    println!("sites per second against the scan of every holder: {:.2} times; against the second's walk: {:.2} times the time", scanned / proved, proved / walked);
}

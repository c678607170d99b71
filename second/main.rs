//! `second walk < sheet` and `second scan < sheet` answer a job sheet; `second selftest` tries the second program against itself;
//! `second tables` and `second tables-expected` make the input of the test program `tables` and what it must print, `second edges` and
//! `second edges-expected` those of `edges`; `second sheet SEED` prints a random sheet; `second bench PROGRAM FOLDER ROUNDS` measures a whole sheet.
//! `second list < list` reads a station list, the reports on standard error, and `second fields < list` prints the fields of each of its records;
//! `second list-file SEED` prints a random list, `second well-formed SEED` one that keeps to the grammar.

mod card;
mod check;
mod damage;
mod edges;
mod flat;
mod list;
mod list_edges;
mod lists;
mod programs;
mod query;
mod random;
mod sheet;
mod sheets;
mod table;

use std::io::{Read, Write};

fn main() {
    let argument = |i| std::env::args().nth(i).unwrap_or_default();
    let mode = argument(1);
    let seed = || argument(2).parse().expect("a seed");
    match mode.as_str() {
        "walk" => say(&sheet::run(&input(), sheet::By::Walk)),
        "scan" => say(&sheet::run(&input(), sheet::By::Scan)),
        "selftest" => selftest(),
        "tables" => print!("{}", damage::input()),
        "tables-expected" => print!("{}", damage::expected()),
        "sheet" => say(&sheets::sheet(seed())),
        "bench" => programs::bench(&argument(2), &argument(0), &argument(3), argument(4).parse().expect("rounds")),
        "edges" => say(&edges::input()),
        "edges-expected" => say(&edges::expected()),
        "list" => {
            let said = list::read(&input());
            say(&said.lines);
            std::io::stderr().write_all(&said.reports).expect("standard error");
        }
        "fields" => list::fields(&input()).iter().for_each(|f| println!("{}", shown(f))),
        "list-file" => say(&lists::list(seed())),
        "well-formed" => say(&lists::well_formed(seed()).0),
        _ => {
            eprintln!("usage: second walk|scan < sheet, second list|fields < list, or second selftest");
            std::process::exit(2);
        }
    }
}

fn input() -> Vec<u8> {
    let mut bytes = Vec::new();
    std::io::stdin().read_to_end(&mut bytes).expect("standard input");
    bytes
}

fn say(bytes: &[u8]) {
    std::io::stdout().write_all(bytes).expect("standard output");
}

/// A record's fields in hexadecimal, a semicolon behind each, so that no two records look alike; a question mark if it breaks the grammar.
fn shown(fields: &Option<Vec<Vec<u8>>>) -> String {
    let hex = |f: &Vec<u8>| f.iter().map(|b| format!("{b:02x}")).collect::<String>() + ";";
    fields.as_ref().map_or("?".into(), |all| all.iter().map(hex).collect())
}

/// Document 01's box, x 10 to 20, y -5 to 5, with q (0,0), as 02 §2 amends it: (20,0) discards it, at (10,5) and (10,-5) being just as near as q.
fn box_is_discarded() {
    let corners = table::Rect { low: [10, -5], high: [20, 5] }.corners();
    for (c, want) in [([8, 0], true), ([20, 0], true), ([21, 0], false), ([0, 0], true), ([-1, 0], false)] {
        assert_eq!(query::all_as_near(&corners, c, [0, 0]), want, "the candidate {c:?}");
    }
}

/// The tables made by hand are bad where they say; the walk's answers are those of every pair, a card's names are the same by a sort and by a scan,
/// and each table on the way is well formed. The lists made by hand give what they say, and the grammar finds the fields that a list was made of.
fn selftest() {
    box_is_discarded();
    let by_hand = damage::agreed();
    let (lists_by_hand, records) = (list_edges::agreed(), lists::agreed(300));
    let mut r = random::Random(1);
    let (mut queries, mut cards) = (0, 0);
    for round in 0..60 {
        let mut t = table::Table::new();
        for step in 0..600 {
            let (x, y) = r.place(round + step / 100);
            let n = r.between(1, 700) as i32;
            if r.below(3) < 2 || round % 3 == 0 {
                t.enrol(n, x, y);
            } else {
                t.withdraw(n);
            }
            if step % 40 == 0 {
                assert_eq!(check::check(&t.words()), 0, "round {round} step {step}");
                let (x, y) = r.place(round);
                let (q, k) = ([x as i64, y as i64], r.between(1, 16) as usize);
                assert_eq!(query::walk(&t, q, k).answers, query::scan(&t.stations(), q, k));
                queries += 1;
                let all = t.stations();
                if let Some(p) = all.get(r.below(all.len() as u64 + 1) as usize) {
                    let mut names = [0; card::MOST_K];
                    let n = card::scanned(&all, p, k, &mut names);
                    assert_eq!(Ok(names[..n].iter().map(|&a| a as i32).collect()), card::card(&all, p.0, k as i32));
                    cards += 1;
                }
            }
        }
    }
    println!("second: {by_hand} tables made by hand are judged as they must be, number, rule and slot");
    println!("second: {queries} queries agree with the count of every pair, {cards} cards by a sort with those by a scan");
    println!("second: {lists_by_hand} lists made by hand give what they must on both streams; {records} records have the fields that they were made of");
}

//! Random whole sheets: good and damaged lines, bytes at random, every length around 65,536, long runs of queries at one place.

use crate::random::Random;

/// The most bytes that a sheet has: one more is too long.
pub const LONGEST: usize = 65_536;

/// How many kinds of sheets there are; the seed picks one.
const KINDS: u64 = 10;

pub fn sheet(seed: u64) -> Vec<u8> {
    let mut r = Random(9000 + seed);
    let mut out = match seed % KINDS {
        // Good lines, by each habit of places.
        0 | 1 => mixed(&mut r, 0, seed / KINDS),
        // Every fourth line damaged, then two of three.
        2 => mixed(&mut r, 25, seed / KINDS + 1),
        3 => mixed(&mut r, 65, seed / KINDS + 2),
        4 => noise(&mut r),
        5 => around_one_place(&mut r),
        6 => short(&mut r),
        // A byte less than the longest, the longest, a byte more, and far more.
        7 => of_length(&mut r, [LONGEST - 1, LONGEST, LONGEST + 1, 300_000][(seed / KINDS % 4) as usize]),
        8 => long_line(&mut r),
        _ => full(&mut r, seed / KINDS),
    };
    // Without the last line feed, as often as with it; but not where the length is the point.
    if seed % KINDS != 7 && seed % 2 == 0 && out.last() == Some(&b'\n') {
        out.pop();
    }
    out
}

/// Lines that grow the table and shrink it, with queries and cards; some damaged.
fn mixed(r: &mut Random, damaged: u64, habit: u64) -> Vec<u8> {
    let mut out = Vec::new();
    let want = r.between(1, 24_000) as usize;
    let growing = r.between(1, 4) as u64;
    // Few numbers make a small table, and more cards of those enrolled.
    let highest = *r.pick(&[12, 100, 700]);
    while out.len() < want {
        let mut line = good_line(r, habit, 1 + r.0 % 6, growing, highest);
        if r.below(100) < damaged {
            damage(r, &mut line);
        }
        out.extend(line);
        out.push(b'\n');
    }
    out
}

/// One good line; now and then with a number out of range or without its k. Of ten lines so many only ask, of five others so many enrol.
fn good_line(r: &mut Random, habit: u64, asking: u64, growing: u64, highest: i64) -> Vec<u8> {
    let (mut x, y) = r.place(habit);
    if r.below(30) == 0 {
        x = *r.pick(&[1_000_000, 1_000_001, -1_000_000, -1_000_001, 9_999_999]);
    }
    let mut number = r.between(1, highest);
    if r.below(30) == 0 {
        number = *r.pick(&[0, 1, 9_999, 10_000, -5, 9_999_999]);
    }
    if r.below(10) < asking {
        let k = if r.below(15) == 0 { r.between(-1, 18) } else { r.between(1, 16) };
        let asked = if r.below(5) < 2 { format!("K\t{number}") } else { format!("Q\t{x}\t{y}") };
        return match r.below(25) {
            0 => asked,
            1 => format!("{asked}\t"),
            2 if r.below(2) == 0 => odd_card(r, number, k),
            _ => format!("{asked}\t{k}"),
        }
        .into_bytes();
    }
    if r.below(5) < growing { format!("E\t{number}\t{x}\t{y}") } else { format!("W\t{number}") }.into_bytes()
}

/// A line for a card with something wrong: its fields, its number or its k; most are misshapen.
fn odd_card(r: &mut Random, number: i64, k: i64) -> String {
    match r.below(13) {
        0 => format!("K\t{number}\t\t"),
        1 => format!("K\t{number}\t{k}\t"),
        2 => format!("K\t\t{k}"),
        3 => format!("K\t0{number}\t{k}"),
        4 => format!("K\t{number}\t0{k}"),
        5 => format!("K\t-{number}\t{k}"),
        6 => format!("K\t{number}\t-{k}"),
        7 => format!("K\t0{number}"),
        8 => "K\t-0\t".into(),
        9 => format!("k\t{number}\t{k}"),
        10 => format!("K\t{}", r.between(-9_999_999, 9_999_999)),
        11 => format!("K\t{}\t{}", r.pick(&[0, 10_000, -1]), r.pick(&[0, 17, -1])),
        _ => "K".into(),
    }
}

/// Bytes that damage a line without leaving its grammar far behind, and some that do.
fn some_byte(r: &mut Random) -> u8 {
    match r.below(4) {
        0 => *r.pick(b"EWQKewqk?\t\t-+0123456789"),
        1 => *r.pick(b"\t\t\t-0 \r\0"),
        2 => *r.pick(b"0123456789"),
        _ => r.next() as u8,
    }
}

fn damage(r: &mut Random, line: &mut Vec<u8>) {
    for _ in 0..r.between(1, 2) {
        let at = r.below(line.len() as u64 + 1) as usize;
        match r.below(6) {
            0 => line.insert(at, some_byte(r)),
            1 if at < line.len() => {
                line.remove(at);
            }
            2 if at < line.len() => line[at] = some_byte(r),
            3 => line.truncate(at),
            4 => line.push(*r.pick(b"\t\t0 \r\0x")),
            _ => line[..].reverse(),
        }
    }
}

/// Bytes at random, of which many are line feeds, tabs, letters and digits.
fn noise(r: &mut Random) -> Vec<u8> {
    let feeds = r.between(2, 40) as u64;
    (0..r.below(20_000)).map(|_| if r.below(feeds) == 0 { b'\n' } else { some_byte(r) }).collect()
}

/// Five places around one, each nearer to it than to the next.
const AROUND: [(i64, i64); 5] = [(1000, 0), (309, 951), (-809, 588), (-809, -588), (309, -951)];

/// Sixteen stations at each of five places, and a run of queries amid them: with k 16 all eighty answer, so the output is far longer than the sheet.
/// Then as many as there is room for at the very place of the queries, or fewer, a run of queries with any k, and some cards.
fn around_one_place(r: &mut Random) -> Vec<u8> {
    let mut out = Vec::new();
    let (x, y) = (r.between(-999_000, 999_000), r.between(-999_000, 999_000));
    let stations = 80 + *r.pick(&[0, 9, 16, 17, 419, 420, 421]);
    for n in 0..80 {
        let (across, up) = AROUND[n % 5];
        out.extend(format!("E\t{}\t{}\t{}\n", 9999 - 7 * n, x + across, y + up).into_bytes());
    }
    for _ in 0..r.between(300, 900) {
        out.extend(format!("Q\t{x}\t{y}\t16\n").into_bytes());
    }
    for n in 80..stations {
        out.extend(format!("E\t{}\t{x}\t{y}\n", 9999 - 7 * n).into_bytes());
    }
    for _ in 0..r.between(30, 300) {
        out.extend(format!("Q\t{x}\t{y}\t{}\n", r.between(1, 16)).into_bytes());
    }
    for _ in 0..20 {
        out.extend(format!("K\t{}\t{}\n", 9999 - 7 * r.between(0, stations), r.between(1, 16)).into_bytes());
    }
    out
}

/// Up to five bytes: the empty sheet, an empty line, a letter.
fn short(r: &mut Random) -> Vec<u8> {
    (0..r.below(6)).map(|_| *r.pick(b"\n\n\tEWQK1\r\0")).collect()
}

/// A sheet of exactly so many bytes.
fn of_length(r: &mut Random, length: usize) -> Vec<u8> {
    let mut out = Vec::new();
    while out.len() < length {
        out.extend(good_line(r, 4, 1, 4, 700));
        out.push(b'\n');
    }
    out.truncate(length);
    out
}

/// A few good lines, and among them one of thousands of bytes.
fn long_line(r: &mut Random) -> Vec<u8> {
    let mut out = mixed(r, 10, 1);
    let b = *r.pick(b"\t0-EQ \xff");
    out.extend(*r.pick(&[&b"Q\t0\t0\t"[..], b"K\t1\t", b"K\t"]));
    out.extend(vec![b; r.between(1, 30_000) as usize]);
    out.extend(b"\nQ\t0\t0\t3\nK\t1\t3\n");
    out
}

/// Past 500 points and down again, with queries and cards at the full table.
fn full(r: &mut Random, habit: u64) -> Vec<u8> {
    let mut out = Vec::new();
    let mut number = 0;
    for _ in 0..520 {
        number += r.between(1, 3);
        let (x, y) = r.place(habit);
        out.extend(format!("E\t{number}\t{x}\t{y}\n").into_bytes());
    }
    for _ in 0..400 {
        let asking = r.below(3) == 0;
        out.extend(good_line(r, habit, if asking { 10 } else { 0 }, 1, 1000));
        out.push(b'\n');
    }
    out
}

/// 400 stations and as many queries as a sheet has room for, k 5, all at random sites: what `tools/bench` measures with.
pub fn bench() -> Vec<u8> {
    let mut r = Random(42);
    let mut out = Vec::new();
    for number in 1..=400 {
        let (x, y) = r.place(0);
        out.extend(format!("E\t{number}\t{x}\t{y}\n").into_bytes());
    }
    loop {
        let (x, y) = r.place(0);
        let line = format!("Q\t{x}\t{y}\t5\n").into_bytes();
        if out.len() + line.len() > LONGEST {
            return out;
        }
        out.extend(line);
    }
}

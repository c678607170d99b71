//! Good tables, and tables damaged on purpose: the input of the test program `tables`, and what it must print; and more of them, to tell apart which
//! rule and which slot is the lowest. Each case says by hand, from documents 01 and 02 §4, where it is bad; `check::judged` must agree.

use crate::check::{judged, Fault, HEADER};
use crate::random::Random;
use crate::table::{Table, LENGTH, SLOTS, WIDTH};

struct Case {
    /// Of the words, the first so many are the table.
    length: usize,
    words: Vec<i32>,
    /// 0 and 1 with 0 and 0, or 2 with the lowest rule that is broken and the lowest slot where it is.
    want: (i32, Fault),
}

fn start(slot: usize) -> usize {
    2 + WIDTH * slot
}

/// Word `j` of entry `i` of a slot: reference, x low, y low, x high, y high.
fn entry(slot: usize, i: usize, j: usize) -> usize {
    start(slot) + 2 + 5 * i + j
}

fn row(points: i32) -> Table {
    let mut t = Table::new();
    for i in 0..points {
        assert_eq!(t.enrol(i + 1, 10 * i, 0), 0);
    }
    t
}

/// Each poke is the place of a word and what it becomes.
fn poked(mut words: Vec<i32>, rule: i32, slot: i32, pokes: &[(usize, i32)]) -> Case {
    pokes.iter().for_each(|&(at, v)| words[at] = v);
    Case { length: LENGTH, words, want: (2, [rule, slot]) }
}

fn cases() -> Vec<Case> {
    let mut out = Vec::new();
    let mut good = |t: &Table| out.push(Case { length: LENGTH, words: t.words(), want: (0, [0, 0]) });
    let (empty, one, nine) = (row(0), row(1), row(9));
    let mut r = Random(7);
    let mut many = Table::new();
    while many.points < 60 {
        let (x, y) = r.place(4);
        many.enrol(r.between(1, 9999) as i32, x, y);
    }
    for t in [&empty, &one, &nine, &many] {
        good(t);
    }
    let mut thinned = many.clone();
    for (p, _, _) in many.stations().into_iter().take(25) {
        assert_eq!(thinned.withdraw(p), 0);
    }
    good(&thinned);
    for length in [0, LENGTH - 1, LENGTH + 1] {
        let words = [nine.words(), vec![0]].concat();
        out.push(Case { length, words, want: (1, [0, 0]) });
    }

    // Of the nine points slot 0 holds 1 to 4 and slot 1 holds 5 to 9; the root is slot 2, so that every child and box is an entry of slot 2.
    let mut bad = |t: &Table, rule, slot, pokes: &[(usize, i32)]| out.push(poked(t.words(), rule, slot, pokes));
    // rule 1: a free slot's words, a used slot's unused entries
    bad(&empty, 1, 255, &[(start(255) + 41, 1)]);
    bad(&nine, 1, 3, &[(start(3) + 1, 1)]);
    bad(&nine, 1, 0, &[(entry(0, 4, 0), 1)]);
    bad(&nine, 1, 2, &[(entry(2, 7, 4), -1)]);
    // rule 2: the header, whatever is wrong with it
    bad(&empty, 2, HEADER, &[(1, 1)]);
    bad(&empty, 2, HEADER, &[(0, -2)]);
    bad(&empty, 2, HEADER, &[(0, 0)]);
    bad(&nine, 2, HEADER, &[(0, -1)]);
    bad(&nine, 2, HEADER, &[(0, 256)]);
    bad(&nine, 2, HEADER, &[(0, 3)]);
    bad(&nine, 2, HEADER, &[(1, 0)]);
    bad(&nine, 2, HEADER, &[(1, 501)]);
    bad(&nine, 2, HEADER, &[(1, -9)]);
    // rule 3: levels and numbers of entries
    bad(&nine, 3, 0, &[(start(0), -2)]);
    bad(&nine, 3, 0, &[(start(0) + 1, 9)]);
    bad(&nine, 3, 1, &[(start(1) + 1, -1)]);
    let two_left: Vec<(usize, i32)> = (2..4).flat_map(|i| (0..5).map(move |j| (entry(0, i, j), 0))).collect();
    bad(&nine, 3, 0, &[&[(start(0) + 1, 2)], &two_left[..]].concat());
    let one_left: Vec<(usize, i32)> = (0..5).map(|j| (entry(2, 1, j), 0)).collect();
    bad(&nine, 3, 2, &[&[(start(2) + 1, 1)], &one_left[..]].concat());
    let none_left: Vec<(usize, i32)> = (0..5).map(|j| (entry(0, 0, j), 0)).collect();
    bad(&one, 3, 0, &[&[(start(0) + 1, 0)], &none_left[..]].concat());
    // rule 4: the points
    bad(&nine, 4, 0, &[(entry(0, 0, 0), 0)]);
    bad(&nine, 4, 0, &[(entry(0, 1, 0), 10_000)]);
    bad(&nine, 4, 1, &[(entry(1, 4, 0), -1)]);
    bad(&nine, 4, 0, &[(entry(0, 0, 3), 1)]);
    bad(&nine, 4, 0, &[(entry(0, 0, 2), -1)]);
    bad(&nine, 4, 1, &[(entry(1, 4, 1), 1_000_001), (entry(1, 4, 3), 1_000_001)]);
    bad(&nine, 4, 1, &[(entry(1, 4, 2), -1_000_001), (entry(1, 4, 4), -1_000_001)]);
    bad(&nine, 4, 0, &[(entry(0, 1, 0), 1)]);
    bad(&nine, 4, 1, &[(entry(1, 0, 0), 1)]);
    // rule 5: the children
    bad(&nine, 5, 2, &[(entry(2, 0, 0), 256)]);
    bad(&nine, 5, 2, &[(entry(2, 0, 0), -1)]);
    bad(&nine, 5, 2, &[(entry(2, 1, 0), 3)]);
    bad(&nine, 5, 2, &[(entry(2, 1, 0), 2)]);
    bad(&nine, 5, 2, &[(start(2), 2)]);
    // rule 6: the boxes
    bad(&nine, 6, 2, &[(entry(2, 0, 1), -1)]);
    bad(&nine, 6, 2, &[(entry(2, 0, 3), 31)]);
    bad(&nine, 6, 2, &[(entry(2, 1, 2), 1)]);
    bad(&nine, 6, 2, &[(entry(2, 1, 4), 2_000_000)]);
    // rule 7: references, and the number of points
    bad(&nine, 7, HEADER, &[(1, 8)]);
    bad(&nine, 7, HEADER, &[(1, 10)]);
    let twice: Vec<(usize, i32)> = (0..5).map(|j| (entry(2, 1, j), nine.words()[entry(2, 0, j)])).collect();
    bad(&nine, 7, 0, &twice);
    let mut lost = vec![(start(9), 0), (start(9) + 1, 3), (1, 12)];
    for i in 0..3 {
        lost.push((entry(9, i, 0), 100 + i as i32));
    }
    bad(&nine, 7, 9, &lost);
    out
}

/// Eighteen points at (7,-7), by hand: the root is slot 0 on level 2, its children are slots 5 and 6, and theirs the leaves 1, 2, 3 and 4, 7, 8. Leaf
/// s holds the points 10 s + 1, 10 s + 2 and 10 s + 3. All boxes are the one place, so that a child put for another leaves every box right.
fn tall() -> Vec<i32> {
    let mut w = vec![0; LENGTH];
    (0..SLOTS).for_each(|s| w[start(s)] = -1);
    (w[0], w[1]) = (0, 18);
    let mut node = |s: usize, level, references: &[i32]| {
        (w[start(s)], w[start(s) + 1]) = (level, references.len() as i32);
        for (i, &reference) in references.iter().enumerate() {
            w[entry(s, i, 0)..entry(s, i + 1, 0)].copy_from_slice(&[reference, 7, -7, 7, -7]);
        }
    };
    node(0, 2, &[5, 6]);
    node(5, 1, &[1, 2, 3]);
    node(6, 1, &[4, 7, 8]);
    for s in [1, 2, 3, 4, 7, 8] {
        node(s as usize, 0, &[10 * s + 1, 10 * s + 2, 10 * s + 3]);
    }
    w
}

/// Pokes that leave a slot free.
fn freed(slot: usize) -> Vec<(usize, i32)> {
    (0..WIDTH).map(|i| (start(slot) + i, if i == 0 { -1 } else { 0 })).collect()
}

/// Pokes that put a third entry in the root of the nine points: the second one again.
fn third_entry() -> Vec<(usize, i32)> {
    let w = row(9).words();
    [vec![(start(2) + 1, 3)], (0..5).map(|j| (entry(2, 2, j), w[entry(2, 1, j)])).collect()].concat()
}

/// Which slot, and which rule, where several could be meant.
fn places() -> Vec<Case> {
    let mut out = vec![Case { length: LENGTH, words: tall(), want: (0, [0, 0]) }];
    let mut bad = |rule, slot, pokes: &[(usize, i32)]| out.push(poked(tall(), rule, slot, pokes));
    // rule 1: the lower of two, the higher one named first
    bad(1, 8, &[(start(200) + 5, 1), (entry(8, 3, 0), 1)]);
    // rule 3: the lower of two; with slot 5 for the root, the old root is a node of two entries
    bad(3, 3, &[(start(8) + 1, 9), (start(3) + 1, 9)]);
    bad(3, 0, &[(0, 5)]);
    // rule 4: a repeated number at the later place, whichever of the two was changed; in one leaf; and two of them, where 83 comes again in slot 8
    // and 12 in slot 2
    bad(4, 8, &[(entry(8, 0, 0), 11)]);
    bad(4, 8, &[(entry(1, 0, 0), 83)]);
    bad(4, 4, &[(entry(4, 0, 0), 42)]);
    bad(4, 2, &[(entry(1, 0, 0), 83), (entry(2, 2, 0), 12)]);
    // a point off the grid below a repeated number, and above one
    bad(4, 7, &[(entry(8, 0, 0), 11), (entry(7, 0, 1), 1_000_001), (entry(7, 0, 3), 1_000_001)]);
    bad(4, 2, &[(entry(2, 0, 0), 11), (entry(7, 0, 0), 0)]);
    // rule 5: the slot of the entry, be the child lower, higher, or no slot; and the lower of two entries' slots
    bad(5, 5, &freed(1));
    bad(5, 6, &freed(8));
    bad(5, 6, &[(entry(6, 1, 0), 256)]);
    bad(5, 0, &[(entry(6, 1, 0), 255), (entry(0, 1, 0), 0)]);
    // slot 1 made a node above the leaves: its own entries refer to the free slots 11, 12, 13, and slot 5's to a child of its own level
    bad(5, 1, &[(start(1), 1)]);
    // rule 6: point 11 moved, so that slot 5's entry for slot 1 is too small, while the root's for slot 5 still covers slot 5's entries;
    // then slot 5's is right and the root's is too small; then a box of slot 6 and one of the root are wrong
    bad(6, 5, &[(entry(1, 0, 1), 8), (entry(1, 0, 3), 8)]);
    bad(6, 0, &[(entry(1, 0, 1), 8), (entry(1, 0, 3), 8), (entry(5, 0, 3), 8)]);
    bad(6, 0, &[(entry(6, 0, 2), -8), (entry(0, 1, 4), -6)]);
    // rule 7: slot 1 twice and slot 4 never; slot 4 twice and slot 1 never; slot 8 twice and slot 4 never
    bad(7, 1, &[(entry(6, 0, 0), 1)]);
    bad(7, 1, &[(entry(5, 0, 0), 4)]);
    bad(7, 4, &[(entry(6, 0, 0), 8)]);
    // the root's two children are both slot 6: slot 5 never, though its leaves are referred to as before
    bad(7, 5, &[(entry(0, 0, 0), 6)]);
    // and word 1 wrong too, which comes before every slot
    bad(7, HEADER, &[(entry(5, 0, 0), 4), (1, 17)]);
    // a later rule in a lower slot, each with the next
    bad(1, 200, &[(start(200) + 41, -1), (0, 256)]);
    bad(2, HEADER, &[(1, 501), (start(1) + 1, 9)]);
    bad(3, 8, &[(start(8), -2), (entry(1, 0, 0), 0)]);
    bad(4, 8, &[(entry(8, 2, 0), 10_000), (entry(0, 0, 0), -1)]);
    bad(5, 6, &[(entry(6, 2, 0), 9), (entry(0, 0, 1), 6)]);
    // (a lower y high, which leaves the root's box for slot 6 right)
    bad(6, 6, &[(entry(6, 2, 4), -8), (1, 17)]);
    bad(1, 8, &[(entry(8, 3, 4), 1), (0, -1), (start(7) + 1, 9), (entry(1, 0, 0), 0), (entry(5, 0, 0), -1), (entry(0, 0, 1), 6), (1, 17)]);
    // With slot 0 for the root of the nine points, and a third entry in slot 2: slot 0 is referred to, once, and the root must never be; slot 1 is
    // referred to twice and slot 2 not at all.
    out.push(poked(row(9).words(), 7, 0, &[third_entry(), vec![(0, 0)]].concat()));
    // Without that: slot 1 twice.
    out.push(poked(row(9).words(), 7, 1, &third_entry()));
    out
}

/// Every case: its words, and the number, rule and slot that they must give.
pub fn by_hand() -> Vec<(Vec<i32>, (i32, Fault))> {
    cases().into_iter().chain(places()).map(|c| (c.words[..c.length].to_vec(), c.want)).collect()
}

/// One line a case: the length, then each word that is not the empty table's, as its place and its value.
pub fn input() -> String {
    let blank = Table::new().words();
    let mut out = String::new();
    for c in cases() {
        out += &c.length.to_string();
        for (at, (&v, &free)) in c.words.iter().zip(&blank).enumerate() {
            if v != free {
                out += &format!("\t{at}\t{v}");
            }
        }
        out.push('\n');
    }
    out
}

pub fn expected() -> String {
    agreed();
    cases().iter().map(|c| format!("{}\n", c.want.0)).collect()
}

/// Every case is judged as it says; how many there are.
pub fn agreed() -> usize {
    let all = by_hand();
    for (i, (words, want)) in all.iter().enumerate() {
        assert_eq!(judged(words), *want, "case {i} of the tables made by hand");
    }
    all.len()
}

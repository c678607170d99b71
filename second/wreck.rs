//! Tables damaged at random and by aim: by aim so that each rule of document 01 is broken often, alone and with others, in one slot and in several.

use crate::random::Random;
use crate::table::{FAN, SLOTS, WIDTH};

/// A table with a word or two changed at random.
pub fn damaged(r: &mut Random, whole: &[i32]) -> Vec<i32> {
    let mut w = whole.to_vec();
    for _ in 0..r.between(1, 2) {
        // Mostly near the used slots, where a change is seldom harmless.
        let at = if r.below(8) == 0 { r.below(w.len() as u64) } else { r.below(2 + 42 * 40) } as usize;
        w[at] = match r.below(6) {
            0 => w[at].wrapping_add(1),
            1 => w[at].wrapping_sub(1),
            2 => -1,
            3 => 0,
            4 => r.between(-3, 300) as i32,
            _ => r.next() as i32,
        };
    }
    w
}

type Blow = fn(&mut Random, &mut [i32]);

/// All but the header's. Those that break the last rules come twice, for any other blow beside them hides them.
const BLOWS: [Blow; 13] = [litter, size, level, point, repeat, child, cousin, side, spare, gone, cousin, side, spare];

/// One to four blows, of one kind or of several. Then what they upset besides is often set right, so that a later rule is the first that is broken; and
/// the header is hit last, for nothing sets it right again.
pub fn aimed(r: &mut Random, whole: &[i32]) -> Vec<i32> {
    let mut w = whole.to_vec();
    let (one_kind, first) = (r.below(2) == 0, *r.pick(&BLOWS));
    for _ in 0..r.between(1, 4) {
        let blow = if one_kind { first } else { *r.pick(&BLOWS) };
        blow(r, &mut w);
    }
    if r.below(2) == 0 {
        cover_all(&mut w);
    }
    if r.below(2) == 0 {
        w[1] = slots(&w, |level| level == 0).into_iter().map(|s| said(&w, s) as i32).sum();
    }
    match r.below(16) {
        0 => root(r, &mut w),
        1 => points(r, &mut w),
        _ => {}
    }
    w
}

/// The header alone.
pub fn header(r: &mut Random, whole: &[i32]) -> Vec<i32> {
    let mut w = whole.to_vec();
    let blow: Blow = *r.pick(&[root as Blow, points as Blow]);
    blow(r, &mut w);
    w
}

// ---- what a table has, whatever its words say

fn start(slot: usize) -> usize {
    2 + WIDTH * slot
}

fn slots(w: &[i32], is: impl Fn(i32) -> bool) -> Vec<usize> {
    (0..SLOTS).filter(|&s| is(w[start(s)])).collect()
}

/// How many entries a slot says that it has, or the nearest that it can have.
fn said(w: &[i32], slot: usize) -> usize {
    w[start(slot) + 1].clamp(0, FAN as i32) as usize
}

/// Where the entries of some slots start.
fn entries(w: &[i32], of: Vec<usize>) -> Vec<usize> {
    of.into_iter().flat_map(|s| (0..said(w, s)).map(move |i| start(s) + 2 + 5 * i)).collect()
}

fn some<T: Copy>(r: &mut Random, from: &[T]) -> Option<T> {
    if from.is_empty() { None } else { Some(*r.pick(from)) }
}

fn some_used(r: &mut Random, w: &[i32]) -> Option<usize> {
    some(r, &slots(w, |level| level != -1))
}

fn some_free(r: &mut Random, w: &[i32]) -> Option<usize> {
    let free = slots(w, |level| level == -1);
    // Often the lowest: it stands below used slots, if the table has such.
    if r.below(2) == 0 { free.first().copied() } else { some(r, &free) }
}

fn some_point(r: &mut Random, w: &[i32]) -> Option<usize> {
    some(r, &entries(w, slots(w, |level| level == 0)))
}

fn some_branch(r: &mut Random, w: &[i32]) -> Option<usize> {
    some(r, &entries(w, slots(w, |level| level > 0)))
}

// ---- blows; each leaves a table as it is that has nothing to hit

/// A word of a free slot, or of an unused entry, that is not zero.
fn litter(r: &mut Random, w: &mut [i32]) {
    let any = r.below(SLOTS as u64) as usize;
    let s = if r.below(2) == 0 { any } else { some_used(r, w).unwrap_or(any) };
    let from = if w[start(s)] == -1 { 1 } else { 2 + 5 * said(w, s) };
    if from < WIDTH {
        w[start(s) + r.between(from as i64, WIDTH as i64 - 1) as usize] = *r.pick(&[1, -1, i32::MIN]);
    }
}

/// Another number of entries; those that are unused then become zeros.
fn size(r: &mut Random, w: &mut [i32]) {
    if let Some(s) = some_used(r, w) {
        let is = w[start(s) + 1];
        w[start(s) + 1] = *r.pick(&[-1, 0, 1, 2, 2, 9, is.wrapping_sub(1), is.wrapping_add(1), i32::MAX, i32::MIN]);
        if (0..=FAN as i32).contains(&w[start(s) + 1]) {
            let unused = start(s) + 2 + 5 * said(w, s);
            w[unused..start(s + 1)].fill(0);
        }
    }
}

fn level(r: &mut Random, w: &mut [i32]) {
    if let Some(s) = some_used(r, w) {
        let is = w[start(s)];
        w[start(s)] = *r.pick(&[is.wrapping_sub(1), is.wrapping_add(1), is.wrapping_add(1), -2, i32::MAX, i32::MIN]);
    }
}

/// A point with a number that is none, off the grid, or not at one place.
fn point(r: &mut Random, w: &mut [i32]) {
    if let Some(e) = some_point(r, w) {
        let axis = r.below(2) as usize;
        match r.below(3) {
            0 => w[e] = *r.pick(&[0, 10_000, -1, i32::MAX, i32::MIN]),
            1 => {
                let off = *r.pick(&[1_000_001, -1_000_001, i32::MAX, i32::MIN]);
                (w[e + 1 + axis], w[e + 3 + axis]) = (off, off);
            }
            _ => w[e + 1 + axis] = w[e + 1 + axis].wrapping_add(*r.pick(&[1, -1])),
        }
    }
}

/// A point's number for another point, of its own slot or of any.
fn repeat(r: &mut Random, w: &mut [i32]) {
    let leaf = some(r, &slots(w, |level| level == 0));
    if let (Some(s), Some(other)) = (leaf, some_point(r, w)) {
        let own = entries(w, vec![s]);
        if let (Some(e), Some(near)) = (some(r, &own), some(r, &own)) {
            w[e] = w[*r.pick(&[near, other])];
        }
    }
}

/// A child that is no slot, a free one, or one of any level.
fn child(r: &mut Random, w: &mut [i32]) {
    if let Some(e) = some_branch(r, w) {
        let any = r.below(SLOTS as u64) as i32;
        let used = some_used(r, w).map_or(any, |s| s as i32);
        w[e] = *r.pick(&[-1, 256, i32::MAX, i32::MIN, any, used]);
    }
}

/// The child of another entry, with its box or without: mostly of the same level, and then referred to twice, and the former child not at all.
fn cousin(r: &mut Random, w: &mut [i32]) {
    if let (Some(e), Some(other)) = (some_branch(r, w), some_branch(r, w)) {
        let words = *r.pick(&[1, 5]);
        w.copy_within(other..other + words, e);
    }
}

/// One side of a box.
fn side(r: &mut Random, w: &mut [i32]) {
    if let Some(e) = some_branch(r, w) {
        let at = e + r.between(1, 4) as usize;
        w[at] = *r.pick(&[w[at].wrapping_add(1), w[at].wrapping_sub(1), 0, i32::MAX, i32::MIN]);
    }
}

/// A free slot becomes the copy of a used one, to which nobody refers. A leaf's copy mostly gets new numbers.
fn spare(r: &mut Random, w: &mut [i32]) {
    if let (Some(s), Some(free)) = (some_used(r, w), some_free(r, w)) {
        w.copy_within(start(s)..start(s + 1), start(free));
        if w[start(free)] == 0 && r.below(4) != 0 {
            entries(w, vec![free]).into_iter().for_each(|e| w[e] = r.between(1, 9_999) as i32);
        }
    }
}

/// A used slot becomes free.
fn gone(r: &mut Random, w: &mut [i32]) {
    if let Some(s) = some_used(r, w) {
        w[start(s)..start(s + 1)].fill(0);
        w[start(s)] = -1;
    }
}

/// Another root.
fn root(r: &mut Random, w: &mut [i32]) {
    let any = r.below(SLOTS as u64) as i32;
    let used = some_used(r, w).map_or(any, |s| s as i32);
    w[0] = *r.pick(&[-1, -2, 256, i32::MAX, i32::MIN, any, used, used]);
}

/// Another number of points.
fn points(r: &mut Random, w: &mut [i32]) {
    w[1] = *r.pick(&[0, -1, 1, 500, 501, w[1].wrapping_add(1), w[1].wrapping_sub(1), i32::MAX, i32::MIN]);
}

/// Every box that can be is made the smallest over its child's boxes, from the lowest level up.
fn cover_all(w: &mut [i32]) {
    for level in 1..6 {
        for e in entries(w, slots(w, |l| l == level)) {
            let child = usize::try_from(w[e]).ok().filter(|&c| c < SLOTS);
            let below = child.map_or(vec![], |c| entries(w, vec![c]));
            for j in 0..2 {
                let low = below.iter().map(|b| w[b + 1 + j]).min();
                let high = below.iter().map(|b| w[b + 3 + j]).max();
                (w[e + 1 + j], w[e + 3 + j]) = (low.unwrap_or(w[e + 1 + j]), high.unwrap_or(w[e + 3 + j]));
            }
        }
    }
}

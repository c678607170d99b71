//! The card of document 02 §1, in the second implementation: by a sort of all others, and by a scan that keeps the k best.

use crate::table::square;

/// A holder: number, x, y.
pub type Holder = (i32, i64, i64);

/// The greatest k, and so the most names on a card.
pub const MOST_K: usize = 16;

/// The names on a card, or the number that it is refused with: 3, 5, 8.
pub fn card(all: &[Holder], number: i32, k: i32) -> Result<Vec<i32>, i32> {
    if !(1..=9999).contains(&number) {
        return Err(3);
    }
    if !(1..=MOST_K as i32).contains(&k) {
        return Err(5);
    }
    let p = all.iter().find(|p| p.0 == number).ok_or(8)?;
    Ok(sorted(all, p, k as usize))
}

/// The first k of all others, sorted by squared distance, equal distances by lower number.
fn sorted(all: &[Holder], p: &Holder, k: usize) -> Vec<i32> {
    let mut others: Vec<(i64, i32)> = all.iter().filter(|c| c.0 != p.0).map(|c| (square([c.1, c.2], [p.1, p.2]), c.0)).collect();
    others.sort_unstable();
    others.iter().take(k).map(|o| o.1).collect()
}

/// The same names by a scan: each other is held to the worst of the k best so far, and put in its place among them. How many there are.
/// No tree and no row of all others; it is what the card's speed is measured against.
pub fn scanned(all: &[Holder], p: &Holder, k: usize, names: &mut [u32]) -> usize {
    let mut best = [(i64::MAX, i32::MAX); MOST_K];
    let mut found = 0;
    let mut worst = best[k - 1];
    for c in all {
        let far = square([c.1, c.2], [p.1, p.2]);
        // Most are further away: asked first and alone, this takes a fifth off the time.
        if far > worst.0 {
            continue;
        }
        let mark = (far, c.0);
        if mark > worst || c.0 == p.0 {
            continue;
        }
        let mut at = found.min(k - 1);
        while at > 0 && best[at - 1] > mark {
            best[at] = best[at - 1];
            at -= 1;
        }
        best[at] = mark;
        worst = best[k - 1];
        found = k.min(found + 1);
    }
    for (name, mark) in names.iter_mut().zip(&best[..found]) {
        *name = mark.1 as u32;
    }
    found
}

//! The query of the second implementation: once by counting every pair, once by its own walk of its own tree.

use crate::table::{square, Table};

/// What a granted query gives.
#[derive(Clone, PartialEq, Eq, Debug, Default)]
pub struct Found {
    pub answers: Vec<i32>,
    /// number, x, y, squared distance to q
    pub candidates: Vec<(i32, i64, i64, i64)>,
    pub opened: usize,
}

/// The meaning, by counting every pair: fewer than k others as near to p as q is, or nearer. The count stops at k.
pub fn scan(stations: &[(i32, i64, i64)], q: [i64; 2], k: usize) -> Vec<i32> {
    let mut out: Vec<i32> = stations.iter().filter(|p| few(stations, p, q, k)).map(|p| p.0).collect();
    out.sort_unstable();
    out
}

fn few(stations: &[(i32, i64, i64)], p: &(i32, i64, i64), q: [i64; 2], k: usize) -> bool {
    let at = [p.1, p.2];
    let far = square(q, at);
    let mut as_near = 0;
    for c in stations {
        if c.0 != p.0 && square([c.1, c.2], at) <= far {
            as_near += 1;
            if as_near == k {
                return false;
            }
        }
    }
    true
}

/// The walk: candidates and opened nodes; the final test counts down the tree.
pub fn walk(t: &Table, q: [i64; 2], k: usize) -> Found {
    let mut f = Found::default();
    if let Some(r) = t.root {
        open(t, r, q, k, &mut f);
        f.answers = f.candidates.iter().filter(|c| tree_count(t, r, c, q, k) < k).map(|c| c.0).collect();
        f.answers.sort_unstable();
    }
    f
}

fn open(t: &Table, s: usize, q: [i64; 2], k: usize, f: &mut Found) {
    f.opened += 1;
    let node = t.slots[s].as_ref().unwrap();
    let n = node.entries.len();
    let mut order = [(0i64, 0usize); 8];
    for (i, e) in node.entries.iter().enumerate() {
        order[i] = (e.rect.least(q), i);
    }
    order[..n].sort_unstable();
    for &(least, i) in &order[..n] {
        let e = &node.entries[i];
        if node.level == 0 {
            let p = e.rect.low;
            let as_near = f.candidates.iter().filter(|c| square([c.1, c.2], p) <= least).take(k).count();
            if as_near < k {
                f.candidates.push((e.reference, p[0], p[1], least));
            }
        } else {
            let corners = e.rect.corners();
            let as_near = f.candidates.iter().filter(|c| all_as_near(&corners, [c.1, c.2], q)).take(k).count();
            if as_near < k {
                open(t, e.reference as usize, q, k, f);
            }
        }
    }
}

/// All corners are as near to c as to q, or nearer.
pub fn all_as_near(corners: &[[i64; 2]], c: [i64; 2], q: [i64; 2]) -> bool {
    corners.iter().all(|&p| square(c, p) <= square(q, p))
}

/// How many others are as near to the candidate as q is, or nearer; at most k, skipping boxes that cannot hold one.
fn tree_count(t: &Table, s: usize, c: &(i32, i64, i64, i64), q: [i64; 2], k: usize) -> usize {
    let at = [c.1, c.2];
    let far = square(q, at);
    let node = t.slots[s].as_ref().unwrap();
    let mut sum = 0;
    for e in &node.entries {
        if e.rect.least(at) > far {
            continue;
        }
        if node.level > 0 {
            sum += tree_count(t, e.reference as usize, c, q, k - sum);
        } else if e.reference != c.0 {
            sum += 1;
        }
        if sum >= k {
            return k;
        }
    }
    sum
}

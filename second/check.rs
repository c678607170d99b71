//! Document 01's rules 1 to 7, read off the words of any slice; and where they are broken, as 02 §4 says it. Every broken place of every rule is
//! collected, and the least is given: nothing stops at a first one.

use crate::table::{on_grid, FAN, LEAST, LENGTH, MOST, SLOTS, WIDTH};

/// Where the two header words are, below all slots.
pub const HEADER: i32 = -1;

/// A rule, and a slot where it is broken.
pub type Fault = [i32; 2];

/// 0 well formed, 1 wrong length, 2 not well formed.
pub fn check(w: &[i32]) -> i32 {
    judged(w).0
}

/// The number, and with 2 the lowest rule that is broken and the lowest slot where it is; 0 and 0 with 0 and 1.
pub fn judged(w: &[i32]) -> (i32, Fault) {
    if w.len() != LENGTH {
        return (1, [0, 0]);
    }
    match faults(w).into_iter().min() {
        None => (0, [0, 0]),
        Some(least) => (2, least),
    }
}

/// Each rule with each slot where it is broken. A rule is judged also where an earlier one is broken, as far as its words still say something: what it
/// finds there decides nothing, for the earlier one is less.
pub fn faults(w: &[i32]) -> Vec<Fault> {
    let v = View(w);
    let rules = [v.litter(), v.header(), v.sizes(), v.points(), v.children(), v.boxes(), v.references()];
    (1..).zip(rules).flat_map(|(rule, slots)| slots.into_iter().map(move |slot| [rule, slot])).collect()
}

/// Every point of a well-formed table, read off its words: number, x, y.
pub fn stations(w: &[i32]) -> Vec<(i32, i64, i64)> {
    let v = View(w);
    v.leaves().into_iter().flat_map(|s| v.entries(s)).map(|e| (e[0], i64::from(e[1]), i64::from(e[2]))).collect()
}

struct View<'a>(&'a [i32]);

impl<'a> View<'a> {
    fn slot(&self, s: usize) -> &'a [i32] {
        &self.0[2 + WIDTH * s..2 + WIDTH * (s + 1)]
    }

    fn level(&self, s: usize) -> i32 {
        self.slot(s)[0]
    }

    fn said(&self, s: usize) -> i32 {
        self.slot(s)[1]
    }

    /// As many as the slot says; none if it says a number that rule 3 forbids every slot.
    fn entries(&self, s: usize) -> Vec<&'a [i32]> {
        let n = if (0..=FAN as i32).contains(&self.said(s)) { self.said(s) as usize } else { 0 };
        self.slot(s)[2..].chunks_exact(5).take(n).collect()
    }

    fn those(&self, is: impl Fn(i32) -> bool) -> Vec<usize> {
        (0..SLOTS).filter(|&s| is(self.level(s))).collect()
    }

    fn used(&self) -> Vec<usize> {
        self.those(|level| level != -1)
    }

    fn leaves(&self) -> Vec<usize> {
        self.those(|level| level == 0)
    }

    /// The slots above the leaves that have an entry of a kind.
    fn above_with(&self, is: impl Fn(usize, &[i32]) -> bool) -> Vec<i32> {
        numbered(self.those(|level| level > 0), |s| self.entries(s).into_iter().any(|e| is(s, e)))
    }

    /// Rule 1, by the slots that break it: words that must be zero and are not.
    fn litter(&self) -> Vec<i32> {
        numbered((0..SLOTS).collect(), |s| {
            let from = match (self.level(s), self.said(s)) {
                (-1, _) => 1,
                (_, n) if (0..=FAN as i32).contains(&n) => 2 + 5 * n as usize,
                _ => WIDTH,
            };
            self.slot(s)[from..].iter().any(|&x| x != 0)
        })
    }

    /// Rule 2, of the header alone: also where the slots have a part in it.
    fn header(&self) -> Vec<i32> {
        let (root, points) = (self.0[0], self.0[1]);
        let empty = root == -1 && points == 0 && self.used().is_empty();
        let rooted = self.used().iter().any(|&s| s as i32 == root) && (1..=MOST as i32).contains(&points);
        if empty || rooted { vec![] } else { vec![HEADER] }
    }

    /// Rule 3: levels and numbers of entries.
    fn sizes(&self) -> Vec<i32> {
        numbered(self.used(), |s| {
            let least = match (s as i32 == self.0[0], self.level(s)) {
                (true, 0) => 1,
                (true, _) => 2,
                (false, _) => LEAST as i32,
            };
            self.level(s) < 0 || !(least..=FAN as i32).contains(&self.said(s))
        })
    }

    /// Rule 4: points that are none, and of those with one number all but the first by slot and place. Put in order by number, slot and place, a
    /// later one stands right behind an earlier one.
    fn points(&self) -> Vec<i32> {
        let is_none = |e: &[i32]| !(1..=9999).contains(&e[0]) || e[1] != e[3] || e[2] != e[4] || !on_grid(e[1]) || !on_grid(e[2]);
        let mut broken = numbered(self.leaves(), |s| self.entries(s).into_iter().any(is_none));
        let mut all: Vec<(i32, usize, usize)> = vec![];
        for s in self.leaves() {
            all.extend(self.entries(s).iter().enumerate().map(|(place, e)| (e[0], s, place)));
        }
        all.sort();
        broken.extend(all.windows(2).filter(|two| two[0].0 == two[1].0).map(|two| two[1].1 as i32));
        broken
    }

    /// Rule 5, by the slot of the entry.
    fn children(&self) -> Vec<i32> {
        self.above_with(|s, e| child(e).is_none_or(|c| self.level(c) == -1 || self.level(c) != self.level(s) - 1))
    }

    /// Rule 6, by the slot of the entry; a child that is no slot has no boxes, and has broken rule 5.
    fn boxes(&self) -> Vec<i32> {
        self.above_with(|_, e| {
            let below = child(e).map_or(vec![], |c| self.entries(c));
            let low = |j: usize| below.iter().map(|b| b[j]).min();
            let high = |j: usize| below.iter().map(|b| b[j]).max();
            [low(1), low(2), high(3), high(4)] != [e[1], e[2], e[3], e[4]].map(Some)
        })
    }

    /// Rule 7: the slots that are not referred to as often as they must be; and the header, if word 1 is not the number of leaf entries.
    fn references(&self) -> Vec<i32> {
        let mut times = [0; SLOTS];
        for s in self.those(|level| level > 0) {
            self.entries(s).into_iter().filter_map(child).for_each(|c| times[c] += 1);
        }
        let mut broken = numbered(self.used(), |s| times[s] != i32::from(s as i32 != self.0[0]));
        let points: usize = self.leaves().into_iter().map(|s| self.entries(s).len()).sum();
        if points as i32 != self.0[1] {
            broken.push(HEADER);
        }
        broken
    }
}

/// Those of some slots that are of a kind, as the table's words number them.
fn numbered(slots: Vec<usize>, is: impl Fn(usize) -> bool) -> Vec<i32> {
    slots.into_iter().filter(|&s| is(s)).map(|s| s as i32).collect()
}

/// The slot that an entry above the leaves refers to, if it is one.
fn child(e: &[i32]) -> Option<usize> {
    usize::try_from(e[0]).ok().filter(|&c| c < SLOTS)
}

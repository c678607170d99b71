//! A second implementation of document 01: the slots as Rust values, and their words.
//! No code is shared with the Rattle sources; the author is, so a misreading of 01 that both share would pass. The tests compare the two word by word.

pub const FAN: usize = 8;
pub const LEAST: usize = 3;
pub const MOST: usize = 500;
pub const SLOTS: usize = 256;
pub const WIDTH: usize = 42;
pub const LENGTH: usize = 2 + WIDTH * SLOTS;
pub const REACH: i32 = 1_000_000;

/// x low, y low, x high, y high.
#[derive(Clone, Copy, PartialEq, Eq, Debug)]
pub struct Rect {
    pub low: [i64; 2],
    pub high: [i64; 2],
}

impl Rect {
    pub fn point(x: i64, y: i64) -> Rect {
        Rect { low: [x, y], high: [x, y] }
    }

    pub fn with(self, other: Rect) -> Rect {
        let mut r = self;
        for axis in 0..2 {
            r.low[axis] = r.low[axis].min(other.low[axis]);
            r.high[axis] = r.high[axis].max(other.high[axis]);
        }
        r
    }

    pub fn side(&self, axis: usize) -> i64 {
        self.high[axis] - self.low[axis]
    }

    pub fn area(&self) -> i64 {
        self.side(0) * self.side(1)
    }

    /// The least squared distance from a place.
    pub fn least(&self, q: [i64; 2]) -> i64 {
        (0..2)
            .map(|a| {
                let d = if q[a] < self.low[a] {
                    self.low[a] - q[a]
                } else if q[a] > self.high[a] {
                    q[a] - self.high[a]
                } else {
                    0
                };
                d * d
            })
            .sum()
    }

    pub fn corners(&self) -> [[i64; 2]; 4] {
        [
            [self.low[0], self.low[1]],
            [self.low[0], self.high[1]],
            [self.high[0], self.low[1]],
            [self.high[0], self.high[1]],
        ]
    }
}

pub fn square(a: [i64; 2], b: [i64; 2]) -> i64 {
    (a[0] - b[0]) * (a[0] - b[0]) + (a[1] - b[1]) * (a[1] - b[1])
}

#[derive(Clone, Copy, PartialEq, Eq, Debug)]
pub struct Entry {
    pub reference: i32,
    pub rect: Rect,
}

#[derive(Clone, PartialEq, Eq, Debug)]
pub struct Node {
    pub level: i32,
    pub entries: Vec<Entry>,
}

impl Node {
    pub fn cover(&self) -> Rect {
        cover(&self.entries)
    }
}

pub fn cover(entries: &[Entry]) -> Rect {
    entries.iter().skip(1).fold(entries[0].rect, |r, e| r.with(e.rect))
}

/// Nine or ten entries, by low + high on the longer axis of their cover, x if equal; ties keep their order.
fn lined(entries: &[Entry]) -> Vec<Entry> {
    let c = cover(entries);
    let axis = if c.side(1) > c.side(0) { 1 } else { 0 };
    let mut out = entries.to_vec();
    out.sort_by_key(|e| e.rect.low[axis] + e.rect.high[axis]); // stable
    out
}

#[derive(Clone, PartialEq, Eq, Debug)]
pub struct Table {
    pub root: Option<usize>,
    pub points: usize,
    pub slots: Vec<Option<Node>>,
}

impl Table {
    pub fn new() -> Table {
        Table { root: None, points: 0, slots: vec![None; SLOTS] }
    }

    fn node(&self, s: usize) -> &Node {
        self.slots[s].as_ref().expect("a used slot")
    }

    fn lowest_free(&self) -> usize {
        self.slots.iter().position(|n| n.is_none()).expect("a free slot")
    }

    /// Every point: number, x, y.
    pub fn stations(&self) -> Vec<(i32, i64, i64)> {
        let mut out = Vec::new();
        for n in self.slots.iter().flatten().filter(|n| n.level == 0) {
            out.extend(n.entries.iter().map(|e| (e.reference, e.rect.low[0], e.rect.low[1])));
        }
        out
    }

    pub fn has(&self, number: i32) -> bool {
        self.stations().iter().any(|p| p.0 == number)
    }

    // ---- enrolment

    /// 0, or the refusal's number.
    pub fn enrol(&mut self, number: i32, x: i32, y: i32) -> i32 {
        if !(1..=9999).contains(&number) {
            return 3;
        }
        if !on_grid(x) || !on_grid(y) {
            return 4;
        }
        if self.has(number) {
            return 6;
        }
        if self.points == MOST {
            return 7;
        }
        let e = Entry { reference: number, rect: Rect::point(x as i64, y as i64) };
        match self.root {
            None => {
                self.slots[0] = Some(Node { level: 0, entries: vec![e] });
                self.root = Some(0);
            }
            Some(r) => {
                if let Some(new) = self.insert(r, e) {
                    let level = self.node(r).level + 1;
                    let f = self.lowest_free();
                    let old = Entry { reference: r as i32, rect: self.node(r).cover() };
                    self.slots[f] = Some(Node { level, entries: vec![old, new] });
                    self.root = Some(f);
                }
            }
        }
        self.points += 1;
        0
    }

    fn insert(&mut self, s: usize, e: Entry) -> Option<Entry> {
        let mut node = self.node(s).clone();
        if node.level == 0 {
            node.entries.push(e);
        } else {
            let i = choose(&node.entries, e.rect);
            let child = node.entries[i].reference as usize;
            let new = self.insert(child, e);
            node.entries[i].rect = self.node(child).cover();
            node.entries.extend(new);
        }
        if node.entries.len() <= FAN {
            self.slots[s] = Some(node);
            return None;
        }
        let order = lined(&node.entries);
        let f = self.lowest_free();
        self.slots[s] = Some(Node { level: node.level, entries: order[..4].to_vec() });
        self.slots[f] = Some(Node { level: node.level, entries: order[4..].to_vec() });
        Some(Entry { reference: f as i32, rect: cover(&order[4..]) })
    }

    // ---- withdrawal

    pub fn withdraw(&mut self, number: i32) -> i32 {
        if !(1..=9999).contains(&number) {
            return 3;
        }
        if !self.has(number) {
            return 8;
        }
        let r = self.root.expect("a root");
        self.remove(r, number);
        self.points -= 1;
        let root = self.node(r);
        if root.entries.is_empty() {
            self.slots[r] = None;
            self.root = None;
        } else if root.level > 0 && root.entries.len() == 1 {
            let child = root.entries[0].reference as usize;
            self.slots[r] = None;
            self.root = Some(child);
        }
        0
    }

    /// Whether the number was found below slot s, and removed there.
    fn remove(&mut self, s: usize, number: i32) -> bool {
        let node = self.node(s).clone();
        if node.level == 0 {
            let Some(i) = node.entries.iter().position(|e| e.reference == number) else {
                return false;
            };
            self.slots[s].as_mut().unwrap().entries.remove(i);
            return true;
        }
        for i in 0..node.entries.len() {
            if self.remove(node.entries[i].reference as usize, number) {
                self.mend(s, i);
                return true;
            }
        }
        false
    }

    fn mend(&mut self, s: usize, i: usize) {
        let mut node = self.node(s).clone();
        let child = node.entries[i].reference as usize;
        if self.node(child).entries.len() >= LEAST {
            node.entries[i].rect = self.node(child).cover();
            self.slots[s] = Some(node);
            return;
        }
        let a = if i + 1 < node.entries.len() { i } else { i - 1 };
        let (c, d) = (node.entries[a].reference as usize, node.entries[a + 1].reference as usize);
        let level = self.node(c).level;
        let joint: Vec<Entry> = self.node(c).entries.iter().chain(&self.node(d).entries).copied().collect();
        if joint.len() <= FAN {
            node.entries[a].rect = cover(&joint);
            node.entries.remove(a + 1);
            self.slots[c] = Some(Node { level, entries: joint });
            self.slots[d] = None;
        } else {
            let order = lined(&joint);
            let k = if joint.len() == 9 { 4 } else { 5 };
            node.entries[a].rect = cover(&order[..k]);
            node.entries[a + 1].rect = cover(&order[k..]);
            self.slots[c] = Some(Node { level, entries: order[..k].to_vec() });
            self.slots[d] = Some(Node { level, entries: order[k..].to_vec() });
        }
        self.slots[s] = Some(node);
    }

    // ---- words

    pub fn words(&self) -> Vec<i32> {
        let mut w = vec![0i32; LENGTH];
        w[0] = self.root.map_or(-1, |r| r as i32);
        w[1] = self.points as i32;
        for (s, n) in self.slots.iter().enumerate() {
            let at = 2 + WIDTH * s;
            match n {
                None => w[at] = -1,
                Some(n) => {
                    w[at] = n.level;
                    w[at + 1] = n.entries.len() as i32;
                    for (i, e) in n.entries.iter().enumerate() {
                        let b = at + 2 + 5 * i;
                        w[b] = e.reference;
                        w[b + 1] = e.rect.low[0] as i32;
                        w[b + 2] = e.rect.low[1] as i32;
                        w[b + 3] = e.rect.high[0] as i32;
                        w[b + 4] = e.rect.high[1] as i32;
                    }
                }
            }
        }
        w
    }
}

pub fn on_grid(v: i32) -> bool {
    (-REACH..=REACH).contains(&v)
}

/// The entry whose area grows least; on a tie the smaller area, then the lower place.
fn choose(entries: &[Entry], new: Rect) -> usize {
    (0..entries.len())
        .min_by_key(|&i| {
            let r = entries[i].rect;
            (r.with(new).area() - r.area(), r.area(), i)
        })
        .expect("an entry")
}

//! The check against the second's: number, rule and slot of tables whole and damaged, through the check itself and through one other call. A call that
//! refuses the table changes nothing, and its row for rule and slot tells what the check's does; a row too short for both stays as it was.

use crate::check::{faults, judged, Fault, HEADER};
use crate::library::Lists;
use crate::random::Random;
use crate::ullagreth::lent;
use crate::{damage, random_table, wreck};

/// What no call writes.
const MARK: i32 = -77_777;

/// Tables of each seed.
const TABLES: usize = 200;

/// The words, the row for rule and slot: the number given back. With 1 and 2 it has seen to the other rows itself.
type Lend = fn(&mut Random, &mut [i32], &mut [i32]) -> u8;

struct Call {
    name: &'static str,
    /// What it may give for a well-formed table.
    gives: &'static [u8],
    lend: Lend,
}

const CHECK: Call = Call { name: "check", gives: &[0], lend: |_, w, fault| lent::check(w, fault) };

const OTHERS: [Call; 6] = [
    Call { name: "enrol", gives: &[0, 3, 4, 6, 7], lend: enrol },
    Call { name: "withdraw", gives: &[0, 3, 8], lend: withdraw },
    Call { name: "query", gives: &[0, 4, 5, 9, 10], lend: query },
    Call { name: "sites", gives: &[0], lend: sites },
    Call { name: "card", gives: &[0, 3, 5, 8, 10], lend: card },
    Call { name: "cards", gives: &[0], lend: cards },
];

#[derive(Default)]
struct Tally {
    tables: usize,
    /// Of other lengths.
    length: usize,
    /// By the rule that is told, in a slot and in the header.
    slot: [usize; 8],
    header: [usize; 8],
    /// Tables that break more than one rule, and the lowest one in more than one slot: where another order of the rules or slots would tell others.
    rules: usize,
    slots: usize,
    /// Refusals 2 of each of the other calls.
    others: [usize; 6],
}

pub fn checks(seeds: u64) {
    by_hand();
    let mut tally = Tally::default();
    for seed in 0..seeds {
        let mut r = Random(seed);
        let most = if seed % 8 == 0 { 500 } else { 120 };
        let whole = random_table(&mut r, seed, most).words();
        for call in OTHERS.iter().chain([&CHECK]) {
            tried(&mut r, call, &whole, (0, [0, 0]), || format!("seed {seed}, the whole table"));
        }
        for turn in 0..TABLES {
            let w = some_damage(&mut r, &whole);
            let want = judged(&w);
            let other = (seed as usize + turn) % OTHERS.len();
            for call in [&CHECK, &OTHERS[other]] {
                tried(&mut r, call, &w, want, || format!("seed {seed}, table {turn}"));
            }
            tally.count(&w, want, other);
        }
    }
    tally.print();
}

/// The tables made by hand, through every call, by what was written beside them.
fn by_hand() {
    let (mut r, all) = (Random(0), damage::by_hand());
    for (i, (w, want)) in all.iter().enumerate() {
        for call in OTHERS.iter().chain([&CHECK]) {
            tried(&mut r, call, w, *want, || format!("case {i} of the tables made by hand"));
        }
    }
    println!("check: {} tables made by hand are judged as they must be, by all {} calls", all.len(), OTHERS.len() + 1);
}

fn some_damage(r: &mut Random, whole: &[i32]) -> Vec<i32> {
    let mut w = match r.below(16) {
        0..=2 => wreck::damaged(r, whole),
        3 => wreck::header(r, whole),
        _ => wreck::aimed(r, whole),
    };
    if r.below(40) == 0 {
        w.resize(r.below(w.len() as u64 + 100) as usize, 0);
    }
    w
}

/// One call on words that want a number, rule and slot, with a row of 2 or 3 places for the latter; now and then once more, with 0 or 1.
fn tried(r: &mut Random, call: &Call, w: &[i32], want: (i32, Fault), case: impl Fn() -> String) {
    let places = *r.pick(&[2, 3]);
    told(r, call, w, want, places, &case);
    if r.below(8) == 0 {
        told(r, call, w, want, places - 2, &case);
    }
}

fn told(r: &mut Random, call: &Call, w: &[i32], (number, [rule, slot]): (i32, Fault), places: usize, case: &impl Fn() -> String) {
    let mut fault = vec![MARK; places];
    let mut want = fault.clone();
    if let [first, second, ..] = &mut want[..] {
        (*first, *second) = (rule, slot);
    }
    let mut after = w.to_vec();
    let given = (call.lend)(r, &mut after, &mut fault);
    let case = || format!("{}: {} gives {given}, and {fault:?} for rule and slot, where {number}, {rule}, {slot} are wanted", case(), call.name);
    assert!(if number == 0 { call.gives.contains(&given) } else { i32::from(given) == number }, "{}", case());
    assert!(fault == want, "{}", case());
    assert!(number == 0 || after == w, "{}: the table's words differ", case());
}

impl Tally {
    fn count(&mut self, w: &[i32], (number, [rule, slot]): (i32, Fault), other: usize) {
        self.tables += 1;
        self.length += usize::from(number == 1);
        if number == 2 {
            let places = if slot == HEADER { &mut self.header } else { &mut self.slot };
            places[rule as usize] += 1;
            self.others[other] += 1;
            let all = faults(w);
            self.rules += usize::from(all.iter().any(|f| f[0] != rule));
            self.slots += usize::from(all.iter().any(|f| f[0] == rule && f[1] != slot));
        }
    }

    /// How often each came. Every rule must have: rule 2 in the header alone, rule 7 in both, the others in slots alone.
    fn print(&self) {
        let refused: usize = self.others.iter().sum();
        let by_rule: Vec<String> = (1..8).map(|rule| format!("{rule} {} times", self.slot[rule] + self.header[rule])).collect();
        let by_call: Vec<String> = OTHERS.iter().zip(self.others).map(|(call, n)| format!("{} {n} times", call.name)).collect();
        println!("check: {} damaged tables agree, {refused} not well formed and {} of another length", self.tables, self.length);
        println!("check: the lowest rule was {}; the slot was -1 by rule 2 {} times, by rule 7 {} times", by_rule.join(", "), self.header[2], self.header[7]);
        println!("check: {} break more than one rule, {} the lowest rule in more than one slot", self.rules, self.slots);
        println!("check: the same number, rule and slot were given by {}", by_call.join(", "));
        for rule in 1..8 {
            let came = (self.slot[rule] > 0, self.header[rule] > 0);
            assert_eq!(came, (rule != 2, rule == 2 || rule == 7), "whether rule {rule} came in a slot, and in the header: more seeds, or a fault");
        }
        assert!(self.others.iter().all(|&n| n > 0), "a call that met no bad table");
    }
}

// ---- the other calls, with arguments of which some are refused too: 1 and 2 come first

fn number(r: &mut Random) -> i32 {
    r.between(-1, 10_001) as i32
}

fn place(r: &mut Random) -> (i32, i32) {
    let habit = r.below(5);
    if r.below(8) == 0 { (1_000_001, 0) } else { r.place(habit) }
}

fn k(r: &mut Random) -> i32 {
    r.between(0, 17) as i32
}

fn refuses_table(given: u8) -> bool {
    given == 1 || given == 2
}

fn enrol(r: &mut Random, w: &mut [i32], fault: &mut [i32]) -> u8 {
    let (x, y) = place(r);
    lent::enrol(w, number(r), x, y, fault)
}

fn withdraw(r: &mut Random, w: &mut [i32], fault: &mut [i32]) -> u8 {
    lent::withdraw(w, number(r), fault)
}

fn query(r: &mut Random, w: &mut [i32], fault: &mut [i32]) -> u8 {
    let (x, y) = place(r);
    let mut l = Lists::marked(*r.pick(&[0, 60, 500]), *r.pick(&[0, 5, 500]));
    let mut before = l.clone();
    before.tell(0, 0, 0);
    let given = lent::query(w, x, y, k(r), &mut l.candidates, &mut l.answers, &mut l.counts, fault);
    assert!(!refuses_table(given) || l == before, "query gives {given}, and its lists or counts differ");
    given
}

fn sites(r: &mut Random, w: &mut [i32], fault: &mut [i32]) -> u8 {
    let (xs, ys): (Vec<i32>, Vec<i32>) = (0..r.below(4)).map(|_| place(r)).unzip();
    let mut counts = [77_777; 3];
    let given = lent::sites(w, &xs, &ys, k(r), &mut counts, fault);
    assert!(!refuses_table(given) || counts == [77_777; 3], "sites gives {given}, and its counts differ");
    given
}

fn card(r: &mut Random, w: &mut [i32], fault: &mut [i32]) -> u8 {
    let (mut list, mut names) = ([77_777; 16], [77_777; 2]);
    let given = lent::card(w, number(r), k(r), &mut list, &mut names, fault);
    assert!(!refuses_table(given) || (list, names) == ([77_777; 16], [0, 77_777]), "card gives {given}, and its list or names differ");
    given
}

fn cards(r: &mut Random, w: &mut [i32], fault: &mut [i32]) -> u8 {
    let numbers: Vec<i32> = (0..r.below(4)).map(|_| number(r)).collect();
    let mut row = [77_777; 48];
    let given = lent::cards(w, &numbers, k(r), &mut row, fault);
    assert!(!refuses_table(given) || row == [77_777; 48], "cards gives {given}, and its row differs");
    given
}

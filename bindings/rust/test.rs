//! Tries the wrapper, and through it every call: document 01's cases, each refusal in its order, and what must stay as it was.
//! Prints what failed and exits 1, or prints one line. What is wanted was written by hand from documents 01 and 02.

mod ullagreth;

use std::fmt::Debug;
use std::mem::{offset_of, size_of};
use ullagreth::{lent, Candidate, Counts, Refusal, Table, MOST_K, MOST_POINTS, SLOTS, SLOT_WORDS, WORDS};

const _: () = assert!(size_of::<Candidate>() == 24 && offset_of!(Candidate, number) == 0, "the size of a record, and the place of the number");
const _: () = assert!(offset_of!(Candidate, x) == 8 && offset_of!(Candidate, y) == 12, "the places of x and y");
const _: () = assert!(offset_of!(Candidate, square) == 16, "the place of the square");

const EDGE: i32 = 1_000_000;
/// Off the grid, on either side.
const OFF: [i32; 4] = [EDGE + 1, -EDGE - 1, i32::MAX, i32::MIN];

// What no call writes.
const UNTOUCHED: Candidate = Candidate { number: 55_555, x: -6, y: -7, square: u64::MAX };
const UNSAID: u32 = 123_456;
const UNTOLD: i32 = -44_444;

/// Word 1 of the nine points' table says ten: rule 7, in the header.
const ONE_TOO_MANY: Refusal = Refusal::NotWellFormed { rule: 7, slot: -1 };

#[derive(Default)]
struct Tally {
    checks: usize,
    failed: usize,
}

impl Tally {
    #[track_caller]
    fn same<T: PartialEq + Debug>(&mut self, got: T, want: T) {
        self.checks += 1;
        if got != want {
            self.failed += 1;
            println!("{}: {got:?} and not {want:?}", std::panic::Location::caller());
        }
    }

    /// Two rows of words, too long to be printed.
    #[track_caller]
    fn same_words(&mut self, got: &[i32], want: &[i32]) {
        self.same((got.len(), got.iter().zip(want).position(|(a, b)| a != b)), (want.len(), None));
    }
}

/// A row for rule and slot, with a place more.
fn untold() -> [i32; 3] {
    [UNTOLD; 3]
}

/// What such a row is to say: rule and slot with refusal 2, 0 and 0 with any other, and the third place stays.
fn told(refusal: Refusal) -> [i32; 3] {
    match refusal {
        Refusal::NotWellFormed { rule, slot } => [i32::from(rule), slot, UNTOLD],
        _ => [0, 0, UNTOLD],
    }
}

/// Both lists, with room for so many candidates and answers, untouched.
fn lists(room: usize, places: usize) -> (Vec<Candidate>, Vec<u32>) {
    (vec![UNTOUCHED; room], vec![UNSAID; places])
}

/// A point's number, x and y.
type Point = (i32, i32, i32);

/// What a granted query gives: the candidates' numbers in the order found, the answers, the nodes opened.
struct Wanted {
    at: (i32, i32),
    k: i32,
    candidates: &'static [i32],
    answers: &'static [u32],
    opened: usize,
}

impl Wanted {
    /// The candidate list afterwards: the records found, and then what was there.
    fn list(&self, points: &[Point]) -> Vec<Candidate> {
        let mut list = vec![UNTOUCHED; MOST_POINTS];
        for (record, &number) in list.iter_mut().zip(self.candidates) {
            let &(_, x, y) = points.iter().find(|p| p.0 == number).expect("a point of the case");
            let (dx, dy) = (i64::from(x - self.at.0), i64::from(y - self.at.1));
            *record = Candidate { number: number as u64, x, y, square: (dx * dx + dy * dy) as u64 };
        }
        list
    }
}

/// Asks once with room for all, and once with one answer place too few.
#[track_caller]
fn asked(t: &mut Tally, table: &Table, points: &[Point], w: &Wanted) {
    let (before, (x, y)) = (table.clone(), w.at);
    let (mut list, mut answers) = lists(MOST_POINTS, MOST_POINTS);
    let counts = Counts { n: w.answers.len(), m: w.candidates.len(), o: w.opened };
    t.same(table.query(x, y, w.k, &mut list, &mut answers), Ok(counts));
    t.same(list, w.list(points));
    t.same(&answers[..counts.n], w.answers);
    t.same(answers[counts.n..].iter().all(|&a| a == UNSAID), true);
    t.same_words(table.words(), before.words());

    if counts.n > 0 {
        let (mut list, mut answers) = lists(MOST_POINTS, counts.n - 1);
        t.same(table.query(x, y, w.k, &mut list, &mut answers), Err(Refusal::ShortList { n: counts.n }));
        t.same(list, w.list(points));
        t.same(answers, vec![UNSAID; counts.n - 1]);
        let (mut list, mut answers, mut row, mut fault) = (vec![UNTOUCHED; MOST_POINTS], vec![UNSAID; counts.n - 1], [9; 3], untold());
        t.same(lent::query(table.words(), x, y, w.k, &mut list, &mut answers, &mut row, &mut fault), 10);
        t.same((row, fault), ([counts.n as u64, 0, 0], [0, 0, UNTOLD]));
        t.same_words(table.words(), before.words());
    }
}

#[track_caller]
fn enrolled(t: &mut Tally, table: &mut Table, points: &[Point]) {
    for &(number, x, y) in points {
        t.same(table.enrol(number, x, y), Ok(()));
        t.same(table.check(), Ok(()));
    }
}

// ---- document 01's cases

fn the_empty_table(t: &mut Tally) {
    let mut table = Table::empty();
    t.same(table.check(), Ok(()));
    asked(t, &table, &[], &Wanted { at: (5, 0), k: 1, candidates: &[], answers: &[], opened: 0 });
    t.same(table.query(5, 0, 1, &mut [], &mut []), Ok(Counts { n: 0, m: 0, o: 0 }));
    t.same(table.query(5, 0, 17, &mut [], &mut []), Err(Refusal::NoSuchK));
    t.same(table.withdraw(1), Err(Refusal::NotEnrolled));
    t.same_words(table.words(), Table::empty().words());
}

fn three_points_and_a_fourth(t: &mut Tally) {
    let points = [(1, 0, 0), (2, 4, 0), (3, 10, 0), (4, 4, 0)];
    let mut table = Table::empty();
    enrolled(t, &mut table, &points[..3]);
    asked(t, &table, &points, &Wanted { at: (5, 0), k: 1, candidates: &[2, 3], answers: &[2, 3], opened: 1 });
    asked(t, &table, &points, &Wanted { at: (5, 0), k: 2, candidates: &[2, 1, 3], answers: &[1, 2, 3], opened: 1 });
    asked(t, &table, &points, &Wanted { at: (8, 0), k: 1, candidates: &[3, 2], answers: &[3], opened: 1 });
    enrolled(t, &mut table, &points[3..]);
    asked(t, &table, &points, &Wanted { at: (5, 0), k: 1, candidates: &[2, 3], answers: &[3], opened: 1 });
    asked(t, &table, &points, &Wanted { at: (5, 0), k: 2, candidates: &[2, 4, 3], answers: &[2, 3, 4], opened: 1 });
    // At q stand 2 and 4, as near to each of the others as q is.
    asked(t, &table, &points, &Wanted { at: (4, 0), k: 1, candidates: &[2], answers: &[], opened: 1 });
    asked(t, &table, &points, &Wanted { at: (4, 0), k: 2, candidates: &[2, 4], answers: &[2, 4], opened: 1 });
    asked(t, &table, &points, &Wanted { at: (4, 0), k: 3, candidates: &[2, 4, 1, 3], answers: &[1, 2, 3, 4], opened: 1 });
}

/// Number i at (10 × (i − 1), 0).
fn nine() -> (Table, Vec<Point>) {
    let points: Vec<Point> = (0..9).map(|i| (i + 1, 10 * i, 0)).collect();
    let mut table = Table::empty();
    points.iter().for_each(|&(number, x, y)| table.enrol(number, x, y).expect("a new point on the grid"));
    (table, points)
}

/// A slot of entries along the x axis, each a reference and its box's two ends.
fn slot(level: i32, entries: &[(i32, i32, i32)]) -> Vec<i32> {
    let mut words = vec![level, entries.len() as i32];
    entries.iter().for_each(|&(reference, low, high)| words.extend([reference, low, 0, high, 0]));
    words.resize(SLOT_WORDS, 0);
    words
}

fn nine_points(t: &mut Tally) {
    let (mut table, points) = nine();
    let leaf = |some: &[Point]| slot(0, &some.iter().map(|&(number, x, _)| (number, x, x)).collect::<Vec<_>>());
    let free = [vec![-1], vec![0; SLOT_WORDS - 1]].concat();
    let root = slot(1, &[(0, 0, 30), (1, 40, 80)]);
    let used = [vec![2, 9], leaf(&points[..4]), leaf(&points[4..]), root].concat();
    t.same_words(table.words(), &[used, free.repeat(SLOTS - 3)].concat());

    // Slot 1 is never opened. At (-10, 0) 2 is as near to 1 as q is; at (-9, 0) it is not.
    asked(t, &table, &points, &Wanted { at: (-10, 0), k: 1, candidates: &[1], answers: &[], opened: 2 });
    asked(t, &table, &points, &Wanted { at: (-9, 0), k: 1, candidates: &[1], answers: &[1], opened: 2 });
    asked(t, &table, &points, &Wanted { at: (-10, 0), k: 2, candidates: &[1, 2], answers: &[1], opened: 2 });
    // Here it is; 3 and 6 are candidates and fail the final test.
    asked(t, &table, &points, &Wanted { at: (35, 0), k: 2, candidates: &[4, 3, 5, 6], answers: &[4, 5], opened: 3 });

    for &(number, _, _) in &points {
        t.same(table.withdraw(number), Ok(()));
        t.same(table.check(), Ok(()));
    }
    t.same_words(table.words(), Table::empty().words());
}

/// The row of counts: of three places or more the first three, of fewer none.
fn rows_of_counts(t: &mut Tally) {
    let (table, _) = nine();
    for (places, want) in [(0, vec![]), (2, vec![9, 9]), (3, vec![0, 1, 2]), (5, vec![0, 1, 2, 9, 9])] {
        let (mut list, mut answers) = lists(9, 0);
        let mut row = vec![9; places];
        let mut fault = untold();
        t.same(lent::query(table.words(), -10, 0, 1, &mut list, &mut answers, &mut row, &mut fault), 0);
        t.same((row, fault), (want, [0, 0, UNTOLD]));
    }
}

// ---- refusals: each line from the wanted one on holds, and none before it

/// A query that is refused: zero counts, and nothing changes.
#[track_caller]
fn refused(t: &mut Tally, table: &Table, (x, y): (i32, i32), k: i32, room: usize, want: Refusal) {
    let (mut list, mut answers) = lists(room, 0);
    t.same(table.query(x, y, k, &mut list, &mut answers), Err(want));
    let (mut roomy, mut row, mut fault) = (vec![UNTOUCHED; room], [9; 3], untold());
    t.same(lent::query(table.words(), x, y, k, &mut roomy, &mut answers, &mut row, &mut fault), want.number());
    t.same((list, roomy), (vec![UNTOUCHED; room], vec![UNTOUCHED; room]));
    t.same((row, fault), ([0; 3], told(want)));
}

/// Each call refuses such a table, whatever else is wrong with the call.
#[track_caller]
fn table_refused(t: &mut Tally, mut table: Table, want: Refusal) {
    let before = table.clone();
    t.same(table.check(), Err(want));
    t.same(table.enrol(0, EDGE + 1, 0), Err(want));
    t.same(table.withdraw(0), Err(want));
    refused(t, &table, (EDGE + 1, 0), 0, 8, want);
    t.same_words(table.words(), before.words());
}

fn tables_refused(t: &mut Tally) {
    let mut words = nine().0.words().to_vec();
    words[1] = 10;
    table_refused(t, Table::of_words(words.clone()), ONE_TOO_MANY);
    words.push(0);
    for length in [0, 1, WORDS - 1, WORDS + 1] {
        table_refused(t, Table::of_words(&words[..length]), Refusal::WrongLength);
    }
}

fn queries_refused(t: &mut Tally) {
    let (table, _) = nine();
    for off in OFF {
        refused(t, &table, (off, 0), 0, 8, Refusal::OffGrid);
        refused(t, &table, (0, off), 0, 8, Refusal::OffGrid);
    }
    for k in [0, 17, -1, i32::MAX, i32::MIN] {
        refused(t, &table, (EDGE, -EDGE), k, 8, Refusal::NoSuchK);
    }
    // With k 16 all nine answer, with k 1 none: each has another 10 away.
    refused(t, &table, (-EDGE, EDGE), 16, 8, Refusal::FewCandidates);
    let query = |k, places| {
        let (mut list, mut answers) = lists(9, places);
        table.query(-EDGE, EDGE, k, &mut list, &mut answers).map(|counts| counts.n)
    };
    t.same(query(16, 8), Err(Refusal::ShortList { n: 9 }));
    t.same(query(16, 9), Ok(9));
    t.same(query(1, 0), Ok(0));
}

fn changes_refused(t: &mut Tally) {
    let mut table = Table::empty();
    t.same(table.enrol(1, EDGE, -EDGE), Ok(()));
    t.same(table.enrol(9_999, -EDGE, EDGE), Ok(()));
    for number in 2..500 {
        t.same(table.enrol(number, 37 * number % 1000, 91 * number % 1000), Ok(()));
    }
    let full = table.clone();
    for number in [0, 10_000, -1, i32::MAX, i32::MIN] {
        t.same(table.enrol(number, EDGE + 1, 0), Err(Refusal::NoSuchNumber));
        t.same(table.withdraw(number), Err(Refusal::NoSuchNumber));
    }
    for off in OFF {
        t.same(table.enrol(1, off, 0), Err(Refusal::OffGrid));
        t.same(table.enrol(1, 0, off), Err(Refusal::OffGrid));
    }
    t.same(table.enrol(9_999, 0, 0), Err(Refusal::AlreadyEnrolled));
    t.same(table.enrol(500, 0, 0), Err(Refusal::Full));
    t.same(table.withdraw(500), Err(Refusal::NotEnrolled));
    t.same_words(table.words(), full.words());
    // With one withdrawn there is room again.
    t.same(table.withdraw(9_999), Ok(()));
    t.same(table.withdraw(9_999), Err(Refusal::NotEnrolled));
    t.same(table.enrol(500, 0, 0), Ok(()));
    t.same((table.check(), table.words()[1]), (Ok(()), 500));
}

/// The numbers of document 01.
fn numbers(t: &mut Tally) {
    use Refusal::*;
    let all = [
        WrongLength,
        NotWellFormed { rule: 4, slot: 17 },
        NoSuchNumber,
        OffGrid,
        NoSuchK,
        AlreadyEnrolled,
        Full,
        NotEnrolled,
        FewCandidates,
        ShortList { n: 3 },
        Misshapen,
        SheetTooLong,
    ];
    t.same(all.map(Refusal::number), [1, 2, 3, 4, 5, 6, 7, 8, 9, 10, 11, 12]);
    t.same(all[1].to_string(), "table not well formed: rule 4, slot 17".to_string());
    t.same(ONE_TOO_MANY.to_string(), "table not well formed: rule 7, slot -1".to_string());
    t.same(all[7].to_string(), "point not enrolled".to_string());
}

// ---- many places at once

fn many_places(t: &mut Tally) {
    let (table, _) = nine();
    let (xs, ys) = ([-10, EDGE + 1, 35, 0, 7], [0, 0, 0, -EDGE - 1]);
    for k in 0..=17 {
        let mut want = vec![UNSAID; 6];
        for i in 0..4 {
            let (mut list, mut answers) = lists(MOST_POINTS, MOST_POINTS);
            want[i] = table.query(xs[i], ys[i], k, &mut list, &mut answers).map_or(0, |counts| counts.n as u32);
        }
        let mut counts = vec![UNSAID; 6];
        t.same(table.sites(&xs, &ys, k, &mut counts), Ok(()));
        t.same(counts, want);
    }
    let mut one = [UNSAID];
    t.same(table.sites(&xs, &ys, 2, &mut one), Ok(()));
    t.same(one, [1]);
    let (short, mut damaged) = (&table.words()[1..], table.words().to_vec());
    damaged[1] = 10;
    let mut counts = [UNSAID; 4];
    t.same(Table::of_words(short).sites(&xs, &ys, 1, &mut counts), Err(Refusal::WrongLength));
    t.same(Table::of_words(damaged).sites(&xs, &ys, 1, &mut counts), Err(ONE_TOO_MANY));
    t.same(counts, [UNSAID; 4]);
}

// ---- cards

/// A card: with room to spare, with just enough, with one place too few.
#[track_caller]
fn carded(t: &mut Tally, table: &Table, number: i32, k: i32, names: &[u32]) {
    let before = table.clone();
    for spare in [0, 1, MOST_K] {
        let mut list = vec![UNSAID; names.len() + spare];
        t.same(table.card(number, k, &mut list), Ok(names.len()));
        t.same(&list[..names.len()], names);
        t.same(&list[names.len()..], &vec![UNSAID; spare]);
    }
    if !names.is_empty() {
        let mut list = vec![UNSAID; names.len() - 1];
        t.same(table.card(number, k, &mut list), Err(Refusal::ShortList { n: names.len() }));
        t.same(list, vec![UNSAID; names.len() - 1]);
    }
    t.same_words(table.words(), before.words());
}

fn cards_of_few(t: &mut Tally) {
    let mut table = Table::empty();
    enrolled(t, &mut table, &[(1, 0, 0)]);
    carded(t, &table, 1, 1, &[]);
    carded(t, &table, 1, 16, &[]);
    enrolled(t, &mut table, &[(2, 4, 0), (3, 10, 0)]);
    carded(t, &table, 2, 1, &[1]);
    carded(t, &table, 2, 2, &[1, 3]);
    carded(t, &table, 1, 16, &[2, 3]);
    // 4 stands where 2 does: each is the other's nearest, and to 1 and 3 they are as near, so that the lower number decides.
    enrolled(t, &mut table, &[(4, 4, 0)]);
    carded(t, &table, 2, 1, &[4]);
    carded(t, &table, 4, 2, &[2, 1]);
    carded(t, &table, 1, 1, &[2]);
    carded(t, &table, 3, 16, &[2, 4, 1]);
    t.same(table.withdraw(2), Ok(()));
    carded(t, &table, 1, 2, &[4, 3]);
    carded(t, &table, 4, 1, &[1]);
    // 2 is back, and behind 4 in the leaf.
    enrolled(t, &mut table, &[(2, 4, 0)]);
    carded(t, &table, 1, 1, &[2]);
    carded(t, &table, 3, 16, &[2, 4, 1]);
}

/// Slot 0 holds 1 to 4, slot 1 holds 5 to 9. 4 and 6 are as near to 5, and 4 and 8 to 6: the lower number, though its box is no nearer.
fn cards_of_nine(t: &mut Tally) {
    let (table, _) = nine();
    carded(t, &table, 5, 1, &[4]);
    carded(t, &table, 5, 3, &[4, 6, 3]);
    carded(t, &table, 5, 16, &[4, 6, 3, 7, 2, 8, 1, 9]);
    carded(t, &table, 6, 3, &[5, 7, 4]);
    carded(t, &table, 9, 2, &[8, 7]);
    carded(t, &table, 1, 5, &[2, 3, 4, 5, 6]);
    for (places, want) in [(0, vec![]), (1, vec![3]), (2, vec![3, 9])] {
        let mut names = vec![9; places];
        let mut fault = untold();
        t.same(lent::card(table.words(), 6, 3, &mut [UNSAID; MOST_K], &mut names, &mut fault), 0);
        t.same((names, fault), (want, [0, 0, UNTOLD]));
    }
}

/// A card that is refused, with a list of no places: no names, and nothing changes.
#[track_caller]
fn uncarded(t: &mut Tally, table: &Table, number: i32, k: i32, want: Refusal) {
    let before = table.clone();
    t.same(table.card(number, k, &mut []), Err(want));
    let (mut list, mut names, mut fault) = ([UNSAID; MOST_K], [9; 2], untold());
    t.same(lent::card(table.words(), number, k, &mut list, &mut names, &mut fault), want.number());
    t.same((list, names, fault), ([UNSAID; MOST_K], [0, 9], told(want)));
    t.same_words(table.words(), before.words());
}

fn cards_refused(t: &mut Tally) {
    let (table, _) = nine();
    for bad in [0, 10_000, -1, i32::MAX, i32::MIN] {
        uncarded(t, &table, bad, 0, Refusal::NoSuchNumber);
        uncarded(t, &table, bad, 1, Refusal::NoSuchNumber);
    }
    for k in [0, 17, -1, i32::MAX, i32::MIN] {
        uncarded(t, &table, 10, k, Refusal::NoSuchK);
        uncarded(t, &table, 9, k, Refusal::NoSuchK);
    }
    uncarded(t, &table, 10, 1, Refusal::NotEnrolled);
    uncarded(t, &table, 9_999, 16, Refusal::NotEnrolled);
    uncarded(t, &Table::empty(), 1, 1, Refusal::NotEnrolled);
    let mut words = table.words().to_vec();
    words[1] = 10;
    uncarded(t, &Table::of_words(words.clone()), 0, 0, ONE_TOO_MANY);
    uncarded(t, &Table::of_words(words.clone()), 5, 1, ONE_TOO_MANY);
    words.push(0);
    for length in [0, 1, WORDS - 1, WORDS + 1] {
        uncarded(t, &Table::of_words(&words[..length]), 0, 0, Refusal::WrongLength);
    }
}

/// 0 and 10 have no card, and their rows stay; so do the places behind the names, behind the last number, and behind the last whole stretch.
fn many_cards(t: &mut Tally) {
    const NO_CARD: [u32; MOST_K] = [UNSAID; MOST_K];
    let (table, _) = nine();
    let numbers = [5, 0, 6, 10, 9];
    let wanted = [&[4, 6, 3][..], &[], &[5, 7, 4], &[], &[8, 7, 6], &[]].map(|names| {
        let mut card = NO_CARD;
        card[..names.len()].copy_from_slice(names);
        card
    });
    for length in 0..=6 {
        let mut cards = vec![NO_CARD; length];
        t.same(table.cards(&numbers, 3, &mut cards), Ok(()));
        t.same(&cards[..], &wanted[..length]);
    }
    for places in [3, 15, 16, 17, 47, 79, 95] {
        let mut cards = vec![UNSAID; places];
        let mut fault = untold();
        t.same((lent::cards(table.words(), &numbers, 3, &mut cards, &mut fault), fault), (0, [0, 0, UNTOLD]));
        let whole = places / MOST_K * MOST_K;
        t.same(&cards[..whole], &wanted.concat()[..whole]);
        t.same(&cards[whole..], &vec![UNSAID; places - whole]);
    }
    let mut cards = [NO_CARD; 5];
    t.same(table.cards(&[], 3, &mut cards), Ok(()));
    t.same(table.cards(&numbers, 0, &mut cards), Ok(()));
    t.same(table.cards(&numbers, 17, &mut cards), Ok(()));
    let (short, mut damaged) = (&table.words()[1..], table.words().to_vec());
    damaged[1] = 10;
    t.same(Table::of_words(short).cards(&numbers, 3, &mut cards), Err(Refusal::WrongLength));
    t.same(Table::of_words(damaged).cards(&numbers, 3, &mut cards), Err(ONE_TOO_MANY));
    t.same(cards, [NO_CARD; 5]);
}

// ---- where a table is bad

/// Where a slot's level stands, and behind it how many entries it has; and where word j of an entry does: reference, x low, y low, x high, y high.
const fn at(slot: usize) -> usize {
    2 + SLOT_WORDS * slot
}

const fn entry(slot: usize, place: usize, j: usize) -> usize {
    at(slot) + 2 + 5 * place + j
}

/// Every call tells rule and slot, of the nine points' table with some words changed, and changes nothing.
#[track_caller]
fn bad(t: &mut Tally, rule: u8, slot: i32, changes: &[(usize, i32)]) {
    let mut words = nine().0.words().to_vec();
    changes.iter().for_each(|&(at, word)| words[at] = word);
    let want = Refusal::NotWellFormed { rule, slot };
    let table = Table::of_words(words);
    uncarded(t, &table, 5, 1, want);
    let (mut counts, mut cards) = ([UNSAID; 2], [[UNSAID; MOST_K]; 2]);
    t.same(table.sites(&[0, 1], &[0, 1], 1, &mut counts), Err(want));
    t.same(table.cards(&[5, 6], 1, &mut cards), Err(want));
    t.same((counts, cards), ([UNSAID; 2], [[UNSAID; MOST_K]; 2]));
    for places in 0..=3 {
        lent_calls(t, table.words(), places, want);
    }
    table_refused(t, table, want);
}

/// Every call with a row of so many places: what it is to say with a refusal that each of them gives; of fewer than two places it says nothing.
#[track_caller]
fn lent_calls(t: &mut Tally, words: &[i32], places: usize, want: Refusal) {
    let said = if places < 2 { vec![UNTOLD; places] } else { told(want)[..places].to_vec() };
    let mut says = |name: &str, call: &dyn Fn(&mut [i32], &mut [i32]) -> u8| {
        let (mut table, mut fault) = (words.to_vec(), vec![UNTOLD; places]);
        t.same((name, call(&mut table, &mut fault), fault), (name, want.number(), said.clone()));
        t.same_words(&table, words);
    };
    says("check", &|table, fault| lent::check(table, fault));
    says("enrol", &|table, fault| lent::enrol(table, 10, 90, 0, fault));
    says("withdraw", &|table, fault| lent::withdraw(table, 5, fault));
    says("query", &|table, fault| lent::query(table, 0, 0, 1, &mut [UNTOUCHED; 9], &mut [UNSAID; 9], &mut [9; 3], fault));
    says("sites", &|table, fault| lent::sites(table, &[0], &[0], 1, &mut [UNSAID], fault));
    says("card", &|table, fault| lent::card(table, 5, 1, &mut [UNSAID; MOST_K], &mut [9], fault));
    says("cards", &|table, fault| lent::cards(table, &[5], 1, &mut [UNSAID; MOST_K], fault));
}

/// Slot 0 holds 1 to 4, slot 1 holds 5 to 9, and the root is slot 2: its entries are the only ones with a child and a box.
fn places_told(t: &mut Tally) {
    // a word of a free slot; of an unused entry; of both, where the lower slot counts
    bad(t, 1, 255, &[(at(255) + 41, 1)]);
    bad(t, 1, 1, &[(entry(1, 5, 0), 1)]);
    bad(t, 1, 1, &[(at(255) + 41, 1), (entry(1, 7, 4), 1)]);
    // the header: no such root, a free one, no points
    bad(t, 2, -1, &[(0, -2)]);
    bad(t, 2, -1, &[(0, 3)]);
    bad(t, 2, -1, &[(1, 0)]);
    // nine entries in slot 1; and a level below 0 in slot 0
    bad(t, 3, 1, &[(at(1) + 1, 9)]);
    bad(t, 3, 0, &[(at(1) + 1, 9), (at(0), -2)]);
    // a number that is none; 1 again in slot 0; 1 again in slot 1; and 9 in slot 0, so that the one in slot 1 is the later
    bad(t, 4, 1, &[(entry(1, 0, 0), 0)]);
    bad(t, 4, 0, &[(entry(0, 3, 0), 1)]);
    bad(t, 4, 1, &[(entry(1, 4, 0), 1)]);
    bad(t, 4, 1, &[(entry(0, 0, 0), 9)]);
    // no such child, a free one, the root itself
    bad(t, 5, 2, &[(entry(2, 1, 0), -1)]);
    bad(t, 5, 2, &[(entry(2, 1, 0), 3)]);
    bad(t, 5, 2, &[(entry(2, 0, 0), 2)]);
    // a box too wide; a point that has left its box
    bad(t, 6, 2, &[(entry(2, 0, 3), 31)]);
    bad(t, 6, 2, &[(entry(0, 0, 2), -1), (entry(0, 0, 4), -1)]);
    // a point too few; slot 0 twice and slot 1 not at all; and both
    let twice = [(entry(2, 1, 0), 0), (entry(2, 1, 1), 0), (entry(2, 1, 3), 30)];
    bad(t, 7, -1, &[(1, 8)]);
    bad(t, 7, 0, &twice);
    bad(t, 7, -1, &[&twice[..], &[(1, 8)]].concat());
    // rules 1 and 2; 3 and 4; 6 and 7; 4 to 7; 5 to 7: the lowest one counts, whatever slots the others have
    bad(t, 1, 9, &[(at(9) + 1, 1), (0, -1)]);
    bad(t, 3, 1, &[(at(1) + 1, 9), (entry(0, 0, 0), 0)]);
    bad(t, 6, 2, &[(entry(2, 0, 3), 31), (1, 8)]);
    bad(t, 4, 1, &[(entry(1, 0, 0), 0), (entry(2, 0, 0), -1), (entry(2, 1, 1), 0), (1, 8)]);
    bad(t, 5, 2, &[(entry(2, 0, 0), -1), (entry(2, 1, 1), 0), (1, 8)]);
    // of a wrong length, which is all that is told
    for places in 0..=3 {
        lent_calls(t, &nine().0.words()[1..], places, Refusal::WrongLength);
    }
}

/// A granted call says 0 and 0, and so does one that is refused for another reason than the table.
fn nothing_told(t: &mut Tally) {
    let mut words = nine().0.words().to_vec();
    for (places, want) in [(0, vec![]), (1, vec![UNTOLD]), (2, vec![0, 0]), (3, vec![0, 0, UNTOLD])] {
        let mut says = |wanted: u8, call: &mut dyn FnMut(&mut [i32]) -> u8| {
            let mut fault = vec![UNTOLD; places];
            t.same((call(&mut fault), fault), (wanted, want.clone()));
        };
        says(0, &mut |fault| lent::check(&words, fault));
        says(0, &mut |fault| lent::sites(&words, &[0], &[0], 1, &mut [UNSAID], fault));
        says(5, &mut |fault| lent::card(&words, 5, 0, &mut [UNSAID; MOST_K], &mut [9], fault));
        says(9, &mut |fault| lent::query(&words, 0, 0, 1, &mut [], &mut [], &mut [9; 3], fault));
        says(6, &mut |fault| lent::enrol(&mut words, 9, 0, 0, fault));
        says(0, &mut |fault| lent::enrol(&mut words, 10, 90, 0, fault));
        says(0, &mut |fault| lent::withdraw(&mut words, 10, fault));
        says(8, &mut |fault| lent::withdraw(&mut words, 10, fault));
    }
}

fn main() {
    let mut t = Tally::default();
    the_empty_table(&mut t);
    three_points_and_a_fourth(&mut t);
    nine_points(&mut t);
    rows_of_counts(&mut t);
    tables_refused(&mut t);
    queries_refused(&mut t);
    changes_refused(&mut t);
    numbers(&mut t);
    many_places(&mut t);
    cards_of_few(&mut t);
    cards_of_nine(&mut t);
    cards_refused(&mut t);
    many_cards(&mut t);
    places_told(&mut t);
    nothing_told(&mut t);
    if t.failed > 0 {
        println!("the Rust wrapper: {} of {} checks failed", t.failed, t.checks);
        std::process::exit(1);
    }
    println!("the Rust wrapper: {} checks hold", t.checks);
}

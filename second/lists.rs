//! Random station lists for document 02 §5: sound records and damaged ones, quote marks everywhere, bytes at random, every length around 65,536;
//! and lists that keep to the grammar, made from fields that are known.

use crate::random::Random;
use crate::sheets::LONGEST;

/// How many kinds of lists there are; the seed picks one.
const KINDS: u64 = 10;

pub fn list(seed: u64) -> Vec<u8> {
    let mut r = Random(21_000 + seed);
    let mut out = match seed % KINDS {
        0 => mixed(&mut r, 0),
        // Every fourth record damaged, then two of three.
        1 => mixed(&mut r, 25),
        2 => mixed(&mut r, 65),
        3 => scraps(&mut r),
        4 => noise(&mut r),
        5 => short(&mut r),
        // A byte less than the longest, the longest, a byte more, and far more.
        6 => of_length(&mut r, [LONGEST - 1, LONGEST, LONGEST + 1, 300_000][(seed / KINDS % 4) as usize]),
        7 => under_a_header(&mut r),
        8 => long_record(&mut r),
        _ => tiny(&mut r),
    };
    // Without the last line end, or with half of it, as often as with it; but not where the length is the point.
    if seed % KINDS != 6 && out.ends_with(b"\r\n") {
        out.truncate(out.len() - [0, 1, 2, 0][r.below(4) as usize]);
    }
    out
}

/// A header, and records of which so many of a hundred are damaged.
fn mixed(r: &mut Random, damaged: u64) -> Vec<u8> {
    let mut out = b"number,x,y,name\r\n".to_vec();
    let want = r.between(1, 20_000) as usize;
    while out.len() < want {
        let fields = station(r);
        let mut record = joined(r, &fields);
        if r.below(100) < damaged {
            damage(r, &mut record);
        }
        out.extend(record);
        out.extend(b"\r\n");
    }
    out
}

/// The fields of a station, mostly sound.
fn station(r: &mut Random) -> Vec<Vec<u8>> {
    let (x, y) = r.place(r.0 % 5);
    let mut fields = [i64::from(x), i64::from(y)].map(|v| v.to_string().into_bytes()).to_vec();
    fields.insert(0, r.between(1, 9_999).to_string().into_bytes());
    if r.below(6) == 0 {
        let i = r.below(3) as usize;
        fields[i] = odd_number(r);
    }
    fields.push(text(r));
    if r.below(30) == 0 {
        fields.pop();
    } else if r.below(30) == 0 {
        fields.push(text(r));
    }
    fields
}

/// Numbers out of range, and fields that are none.
fn odd_number(r: &mut Random) -> Vec<u8> {
    let odd: [&[u8]; 26] = [
        b"0", b"1", b"9999", b"10000", b"-1", b"1000000", b"1000001", b"-1000000", b"-1000001", b"9999999", b"-9999999", b"10000000", b"-12345678",
        b"", b"-", b"00", b"01", b"-0", b"-01", b"+1", b" 1", b"1 ", b"1\"", b"1,2", b"1\r\n", b"1.0",
    ];
    r.pick(&odd).to_vec()
}

/// Text that a field may have: letters, and often enough what has to stand in quotes.
fn text(r: &mut Random) -> Vec<u8> {
    let habits: [&[u8]; 7] = [b"abc XYZ'-.~!", b" !#$%&'()*+-./09:;<=>?@AZ[\\]^_`az{|}~", b"ab,\"", b"a\r\n", b"\"", b"\",\r\n", b"0123456789-"];
    let habit = *r.pick(&habits);
    let longest = if r.below(60) == 0 { 400 } else { 9 };
    (0..r.below(longest)).map(|_| *r.pick(habit)).collect()
}

/// A field as it may be written: in quotes if it must be, and now and then if it need not.
fn written(r: &mut Random, field: &[u8]) -> Vec<u8> {
    let plain = !field.iter().any(|b| b",\"\r\n".contains(b));
    if plain && r.below(3) > 0 {
        return field.to_vec();
    }
    let mut out = b"\"".to_vec();
    for &b in field {
        out.push(b);
        if b == b'"' {
            out.push(b);
        }
    }
    out.push(b'"');
    out
}

fn joined(r: &mut Random, fields: &[Vec<u8>]) -> Vec<u8> {
    fields.iter().map(|f| written(r, f)).collect::<Vec<_>>().join(&b',')
}

/// Bytes that damage a record without leaving the grammar far behind, and some that do.
fn some_byte(r: &mut Random) -> u8 {
    match r.below(5) {
        0 => *r.pick(b"\"\"\","),
        1 => *r.pick(b"\r\n"),
        2 => *r.pick(b"0123456789-+ "),
        3 => *r.pick(b"\t\0\x1f\x20\x21\x23\x2b\x2d\x7e\x7f\x80\xff"),
        _ => r.next() as u8,
    }
}

fn damage(r: &mut Random, record: &mut Vec<u8>) {
    for _ in 0..r.between(1, 2) {
        let at = r.below(record.len() as u64 + 1) as usize;
        match r.below(6) {
            0 => record.insert(at, some_byte(r)),
            1 if at < record.len() => {
                record.remove(at);
            }
            2 if at < record.len() => record[at] = some_byte(r),
            3 if at < record.len() => record.insert(at, record[at]),
            4 => record.truncate(at),
            // A pair, so that the records behind it stay as they are.
            _ => {
                record.insert(at, b'"');
                record.insert(r.below(record.len() as u64 + 1) as usize, b'"');
            }
        }
    }
}

/// What the grammar is made of, one piece after the other; the number and the place are mostly sound, so that the rest decides.
fn scraps(r: &mut Random) -> Vec<u8> {
    let pieces: [&[u8]; 14] = [b"\"", b"\"", b"\"\"", b",", b"\r", b"\n", b"\r\n", b"\",\"", b",\"", b"\",", b"a", b"1", b" ", b"\x7f"];
    let fronts: [&[u8]; 5] = [b"1,2,3,", b"1,2,3,\"", b"\"1\",2,3,", b"1,2,", b""];
    let mut out = b"h\r\n".to_vec();
    for _ in 0..r.between(1, 300) {
        let start = out.len();
        out.extend(*r.pick(&fronts));
        for _ in 0..r.below(6) {
            out.extend(*r.pick(&pieces));
        }
        // An odd number of quote marks takes the records behind it: seldom, or few others would be tried.
        if out[start..].iter().filter(|&&b| b == b'"').count() % 2 == 1 && r.below(40) > 0 {
            out.push(b'"');
        }
        out.extend(b"\r\n");
    }
    out
}

/// Bytes at random, of which many are quote marks, commas, line ends and digits.
fn noise(r: &mut Random) -> Vec<u8> {
    let ends = r.between(2, 40) as u64;
    (0..r.below(20_000)).flat_map(|_| if r.below(ends) == 0 { b"\r\n".to_vec() } else { vec![some_byte(r)] }).collect()
}

/// A few bytes: the empty list, a header alone, half a line end.
fn short(r: &mut Random) -> Vec<u8> {
    (0..r.below(9)).map(|_| *r.pick(b"\r\n\r\n\"\",1\0")).collect()
}

/// A list of exactly so many bytes.
fn of_length(r: &mut Random, length: usize) -> Vec<u8> {
    let mut out = Vec::new();
    while out.len() < length {
        out.extend(mixed(r, 5));
    }
    out.truncate(length);
    out
}

/// A header of anything, and a list behind it.
fn under_a_header(r: &mut Random) -> Vec<u8> {
    let mut out = match r.below(5) {
        0 => vec![some_byte(r)],
        1 => (0..r.below(200)).map(|_| some_byte(r)).collect(),
        2 => b"number,x,y,\"the\r\nname\"".to_vec(),
        3 => b"number,x,y,\"name".to_vec(),
        _ => {
            let fields = station(r);
            joined(r, &fields)
        }
    };
    out.extend(b"\r\n");
    out.extend(mixed(r, 10));
    out
}

/// A few records, and among them one of thousands of bytes, plain or quoted; or of as many fields.
fn long_record(r: &mut Random) -> Vec<u8> {
    let mut out = mixed(r, 10);
    let piece: &[u8] = *r.pick(&[&b"a"[..], b",", b"\"\"", b"\r\n", b"\"", b"\r", b"\n", b"\"a\",", b"0", b"\xff"]);
    let (front, behind) = *r.pick(&[(&b"1,2,3,"[..], &b""[..]), (b"1,2,3,\"", b"\""), (b"1,", b",3,a"), (b"", b""), (b"1,2,3,\"", b"")]);
    out.extend([front, &piece.repeat(r.between(1, 8_000) as usize), behind].concat());
    out.extend(b"\r\n7,8,9,behind\r\n");
    out
}

/// Very many records of hardly any bytes: what is reported is longer than the list.
fn tiny(r: &mut Random) -> Vec<u8> {
    let records: [&[u8]; 6] = [b"", b"", b"\"\"", b"1,2,3,", b"0,0,0,", b","];
    let most = r.between(1, records.len() as i64) as usize;
    let longest = *r.pick(&[60, 600, 6_000, LONGEST as i64]);
    let want = r.between(1, longest) as usize;
    let mut out = Vec::new();
    while out.len() < want {
        out.extend(*r.pick(&records[..most]));
        out.extend(b"\r\n");
    }
    out
}

/// A list that keeps to the grammar, and the fields of each of its records. A record of one empty field is written in quotes: of no bytes, other
/// readers take it for none.
pub fn well_formed(seed: u64) -> (Vec<u8>, Vec<Vec<Vec<u8>>>) {
    let mut r = Random(37_000 + seed);
    let (mut file, mut records) = (Vec::new(), Vec::new());
    for _ in 0..r.below(120) {
        let fields = if r.below(2) == 0 { station(&mut r) } else { (0..r.between(1, 6)).map(|_| text(&mut r)).collect() };
        let record = joined(&mut r, &fields);
        file.extend(if record.is_empty() { b"\"\"".to_vec() } else { record });
        file.extend(b"\r\n");
        records.push(fields);
    }
    if r.below(2) == 0 {
        file.truncate(file.len().saturating_sub(2));
    }
    (file, records)
}

/// The grammar reads the fields of each of these lists as they were put in; how many records those are.
pub fn agreed(seeds: u64) -> usize {
    let mut count = 0;
    for seed in 0..seeds {
        let (file, records) = well_formed(seed);
        assert_eq!(crate::list::fields(&file), records.iter().cloned().map(Some).collect::<Vec<_>>(), "well-formed list {seed}");
        count += records.len();
    }
    count
}

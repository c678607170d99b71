//! The station lists of document 02 §5, in the second implementation. The grammar of RFC 4180 stands here as the RFC writes it: a function for each
//! of its rules, which takes what is left of a record and gives what is left behind it. There is no state that goes from byte to byte.

use crate::sheet::number;
use crate::sheets::LONGEST;
use crate::table::on_grid;

/// What a list gives: the `E` lines on the output, and a report for each faulty record on the error stream.
#[derive(Debug, Default, PartialEq, Eq)]
pub struct Streams {
    pub lines: Vec<u8>,
    pub reports: Vec<u8>,
}

pub fn read(file: &[u8]) -> Streams {
    let mut said = Streams::default();
    if file.len() > LONGEST {
        said.reports = b"0\t12\n".to_vec();
        return said;
    }
    for (i, record) in records(file).into_iter().enumerate().skip(1) {
        match station(record) {
            // 01's form writes each number in one way only, so printed it is the field again.
            Ok([n, x, y]) => said.lines.extend(format!("E\t{n}\t{x}\t{y}\n").into_bytes()),
            Err(given) => said.reports.extend(format!("{i}\t{given}\n").into_bytes()),
        }
    }
    said
}

/// The fields of each record, the header among them; none where a record breaks the grammar.
pub fn fields(file: &[u8]) -> Vec<Option<Vec<Vec<u8>>>> {
    records(file).into_iter().map(record).collect()
}

/// "A record ends at the first CR LF that has an even number of quote marks before it in that record, or at the end of the file."
fn records(file: &[u8]) -> Vec<&[u8]> {
    // How many quote marks stand before each place. Counted anew for each CR LF they would take the square of a long record.
    let mut before = vec![0];
    before.extend(file.iter().scan(0, |marks, &b| {
        *marks += usize::from(b == b'"');
        Some(*marks)
    }));
    let mut all = Vec::new();
    let mut start = 0;
    while start < file.len() {
        let end = (start..file.len()).find(|&i| file[i..].starts_with(b"\r\n") && (before[i] - before[start]) % 2 == 0);
        all.push(&file[start..end.unwrap_or(file.len())]);
        start = end.map_or(file.len(), |i| i + 2);
    }
    all
}

/// Number, x and y of a record, or the number that it is refused with.
fn station(bytes: &[u8]) -> Result<[i32; 3], i32> {
    let [n, x, y, _name] = <[Vec<u8>; 4]>::try_from(record(bytes).ok_or(11)?).map_err(|_| 11)?;
    let value = |f: &[u8]| number(f).ok_or(11);
    let (n, x, y) = (value(&n)?, value(&x)?, value(&y)?);
    if !(1..=9_999).contains(&n) {
        return Err(3);
    }
    if !on_grid(x) || !on_grid(y) {
        return Err(4);
    }
    Ok([n, x, y])
}

// ---- the grammar. Whatever may stand behind a repetition can begin no further turn of it, so each takes all that it can; and what takes nothing
// ---- never fails, so that only the record sees whether something is left over.

/// record = field *(COMMA field)
fn record(bytes: &[u8]) -> Option<Vec<Vec<u8>>> {
    let (first, mut rest) = field(bytes);
    let mut all = vec![first];
    while let Some(behind) = rest.strip_prefix(b",") {
        let (next, left) = field(behind);
        all.push(next);
        rest = left;
    }
    rest.is_empty().then_some(all)
}

/// field = (escaped / non-escaped)
fn field(rest: &[u8]) -> (Vec<u8>, &[u8]) {
    escaped(rest).unwrap_or_else(|| non_escaped(rest))
}

/// escaped = DQUOTE *(TEXTDATA / COMMA / CR / LF / 2DQUOTE) DQUOTE, and what it says: of two quote marks one.
fn escaped(rest: &[u8]) -> Option<(Vec<u8>, &[u8])> {
    let mut rest = rest.strip_prefix(b"\"")?;
    let mut said = Vec::new();
    while let Some((b, behind)) = textdata(rest).or_else(|| one_of(b",\r\n", rest)).or_else(|| two_quotes(rest)) {
        said.push(b);
        rest = behind;
    }
    Some((said, rest.strip_prefix(b"\"")?))
}

/// non-escaped = *TEXTDATA
fn non_escaped(mut rest: &[u8]) -> (Vec<u8>, &[u8]) {
    let mut said = Vec::new();
    while let Some((b, behind)) = textdata(rest) {
        said.push(b);
        rest = behind;
    }
    (said, rest)
}

/// TEXTDATA = %x20-21 / %x23-2B / %x2D-7E
fn textdata(rest: &[u8]) -> Option<(u8, &[u8])> {
    let (&b, behind) = rest.split_first()?;
    matches!(b, 0x20..=0x21 | 0x23..=0x2b | 0x2d..=0x7e).then_some((b, behind))
}

fn one_of<'a>(wanted: &[u8], rest: &'a [u8]) -> Option<(u8, &'a [u8])> {
    let (&b, behind) = rest.split_first()?;
    wanted.contains(&b).then_some((b, behind))
}

/// 2DQUOTE
fn two_quotes(rest: &[u8]) -> Option<(u8, &[u8])> {
    rest.strip_prefix(b"\"\"").map(|behind| (b'"', behind))
}

//! The built programs, as child processes: whole sheets and station lists in, whole outputs out.

use crate::list::{self, Streams};
use crate::random::Random;
use crate::sheet::{lines, run, By};
use crate::sheets::{self, LONGEST};
use crate::{list_edges, lists};
use std::fs::File;
use std::io::Write;
use std::process::{Command, Stdio};
use std::time::Instant;

/// What a program writes on its two streams for a file that reaches it in pieces of many sizes. It must end well.
fn streams_of(program: &str, file: &[u8], seed: u64) -> Streams {
    let mut child = Command::new(program)
        .stdin(Stdio::piped())
        .stdout(Stdio::piped())
        .stderr(Stdio::piped())
        .spawn()
        .unwrap_or_else(|e| panic!("{program}: {e}"));
    let mut input = child.stdin.take().expect("its standard input");
    let bytes = file.to_vec();
    let feeder = std::thread::spawn(move || {
        let mut r = Random(seed);
        let mut rest = &bytes[..];
        while !rest.is_empty() {
            let most = if r.below(2) == 0 { 50 } else { 40_000 };
            let n = rest.len().min(r.between(1, most) as usize);
            // Of a file too long the program leaves some unread: then nobody takes the rest.
            if input.write_all(&rest[..n]).is_err() {
                return rest.len();
            }
            rest = &rest[n..];
        }
        0
    });
    let ended = child.wait_with_output().expect("its output");
    let left = feeder.join().expect("the feeder");
    assert!(left == 0 || file.len() > LONGEST, "seed {seed}: {left} bytes were not read");
    assert!(ended.status.success(), "seed {seed}: {}, {}", ended.status, String::from_utf8_lossy(&ended.stderr));
    Streams { lines: ended.stdout, reports: ended.stderr }
}

/// What it writes for a sheet: it must say nothing on standard error.
fn output_of(program: &str, sheet: &[u8], seed: u64) -> Vec<u8> {
    let said = streams_of(program, sheet, seed);
    assert!(said.reports.is_empty(), "seed {seed}: {}", String::from_utf8_lossy(&said.reports));
    said.lines
}

/// Byte by byte the same, or a panic that shows the first line that is not.
fn same(what: &str, said: &[u8], want: &[u8], wanted_by: &str) {
    if said != want {
        let (a, b) = (lines(said), lines(want));
        let at = (0..a.len().min(b.len())).find(|&i| a[i] != b[i]).unwrap_or(a.len().min(b.len()));
        let show = |l: &[&[u8]]| l.get(at).map(|l| String::from_utf8_lossy(l).into_owned());
        panic!("{what}, line {}: the program {:?}, {wanted_by} {:?}", at + 1, show(&a), show(&b));
    }
}

/// The program against the second implementation, byte by byte.
pub fn sheets(seeds: u64, program: &str) {
    let (mut count, mut good, mut refused, mut longest, mut too_long) = (0, 0, 0, 0, 0);
    for seed in 0..seeds {
        let bytes = sheets::sheet(seed);
        let want = run(&bytes, By::Walk);
        let said = output_of(program, &bytes, seed);
        same(&format!("seed {seed}"), &said, &want, "the second implementation");
        count += 1;
        too_long += usize::from(bytes.len() > LONGEST);
        longest = longest.max(said.len());
        for line in lines(&said) {
            if line.split(|&b| b == b'\t').nth(2) == Some(b"0") {
                good += 1;
            } else {
                refused += 1;
            }
        }
    }
    println!("sheets: {count} sheets agree in every byte, {too_long} of them too long; {good} lines granted, {refused} refused; the longest output has {longest} bytes");
}

fn both_same(what: &str, said: &Streams, want: &Streams, wanted_by: &str) {
    same(&format!("{what}: the output"), &said.lines, &want.lines, wanted_by);
    same(&format!("{what}: the error stream"), &said.reports, &want.reports, wanted_by);
}

/// The program that reads station lists: the cases made by hand against what they say, random lists against the second implementation; byte by byte,
/// on both streams.
pub fn lists(seeds: u64, program: &str) {
    let by_hand = list_edges::cases();
    for (i, case) in by_hand.iter().enumerate() {
        both_same(&format!("by hand, {}", case.why), &streams_of(program, &case.file, i as u64), &case.want, "by hand");
    }
    let (mut stations, mut too_long, mut longest, mut refused) = (0, 0, 0, [0; 3]);
    for seed in 0..seeds {
        let file = lists::list(seed);
        let said = streams_of(program, &file, seed);
        both_same(&format!("seed {seed}"), &said, &list::read(&file), "the second implementation");
        too_long += usize::from(file.len() > LONGEST);
        longest = longest.max(said.reports.len());
        stations += lines(&said.lines).len();
        for (count, number) in refused.iter_mut().zip([&b"\t11"[..], b"\t3", b"\t4"]) {
            *count += lines(&said.reports).iter().filter(|report| report.ends_with(number)).count();
        }
    }
    println!("lists: {} lists made by hand and {seeds} random ones agree in every byte of both streams, {too_long} of them too long", by_hand.len());
    println!("lists: {stations} stations came through; refused with 11, 3, 4: {refused:?} records; the longest error stream has {longest} bytes");
}

// ---- how long a whole sheet takes, from the start of the process to its end

/// Seconds for one run from a file to a file.
fn seconds(command: &mut Command, from: &str, to: &str) -> f64 {
    let (input, output) = (File::open(from).expect(from), File::create(to).expect(to));
    command.stdin(Stdio::from(input)).stdout(Stdio::from(output));
    let began = Instant::now();
    let status = command.status().expect("a program to run");
    let took = began.elapsed().as_secs_f64();
    assert!(status.success(), "{command:?}: {status}");
    took
}

/// The program, `second walk` and `second scan` in turn, on one sheet; the best of some rounds each. Files go to a folder of the caller's.
pub fn bench(program: &str, second: &str, folder: &str, rounds: usize) {
    let bytes = sheets::bench();
    let sheet = format!("{folder}/bench.tsv");
    std::fs::write(&sheet, &bytes).expect(&sheet);
    let queries = lines(&bytes).len() - 400;
    let turns = [(program, "", "program"), (second, "walk", "walk"), (second, "scan", "scan")];
    let outputs = turns.map(|t| format!("{folder}/bench-{}.out", t.2));
    let mut best = [f64::INFINITY; 3];
    for _ in 0..rounds {
        for (i, (path, mode, _)) in turns.iter().enumerate() {
            let mut command = Command::new(path);
            if !mode.is_empty() {
                command.arg(mode);
            }
            best[i] = best[i].min(seconds(&mut command, &sheet, &outputs[i]));
        }
    }
    let said = outputs.each_ref().map(|o| std::fs::read(o).expect(o));
    assert!(said[0] == said[1], "the outputs of the program and of second walk differ");
    assert!(answers(&said[0]) == answers(&said[2]), "the answers of the program and of second scan differ");
    let [ours, walk, scan] = best;
    println!("bench: {} bytes, 400 stations, {queries} queries, k 5; end to end, best of {rounds} runs each; the outputs agree", bytes.len());
    println!("bench: program {:.1} ms, second walk {:.1} ms, second scan {:.1} ms", 1e3 * ours, 1e3 * walk, 1e3 * scan);
    println!("bench: the program is {:.2} times as fast as the scan of every pair (wanted: at least 4)", scan / ours);
    println!("bench: the program takes {:.2} times the time of the second's walk (wanted: at most 1.5)", ours / walk);
}

/// Each line without m and o, which a scan has not.
fn answers(output: &[u8]) -> Vec<Vec<&[u8]>> {
    lines(output)
        .into_iter()
        .map(|line| line.split(|&b| b == b'\t').enumerate().filter(|(i, _)| *i != 4 && *i != 5).map(|(_, f)| f).collect())
        .collect()
}

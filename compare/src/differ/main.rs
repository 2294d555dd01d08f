//! differ FOLDER [--whole]: compares FOLDER/calls.NAME, rust.NAME and port.NAME line by line for each NAME on
//! standard input, deleting them after, and prints counts. The last line is `N calls, K differ`; the exit is 1 unless
//! K is 0. With --whole a call or a refusal that did not occur is a gap: the last line counts it, and the exit is 1.

use compare::ops::{refusals, OPS};
use std::fs::File;
use std::io::{self, BufRead, BufReader};
use std::path::Path;

/// How many differences are printed in full.
const SHOWN: usize = 10;

#[derive(Default, Clone)]
struct Count {
    calls: u64,
    /// Calls with a refusal of each number, 2 to 6.
    refused: [u64; 7],
    differ: u64,
}

struct Tally {
    counts: Vec<Count>,
    shown: usize,
}

/// The lines of a file; past its end, none.
struct Lines(BufReader<File>, Vec<u8>);

impl Lines {
    fn open(path: &Path) -> io::Result<Self> {
        Ok(Lines(BufReader::with_capacity(1 << 20, File::open(path)?), Vec::new()))
    }

    fn next(&mut self) -> io::Result<Option<&[u8]>> {
        self.1.clear();
        if self.0.read_until(b'\n', &mut self.1)? == 0 {
            return Ok(None);
        }
        if self.1.last() == Some(&b'\n') {
            self.1.pop();
        }
        Ok(Some(&self.1))
    }
}

/// The refusals in an answer: `refused N` anywhere, and the 5 of a store among others.
fn refusals_of(op: &str, answer: &[u8]) -> [bool; 7] {
    let mut seen = [false; 7];
    let mut before: &[u8] = b"";
    for word in answer.split(|c| *c == b' ') {
        if word == b"|" && op == "rts_store" {
            break;
        }
        let store = op == "rts_store" && word == b"5";
        if let [digit @ b'2'..=b'6'] = word {
            if store || before == b"refused" {
                seen[(digit - b'0') as usize] = true;
            }
        }
        before = word;
    }
    seen
}

fn text(line: Option<&[u8]>) -> String {
    line.map_or("(no answer)".into(), |line| String::from_utf8_lossy(line).into_owned())
}

impl Tally {
    fn call(&mut self, call: &[u8], rust: Option<&[u8]>, port: Option<&[u8]>) {
        if call.is_empty() || call[0] == b'#' {
            return;
        }
        let op = call.split(|c| *c == b' ').next().unwrap_or(b"");
        let place = OPS.iter().position(|(name, _)| name.as_bytes() == op).unwrap_or(OPS.len());
        let name = OPS.get(place).map_or("", |(name, _)| name);
        let count = &mut self.counts[place];
        count.calls += 1;
        if !refusals(name).is_empty() {
            let seen = refusals_of(name, rust.unwrap_or(b""));
            (2..7).for_each(|number| count.refused[number] += seen[number] as u64);
        }
        let bad = |answer: Option<&[u8]>| answer.is_none_or(|a| a.starts_with(b"bad") || a.is_empty());
        if rust == port && !bad(rust) {
            return;
        }
        count.differ += 1;
        if self.shown < SHOWN {
            self.shown += 1;
            println!("call {}\nrust {}\nport {}\n", text(Some(call)), text(rust), text(port));
        }
    }

    fn chunk(&mut self, folder: &Path, name: &str) -> io::Result<()> {
        let paths = ["calls", "rust", "port"].map(|side| folder.join(format!("{side}.{name}")));
        let [mut calls, mut rust, mut port] =
            [Lines::open(&paths[0])?, Lines::open(&paths[1])?, Lines::open(&paths[2])?];
        while let Some(call) = calls.next()? {
            self.call(call, rust.next()?, port.next()?);
        }
        paths.iter().try_for_each(std::fs::remove_file)
    }

    fn print(&self) {
        println!("{:<12}{:>9}  refused", "call", "calls");
        for (k, count) in self.counts.iter().enumerate().filter(|(_, count)| count.calls > 0) {
            let name = OPS.get(k).map_or("(other)", |(name, _)| name);
            let refused: Vec<String> =
                refusals(name).iter().map(|n| format!("{}: {}", n, count.refused[*n as usize])).collect();
            let differ = if count.differ > 0 { format!("  {} differ", count.differ) } else { String::new() };
            println!("{:<12}{:>9}  {}{}", name, count.calls, refused.join(", "), differ);
        }
    }

    /// Calls of OPS that are missing, or whose refusals are.
    fn gaps(&self) -> Vec<String> {
        let mut gaps = Vec::new();
        for (k, (name, _)) in OPS.iter().enumerate() {
            if self.counts[k].calls == 0 {
                gaps.push(format!("no call of {name}"));
            }
            for number in refusals(name).iter().filter(|n| self.counts[k].refused[**n as usize] == 0) {
                gaps.push(format!("no {name} refused with {number}"));
            }
        }
        gaps
    }
}

fn main() -> io::Result<()> {
    let arguments: Vec<String> = std::env::args().skip(1).collect();
    let (folder, whole) = match arguments.as_slice() {
        [folder] => (folder, false),
        [folder, flag] if flag == "--whole" => (folder, true),
        _ => {
            eprintln!("usage: differ FOLDER [--whole]");
            std::process::exit(2)
        }
    };
    let mut tally = Tally { counts: vec![Count::default(); OPS.len() + 1], shown: 0 };
    for name in io::stdin().lock().lines() {
        tally.chunk(Path::new(folder), &name?)?;
    }
    tally.print();
    let gaps = if whole { tally.gaps() } else { Vec::new() };
    gaps.iter().for_each(|gap| println!("{gap}"));
    let calls: u64 = tally.counts.iter().map(|count| count.calls).sum();
    let differ: u64 = tally.counts.iter().map(|count| count.differ).sum();
    let missing = if gaps.is_empty() { String::new() } else { format!(", {} gaps", gaps.len()) };
    println!("{calls} calls, {differ} differ{missing}");
    if differ > 0 || calls == 0 || !gaps.is_empty() {
        std::process::exit(1);
    }
    Ok(())
}

//! Calls powerlink-rs and libpowerlink.a with the same inputs and compares all that comes out: values, causes with
//! their octets, octets written and octets left alone.
//!
//! `calls [FACTOR [SEED]]` is the run; FACTOR times the random cases. `calls sample` writes some cases with the Rust's
//! answers to standard output, in the form that calls/sample.rs describes.
#[path = "calls/case.rs"]
mod case;
#[path = "calls/chain.rs"]
mod chain;
#[path = "calls/every.rs"]
mod every;
#[path = "calls/ours.rs"]
mod ours;
#[path = "calls/random.rs"]
mod random;
#[path = "calls/rows.rs"]
mod rows;
#[path = "calls/sample.rs"]
mod sample;
#[path = "calls/some.rs"]
mod some;
#[path = "calls/theirs.rs"]
mod theirs;

use case::*;
use std::panic::{AssertUnwindSafe, catch_unwind};
use std::process::ExitCode;
use std::sync::atomic::{AtomicU64, Ordering};
use std::time::Instant;
use theirs::{ROWS, Theirs};

/// Differences that are shown of one call, after the smallest input that was found for each.
const SHOWN: u64 = 3;

/// A run compares at least this many calls.
const LEAST: u64 = 5_000_000;

#[derive(Default)]
pub struct Run {
    theirs: Theirs,
    expected: Out,
    found: Out,
    /// Cases by call and cause, frames that were read by message type, and entries that were walked over.
    counts: [[u64; 9]; CALLS + 1],
    kinds: [u64; 7],
    steps: u64,
    chain: chain::Counts,
    differences: [u64; CALLS + 1],
    others: u64,
}

impl Run {
    /// Calls both sides. The cause that both give, or what differs.
    fn compare(&mut self, case: &Case) -> Result<u8, String> {
        self.expected.before(case);
        self.found.before(case);
        let (theirs, expected) = (&mut self.theirs, &mut self.expected);
        match catch_unwind(AssertUnwindSafe(|| theirs.answer(case, expected))) {
            Err(_) => return Err("the Rust panics".into()),
            Ok(answer) => answer?,
        }
        ours::answer(case, &mut self.found);
        if let Some(text) = self.found.differs(&self.expected) {
            return Err(format!("ours against theirs: {text}"));
        }
        if self.found.cause == 0 {
            match case.call {
                FRAME => self.compare_frame(&case.bytes[0])?,
                STATUS => self.compare_entries(&case.bytes[0])?,
                _ => {}
            }
        }
        Ok(self.found.cause)
    }

    /// The payload, which ours names the place of, and the Ethernet header, which ours reads by another call.
    fn compare_frame(&mut self, buffer: &[u8]) -> Result<(), String> {
        let [start, len] = [3, 4].map(|i| self.found.values[i] as usize);
        if buffer.get(start..start + len) != Some(&self.theirs.payload[..]) {
            return Err(format!("the payload is not octets {start} to {}", start + len));
        }
        let header = self.theirs.header.take().ok_or("the Rust has read no header")?;
        let theirs = (header.destination_mac.0, header.source_mac.0, header.ether_type);
        if ours::eth_header(buffer) != Ok(theirs) {
            return Err("the Ethernet header beside the frame".into());
        }
        self.kinds[self.found.values[0] as usize] += 1;
        Ok(())
    }

    /// Our walk over the entries against the Rust's list.
    fn compare_entries(&mut self, payload: &[u8]) -> Result<(), String> {
        let mut offset = 14;
        for (i, entry) in self.theirs.entries.iter().enumerate() {
            match ours::step(payload, offset) {
                Some((values, next)) if values == theirs::entry_values(entry) && next == offset + 20 => offset = next,
                other => return Err(format!("entry {i}: {other:?} against {entry:?}")),
            }
        }
        if let Some(more) = ours::step(payload, offset) {
            return Err(format!("an entry behind the Rust's last: {more:?}"));
        }
        self.steps += self.theirs.entries.len() as u64 + 1;
        Ok(())
    }

    /// Compares and counts. The first difference of a call is shown with an input that was made as small as it goes.
    pub fn check(&mut self, case: &Case) -> Option<u8> {
        match self.compare(case) {
            Ok(cause) => {
                self.counts[case.call][cause as usize] += 1;
                Some(cause)
            }
            Err(text) => {
                self.differences[case.call] += 1;
                if self.differences[case.call] <= SHOWN {
                    println!("DIFFERENCE {}\n  {text}", case.text());
                }
                if self.differences[case.call] == 1 {
                    let small = self.smaller(case.clone());
                    let text = self.compare(&small).unwrap_err();
                    println!("SMALLEST {}\n  {text}", small.text());
                }
                None
            }
        }
    }

    /// Takes away from a case what the difference does not need: octets, then values, again until nothing goes.
    fn smaller(&mut self, mut case: Case) -> Case {
        loop {
            let before = case.clone();
            for less in less(&case) {
                let mut other = case.clone();
                less.of(&mut other);
                if other != case && self.compare(&other).is_err() {
                    case = other;
                }
            }
            if case == before {
                return case;
            }
        }
    }

    /// A difference that is not of one call.
    pub fn fail(&mut self, text: String) {
        self.others += 1;
        if self.others <= SHOWN {
            println!("DIFFERENCE {text}");
        }
    }

    fn total(&self) -> u64 {
        self.counts.iter().flatten().sum()
    }

    /// Prints the counts, and says whether all is equal and every cause, kind and row was met.
    fn report(&mut self) -> bool {
        println!("{:<24}{:>10}  by cause", "call", "cases");
        for (shape, counts) in SHAPES.iter().zip(&self.counts[1..]) {
            let by: Vec<_> = shape.causes.iter().map(|c| format!("{c}: {}", counts[*c as usize])).collect();
            println!("{:<24}{:>10}  {}", shape.name, counts.iter().sum::<u64>(), by.join(", "));
        }
        let [_, soc, _, preq, pres, soa, asnd] = self.kinds;
        println!("frames read: SoC {soc}, PReq {preq}, PRes {pres}, SoA {soa}, ASnd {asnd}");
        println!("steps of the walk beside StatusResponses: {}", self.steps);
        self.chain.print();
        println!("met, as docs/DIFFERENCES.md has it:");
        for (row, count) in ROWS.iter().zip(self.theirs.rows) {
            println!("{count:>10}  {row}");
        }
        let mut missing = Vec::new();
        for (shape, counts) in SHAPES.iter().zip(&self.counts[1..]) {
            for (cause, count) in counts.iter().enumerate() {
                if shape.causes.contains(&(cause as u8)) != (*count > 0) {
                    missing.push(format!("{} with cause {cause}: {count} cases", shape.name));
                }
            }
        }
        if [soc, preq, pres, soa, asnd].contains(&0) || self.steps == 0 || self.chain.missing() {
            missing.push("a kind of frame, a step or a case of the chain".into());
        }
        for (row, _) in ROWS.iter().zip(self.theirs.rows).filter(|(_, count)| *count == 0) {
            missing.push(format!("the row: {row}"));
        }
        if self.total() < LEAST {
            missing.push(format!("fewer than {LEAST} calls"));
        }
        for text in &missing {
            println!("NOT AS EXPECTED: {text}");
        }
        let differences = self.differences.iter().sum::<u64>() + self.others;
        println!("{} calls compared, {differences} differences", self.total());
        differences == 0 && missing.is_empty()
    }
}

/// A way to make a case smaller.
enum Less {
    Keep(usize, usize),
    Zero(usize, usize, usize),
    Number(usize, u32),
    Target(usize),
}

impl Less {
    fn of(self, case: &mut Case) {
        match self {
            Less::Keep(i, n) => case.bytes[i].truncate(n),
            Less::Zero(i, from, to) => {
                let n = case.bytes[i].len();
                case.bytes[i][from.min(n)..to.min(n)].fill(0);
            }
            Less::Number(i, 0) => case.numbers[i] &= case.numbers[i].wrapping_sub(1),
            Less::Number(i, shift) => case.numbers[i] = case.numbers[i].checked_shr(shift).unwrap_or(0),
            Less::Target(n) => case.target = case.target.min(n),
        }
    }
}

fn less(case: &Case) -> Vec<Less> {
    let mut list = Vec::new();
    let shape = case.shape();
    for (i, octets) in shape.bytes.iter().enumerate() {
        let n = case.bytes[i].len();
        if !matches!(octets, Octets::Array(_)) {
            list.extend([0, n / 2, n.saturating_sub(20), n.saturating_sub(1)].map(|keep| Less::Keep(i, keep)));
        }
        for size in [n, 64, if n > 2000 { 64 } else { 1 }] {
            list.extend((0..n).step_by(size.max(1)).map(|from| Less::Zero(i, from, from + size)));
        }
    }
    for i in 0..shape.numbers.len() {
        list.extend([64, 8, 1, 0].map(|shift| Less::Number(i, shift)));
    }
    list.extend([0, case.target / 2, case.target.saturating_sub(1)].map(Less::Target));
    list
}

fn main() -> ExitCode {
    let panics = AtomicU64::new(0);
    std::panic::set_hook(Box::new(move |panic| {
        if panics.fetch_add(1, Ordering::Relaxed) < SHOWN {
            println!("PANIC {panic}");
        }
    }));
    let args: Vec<String> = std::env::args().skip(1).collect();
    if args.first().is_some_and(|a| a == "sample") {
        sample::write(&mut std::io::stdout().lock()).unwrap();
        return ExitCode::SUCCESS;
    }
    let number = |i: usize, other: u64| args.get(i).map_or(other, |a| a.parse().expect("a number"));
    let (factor, seed) = (number(0, 1), number(1, 1));
    let mut run = Run::default();
    let began = Instant::now();
    let mut from = 0;
    let mut part = |run: &Run, name: &str| {
        println!("{name}: {} calls, {:.1} s from the start", run.total() - from, began.elapsed().as_secs_f64());
        from = run.total();
    };
    rows::all(&mut run);
    part(&run, "the rows of docs/DIFFERENCES.md");
    every::reading(&mut run);
    part(&run, "reading, every input of some kind");
    every::writing(&mut run);
    part(&run, "writing, every input of some kind");
    some::reading(&mut run, factor, seed);
    part(&run, "reading, random inputs");
    some::writing(&mut run, factor, seed);
    part(&run, "writing, random inputs");
    chain::all(&mut run, factor, seed);
    part(&run, "the chain of ASnd and StatusResponse");
    if run.report() { ExitCode::SUCCESS } else { ExitCode::FAILURE }
}

//! Speed: the functions of libpowerlink.a beside powerlink-rs, and the error exchange beside a plain Rust version of it, on
//! the same inputs in one run (plain.rs is a crate of its own, as a library would be). Every round times every row, ours and
//! theirs in turn; the table has the medians of the rounds. Buffers are not cleared, and results are consumed.

mod exchange;
mod inputs;
mod ours;
mod reading;
mod rows;
mod writing;

use inputs::Random;
use rows::{Group, Row};

const SEED: u64 = 7;

fn main() {
    let rounds: usize = std::env::args().nth(1).map_or(501, |n| n.parse().expect("the number of rounds"));
    let mut random = Random(SEED);
    let mut table = Vec::new();
    reading::rows(&mut random, &mut table);
    writing::rows(&mut random, &mut table);
    exchange::rows(&mut random, &mut table);
    // ROWS picks rows by a part of their name.
    if let Ok(part) = std::env::var("ROWS") {
        table.retain(|row| row.name.contains(&part));
    }

    table.iter_mut().for_each(Row::calibrate);
    for round in 0..rounds {
        table.iter_mut().for_each(|row| row.round(round));
    }

    println!("{:<48} {:>9} {:>9} {:>6}", "row", "ours ns", "theirs ns", "ratio");
    let mut worst = (0.0, String::new());
    let (mut above, mut reads, mut refusals) = (0, 0, 0);
    for row in &mut table {
        let (ours, theirs) = row.medians();
        let ratio = ours / theirs;
        let is_slow_read = matches!(row.group, Group::Read | Group::Refuse) && ratio > 0.5;
        let mark = if ratio > 1.0 {
            "  above 1.0"
        } else if is_slow_read {
            "  above 0.5"
        } else {
            ""
        };
        println!("{:<48} {ours:>9.1} {theirs:>9.1} {ratio:>6.2}{mark}", row.name);
        if ratio > worst.0 {
            worst = (ratio, row.name.clone());
        }
        above += usize::from(ratio > 1.0);
        reads += usize::from(row.group == Group::Read && ratio > 0.5);
        refusals += usize::from(row.group == Group::Refuse && ratio > 0.5);
    }
    println!(
        "{} rows, {rounds} rounds: worst ratio {:.2} ({}); above 1.0: {above}; reads above 0.5: {reads}; refusals above 0.5: {refusals}",
        table.len(),
        worst.0,
        worst.1
    );
}

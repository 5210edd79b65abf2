//! Compares what the archives answer with what the Rust does, or the model, on sheets from a seed; see README.md.
mod comparison;

use comparison::{Comparison, Tally};
use generator::{Random, one};
use theirs::twin::{Keys, twin};

fn main() {
    let args: Vec<String> = std::env::args().skip(1).collect();
    let (empty, numbers) = match args.split_first() {
        Some((first, rest)) if first == "--empty" => (true, rest),
        _ => (false, &args[..]),
    };
    let numbers: Option<Vec<u64>> = numbers.iter().map(|arg| arg.parse().ok()).collect();
    let Some(&[count, seed]) = numbers.as_deref() else {
        eprintln!("usage: host/compare [--sources DIR] [--crates DIR] [--empty] [COUNT [SEED]]");
        std::process::exit(2);
    };
    let mut random = Random::new(seed);
    let mut comparison = Comparison::new(Tally::default());
    for number in 0..count {
        let bytes = one(&mut random);
        let compared = match empty.then(|| twin(&bytes, Keys::Empty)) {
            Some(Some(made)) => comparison.compare_as(&made, &bytes),
            Some(None) => continue,
            None => comparison.compare(&bytes),
        };
        if let Err(what) = compared
            && comparison.tally.differ <= 10
        {
            println!("sheet {number} of seed {seed}, {} bytes: {what}", bytes.len());
        }
    }
    comparison.tally.report();
    if comparison.tally.differ > 0 {
        std::process::exit(1);
    }
}

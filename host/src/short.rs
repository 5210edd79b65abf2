//! Compares what the archives answer with what the Rust does, or the model, on every sheet of some families; see README.md.
mod comparison;
mod families;
mod grammar;
mod several;

use comparison::{Comparison, Tally};
use families::{FAMILIES, Family};

fn main() {
    let asked: Vec<String> = std::env::args().skip(1).collect();
    if asked.iter().any(|name| FAMILIES.iter().all(|family| family.name != name)) {
        eprintln!("usage: host/short [--sources DIR] [--crates DIR] [FAMILY ..]");
        std::process::exit(2);
    }
    let mut tally = Tally::default();
    for family in FAMILIES.iter().filter(|family| asked.is_empty() || asked.iter().any(|name| name == family.name)) {
        tally = run(family, tally);
    }
    tally.report();
    if tally.differ > 0 {
        std::process::exit(1);
    }
}

/// Compares the sheets of a family, and tells how many there are and the shortest that differs.
fn run(family: &Family, tally: Tally) -> Tally {
    let (sheets, accepted) = (tally.sheets, tally.accepted());
    let mut comparison = Comparison::new(tally);
    let mut shortest: Option<(Vec<u8>, String)> = None;
    (family.sheets)(&mut |bytes| {
        if let Err(what) = comparison.compare(bytes)
            && shortest.as_ref().is_none_or(|(other, _)| bytes.len() < other.len())
        {
            shortest = Some((bytes.to_vec(), what));
        }
    });
    let tally = comparison.tally;
    println!("{}: {} sheets, {} accepted", family.name, tally.sheets - sheets, tally.accepted() - accepted);
    if let Some((bytes, what)) = shortest {
        let bytes: String = bytes.iter().map(|byte| format!("{byte:02x}")).collect();
        println!("differs in {what}; the shortest such sheet, in hexadecimal: {bytes}");
    }
    tally
}

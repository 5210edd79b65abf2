//! A row of sheets from a seed, each after its byte length as a little-endian word.
use generator::{Random, one};
use std::io::{BufWriter, Write, stdout};

fn main() -> std::io::Result<()> {
    let args: Option<Vec<u64>> = std::env::args().skip(1).map(|arg| arg.parse().ok()).collect();
    let Some(&[seed, count]) = args.as_deref() else {
        eprintln!("usage: host/generate SEED COUNT > ROW");
        std::process::exit(2);
    };
    let mut random = Random::new(seed);
    let mut row = BufWriter::new(stdout().lock());
    for _ in 0..count {
        let bytes = one(&mut random);
        row.write_all(&(bytes.len() as u32).to_le_bytes())?;
        row.write_all(&bytes)?;
    }
    row.flush()
}

//! Sheets from a seed.
mod clauses;
mod damage;
mod noise;
mod random;
mod sheet;
mod tables;
pub mod worst;

pub use clauses::DEPTH;
pub use damage::to_bytes;
pub use noise::noise;
pub use random::Random;
pub use sheet::Sheet;

/// A sheet; one in four is damaged.
pub fn one(random: &mut Random) -> Vec<u8> {
    let sheet = sheet::sheet(random);
    if random.one_in(4) { damage::damaged(random, sheet) } else { to_bytes(&sheet.words()) }
}

/// A sheet with many names that are carried by many stars.
pub fn wide(random: &mut Random) -> Vec<u8> {
    to_bytes(&sheet::any_wide(random).words())
}

/// A sheet that is damaged, and differs from what it was.
pub fn damaged(random: &mut Random) -> Vec<u8> {
    let sheet = sheet::sheet(random);
    let whole = to_bytes(&sheet.words());
    loop {
        let bytes = damage::damaged(random, sheet.clone());
        if bytes != whole {
            return bytes;
        }
    }
}

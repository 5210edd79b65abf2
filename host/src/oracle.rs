//! The Rust's answers for a row of sheets on standard input, each after its byte length as a little-endian word; the model's for sheets
//! with sort keys, and its line of the expressions 25 for all.
use std::io::{Read, Write, stdin, stdout};
use theirs::{answers::Answers, model, sheet};

fn main() -> std::io::Result<()> {
    let warnings = std::env::args().nth(1).as_deref() != Some("0");
    let mut row = Vec::new();
    stdin().read_to_end(&mut row)?;
    let mut rest = row.as_slice();
    while let Some((sheet, after)) = first(rest) {
        stdout().write_all(answer(sheet, warnings).as_bytes())?;
        rest = after;
    }
    Ok(())
}

/// The first sheet of a row and what follows it; none where its bytes aren't there.
fn first(row: &[u8]) -> Option<(&[u8], &[u8])> {
    let (length, rest) = row.split_first_chunk()?;
    rest.split_at_checked(u32::from_le_bytes(*length) as usize)
}

/// The page of program `lists`, in bytes.
const PAGE: usize = 65_536;

fn answer(bytes: &[u8], warnings: bool) -> String {
    let sheet = match sheet::read(bytes) {
        Ok(sheet) => sheet,
        Err(cause) => return format!("refused {cause}\n"),
    };
    let answers = Answers::new(&sheet, warnings);
    if !answers.fit() {
        return "refused 8\n".to_owned();
    }
    let text = answers.listing() + &model::old_line(&sheet);
    let text = if text.len() <= PAGE { text } else { "refused 10\n".to_owned() };
    text + &answers.lists(&sheet.names)
}

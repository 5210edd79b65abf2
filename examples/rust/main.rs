//! Prints the findings of a sheet: main SHEET.
use std::process::ExitCode;

#[link(name = "listing", kind = "static")]
unsafe extern "C" {
    fn cenguatu_listing(
        sheet: *const u8,
        sheet_len: usize,
        page: *mut u8,
        page_len: usize,
        warnings: u32,
    ) -> u32;
}

/// The findings of a sheet at the front of `page`, and their length; or the refusal's number.
fn listing(sheet: &[u8], page: &mut [u8], warnings: bool) -> Result<usize, u32> {
    // Safety: the two slices are valid for their lengths and don't overlap, and the call keeps neither.
    let answer = unsafe {
        cenguatu_listing(
            sheet.as_ptr(),
            sheet.len(),
            page.as_mut_ptr(),
            page.len(),
            warnings as u32,
        )
    };
    if answer < 256 {
        return Err(answer);
    }
    Ok(answer as usize - 256)
}

fn main() -> ExitCode {
    let Some(path) = std::env::args_os().nth(1) else {
        eprintln!("usage: main SHEET");
        return ExitCode::from(2);
    };
    let sheet = match std::fs::read(&path) {
        Ok(bytes) => bytes,
        Err(error) => {
            eprintln!("{}: {error}", path.display());
            return ExitCode::from(2);
        }
    };
    let mut page = vec![0; 65536];
    match listing(&sheet, &mut page, true) {
        Ok(length) => {
            print!("{}", String::from_utf8_lossy(&page[..length]));
            ExitCode::SUCCESS
        }
        Err(number) => {
            println!("refused {number}");
            ExitCode::FAILURE
        }
    }
}

//! `own-list INDEX SEQUENCE HEADER`: the listing of a volume's three files, to hold a listing program's text against.

use second::listing::listing;
use std::process::ExitCode;

fn main() -> ExitCode {
    let paths: Vec<String> = std::env::args().skip(1).collect();
    let files: Result<Vec<Vec<u8>>, _> = paths.iter().map(std::fs::read).collect();
    match files.as_deref() {
        Ok([index, sequence, header]) => print!("{}", listing(index, sequence, header)),
        Ok(_) => return usage("name the index, the sequence file and the header file"),
        Err(error) => return usage(&error.to_string()),
    }
    ExitCode::SUCCESS
}

fn usage(text: &str) -> ExitCode {
    eprintln!("own-list: {text}");
    ExitCode::FAILURE
}

//! `own-convert pack|unpack ALPHABET`: standard input packed or unpacked to standard output by this program's own reading, to hold
//! other programs' output against. A refusal writes nothing but its number on standard error, and ends with status 1.

use second::answers::Answer;
use second::console;
use std::io::{Read, Write};
use std::process::ExitCode;

fn converted(way: &str, alphabet: i128, input: &[u8]) -> Option<Answer<Vec<u8>>> {
    match way {
        "pack" => Some(console::packed(alphabet, input)),
        "unpack" => Some(console::unpacked(alphabet, input)),
        _ => None,
    }
}

fn main() -> ExitCode {
    let words: Vec<String> = std::env::args().skip(1).collect();
    let [way, alphabet] = &words[..] else { return usage() };
    let Ok(alphabet) = alphabet.parse::<u32>() else { return usage() };
    let mut input = Vec::new();
    if let Err(error) = std::io::stdin().read_to_end(&mut input) {
        eprintln!("own-convert: {error}");
        return ExitCode::from(2);
    }
    match converted(way, alphabet as i128, &input) {
        Some(Ok(output)) => match std::io::stdout().write_all(&output) {
            Ok(()) => ExitCode::SUCCESS,
            Err(_) => ExitCode::from(2),
        },
        Some(Err(number)) => {
            eprintln!("{number}");
            ExitCode::from(1)
        }
        None => usage(),
    }
}

fn usage() -> ExitCode {
    eprintln!("usage: own-convert pack|unpack ALPHABET");
    ExitCode::from(2)
}

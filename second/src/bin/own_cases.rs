//! `own-cases [--wrong K] [--stop K] [--status K]`: answers a stream of CASES.md from this program's own reading, to try
//! `compare` itself. `--wrong K` spoils line K, `--stop K` ends before line K, `--status K` ends with that exit status.

use std::io::{Read, Write};

fn option(name: &str) -> Option<usize> {
    let arguments: Vec<String> = std::env::args().collect();
    let at = arguments.iter().position(|argument| argument == name)?;
    arguments.get(at + 1)?.parse().ok()
}

fn main() -> std::io::Result<()> {
    let mut stream = Vec::new();
    std::io::stdin().read_to_end(&mut stream)?;
    let mut lines = second::serve::lines_of(&stream);
    if let Some(line) = option("--wrong").and_then(|k| lines.get_mut(k)) {
        line.push('0');
    }
    if let Some(k) = option("--stop") {
        lines.truncate(k);
        eprintln!("stopped before line {k}");
    }
    let mut text = lines.join("\n");
    if !lines.is_empty() {
        text.push('\n');
    }
    std::io::stdout().write_all(text.as_bytes())?;
    std::process::exit(option("--status").unwrap_or(0) as i32)
}

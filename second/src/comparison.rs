//! The comparison: cases go to a program that speaks CASES.md, and its lines are held against our own.

use crate::generate::Case;
use crate::line::line_of;
use crate::outcome::{Difference, Outcome};
use crate::stream::stream_of;
use std::io::{Read, Write};
use std::path::Path;
use std::process::{Command, Stdio};
use std::thread;

/// How many cases one run of the program gets.
const BATCH: usize = 250;

/// All lines that a program wrote for a stream, and what else is known of its end.
struct Reply {
    lines: Vec<String>,
    ended_well: bool,
    end: String,
}

/// Compares cases, batch by batch, and tells after each how many are done.
pub fn compare(
    program: &Path,
    cases: impl Iterator<Item = Case>,
    mut told: impl FnMut(usize),
) -> Result<Outcome, String> {
    let mut outcome = Outcome::default();
    let mut cases = cases.peekable();
    while cases.peek().is_some() {
        let batch: Vec<Case> = cases.by_ref().take(BATCH).collect();
        let expected: Vec<String> = batch.iter().map(|case| line_of(&case.call)).collect();
        let stream: Vec<u8> = batch.iter().flat_map(|case| stream_of(&case.call)).collect();
        let reply = run(program, stream)?;
        judge(&mut outcome, &batch, &expected, &reply);
        told(outcome.cases);
    }
    Ok(outcome)
}

/// Whether the program knows a call: it does not end at it with `unknown`.
pub fn knows(program: &Path, case: &Case) -> Result<bool, String> {
    let reply = run(program, stream_of(&case.call))?;
    Ok(reply.lines.first().is_some_and(|line| line != "unknown"))
}

/// Counts every line of a batch; a missing one is a difference, and so is one too many, and so is an exit status other than 0.
fn judge(outcome: &mut Outcome, batch: &[Case], expected: &[String], reply: &Reply) {
    for (k, (case, expected)) in batch.iter().zip(expected).enumerate() {
        let found = match reply.lines.get(k) {
            Some(line) => line.clone(),
            None => format!(
                "nothing: the program ended early after {} of {} lines, {}",
                reply.lines.len(),
                batch.len(),
                reply.end
            ),
        };
        outcome.count(case, expected, found);
    }
    if reply.lines.len() > batch.len() {
        let found = format!(
            "{} lines more than cases, the first: {}",
            reply.lines.len() - batch.len(),
            reply.lines[batch.len()]
        );
        let case = batch[batch.len() - 1].clone();
        outcome.differences.push(Difference { case, expected: "the end".to_string(), found });
    }
    if !reply.ended_well {
        let case = batch[batch.len() - 1].clone();
        let expected = "an end with status 0".to_string();
        outcome.differences.push(Difference { case, expected, found: reply.end.clone() });
    }
}

/// Runs the program on a stream. One thread feeds it and one reads its error text, so that neither side waits
/// for the other.
fn run(program: &Path, stream: Vec<u8>) -> Result<Reply, String> {
    let say = |what: &str, error: std::io::Error| format!("{}: {what}: {error}", program.display());
    let mut child = Command::new(program)
        .stdin(Stdio::piped())
        .stdout(Stdio::piped())
        .stderr(Stdio::piped())
        .spawn()
        .map_err(|error| say("cannot start", error))?;
    let mut input = child.stdin.take().expect("stdin is piped");
    let mut output = child.stdout.take().expect("stdout is piped");
    let mut errors = child.stderr.take().expect("stderr is piped");
    // A program that ends early closes its end; the missing lines tell of it.
    let feeder = thread::spawn(move || drop(input.write_all(&stream)));
    let listener = thread::spawn(move || {
        let mut text = Vec::new();
        drop(errors.read_to_end(&mut text));
        String::from_utf8_lossy(&text).trim().to_string()
    });
    let mut text = Vec::new();
    output.read_to_end(&mut text).map_err(|error| say("cannot read its lines", error))?;
    feeder.join().expect("the feeder does not panic");
    let errors = listener.join().expect("the listener does not panic");
    let status = child.wait().map_err(|error| say("cannot wait for it", error))?;
    let lines = lines_in(&String::from_utf8_lossy(&text));
    let end = format!("{status}, its error text: {errors:?}");
    Ok(Reply { lines, ended_well: status.success(), end })
}

/// The lines of a text. A last one without its line feed is kept, and marked.
fn lines_in(text: &str) -> Vec<String> {
    let mut lines: Vec<String> = text.split('\n').map(str::to_string).collect();
    match lines.pop() {
        Some(rest) if !rest.is_empty() => lines.push(format!("{rest} (no line feed)")),
        _ => {}
    }
    lines
}

//! The options that `compare` and `face` share.

use crate::generate::GENERATED;
use std::path::PathBuf;

/// `words` are the arguments without a name; no list of calls stands for those that the program has.
#[derive(Clone, Debug, PartialEq, Eq)]
pub struct Options {
    pub words: Vec<String>,
    pub calls: Option<Vec<u8>>,
    pub seed: u64,
    pub count: usize,
    pub samples: PathBuf,
}

/// Reads the program's arguments.
pub fn options(arguments: impl Iterator<Item = String>) -> Result<Options, String> {
    let mut arguments = arguments;
    let mut options = Options {
        words: vec![],
        calls: Some(GENERATED.to_vec()),
        seed: 1,
        count: 2000,
        samples: "samples".into(),
    };
    while let Some(argument) = arguments.next() {
        if !argument.starts_with("--") {
            options.words.push(argument);
            continue;
        }
        let value = arguments.next().ok_or(format!("{argument} needs a value"))?;
        let wrong = |_| format!("{argument} cannot be {value}");
        match argument.as_str() {
            "--calls" if value == "present" => options.calls = None,
            "--calls" => options.calls = Some(calls(&value)?),
            "--seed" => options.seed = value.parse().map_err(wrong)?,
            "--count" => options.count = value.parse().map_err(wrong)?,
            "--samples" => options.samples = PathBuf::from(&value),
            _ => return Err(format!("unknown option {argument}")),
        }
    }
    Ok(options)
}

/// A list of call bytes, each one that we have a generator for.
fn calls(list: &str) -> Result<Vec<u8>, String> {
    list.split(',')
        .map(|text| match text.trim().parse() {
            Ok(byte) if GENERATED.contains(&byte) => Ok(byte),
            _ => Err(format!("no call {text:?}")),
        })
        .collect()
}

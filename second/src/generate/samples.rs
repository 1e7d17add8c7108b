//! The real volumes and sets of the samples folder.

use super::turned::{wholly_turned, Files};
use crate::console::packets_of_bytes;
use crate::dsqdata::read_ends;
use crate::fields::ByteOrder;
use crate::residues::Alphabet;
use std::fs;
use std::path::Path;

/// A real volume. One without sequence and header file has them empty, and no sequences.
#[derive(Clone, Debug)]
pub struct SampleVolume {
    pub name: String,
    pub alphabet: Alphabet,
    pub index: Vec<u8>,
    pub sequence: Vec<u8>,
    pub header: Vec<u8>,
    pub lines: Vec<String>,
}

/// A real set, little-endian as its machine was. One that is refused has no sequences.
#[derive(Clone, Debug)]
pub struct SampleSet {
    pub name: String,
    pub files: Files,
    pub lines: Vec<String>,
}

impl SampleSet {
    /// Its files as a machine of this byte order would have written them.
    pub fn files_in(&self, byte_order: ByteOrder) -> Files {
        match byte_order {
            ByteOrder::Little => self.files.clone(),
            ByteOrder::Big => wholly_turned(&self.files, ByteOrder::Little),
        }
    }
}

#[derive(Clone, Debug, Default)]
pub struct Samples {
    pub volumes: Vec<SampleVolume>,
    pub sets: Vec<SampleSet>,
    pub record: Vec<u8>,
}

/// The samples of a folder, in the order of their names.
pub fn load(folder: &Path) -> Result<Samples, String> {
    let volumes = folder.join("volumes");
    let sets = folder.join("sets");
    let mut samples = Samples { record: read(&volumes.join("ctk_defline.bin"))?, ..Samples::default() };
    for name in names(&volumes, &[".pin", ".nin"])? {
        samples.volumes.push(volume(&volumes, &name)?);
    }
    for name in names(&sets, &[".dsqi"])? {
        samples.sets.push(set(&sets, &name)?);
    }
    Ok(samples)
}

fn read(path: &Path) -> Result<Vec<u8>, String> {
    fs::read(path).map_err(|error| format!("{}: {error}", path.display()))
}

/// The bytes of a file, none where it does not exist.
fn read_or_empty(path: &Path) -> Vec<u8> {
    fs::read(path).unwrap_or_default()
}

fn lines(path: &Path) -> Vec<String> {
    let text = String::from_utf8(read_or_empty(path)).unwrap_or_default();
    text.lines().map(str::to_string).collect()
}

/// File names with one of these endings, sorted.
fn names(folder: &Path, endings: &[&str]) -> Result<Vec<String>, String> {
    let entries = fs::read_dir(folder).map_err(|error| format!("{}: {error}", folder.display()))?;
    let mut names: Vec<String> = entries
        .filter_map(|entry| entry.ok()?.file_name().into_string().ok())
        .filter(|name| endings.iter().any(|ending| name.ends_with(ending)))
        .collect();
    names.sort();
    Ok(names)
}

fn volume(folder: &Path, file: &str) -> Result<SampleVolume, String> {
    let (name, ending) = file.split_at(file.len() - 4);
    let letter = &ending[1..2];
    let part = |kind: &str| folder.join(format!("{name}.{letter}{kind}"));
    Ok(SampleVolume {
        name: name.to_string(),
        alphabet: if letter == "p" { Alphabet::Amino } else { Alphabet::Nucleic },
        index: read(&part("in"))?,
        sequence: read_or_empty(&part("sq")),
        header: read_or_empty(&part("hr")),
        lines: lines(&folder.join(format!("{name}.seq"))),
    })
}

fn set(folder: &Path, file: &str) -> Result<SampleSet, String> {
    let name = file.trim_end_matches(".dsqi");
    let part = |ending: &str| folder.join(format!("{name}.{ending}"));
    Ok(SampleSet {
        name: name.to_string(),
        files: [read(&part("dsqi"))?, read(&part("dsqm"))?, read(&part("dsqs"))?],
        lines: lines(&part("seq")),
    })
}

impl Samples {
    /// Every run of the real sets with its alphabet number, the refused ones too.
    pub fn runs(&self) -> Vec<(u64, Vec<u32>)> {
        let mut runs = Vec::new();
        for set in &self.sets {
            let [index, _, sequence] = &set.files;
            let alphabet = index[8] as u64;
            let packets = packets_of_bytes(&sequence[8..], ByteOrder::Little);
            let mut start = 0;
            for ends in read_ends(index, ByteOrder::Little) {
                let next = ends.packets as usize + 1;
                runs.push((alphabet, packets[start..next].to_vec()));
                start = next;
            }
        }
        runs
    }

    /// Every real sequence once for each file that has it, as codes in its alphabet.
    pub fn sequences(&self) -> Vec<(Alphabet, Vec<u8>)> {
        let lines = |volume: &SampleVolume| -> Vec<(Alphabet, Vec<u8>)> {
            let alphabet = volume.alphabet;
            volume.lines.iter().filter_map(|line| Some((alphabet, alphabet.codes_of(line)?))).collect()
        };
        self.volumes.iter().flat_map(lines).collect()
    }
}

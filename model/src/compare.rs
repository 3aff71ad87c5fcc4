//! Runs random traces through the model and another bench program, and
//! compares what they print.

use std::fs::{self, File};
use std::io;
use std::path::{Path, PathBuf};
use std::process::{Command, ExitStatus, Stdio};

use crate::random::malformed::malformed;
use crate::random::mixed::{self, Lock};
use crate::random::Random;
use crate::replay::replayed;

/// The result of comparing many traces.
#[derive(Clone, Copy, Debug, Default, PartialEq, Eq)]
pub struct Summary {
    pub traces: u64,
    pub lines: usize,
    pub mismatches: u64,
}

/// Compares fresh random traces, about one in five malformed. The traces that
/// show a mismatch are kept in the folder and reported.
pub fn compare(
    bench: &Path,
    traces: u64,
    seed: u64,
    folder: &Path,
    mut report: impl FnMut(&Mismatch),
) -> io::Result<Summary> {
    fs::create_dir_all(folder)?;
    let mut random = Random::new(seed);
    let mut summary = Summary::default();
    for index in 0..traces {
        let trace = random_trace(&mut random);
        let file = folder.join(format!("{seed}-{index}.trace"));
        fs::write(&file, &trace)?;
        let expected = replayed(&trace);
        let (status, printed) = run(bench, &file)?;
        summary.traces += 1;
        summary.lines += line_count(&expected);
        if status.success() && printed == expected {
            fs::remove_file(&file)?;
        } else {
            summary.mismatches += 1;
            report(&Mismatch {
                file,
                status,
                difference: first_difference(&expected, &printed),
            });
        }
    }
    Ok(summary)
}

/// A trace on which the programs differ.
pub struct Mismatch {
    pub file: PathBuf,
    /// How the bench program ended.
    pub status: ExitStatus,
    /// The first differing line, if the printed bytes differ at all.
    pub difference: Option<Difference>,
}

/// The first line that differs: its number, the model's and the bench's.
#[derive(Clone, Debug, PartialEq, Eq)]
pub struct Difference {
    pub line: usize,
    pub expected: String,
    pub printed: String,
}

fn random_trace(random: &mut Random) -> Vec<u8> {
    let seed = random.number();
    let size = match random.below(10) {
        0 => random.below(20),
        1..=2 => random.below(200),
        3..=5 => random.below(2_000),
        _ => random.below(20_000),
    };
    if random.below(5) == 0 {
        malformed(seed, size)
    } else {
        mixed::trace(seed, size, Lock::Late)
    }
}

/// Runs the bench program on a trace file: how it ended and what it printed.
fn run(bench: &Path, trace: &Path) -> io::Result<(ExitStatus, Vec<u8>)> {
    let output = Command::new(bench)
        .stdin(File::open(trace)?)
        .stderr(Stdio::inherit())
        .output()
        .map_err(|error| io::Error::new(error.kind(), format!("{}: {error}", bench.display())))?;
    Ok((output.status, output.stdout))
}

fn line_count(text: &[u8]) -> usize {
    text.iter().filter(|&&byte| byte == b'\n').count()
}

/// The first line in which the printed bytes are not the expected ones.
pub fn first_difference(expected: &[u8], printed: &[u8]) -> Option<Difference> {
    if expected == printed {
        return None;
    }
    let mut expected = expected.split_inclusive(|&byte| byte == b'\n');
    let mut printed = printed.split_inclusive(|&byte| byte == b'\n');
    let mut line = 1;
    loop {
        match (expected.next(), printed.next()) {
            (Some(ours), Some(theirs)) if ours == theirs => line += 1,
            (ours, theirs) => {
                return Some(Difference {
                    line,
                    expected: shown(ours),
                    printed: shown(theirs),
                })
            }
        }
    }
}

/// A line for people: short, without its end, and said to be missing if it is.
fn shown(line: Option<&[u8]>) -> String {
    const MOST: usize = 200;
    let Some(line) = line else {
        return "(no line)".to_string();
    };
    let text = String::from_utf8_lossy(line)
        .trim_end_matches('\n')
        .to_string();
    if text.chars().count() > MOST {
        text.chars().take(MOST).chain("...".chars()).collect()
    } else {
        text
    }
}

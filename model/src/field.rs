//! Drives the program `calibrate` on files made for it, and holds what it
//! prints, how it ends and the files it leaves to the model.

use std::collections::BTreeMap;
use std::ffi::OsString;
use std::fs;
use std::io;
use std::path::{Path, PathBuf};
use std::process::{Command, Output, Stdio};

use crate::calibrate::calibrate;
use crate::compare::first_difference;

/// Files, and calls to make on them one after another.
#[derive(Clone, Debug)]
pub struct Case {
    /// What the case is about, for people.
    pub label: &'static str,
    /// The files at the start, by their names in the case's folder.
    pub files: Vec<(&'static str, Vec<u8>)>,
    /// The arguments of each call.
    pub calls: Vec<Vec<OsString>>,
}

/// The first call of a case in which the program and the model differ.
#[derive(Clone, Debug)]
pub struct Mismatch {
    pub label: &'static str,
    /// Where the files stay: `before` as they were before the call, `field` as
    /// the program left them.
    pub folder: PathBuf,
    /// Which call of the case, from 1.
    pub call: usize,
    pub arguments: Vec<OsString>,
    pub complaints: Vec<String>,
}

#[derive(Clone, Copy, Debug, Default, PartialEq, Eq)]
pub struct Summary {
    pub cases: u64,
    pub mismatches: u64,
    /// Calls that the model accepts, and calls that it refuses.
    pub accepted: u64,
    pub refused: u64,
}

/// Each file below a folder with its bytes; a folder in it has none.
pub type Listing = BTreeMap<PathBuf, Option<Vec<u8>>>;

/// Makes the cases and plays each in a folder of its own, which goes away unless
/// the case shows a mismatch. A case is made for the folder its calls run in.
pub fn play_all(
    program: &Path,
    cases: u64,
    folder: &Path,
    mut make: impl FnMut(u64, &Path) -> Case,
    mut report: impl FnMut(&Mismatch),
) -> io::Result<Summary> {
    let mut summary = Summary::default();
    for index in 0..cases {
        let folder = PathBuf::from(format!("{}-{index}", folder.display()));
        if folder.exists() {
            fs::remove_dir_all(&folder)?;
        }
        fs::create_dir_all(folder.join("field"))?;
        let folder = fs::canonicalize(folder)?;
        let case = make(index, &folder.join("field"));
        summary.cases += 1;
        match play(program, &folder, &case, &mut summary)? {
            None => fs::remove_dir_all(&folder)?,
            Some(mismatch) => {
                summary.mismatches += 1;
                report(&mismatch);
            }
        }
    }
    Ok(summary)
}

fn play(
    program: &Path,
    folder: &Path,
    case: &Case,
    summary: &mut Summary,
) -> io::Result<Option<Mismatch>> {
    let field = folder.join("field");
    for (name, bytes) in &case.files {
        write(&field.join(name), bytes)?;
    }
    for (index, arguments) in case.calls.iter().enumerate() {
        let before = listing(&field)?;
        let expected = calibrate(arguments, &field);
        let mut right = before.clone();
        match &expected {
            Some(done) => {
                summary.accepted += 1;
                if let Some((image, bytes)) = &done.image {
                    right.insert(fs::canonicalize(image)?, Some(bytes.clone()));
                }
            }
            None => summary.refused += 1,
        }
        let output = run(program, &field, arguments)?;
        let printed = expected.as_ref().map(|done| done.printed.as_str());
        let mut complaints = complaints(printed, &output);
        complaints.extend(differences(&right, &listing(&field)?));
        if !complaints.is_empty() {
            for (path, bytes) in &before {
                let name = path.strip_prefix(&field).expect("listed below the field");
                if let Some(bytes) = bytes {
                    write(&folder.join("before").join(name), bytes)?;
                }
            }
            return Ok(Some(Mismatch {
                label: case.label,
                folder: folder.to_path_buf(),
                call: index + 1,
                arguments: arguments.clone(),
                complaints,
            }));
        }
    }
    Ok(None)
}

fn run(program: &Path, field: &Path, arguments: &[OsString]) -> io::Result<Output> {
    Command::new(program)
        .args(arguments)
        .current_dir(field)
        .stdin(Stdio::null())
        .output()
        .map_err(|error| io::Error::new(error.kind(), format!("{}: {error}", program.display())))
}

fn write(path: &Path, bytes: &[u8]) -> io::Result<()> {
    if let Some(folder) = path.parent() {
        fs::create_dir_all(folder)?;
    }
    fs::write(path, bytes)
}

fn listing(folder: &Path) -> io::Result<Listing> {
    let mut listed = Listing::new();
    for entry in fs::read_dir(folder)? {
        let path = entry?.path();
        if path.is_dir() {
            listed.extend(listing(&path)?);
            listed.insert(path, None);
        } else {
            let bytes = fs::read(&path)?;
            listed.insert(path, Some(bytes));
        }
    }
    Ok(listed)
}

/// What is wrong with the output of a call that must print this, or must be
/// refused: status 1, nothing printed, one line that says why.
pub fn complaints(expected: Option<&str>, output: &Output) -> Vec<String> {
    let mut complaints = Vec::new();
    let status = if expected.is_some() { 0 } else { 1 };
    if output.status.code() != Some(status) {
        complaints.push(format!("status {status} expected, but {}", output.status));
    }
    let printed = expected.unwrap_or("").as_bytes();
    if let Some(difference) = first_difference(printed, &output.stdout) {
        complaints.push(format!("standard output, line {}", difference.line));
        complaints.push(format!("  model:     {}", difference.expected));
        complaints.push(format!("  calibrate: {}", difference.printed));
    }
    let errors = String::from_utf8_lossy(&output.stderr);
    match expected {
        Some(_) if !errors.is_empty() => {
            complaints.push(format!("accepted, but standard error is {errors:?}"));
        }
        None if !is_one_line(&errors) => {
            complaints.push(format!("one line on standard error expected: {errors:?}"));
        }
        _ => {}
    }
    complaints
}

/// Some text and its end of line, the only one.
fn is_one_line(text: &str) -> bool {
    match text.strip_suffix('\n') {
        Some(line) => !line.trim().is_empty() && !line.contains('\n'),
        None => false,
    }
}

/// How the files that the program left differ from the right ones.
pub fn differences(right: &Listing, left: &Listing) -> Vec<String> {
    let mut differences = Vec::new();
    for (path, right) in right {
        let name = path.display();
        match left.get(path) {
            None => differences.push(format!("{name} is gone")),
            Some(left) if left != right => differences.push(format!(
                "{name} is wrong: {}",
                first_wrong_byte(right.as_deref(), left.as_deref())
            )),
            Some(_) => {}
        }
    }
    for path in left.keys().filter(|path| !right.contains_key(*path)) {
        differences.push(format!("{} is left behind", path.display()));
    }
    differences
}

fn first_wrong_byte(right: Option<&[u8]>, left: Option<&[u8]>) -> String {
    let (Some(right), Some(left)) = (right, left) else {
        return "a file is a folder, or a folder is a file".to_string();
    };
    if right.len() != left.len() {
        return format!("{} bytes, must be {}", left.len(), right.len());
    }
    let pairs = right.iter().zip(left);
    let wrong = pairs.clone().filter(|(right, left)| right != left).count();
    match pairs.enumerate().find(|(_, (right, left))| right != left) {
        Some((at, (right, left))) => {
            format!("{wrong} bytes, the first at {at:#x}: {left:02x}, must be {right:02x}")
        }
        None => "the same bytes".to_string(),
    }
}

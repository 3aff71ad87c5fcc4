//! The command line of the model.

use std::io::{self, BufWriter, Read, Write};
use std::path::Path;
use std::process::ExitCode;

use flash_model::census::Census;
use flash_model::compare::{compare, Mismatch};
use flash_model::field::{self, Case};
use flash_model::images::print_images;
use flash_model::random::mixed::{self, Lock};
use flash_model::random::{extreme, malformed, puts, row_calls, Random};
use flash_model::replay::replay;
use flash_model::story::print_story;
use flash_model::tour::long_trace;

const USAGE: &str = "usage: model replay | census | long | images | story | \
    trace SEED SIZE | malformed SEED SIZE | \
    reads SEED SIZE | short SEED SIZE | erases SEED SIZE | \
    compare BENCH COUNT SEED FOLDER | \
    compare-put CALIBRATE COUNT SEED FOLDER | \
    compare-rows CALIBRATE COUNT SEED FOLDER";

fn main() -> ExitCode {
    let arguments: Vec<String> = std::env::args_os()
        .skip(1)
        .map(|argument| argument.to_string_lossy().into_owned())
        .collect();
    let arguments: Vec<&str> = arguments.iter().map(String::as_str).collect();
    match run(&arguments) {
        Ok(code) => code,
        Err(message) => {
            eprintln!("model: {message}");
            ExitCode::FAILURE
        }
    }
}

fn run(arguments: &[&str]) -> Result<ExitCode, String> {
    match *arguments {
        ["replay"] => replay_input()?,
        ["census"] => print(Census::of(&input()?).to_string().as_bytes())?,
        ["images"] => print_images(&mut io::stdout().lock()).map_err(|error| error.to_string())?,
        ["story"] => print_story(&mut io::stdout().lock()).map_err(|error| error.to_string())?,
        ["long"] => print(&long_trace())?,
        ["trace", seed, size] => print(&mixed::trace(
            number(seed)?,
            size_in_bytes(size)?,
            Lock::Late,
        ))?,
        ["malformed", seed, size] => {
            print(&malformed::malformed(number(seed)?, size_in_bytes(size)?))?
        }
        ["reads", seed, size] => print(&extreme::reads(number(seed)?, size_in_bytes(size)?))?,
        ["short", seed, size] => print(&extreme::short(number(seed)?, size_in_bytes(size)?))?,
        ["erases", seed, size] => print(&extreme::erases(number(seed)?, size_in_bytes(size)?))?,
        ["compare", bench, count, seed, folder] => {
            return compare_with(bench, number(count)?, number(seed)?, folder)
        }
        ["compare-put", calibrate, count, seed, folder] => {
            let (count, seed) = (number(count)?, number(seed)?);
            let folder = Path::new(folder).join(format!("put-{seed}"));
            return compare_calls(calibrate, count, seed, &folder, puts::case);
        }
        ["compare-rows", calibrate, count, seed, folder] => {
            let (count, seed) = (number(count)?, number(seed)?);
            let folder = Path::new(folder).join(format!("rows-{seed}"));
            return compare_calls(calibrate, count, seed, &folder, row_calls::case);
        }
        _ => return Err(USAGE.to_string()),
    }
    Ok(ExitCode::SUCCESS)
}

fn replay_input() -> Result<(), String> {
    let trace = input()?;
    let mut output = BufWriter::with_capacity(1 << 16, io::stdout().lock());
    replay(&trace, &mut output)
        .and_then(|()| output.flush())
        .map_err(cannot("write standard output"))
}

fn compare_with(bench: &str, count: u64, seed: u64, folder: &str) -> Result<ExitCode, String> {
    let summary = compare(Path::new(bench), count, seed, Path::new(folder), report)
        .map_err(cannot("compare"))?;
    println!(
        "{} traces, {} lines, {} mismatches",
        summary.traces, summary.lines, summary.mismatches
    );
    Ok(if summary.mismatches == 0 {
        ExitCode::SUCCESS
    } else {
        ExitCode::FAILURE
    })
}

fn compare_calls(
    calibrate: &str,
    count: u64,
    seed: u64,
    folder: &Path,
    case: fn(u64, &mut Random, &Path) -> Case,
) -> Result<ExitCode, String> {
    let mut random = Random::new(seed);
    let make = |index, folder: &Path| case(index, &mut random, folder);
    let summary = field::play_all(Path::new(calibrate), count, folder, make, report_call)
        .map_err(cannot("compare"))?;
    println!(
        "{} calls accepted, {} refused",
        summary.accepted, summary.refused
    );
    println!("{} cases, {} mismatches", summary.cases, summary.mismatches);
    Ok(if summary.mismatches == 0 {
        ExitCode::SUCCESS
    } else {
        ExitCode::FAILURE
    })
}

fn report_call(mismatch: &field::Mismatch) {
    println!("mismatch: {}", mismatch.folder.display());
    println!("  {}", mismatch.label);
    println!("  call {}: {:?}", mismatch.call, mismatch.arguments);
    for complaint in &mismatch.complaints {
        println!("  {complaint}");
    }
}

fn report(mismatch: &Mismatch) {
    println!("mismatch: {}", mismatch.file.display());
    if !mismatch.status.success() {
        println!("  the bench ended with {}", mismatch.status);
    }
    if let Some(difference) = &mismatch.difference {
        println!("  line {}", difference.line);
        println!("  model: {}", difference.expected);
        println!("  bench: {}", difference.printed);
    }
}

fn input() -> Result<Vec<u8>, String> {
    let mut bytes = Vec::new();
    io::stdin()
        .lock()
        .read_to_end(&mut bytes)
        .map_err(cannot("read standard input"))?;
    Ok(bytes)
}

fn print(bytes: &[u8]) -> Result<(), String> {
    let mut output = io::stdout().lock();
    output
        .write_all(bytes)
        .and_then(|()| output.flush())
        .map_err(cannot("write standard output"))
}

fn number(text: &str) -> Result<u64, String> {
    text.parse().map_err(|_| format!("not a number: {text}"))
}

fn size_in_bytes(text: &str) -> Result<usize, String> {
    text.parse()
        .map_err(|_| format!("not a size in bytes: {text}"))
}

fn cannot(action: &'static str) -> impl Fn(io::Error) -> String {
    move |error| format!("cannot {action}: {error}")
}

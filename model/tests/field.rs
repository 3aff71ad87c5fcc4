//! The comparer of calls: what it objects to, and what its random cases try.

use std::collections::{BTreeMap, BTreeSet};
use std::fs;
use std::os::unix::process::ExitStatusExt;
use std::path::{Path, PathBuf};
use std::process::{ExitStatus, Output};

use flash_model::calibrate::calibrate;
use flash_model::field::{complaints, differences, Case, Listing};
use flash_model::random::{puts, row_calls, Random};

fn output(status: i32, stdout: &str, stderr: &str) -> Output {
    Output {
        status: ExitStatus::from_raw(status << 8),
        stdout: stdout.into(),
        stderr: stderr.into(),
    }
}

#[test]
fn an_accepted_call_prints_its_lines_and_nothing_else() {
    let count = |output: &Output| complaints(Some("a\nb\n"), output).len();
    assert_eq!(count(&output(0, "a\nb\n", "")), 0);
    assert_ne!(count(&output(1, "a\nb\n", "")), 0);
    assert_ne!(count(&output(0, "a\nb", "")), 0);
    assert_ne!(count(&output(0, "a\n", "")), 0);
    assert_ne!(count(&output(0, "a\nb\nc\n", "")), 0);
    assert_ne!(count(&output(0, "a\nb\n", "note\n")), 0);
}

#[test]
fn a_refused_call_says_why_in_one_line() {
    let count = |output: &Output| complaints(None, output).len();
    assert_eq!(count(&output(1, "", "why\n")), 0);
    assert_ne!(count(&output(0, "", "why\n")), 0);
    assert_ne!(count(&output(2, "", "why\n")), 0);
    assert_ne!(count(&output(1, "a\n", "why\n")), 0);
    assert_ne!(count(&output(1, "", "")), 0);
    assert_ne!(count(&output(1, "", "\n")), 0);
    assert_ne!(count(&output(1, "", "why")), 0);
    assert_ne!(count(&output(1, "", "why\nand\n")), 0);
    let mut killed = output(1, "", "why\n");
    killed.status = ExitStatus::from_raw(9);
    assert_ne!(count(&killed), 0);
}

#[test]
fn every_file_is_looked_at() {
    let listing = |files: &[(&str, Option<&[u8]>)]| -> Listing {
        let entry = |(name, bytes): &(&str, Option<&[u8]>)| {
            (PathBuf::from(name), bytes.map(<[u8]>::to_vec))
        };
        files.iter().map(entry).collect()
    };
    let right = listing(&[("image", Some(&[1, 2, 3])), ("sub", None)]);
    let count = |files: &[_]| differences(&right, &listing(files)).len();
    assert_eq!(count(&[("image", Some(&[1, 2, 3])), ("sub", None)]), 0);
    assert_eq!(count(&[("image", Some(&[1, 2, 4])), ("sub", None)]), 1);
    assert_eq!(count(&[("image", Some(&[1, 2])), ("sub", None)]), 1);
    assert_eq!(count(&[("image", None), ("sub", None)]), 1);
    assert_eq!(count(&[("sub", None)]), 1);
    let temporary = ("image.tmp", Some(&[][..]));
    let files = [("image", Some(&[1, 2, 3][..])), ("sub", None), temporary];
    assert_eq!(count(&files), 1);
}

/// Makes cases on real files and gives for each label how many calls the model
/// accepts and refuses.
fn verdicts(
    name: &str,
    cases: u64,
    make: fn(u64, &mut Random, &Path) -> Case,
) -> BTreeMap<&'static str, (u64, u64)> {
    let folder = std::env::temp_dir().join(format!("model-{name}-{}", std::process::id()));
    let mut random = Random::new(1);
    let mut verdicts: BTreeMap<&str, (u64, u64)> = BTreeMap::new();
    for index in 0..cases {
        fs::create_dir_all(folder.join("sub")).unwrap();
        let case = make(index, &mut random, &folder);
        for (name, bytes) in &case.files {
            fs::write(folder.join(name), bytes).unwrap();
        }
        for call in &case.calls {
            let (accepted, refused) = verdicts.entry(case.label).or_default();
            match calibrate(call, &folder) {
                Some(done) => {
                    *accepted += 1;
                    if let Some((image, bytes)) = &done.image {
                        fs::write(image, bytes).unwrap();
                    }
                }
                None => *refused += 1,
            }
        }
        fs::remove_dir_all(&folder).unwrap();
    }
    verdicts
}

#[test]
fn random_puts_are_accepted_or_refused_as_their_kind_says() {
    let verdicts = verdicts("puts", 40 * puts::KINDS.len() as u64, puts::case);
    let refused = BTreeSet::from([
        "an address past the end",
        "a range that passes the end",
        "an image of wrong length",
        "no such image",
        "no such file",
        "an address that is no number",
        "missing or extra arguments",
    ]);
    for (_, label) in puts::KINDS {
        let expected = if refused.contains(label) {
            (0, 40)
        } else {
            (40, 0)
        };
        assert_eq!(verdicts[label], expected, "{label}");
    }
}

#[test]
fn random_row_calls_are_accepted_or_refused_as_their_subject_says() {
    let cases = 40 * row_calls::SUBJECTS.len() as u64;
    let verdicts = verdicts("rows", cases, row_calls::case);
    for (subject, label) in row_calls::SUBJECTS {
        use row_calls::Subject;
        let (accepted, refused) = verdicts[label];
        match subject {
            Subject::PutAndGet | Subject::NearRows | Subject::RandomImage => {
                assert!(accepted >= 40 && refused == 0, "{label}");
            }
            Subject::MixedCalls => assert!(accepted >= 40 && refused >= 10, "{label}"),
            _ => assert!(accepted == 0 && refused >= 40, "{label}"),
        }
    }
}

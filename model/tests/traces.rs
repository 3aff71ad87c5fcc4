//! The traces that the model makes up.

use flash_model::census::Census;
use flash_model::chip::command::CODES;
use flash_model::random::malformed::{broken, malformed, FLAWS};
use flash_model::random::mixed::{self, Lock};
use flash_model::random::{extreme, Random};
use flash_model::replay::replayed;
use flash_model::tour::long_trace;

fn last_line(trace: &[u8]) -> String {
    let text = String::from_utf8(replayed(trace)).unwrap();
    text.lines().last().unwrap().to_string()
}

fn is_well_formed(trace: &[u8]) -> bool {
    last_line(trace).starts_with("status ")
}

/// Most frames are accepted, yet every answer and every command occurs, and
/// every kind of change is cut.
fn check_variety(census: &Census) {
    assert_eq!(census.malformed, None);
    assert!(census.accepted_percent() >= 60, "{census}");
    assert!(census.frames.iter().all(|&count| count > 0), "{census}");
    let accepted = |code: &u8| census.by_code[usize::from(*code)].0 > 0;
    assert!(CODES.iter().all(accepted), "{census}");
    assert!(census.cuts.iter().all(|&count| count > 0), "{census}");
}

#[test]
fn the_long_trace_has_everything() {
    let trace = long_trace();
    assert!((100_000..250_000).contains(&trace.len()), "{}", trace.len());
    assert!(is_well_formed(&trace));
    check_variety(&Census::of(&trace));
    assert_eq!(trace, long_trace());
}

#[test]
fn random_traces_have_everything() {
    for seed in 0..10 {
        let trace = mixed::trace(seed, 200_000, Lock::Late);
        assert!(is_well_formed(&trace));
        check_variety(&Census::of(&trace));
    }
}

#[test]
fn random_traces_are_about_as_long_as_asked() {
    for size in [0, 10, 100, 1_000, 20_000, 100_000] {
        for seed in 0..20 {
            let length = mixed::trace(seed, size, Lock::Late).len();
            assert!(
                (size..size + 12_000).contains(&length),
                "{length} for {size}"
            );
        }
    }
}

#[test]
fn the_same_seed_gives_the_same_trace() {
    let trace = mixed::trace(7, 5_000, Lock::Late);
    assert_eq!(trace, mixed::trace(7, 5_000, Lock::Late));
    assert_ne!(trace, mixed::trace(8, 5_000, Lock::Late));
}

#[test]
fn extreme_traces_are_well_formed() {
    for make in [extreme::reads, extreme::short, extreme::erases] {
        let trace = make(3, 50_000);
        assert!(trace.len() >= 50_000);
        assert!(is_well_formed(&trace));
    }
}

#[test]
fn every_flaw_breaks_every_trace() {
    let mut random = Random::new(11);
    for size in [0, 1, 50, 3_000] {
        for flaw in FLAWS {
            for seed in 0..20 {
                let trace = mixed::trace(seed, size, Lock::Late);
                let trace = broken(trace, flaw, &mut random);
                let line = last_line(&trace);
                assert!(line.starts_with("trace 13 at "), "{flaw:?}: {line}");
            }
        }
    }
    assert!(!is_well_formed(&malformed(5, 1_000)));
}

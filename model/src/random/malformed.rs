//! Good traces broken in one place.

use super::mixed::{self, Lock};
use super::Random;
use crate::chip::command::LONGEST_FRAME;
use crate::trace::Record;

/// The ways in which a trace can be malformed.
#[derive(Clone, Copy, Debug, PartialEq, Eq)]
pub enum Flaw {
    UnknownKind,
    BodyCutOff,
    ByteWithoutSelect,
    DeselectWithoutSelect,
    OtherWhileSelected,
    FrameTooLong,
    EndWhileSelected,
}

pub const FLAWS: [Flaw; 7] = [
    Flaw::UnknownKind,
    Flaw::BodyCutOff,
    Flaw::ByteWithoutSelect,
    Flaw::DeselectWithoutSelect,
    Flaw::OtherWhileSelected,
    Flaw::FrameTooLong,
    Flaw::EndWhileSelected,
];

/// A random trace of about the size, with one random flaw.
pub fn malformed(seed: u64, size: usize) -> Vec<u8> {
    let mut random = Random::new(seed);
    let trace = mixed::trace(random.number(), size, Lock::Late);
    let flaw = random.pick(&FLAWS);
    broken(trace, flaw, &mut random)
}

/// The trace with the flaw at some random place.
pub fn broken(mut trace: Vec<u8>, flaw: Flaw, random: &mut Random) -> Vec<u8> {
    match flaw {
        Flaw::UnknownKind => {
            let kind = unknown_kind(random);
            let place = any_boundary(&trace, random);
            insert(&mut trace, place, &[kind]);
        }
        Flaw::BodyCutOff => cut_body_off(&mut trace, random),
        Flaw::ByteWithoutSelect => {
            let place = deselected_boundary(&trace, random);
            insert(&mut trace, place, &[0x01, random.byte()]);
        }
        Flaw::DeselectWithoutSelect => {
            let place = deselected_boundary(&trace, random);
            insert(&mut trace, place, &[0x03, random.byte()]);
        }
        Flaw::OtherWhileSelected => {
            let record = other_record(random);
            let place = selected_boundary(&mut trace, random);
            insert(&mut trace, place, &record);
        }
        Flaw::FrameTooLong => {
            let place = selected_boundary(&mut trace, random);
            let bytes = [0x01, random.byte()].repeat(LONGEST_FRAME + 1);
            insert(&mut trace, place, &bytes);
        }
        Flaw::EndWhileSelected => {
            let place = selected_boundary(&mut trace, random);
            trace.truncate(place);
        }
    }
    trace
}

fn unknown_kind(random: &mut Random) -> u8 {
    let kind = random.byte();
    if Record::is_kind(kind) || random.percent(50) {
        random.pick(&[0x00, 0x07, 0x81, 0xFF])
    } else {
        kind
    }
}

/// A whole record that may not stand in a frame.
fn other_record(random: &mut Random) -> Vec<u8> {
    let (first, second) = (random.byte(), random.byte());
    match random.below(4) {
        0 => vec![0x02],
        1 => vec![0x04, first, second],
        2 => vec![0x05, first],
        _ => vec![0x06, first],
    }
}

/// Ends the trace inside a record, or with a new record that lacks its body.
fn cut_body_off(trace: &mut Vec<u8>, random: &mut Random) {
    let boundary = random.pick(&boundaries(trace));
    match Record::first_of(&trace[boundary.offset..]) {
        Some(record) if record.length() > 1 => {
            trace.truncate(boundary.offset + random.between(1, record.length() - 1));
        }
        _ => {
            trace.truncate(boundary.offset);
            let stump: &[u8] = random.pick(&[&[0x04], &[0x04, 0x05], &[0x05], &[0x06]]);
            trace.extend(stump);
        }
    }
}

/// A place between two records, or at either end of the trace.
#[derive(Clone, Copy)]
struct Boundary {
    offset: usize,
    selected: bool,
}

/// All the boundaries of a well-formed trace.
fn boundaries(trace: &[u8]) -> Vec<Boundary> {
    let mut found = Vec::new();
    let mut here = Boundary {
        offset: 0,
        selected: false,
    };
    found.push(here);
    while let Some(record) = Record::first_of(&trace[here.offset..]) {
        here.offset += record.length();
        here.selected = match record {
            Record::Select => true,
            Record::Deselect { .. } => false,
            _ => here.selected,
        };
        found.push(here);
    }
    found
}

fn any_boundary(trace: &[u8], random: &mut Random) -> usize {
    random.pick(&boundaries(trace)).offset
}

fn deselected_boundary(trace: &[u8], random: &mut Random) -> usize {
    let mut places = boundaries(trace);
    places.retain(|boundary| !boundary.selected);
    random.pick(&places).offset
}

/// A place inside a frame; a trace without frames is given one.
fn selected_boundary(trace: &mut Vec<u8>, random: &mut Random) -> usize {
    let mut places = boundaries(trace);
    places.retain(|boundary| boundary.selected);
    if places.is_empty() {
        Record::Select.append_to(trace);
        return trace.len();
    }
    random.pick(&places).offset
}

fn insert(trace: &mut Vec<u8>, place: usize, bytes: &[u8]) {
    trace.splice(place..place, bytes.iter().copied());
}

//! Random calls of `calibrate list`, `get` and `put`.

use std::ffi::OsString;
use std::os::unix::ffi::OsStringExt;
use std::path::Path;

use super::puts::{self, path, ABSENT, FOLDER};
use super::{near_rows, texts, Random};
use crate::field::Case;
use crate::put::{PAGE, SECTOR};
use crate::rows::{Kind, Row};

/// What a case is about. The subjects come in turns.
#[derive(Clone, Copy, Debug, PartialEq, Eq)]
pub enum Subject {
    PutAndGet,
    NearRows,
    RandomImage,
    MixedCalls,
    WrongTexts,
    NoSuchSlot,
    WrongImage,
    WrongArguments,
}

pub const SUBJECTS: [(Subject, &str); 8] = [
    (Subject::PutAndGet, "rows that are put and got"),
    (Subject::NearRows, "slots that are rows or nearly so"),
    (Subject::RandomImage, "an image of any bytes"),
    (Subject::MixedCalls, "calls of all sorts on one image"),
    (Subject::WrongTexts, "texts that give no row"),
    (Subject::NoSuchSlot, "no such slot"),
    (Subject::WrongImage, "no image, or one of wrong length"),
    (
        Subject::WrongArguments,
        "missing, extra or unknown arguments",
    ),
];

/// The case with this number, its calls made in this folder.
pub fn case(index: u64, random: &mut Random, folder: &Path) -> Case {
    let (subject, label) = SUBJECTS[(index % SUBJECTS.len() as u64) as usize];
    let kind = random.pick(&Kind::ALL);
    let sectors = match random.below(60) {
        0 => 256,
        1..=3 => 16,
        _ => random.pick(&[1, 1, 1, 2, 2, 3]),
    };
    let image = match subject {
        Subject::RandomImage => puts::image(random, sectors),
        _ => near_rows::image(random, kind, sectors),
    };
    let name = random.pick(&["image", "an image.bin", "sub/image"]);
    let mut caller = Caller::new(random, folder, kind, name, image.len());
    let calls = match subject {
        Subject::PutAndGet => caller.put_and_get(),
        Subject::NearRows | Subject::RandomImage => caller.looks(),
        Subject::MixedCalls => caller.several(Caller::any_call),
        Subject::WrongTexts => caller.several(Caller::put_of_wrong_text),
        Subject::NoSuchSlot => caller.several(Caller::call_of_no_slot),
        Subject::WrongImage => caller.several(Caller::good_call),
        Subject::WrongArguments => caller.several(Caller::spoilt_call),
    };
    let (calls, files) = match subject {
        Subject::WrongImage => spoil_image(random, calls, name),
        _ => (calls, vec![(name, image)]),
    };
    Case {
        label,
        files,
        calls,
    }
}

type Call = Vec<OsString>;

/// Makes calls on one image, mostly for the kind of its rows and a few slots.
struct Caller<'a> {
    random: &'a mut Random,
    folder: &'a Path,
    kind: Kind,
    name: &'static str,
    length: usize,
    slots: [usize; 3],
}

impl<'a> Caller<'a> {
    fn new(
        random: &'a mut Random,
        folder: &'a Path,
        kind: Kind,
        name: &'static str,
        length: usize,
    ) -> Caller<'a> {
        let slots = [0; 3].map(|_| some_slot(random, kind, length));
        Caller {
            random,
            folder,
            kind,
            name,
            length,
            slots,
        }
    }

    fn several(&mut self, call: fn(&mut Self) -> Call) -> Vec<Call> {
        let count = self.random.between(1, 8);
        (0..count).map(|_| call(self)).collect()
    }

    fn put_and_get(&mut self) -> Vec<Call> {
        let mut calls = Vec::new();
        for _ in 0..self.random.between(1, 4) {
            let kind = self.some_kind();
            let slot = self.slot(kind);
            calls.push(self.put(kind, slot));
            calls.push(self.get(kind, slot));
        }
        calls.push(self.list(self.kind));
        calls
    }

    fn looks(&mut self) -> Vec<Call> {
        let mut calls = Kind::ALL.map(|kind| self.list(kind)).to_vec();
        for _ in 0..3 {
            let kind = self.some_kind();
            let slot = self.slot(kind);
            calls.push(self.get(kind, slot));
        }
        calls
    }

    fn any_call(&mut self) -> Call {
        match self.random.below(10) {
            0 => self.put_of_wrong_text(),
            1 => self.call_of_no_slot(),
            2 => self.spoilt_call(),
            _ => self.good_call(),
        }
    }

    fn good_call(&mut self) -> Call {
        let kind = self.some_kind();
        let slot = self.slot(kind);
        match self.random.below(6) {
            0 => self.list(kind),
            1 | 2 => self.get(kind, slot),
            _ => self.put(kind, slot),
        }
    }

    fn put_of_wrong_text(&mut self) -> Call {
        let kind = self.some_kind();
        let slot = self.slot(kind);
        let mut call = self.put(kind, slot);
        match (self.random.below(2), kind) {
            (0, Kind::Temperature) => call[4] = texts::no_value(self.random, 1).into(),
            (0, Kind::Reflector) => call[4] = OsString::from_vec(texts::no_name(self.random)),
            _ => call[5] = texts::no_value(self.random, 2).into(),
        }
        call
    }

    fn call_of_no_slot(&mut self) -> Call {
        let kind = self.some_kind();
        let slot = self.slot(kind);
        let mut call = match self.random.below(2) {
            0 => self.get(kind, slot),
            _ => self.put(kind, slot),
        };
        call[3] = no_slot(self.random, kind, self.length).into();
        call
    }

    fn spoilt_call(&mut self) -> Call {
        let mut call = self.good_call();
        match self.random.below(5) {
            0 => call.truncate(1 + self.random.below(call.len() - 1)),
            1 => call.push(self.random.pick(&["", "0", self.name]).into()),
            2 => call[0] = self.random.pick(&["", "List", "gets", "pu", "-"]).into(),
            3 => {
                let kinds = ["", "Temperature", "temp", "reflectors", "54", "reflector "];
                call[1] = self.random.pick(&kinds).into();
            }
            _ => {
                call.remove(self.random.below(call.len()));
            }
        }
        call
    }

    fn list(&mut self, kind: Kind) -> Call {
        vec!["list".into(), kind_text(kind), self.image()]
    }

    fn get(&mut self, kind: Kind, slot: usize) -> Call {
        let slot = texts::slot(self.random, slot as u64).into();
        vec!["get".into(), kind_text(kind), self.image(), slot]
    }

    fn put(&mut self, kind: Kind, slot: usize) -> Call {
        let slot = texts::slot(self.random, slot as u64).into();
        let (first, hundredths) = match near_rows::row(self.random, kind) {
            Row::Temperature { tenths, hundredths } => {
                (texts::value(self.random, tenths, 1).into(), hundredths)
            }
            Row::Reflector { hundredths, .. } => {
                (OsString::from_vec(texts::name(self.random)), hundredths)
            }
        };
        let second = texts::value(self.random, hundredths, 2).into();
        let image = self.image();
        vec!["put".into(), kind_text(kind), image, slot, first, second]
    }

    fn image(&mut self) -> OsString {
        path(self.random, self.folder, self.name)
    }

    fn some_kind(&mut self) -> Kind {
        if self.random.percent(80) {
            self.kind
        } else {
            self.random.pick(&Kind::ALL)
        }
    }

    fn slot(&mut self, kind: Kind) -> usize {
        if kind == self.kind && self.random.percent(80) {
            self.random.pick(&self.slots)
        } else {
            some_slot(self.random, kind, self.length)
        }
    }
}

fn kind_text(kind: Kind) -> OsString {
    match kind {
        Kind::Temperature => "temperature".into(),
        Kind::Reflector => "reflector".into(),
    }
}

/// A slot: the first, the last, one at a border of pages or sectors, or any.
fn some_slot(random: &mut Random, kind: Kind, length: usize) -> usize {
    let last = length / kind.row_length() - 1;
    let border = match random.below(5) {
        0 => return 0,
        1 => return last,
        2 => random.between(1, length / PAGE) * PAGE,
        3 => random.between(1, length / SECTOR) * SECTOR,
        _ => return random.between(0, last),
    };
    last.min((border - 1) / kind.row_length())
}

/// The text of a slot that is not there, also one whose place would come out
/// small if its digits over 32 or 64 bits were lost.
fn no_slot(random: &mut Random, kind: Kind, length: usize) -> String {
    let row = kind.row_length() as u64;
    let slots = length as u64 / row;
    let slot = match random.below(8) {
        0 => slots,
        1 => slots + 1,
        2 => length as u64,
        3 => (1 << 32) + random.below(slots as usize) as u64,
        4 => (1 << 32) / row + 1,
        5 => u64::MAX / row + 1,
        6 => u64::MAX - random.below(3) as u64,
        _ => return texts::no_number(random).to_string(),
    };
    texts::slot(random, slot)
}

/// The calls with no image to call on, or with one of wrong length.
fn spoil_image(
    random: &mut Random,
    mut calls: Vec<Call>,
    name: &'static str,
) -> (Vec<Call>, Vec<(&'static str, Vec<u8>)>) {
    if random.percent(40) {
        for call in &mut calls {
            call[2] = random.pick(&[ABSENT, FOLDER, ""]).into();
        }
        return (calls, vec![(name, vec![0xFF; SECTOR])]);
    }
    let length = random.pick(&[0, 6, 11, 4095, 4097, 8191, 257 * SECTOR]);
    (calls, vec![(name, vec![random.byte(); length])])
}

//! An independent model of the FT25H08 flash chip and of the calibration book
//! above a flash, and what is needed to replay, invent, count and compare
//! bench traces and calls of `calibrate`.

pub mod book;
pub mod calibrate;
pub mod census;
pub mod chip;
pub mod compare;
pub mod decimal;
pub mod field;
pub mod hex;
pub mod images;
pub mod put;
pub mod random;
pub mod recorder;
pub mod replay;
pub mod rows;
pub mod story;
pub mod tour;
pub mod trace;

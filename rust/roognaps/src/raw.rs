//! The functions of the static library for callers with buffers of their own: with slices, and as the
//! library declares them. What each promises stands in `include/roognaps.h`;
//! [`Resolver`](crate::Resolver) is the usual way.
//!
//! Slices may have any length, also too short a one: the call then gives refusal 1 and touches nothing.
//! The functions as the library declares them (`roognaps_..`) take a slice as a pointer and a length; the
//! pointers must be valid for their lengths, and no buffer that is written may overlap another.
//!
//! A result is one number; `read` says what it stands for, as an enum, or that the library can't have
//! given it.
//!
//! What a call finds in the buffers changes nothing in its result: every call loads its file. After an
//! accepted file the record words hold its index as `docs/LAYOUT.md` sets out, for looking at in a
//! debugger; no function takes them in again.
//!
//! A call that answers wants a thread with 8 MB of stack ([`on_large_stack`](crate::on_large_stack)),
//! and too little ends the process. Loading takes little.
//!
//! ```
//! use roognaps::on_large_stack;
//! use roognaps::raw::{self, Buffers, LineAnswer};
//!
//! let mut records = vec![0; raw::RECORD_WORDS];
//! let mut types = vec![0; raw::TYPE_WORDS];
//! let mut places = vec![[0; 5]; raw::PLACES];
//! let mut out = vec![0; raw::ANSWER_BYTES];
//! let file = b"index\t1\nQ\tdef\t0\t0\n";
//!
//! let buffers = Buffers {
//!     records: &mut records,
//!     types: &mut types,
//!     places: &mut places,
//!     out: &mut out,
//! };
//! let given = on_large_stack(|| raw::answer(file, 0, 0, buffers))?;
//! assert_eq!(given.read()?, LineAnswer::Line { bytes: 19 });
//! assert_eq!(&out[..19], b"def\t0\t0\ttype\terror\n");
//! # Ok::<(), Box<dyn std::error::Error>>(())
//! ```

use std::fmt;

use crate::{LibraryFault, Refusal};

/// Words of 32 bits in a record buffer.
pub const RECORD_WORDS: usize = 16_384;
/// Words of 32 bits in a type buffer.
pub const TYPE_WORDS: usize = 8_192;
/// Places in a list of open demands.
pub const PLACES: usize = 256;
/// Bytes in an answer buffer.
pub const ANSWER_BYTES: usize = 4_160;
/// A file has no more questions.
pub const QUESTIONS: u32 = 256;

/// A place of the list of open demands.
pub type Place = [u32; 5];

/// The buffers of a call that answers.
pub struct Buffers<'a> {
    /// The record buffer.
    pub records: &'a mut [u32],
    /// The type buffer.
    pub types: &'a mut [u32],
    /// The list of open demands.
    pub places: &'a mut [Place],
    /// The answer buffer.
    pub out: &'a mut [u8],
}

/// Says how long they are, not what they hold.
impl fmt::Debug for Buffers<'_> {
    fn fmt(&self, f: &mut fmt::Formatter<'_>) -> fmt::Result {
        write_lengths(
            f,
            "Buffers",
            self.records,
            self.types,
            self.places,
            self.out,
        )
    }
}

/// Something with four buffers, by their lengths.
pub(crate) fn write_lengths(
    f: &mut fmt::Formatter<'_>,
    name: &str,
    records: &[u32],
    types: &[u32],
    places: &[Place],
    out: &[u8],
) -> fmt::Result {
    f.debug_struct(name)
        .field("record_words", &records.len())
        .field("type_words", &types.len())
        .field("places", &places.len())
        .field("answer_bytes", &out.len())
        .finish()
}

/// What [`load`] ends in.
#[derive(Debug, Clone, Copy, PartialEq, Eq)]
pub enum Loaded {
    /// The file is accepted.
    Accepted,
    /// The file is refused, 1 to 5.
    Refused(Refusal),
}

/// What [`answer`] ends in.
#[derive(Debug, Clone, Copy, PartialEq, Eq)]
pub enum LineAnswer {
    /// The line stands at the start of the answer buffer.
    Line {
        /// How many bytes it has, LF included.
        bytes: usize,
    },
    /// The line is refused, 6 to 10.
    Refused {
        /// Why.
        refusal: Refusal,
        /// How many bytes stand for it at the start of the answer buffer: 0 today.
        bytes: usize,
    },
    /// The question has no line of this number.
    PastLast,
    /// The file is refused, 1 to 5.
    FileRefused(Refusal),
}

/// What [`answer_from`] ends in.
#[derive(Debug, Clone, Copy, PartialEq, Eq)]
pub enum LinesAnswer {
    /// All lines from there on stand at the start of the answer buffer.
    End {
        /// How many bytes they have.
        bytes: usize,
    },
    /// Some lines, at least one, stand at the start of the answer buffer; the next has no room.
    More {
        /// The question to go on with.
        question: u32,
        /// Its line to go on with.
        line: u32,
        /// How many bytes they have.
        bytes: usize,
    },
    /// The file is refused, 1 to 5.
    FileRefused(Refusal),
}

/// What [`load`] gives: one number.
#[derive(Debug, Clone, Copy, PartialEq, Eq)]
#[repr(transparent)]
#[must_use]
pub struct LoadResult {
    /// The number; `include/roognaps.h` has its parts.
    pub bits: u64,
}

/// What [`answer`] gives: one number.
#[derive(Debug, Clone, Copy, PartialEq, Eq)]
#[repr(transparent)]
#[must_use]
pub struct LineResult {
    /// The number; `include/roognaps.h` has its parts.
    pub bits: u64,
}

/// What [`answer_from`] gives: one number.
#[derive(Debug, Clone, Copy, PartialEq, Eq)]
#[repr(transparent)]
#[must_use]
pub struct LinesResult {
    /// The number; `include/roognaps.h` has its parts.
    pub bits: u64,
}

impl LoadResult {
    /// What the number stands for; the error is a number that no call gives.
    pub fn read(self) -> Result<Loaded, LibraryFault> {
        let read = match fields(self.bits) {
            (0, 0, 0) => Some(Loaded::Accepted),
            (3, number, line) => Refusal::of_file(number, line).map(Loaded::Refused),
            _ => None,
        };
        read.ok_or_else(|| no_result("load", self.bits))
    }
}

impl LineResult {
    /// What the number stands for; the error is a number that no call gives. `bytes` are at most
    /// [`ANSWER_BYTES`].
    pub fn read(self) -> Result<LineAnswer, LibraryFault> {
        let read = match fields(self.bits) {
            (0, 0, bytes) => some_bytes(bytes).map(|bytes| LineAnswer::Line { bytes }),
            (1, number, bytes) => refused_line(number, bytes),
            (2, 0, 0) => Some(LineAnswer::PastLast),
            (3, number, line) => Refusal::of_file(number, line).map(LineAnswer::FileRefused),
            _ => None,
        };
        read.ok_or_else(|| no_result("answer", self.bits))
    }
}

impl LinesResult {
    /// What the number stands for; the error is a number that no call gives. `bytes` are at most
    /// [`ANSWER_BYTES`], and `question` is below [`QUESTIONS`].
    pub fn read(self) -> Result<LinesAnswer, LibraryFault> {
        let read = match fields(self.bits) {
            (0, 0, bytes) => answer_bytes(bytes).map(|bytes| LinesAnswer::End { bytes }),
            (1, question, rest) => more(question, rest >> 16, rest & 0xffff),
            (3, number, line) => Refusal::of_file(number, line).map(LinesAnswer::FileRefused),
            _ => None,
        };
        read.ok_or_else(|| no_result("answer_from", self.bits))
    }
}

/// The parts of a result: its kind, by the numbers of `include/roognaps.h`; a refusal's number, or the
/// question to go on with; the rest.
fn fields(bits: u64) -> (u64, u32, u32) {
    (bits >> 48, (bits >> 32) as u32 & 0xffff, bits as u32)
}

/// How many bytes of an answer buffer, which has so many.
fn answer_bytes(bytes: u32) -> Option<usize> {
    let bytes = usize::try_from(bytes).ok()?;
    (bytes <= ANSWER_BYTES).then_some(bytes)
}

/// The same where there is a line, which is never empty.
fn some_bytes(bytes: u32) -> Option<usize> {
    answer_bytes(bytes).filter(|bytes| *bytes > 0)
}

fn refused_line(number: u32, bytes: u32) -> Option<LineAnswer> {
    let refusal = Refusal::of_line(number)?;
    let bytes = answer_bytes(bytes)?;
    Some(LineAnswer::Refused { refusal, bytes })
}

fn more(question: u32, line: u32, bytes: u32) -> Option<LinesAnswer> {
    let bytes = some_bytes(bytes)?;
    (question < QUESTIONS).then_some(LinesAnswer::More {
        question,
        line,
        bytes,
    })
}

fn no_result(function: &str, bits: u64) -> LibraryFault {
    LibraryFault::new(format!("{bits:#018x} is no result of {function}"))
}

/// [`roognaps_load`] with slices of any length.
pub fn load(file: &[u8], records: &mut [u32]) -> LoadResult {
    // SAFETY: both are slices with their lengths, and don't overlap.
    unsafe {
        roognaps_load(
            file.as_ptr(),
            file.len(),
            records.as_mut_ptr(),
            records.len(),
        )
    }
}

unsafe extern "C" {
    /// Loads a file, to check it.
    pub fn roognaps_load(
        file: *const u8,
        file_bytes: usize,
        records: *mut u32,
        record_count: usize,
    ) -> LoadResult;
}

/// A function that answers, with slices and as the library declares it: both functions take a file, the
/// numbers of a question and of its line, and the four buffers.
macro_rules! answering {
    (
        $(#[$with_slices:meta])* $slices:ident,
        $(#[$as_declared:meta])* $declared:ident -> $given:ident
    ) => {
        $(#[$with_slices])*
        pub fn $slices(file: &[u8], question: u32, line: u32, buffers: Buffers<'_>) -> $given {
            let Buffers {
                records,
                types,
                places,
                out,
            } = buffers;
            // SAFETY: all are slices with their lengths, and none overlaps another. Too little stack is
            // no danger to memory: the library's frames that are larger than a page touch each page in
            // turn (tools/library_runs.py looks at them), so that the guard page below the stack ends
            // the process, as in any deep recursion in Rust.
            unsafe {
                $declared(
                    file.as_ptr(),
                    file.len(),
                    question,
                    line,
                    records.as_mut_ptr(),
                    records.len(),
                    types.as_mut_ptr(),
                    types.len(),
                    places.as_mut_ptr(),
                    places.len(),
                    out.as_mut_ptr(),
                    out.len(),
                )
            }
        }

        unsafe extern "C" {
            $(#[$as_declared])*
            pub fn $declared(
                file: *const u8,
                file_bytes: usize,
                question: u32,
                line: u32,
                records: *mut u32,
                record_count: usize,
                types: *mut u32,
                type_count: usize,
                places: *mut Place,
                place_count: usize,
                out: *mut u8,
                out_count: usize,
            ) -> $given;
        }
    };
}

answering! {
    /// [`roognaps_answer`] with slices of any length.
    answer,
    /// Loads a file and answers the line of a question, both by their numbers, from 0.
    roognaps_answer -> LineResult
}

answering! {
    /// [`roognaps_answer_from`] with slices of any length.
    answer_from,
    /// Loads a file and answers its questions from a question's line on, as many lines as fit; where the
    /// question has no such line, from the next question on.
    roognaps_answer_from -> LinesResult
}

#[cfg(test)]
mod tests {
    use super::*;

    /// Four parts of 16 bits.
    fn bits([kind, number, high, low]: [u64; 4]) -> u64 {
        (kind << 48) + (number << 32) + (high << 16) + low
    }

    fn load_of(parts: [u64; 4]) -> Option<Loaded> {
        LoadResult { bits: bits(parts) }.read().ok()
    }

    fn line_of(parts: [u64; 4]) -> Option<LineAnswer> {
        LineResult { bits: bits(parts) }.read().ok()
    }

    fn lines_of(parts: [u64; 4]) -> Option<LinesAnswer> {
        LinesResult { bits: bits(parts) }.read().ok()
    }

    const FORM: Refusal = Refusal::Form { line: 65_543 };

    #[test]
    fn results_of_load() {
        assert_eq!(load_of([0, 0, 0, 0]), Some(Loaded::Accepted));
        assert_eq!(load_of([3, 4, 1, 7]), Some(Loaded::Refused(FORM)));
        for wrong in [[0, 0, 0, 1], [0, 1, 0, 0], [0, 0, 1, 0]] {
            assert_eq!(load_of(wrong), None, "{wrong:?}");
        }
        for kind in [1, 2, 4, 0x7fff, 0xffff] {
            assert_eq!(load_of([kind, 0, 0, 0]), None, "{kind}");
            assert_eq!(load_of([kind, 4, 1, 7]), None, "{kind}");
        }
        for number in [0, 6, 10, 11, 260, 0xffff] {
            assert_eq!(load_of([3, number, 0, 7]), None, "{number}");
        }
    }

    #[test]
    fn results_of_answer() {
        for bytes in [1, 21, 4_160] {
            let line = LineAnswer::Line { bytes };
            assert_eq!(line_of([0, 0, 0, bytes as u64]), Some(line));
        }
        for bytes in [0, 9, 4_160] {
            let refusal = Refusal::Ring;
            let refused = LineAnswer::Refused { refusal, bytes };
            assert_eq!(line_of([1, 7, 0, bytes as u64]), Some(refused));
        }
        assert_eq!(line_of([2, 0, 0, 0]), Some(LineAnswer::PastLast));
        let refused = LineAnswer::FileRefused(FORM);
        assert_eq!(line_of([3, 4, 1, 7]), Some(refused));
        let ruled_out = [
            [0, 0, 0, 0],
            [0, 0, 0, 4_161],
            [0, 0, 1, 21],
            [0, 1, 0, 21],
            [1, 5, 0, 0],
            [1, 11, 0, 0],
            [1, 7, 0, 4_161],
            [2, 0, 0, 1],
            [2, 1, 0, 0],
            [2, 0, 1, 0],
            [3, 6, 0, 0],
            [3, 0, 0, 0],
            [4, 0, 0, 21],
            [0xffff, 0, 0, 21],
        ];
        for wrong in ruled_out {
            assert_eq!(line_of(wrong), None, "{wrong:?}");
        }
    }

    #[test]
    fn results_of_answer_from() {
        for bytes in [0, 21, 4_160] {
            let end = LinesAnswer::End { bytes };
            assert_eq!(lines_of([0, 0, 0, bytes as u64]), Some(end));
        }
        for (question, line, bytes) in [(0, 1, 1), (255, 0, 4_160), (255, 65_535, 21)] {
            let more = LinesAnswer::More {
                question,
                line,
                bytes,
            };
            let parts = [1, question.into(), line.into(), bytes as u64];
            assert_eq!(lines_of(parts), Some(more));
        }
        let refused = LinesAnswer::FileRefused(FORM);
        assert_eq!(lines_of([3, 4, 1, 7]), Some(refused));
        let ruled_out = [
            [0, 0, 0, 4_161],
            [0, 0, 1, 0],
            [0, 1, 0, 21],
            [1, 1, 0, 0],
            [1, 1, 0, 4_161],
            [1, 256, 0, 21],
            [2, 0, 0, 0],
            [3, 6, 0, 0],
            [3, 0, 0, 0],
            [4, 1, 0, 21],
            [0x8000, 4, 0, 7],
        ];
        for wrong in ruled_out {
            assert_eq!(lines_of(wrong), None, "{wrong:?}");
        }
    }

    #[test]
    fn a_fault_says_the_number() {
        let fault = LineResult { bits: 4_161 }.read().expect_err("too long");
        assert_eq!(
            fault.to_string(),
            "not the library of this crate: 0x0000000000001041 is no result of answer"
        );
    }
}

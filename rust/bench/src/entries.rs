//! The proved entries that answer, over buffers of one's own.

use roognaps::raw::{
    self, ANSWER_BYTES, LineAnswer, LinesAnswer, PLACES, Place, RECORD_WORDS, TYPE_WORDS,
};

/// The four buffers, as long as document 01 asks.
pub struct Buffers {
    pub records: Vec<u32>,
    pub types: Vec<u32>,
    pub places: Vec<Place>,
    pub out: Vec<u8>,
}

impl Buffers {
    pub fn new() -> Self {
        Self {
            records: vec![0; RECORD_WORDS],
            types: vec![0; TYPE_WORDS],
            places: vec![[0; 5]; PLACES],
            out: vec![0; ANSWER_BYTES],
        }
    }

    fn lent(&mut self) -> raw::Buffers<'_> {
        raw::Buffers {
            records: &mut self.records,
            types: &mut self.types,
            places: &mut self.places,
            out: &mut self.out,
        }
    }
}

/// The first line of a question.
pub fn first_line<'b>(
    file: &[u8],
    question: u32,
    buffers: &'b mut Buffers,
) -> Result<&'b [u8], String> {
    match raw::answer(file, question, 0, buffers.lent()).read() {
        Ok(LineAnswer::Line { bytes }) => Ok(&buffers.out[..bytes]),
        other => Err(format!("no line: {other:?}")),
    }
}

/// All lines of a file, and how many calls they took.
pub fn all_lines(file: &[u8], buffers: &mut Buffers) -> Result<(Vec<u8>, usize), String> {
    let (mut lines, mut from, mut calls) = (Vec::new(), (0, 0), 0);
    loop {
        calls += 1;
        let given = raw::answer_from(file, from.0, from.1, buffers.lent()).read();
        let (bytes, next) = match given {
            Ok(LinesAnswer::End { bytes }) => (bytes, None),
            Ok(LinesAnswer::More {
                question,
                line,
                bytes,
            }) => (bytes, Some((question, line))),
            other => return Err(format!("no lines: {other:?}")),
        };
        lines.extend_from_slice(&buffers.out[..bytes]);
        match next {
            Some(next) => from = next,
            None => return Ok((lines, calls)),
        }
    }
}

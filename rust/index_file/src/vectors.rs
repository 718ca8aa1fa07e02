//! Vectors: index files with the lines they are answered with, many in one file.
//!
//! Each vector is one line `vector NAME INDEX-BYTES ANSWER-BYTES`, its fields parted by one blank and
//! ended by LF, then exactly that many bytes of index file, then that many bytes of answer. The next
//! vector follows at once. Answers end in LF or are empty, and an index may have any bytes at all.

use std::fmt;

#[derive(Debug, Clone, PartialEq, Eq)]
pub struct Vector {
    /// Without blanks.
    pub name: String,
    pub index: Vec<u8>,
    pub answer: Vec<u8>,
}

impl Vector {
    /// Writes the vector behind what is there.
    pub fn write(&self, bytes: &mut Vec<u8>) {
        let (index, answer) = (self.index.len(), self.answer.len());
        let head = format!("vector {} {index} {answer}\n", self.name);
        bytes.extend_from_slice(head.as_bytes());
        bytes.extend_from_slice(&self.index);
        bytes.extend_from_slice(&self.answer);
    }
}

/// Bytes that aren't vectors, and where.
#[derive(Debug, Clone, PartialEq, Eq)]
pub struct NoVector {
    pub at: usize,
    pub reason: &'static str,
}

impl fmt::Display for NoVector {
    fn fmt(&self, f: &mut fmt::Formatter<'_>) -> fmt::Result {
        write!(f, "at byte {}: {}", self.at, self.reason)
    }
}

/// All vectors of a file.
pub fn read(bytes: &[u8]) -> Result<Vec<Vector>, NoVector> {
    let mut vectors = Vec::new();
    let mut at = 0;
    while at < bytes.len() {
        let (vector, length) = read_one(&bytes[at..]).map_err(|reason| NoVector { at, reason })?;
        vectors.push(vector);
        at += length;
    }
    Ok(vectors)
}

/// The first vector and its length with its head.
fn read_one(bytes: &[u8]) -> Result<(Vector, usize), &'static str> {
    let end = bytes.iter().position(|b| *b == b'\n');
    let end = end.ok_or("a head without LF")?;
    let head = std::str::from_utf8(&bytes[..end]).map_err(|_| "a head that is no text")?;
    let fields: Vec<&str> = head.split(' ').collect();
    let ["vector", name, index, answer] = fields[..] else {
        return Err("a head that isn't `vector NAME INDEX-BYTES ANSWER-BYTES`");
    };
    let length = |text: &str| {
        text.parse::<usize>()
            .map_err(|_| "a length that is no number")
    };
    let (index, answer) = (length(index)?, length(answer)?);
    let rest = &bytes[end + 1..];
    if name.is_empty() || rest.len() < index || rest.len() - index < answer {
        return Err("a head that promises more bytes than follow");
    }
    let vector = Vector {
        name: name.to_string(),
        index: rest[..index].to_vec(),
        answer: rest[index..index + answer].to_vec(),
    };
    Ok((vector, end + 1 + index + answer))
}

//! One input through the static library, and all that is known of it compared: the verdict and the
//! record words with the Rust loader's, the answers with the oracle's where the original sources are
//! reachable, one way of asking with the other, and every buffer with what it has to hold. (Of the type
//! words after a type only its text is known, the answer line; after `none` all are.) The first
//! difference panics; a step over the end of a buffer ends the process.

#[cfg(feature = "libfuzzer")]
mod gentle;
mod guarded;
#[cfg(feature = "libfuzzer")]
mod libfuzzer;

use std::fmt;

use guarded::Guarded;
use index_file::load::{Refusal, load};
use index_file::records::Index;
use index_file::words::{WORDS, with_plain_empty_lists, words};
use roognaps::raw::{
    self, ANSWER_BYTES, Buffers, LineAnswer, LinesAnswer, Loaded, PLACES, Place, RECORD_WORDS,
    TYPE_WORDS,
};
use roognaps::{AnswerLine, Said};

const _: () = assert!(WORDS == RECORD_WORDS, "both sides count as many words");

/// What the buffers hold before a call.
const WORD: u32 = 0xA5A5_A5A5;
const BYTE: u8 = 0xA5;

/// Files are at most this long; longer ones are cut.
const MOST_BYTES: usize = 1 << 20;

/// Questions of a file that are also asked one by one.
const ONE_BY_ONE: usize = 16;

/// Demands of one question, above which the oracle gives up and the file is passed over: an answer
/// may take very long (docs/DIFFERENCES.md, 3).
#[cfg(originals)]
const BUDGET: u64 = 20_000;

/// A file whose line makes no type beside the six that every line begins with.
const ONLY_FELT: &[u8] = b"index\t1\nM\tm\nS\t-\tmodule\nT\tfelt\nQ\ttype\t0\t0\t0\n";

/// How many inputs came to which end.
#[derive(Debug, Clone, Copy, Default)]
pub struct Counts {
    pub inputs: u64,
    pub accepted: u64,
    /// Refused by 2 to 5.
    pub refused: [u64; 4],
    /// Accepted files whose answers weren't asked for.
    pub passed_over: u64,
    pub types: u64,
    /// Questions `at` where no expression is.
    pub nones: u64,
    /// Questions refused by 6 to 10.
    pub questions_refused: [u64; 5],
}

impl fmt::Display for Counts {
    fn fmt(&self, f: &mut fmt::Formatter<'_>) -> fmt::Result {
        let [two, three, four, five] = self.refused;
        let [six, seven, eight, nine, ten] = self.questions_refused;
        write!(
            f,
            "{} inputs: {} accepted ({} passed over), refused by 2: {two}, 3: {three}, 4: {four}, \
             5: {five}; answers: {} types, {} none, 6: {six}, 7: {seven}, 8: {eight}, 9: {nine}, \
             10: {ten}",
            self.inputs, self.accepted, self.passed_over, self.types, self.nones
        )
    }
}

/// The buffers, each with a guarded page behind it, and the counts.
pub struct Target {
    file: Guarded<u8>,
    records: Guarded<u32>,
    types: Guarded<u32>,
    places: Guarded<Place>,
    out: Guarded<u8>,
    /// The words that loading alone leaves where the buffer was filled before, if the file is accepted.
    loaded: Vec<u32>,
    /// The type words that hold the six first types and zeros.
    first_types: Vec<u32>,
    pub counts: Counts,
}

impl Default for Target {
    fn default() -> Self {
        let mut target = Self {
            file: Guarded::new(MOST_BYTES),
            records: Guarded::new(RECORD_WORDS),
            types: Guarded::new(TYPE_WORDS),
            places: Guarded::new(PLACES),
            out: Guarded::new(ANSWER_BYTES),
            loaded: Vec::new(),
            first_types: Vec::new(),
            counts: Counts::default(),
        };
        target.first_types = target.types_after_felt();
        target
    }
}

/// What the oracle prints for an accepted file; none if it gives up a question.
#[cfg(originals)]
fn owed_lines(index: &Index) -> Option<Vec<String>> {
    let options = oracle::Options {
        budget: BUDGET,
        ..oracle::Options::default()
    };
    let answers = oracle::Oracle::new(index, options).answers();
    let lines: Vec<String> = answers.iter().map(oracle::Answer::line).collect();
    (!oracle::gives_up(&lines)).then_some(lines)
}

/// Without the originals only the beginning of each line is known.
#[cfg(not(originals))]
fn owed_lines(index: &Index) -> Option<Vec<String>> {
    let leads = index.questions.iter().map(|question| {
        let (kind, module, number) = question.lead();
        format!("{kind}\t{module}\t{number}\t")
    });
    Some(leads.collect())
}

fn is_as_owed(line: &str, owed: &str) -> bool {
    match cfg!(originals) {
        true => line == owed,
        false => line.starts_with(owed),
    }
}

impl Target {
    /// One input, with everything compared.
    pub fn one_input(&mut self, file: &[u8]) {
        let file = &file[..file.len().min(MOST_BYTES)];
        self.file.last(file.len()).copy_from_slice(file);
        let length = file.len();
        self.counts.inputs += 1;
        let expected = load(file);
        self.loading(length, file, &expected);
        match expected {
            Err(refusal) => {
                self.counts.refused[usize::from(refusal.number) - 2] += 1;
                self.refused_file(length, refusal);
            }
            Ok(index) => {
                self.counts.accepted += 1;
                match owed_lines(&index) {
                    Some(owed) => self.accepted_file(length, &index, &owed),
                    None => self.counts.passed_over += 1,
                }
            }
        }
    }

    fn types_after_felt(&mut self) -> Vec<u32> {
        let length = ONLY_FELT.len();
        self.file.last(length).copy_from_slice(ONLY_FELT);
        let LineAnswer::Line { bytes } = self.answer(length, 0, 0) else {
            panic!("the type of felt has a line");
        };
        assert_eq!(self.lines_in_out(bytes), ["type\t0\t0\ttype\tfelt"]);
        let types = self.types.all().to_vec();
        assert!(!all_are(&types, 0), "felt is a type");
        types
    }

    fn fill(&mut self) {
        self.records.all().fill(WORD);
        self.types.all().fill(WORD);
        self.places.all().fill([WORD; 5]);
        self.out.all().fill(BYTE);
    }

    fn loading(&mut self, length: usize, file: &[u8], expected: &Result<Index, Refusal>) {
        let lent = self.file.last(length);
        let records = self.records.all();
        records.fill(0);
        let verdict = raw::load(lent, records).read();
        match expected {
            Ok(index) => {
                assert_eq!(verdict, Ok(Loaded::Accepted), "loading");
                let owed = with_plain_empty_lists(&words(file, index));
                assert_eq!(with_plain_empty_lists(records), owed, "record words");
            }
            Err(refusal) => {
                assert_eq!(verdict, Ok(Loaded::Refused(said(*refusal))), "loading");
                assert!(all_are(records, 0), "records");
            }
        }
        self.loaded.clear();
        self.loaded.extend_from_slice(records);
        records.fill(WORD);
        assert_eq!(raw::load(lent, records).read(), verdict, "loading again");
        assert!(expected.is_ok() || all_are(records, 0), "records");
        // Each word is written as in a cleared buffer, or left.
        for (word, cleared) in records.iter().zip(&self.loaded) {
            assert!(
                word == cleared || (*word == WORD && *cleared == 0),
                "record words"
            );
        }
        self.loaded.copy_from_slice(records);
        records.fill(WORD);
        assert_eq!(
            raw::load(lent, &mut records[1..]).read(),
            Ok(Loaded::Refused(roognaps::Refusal::ShortBuffer)),
            "a short buffer"
        );
        assert!(all_are(records, WORD), "records");
    }

    /// Fills the buffers and lends them for a call.
    fn lent(&mut self, length: usize) -> (&[u8], Buffers<'_>) {
        self.fill();
        let buffers = Buffers {
            records: self.records.all(),
            types: self.types.all(),
            places: self.places.all(),
            out: self.out.all(),
        };
        (self.file.last(length), buffers)
    }

    fn answer(&mut self, length: usize, question: u32, line: u32) -> LineAnswer {
        let (file, buffers) = self.lent(length);
        let given = raw::answer(file, question, line, buffers).read();
        given.expect("a result of answer")
    }

    fn answer_from(&mut self, length: usize, question: u32, line: u32) -> LinesAnswer {
        let (file, buffers) = self.lent(length);
        let given = raw::answer_from(file, question, line, buffers).read();
        given.expect("a result of answer_from")
    }

    fn assert_zero_records_and_the_rest_as_it_was(&mut self) {
        assert!(all_are(self.records.all(), 0), "records");
        self.assert_types_and_places(WORD);
        self.assert_out_as_it_was();
    }

    /// After a line `none` there are the six types that every line begins with.
    fn assert_types_after(&mut self, line: &str) {
        if line.ends_with("\tnone") {
            assert!(self.types.all() == self.first_types, "types after none");
        }
    }

    fn assert_types_and_places(&mut self, word: u32) {
        assert!(all_are(self.types.all(), word), "types");
        assert!(all_are(self.places.all(), [word; 5]), "places");
    }

    /// Answering leaves the words that loading left, also those that no record uses. (Promised is that
    /// they hold the same index.)
    fn assert_loaded_records(&mut self) {
        assert!(self.records.all() == self.loaded, "records");
    }

    fn assert_out_as_it_was(&mut self) {
        assert!(all_are(self.out.all(), BYTE), "out");
    }

    fn refused_file(&mut self, length: usize, refusal: Refusal) {
        let refusal = said(refusal);
        let given = self.answer(length, 0, 0);
        assert_eq!(given, LineAnswer::FileRefused(refusal), "answer");
        self.assert_zero_records_and_the_rest_as_it_was();
        let given = self.answer_from(length, 0, 0);
        assert_eq!(given, LinesAnswer::FileRefused(refusal), "answer_from");
        self.assert_zero_records_and_the_rest_as_it_was();
    }

    fn accepted_file(&mut self, length: usize, index: &Index, owed: &[String]) {
        let count = index.questions.len();
        let lines = self.all_lines(length, count);
        assert_eq!(lines.len(), count, "lines");
        for (line, owed) in lines.iter().zip(owed) {
            assert!(is_as_owed(line, owed), "{line:?} instead of {owed:?}");
            let read: AnswerLine = line.parse().expect("an answer line");
            assert_eq!(read.to_string(), *line);
            match read.result {
                Ok(Said::None) => self.counts.nones += 1,
                Ok(_) => self.counts.types += 1,
                Err(refusal) => {
                    self.counts.questions_refused[refusal.number() as usize - 6] += 1;
                }
            }
        }
        let step = count.div_ceil(ONE_BY_ONE).max(1);
        for (number, line) in (0..).zip(&lines).step_by(step) {
            self.one_line(length, number, line);
            self.past_the_last(length, number);
            self.gone_on(length, number);
        }
        self.behind_the_last(length, count as u32);
    }

    /// Questions that aren't there: no line is left at the count, and above it is refused.
    fn behind_the_last(&mut self, length: usize, count: u32) {
        let lacking = roognaps::Refusal::Link { line: 0 };
        for line in [0, 1] {
            let given = self.answer(length, count, line);
            assert_eq!(given, LineAnswer::FileRefused(lacking), "no such question");
            self.assert_zero_records_and_the_rest_as_it_was();
            let given = self.answer_from(length, count + 1, line);
            assert_eq!(given, LinesAnswer::FileRefused(lacking), "from too far");
            self.assert_zero_records_and_the_rest_as_it_was();
            let given = self.answer_from(length, count, line);
            assert_eq!(given, LinesAnswer::End { bytes: 0 }, "no line");
            self.assert_loaded_records();
            self.assert_types_and_places(WORD);
            self.assert_out_as_it_was();
        }
    }

    /// The lines as `answer_from` gives them, call by call. Every question has one line.
    fn all_lines(&mut self, length: usize, count: usize) -> Vec<String> {
        let mut lines = Vec::new();
        loop {
            let before = lines.len();
            let given = self.answer_from(length, before as u32, 0);
            let (bytes, is_more) = match given {
                LinesAnswer::End { bytes } => (bytes, false),
                LinesAnswer::More { bytes, .. } => (bytes, true),
                LinesAnswer::FileRefused(refusal) => panic!("answer_from: {refusal}"),
            };
            lines.extend(self.lines_in_out(bytes));
            self.assert_loaded_records();
            if before < count {
                assert!(lines.len() > before, "no line");
                assert!(all_are(self.places.all(), [0; 5]), "places");
                let is_refused = lines.last().is_some_and(|line| is_refused(line));
                if is_more || is_refused {
                    assert!(all_are(self.types.all(), 0), "types");
                } else {
                    let last = lines.last().cloned().unwrap_or_default();
                    self.assert_types_after(&last);
                }
            }
            if !is_more {
                return lines;
            }
            let next = LinesAnswer::More {
                question: lines.len() as u32,
                line: 0,
                bytes,
            };
            assert_eq!(given, next, "the next question");
        }
    }

    /// The lines at the start of the answer buffer, behind which it is as it was.
    fn lines_in_out(&mut self, bytes: usize) -> Vec<String> {
        let (text, behind) = self.out.all().split_at(bytes);
        let text = std::str::from_utf8(text).expect("text");
        assert!(text.is_empty() || text.ends_with('\n'), "a last line");
        assert!(all_are(behind, BYTE), "behind the lines");
        text.split_terminator('\n').map(str::to_string).collect()
    }

    /// A question's line 0.
    fn one_line(&mut self, length: usize, number: u32, line: &str) {
        match self.answer(length, number, 0) {
            LineAnswer::Line { bytes } => {
                assert_eq!(self.lines_in_out(bytes), [line], "answer");
                self.assert_types_after(line);
            }
            LineAnswer::Refused { refusal, bytes } => {
                assert_eq!(bytes, 0, "a refused line has no bytes");
                let end = format!("\trefused\t{}", refusal.number());
                assert!(line.ends_with(&end), "{refusal} instead of {line:?}");
                assert!(all_are(self.types.all(), 0), "types");
                self.assert_out_as_it_was();
            }
            other => panic!("{other:?} instead of {line:?}"),
        }
        self.assert_loaded_records();
        assert!(all_are(self.places.all(), [0; 5]), "places");
    }

    /// A question's line 1.
    fn past_the_last(&mut self, length: usize, number: u32) {
        let given = self.answer(length, number, 1);
        assert_eq!(given, LineAnswer::PastLast, "line 1");
        self.assert_loaded_records();
        self.assert_types_and_places(0);
        self.assert_out_as_it_was();
    }

    /// From line 1 of a question on is from the next question on: the result and every buffer.
    fn gone_on(&mut self, length: usize, number: u32) {
        let next = self.answer_from(length, number + 1, 0);
        let types = self.types.all().to_vec();
        let places = self.places.all().to_vec();
        let out = self.out.all().to_vec();
        self.assert_loaded_records();
        let behind = self.answer_from(length, number, 1);
        assert_eq!(behind, next, "going on past the last line");
        self.assert_loaded_records();
        assert!(self.types.all() == types, "types");
        assert!(self.places.all() == places, "places");
        assert!(self.out.all() == out, "out");
    }
}

fn all_are<T: PartialEq>(elements: &[T], owed: T) -> bool {
    elements.iter().all(|element| *element == owed)
}

/// Whether an answer line is that of a refused question.
fn is_refused(line: &str) -> bool {
    line.split('\t').nth(3) == Some("refused")
}

/// The loader's refusal as the crate says it.
fn said(refusal: Refusal) -> roognaps::Refusal {
    let line = u32::try_from(refusal.line).expect("a line of a file");
    roognaps::Refusal::from_number(refusal.number.into(), line).expect("a refusal of a file")
}

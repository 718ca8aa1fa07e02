//! Questions' answers and their lines.

use index_file::load::load;

use crate::ask::Oracle;

#[derive(Debug, Clone, Copy)]
pub struct Options {
    /// Keep the results of finished demands within a question, as salsa does. Document 01 counts
    /// open demands without it.
    pub memo: bool,
    /// Find children by the expressions' own spans, as the Rust does. Otherwise the record's field
    /// alone says which child is meant.
    pub real_spans: bool,
    /// Demands of one question, above which it is given up.
    pub budget: u64,
}

impl Default for Options {
    fn default() -> Self {
        Self {
            memo: false,
            real_spans: false,
            budget: 200_000,
        }
    }
}

#[derive(Debug, Clone, PartialEq, Eq)]
pub enum Outcome {
    Type(String),
    Refused(u8),
    /// No expression covers the byte that `at` names.
    None,
    /// Given up: too many demands, or a type expression whose tree is too large.
    Budget,
}

#[derive(Debug, Clone, PartialEq, Eq)]
pub struct Answer {
    pub lead: (&'static str, usize, usize),
    pub outcome: Outcome,
    /// Demands opened, and most of them open at once.
    pub steps: u64,
    pub most_open: usize,
}

impl Answer {
    /// The answer line, without its LF.
    pub fn line(&self) -> String {
        let (kind, module, number) = self.lead;
        let rest = match &self.outcome {
            Outcome::Type(text) => format!("type\t{text}"),
            Outcome::Refused(number) => format!("refused\t{number}"),
            Outcome::None => "none".to_string(),
            Outcome::Budget => "budget".to_string(),
        };
        format!("{kind}\t{module}\t{number}\t{rest}")
    }
}

/// What `resolve` prints for these bytes, line by line.
pub fn resolve(bytes: &[u8], options: Options) -> Vec<String> {
    match load(bytes) {
        Ok(index) => {
            let answers = Oracle::new(&index, options).answers();
            answers.iter().map(Answer::line).collect()
        }
        Err(refusal) => vec![refusal.answer_line()],
    }
}

/// What `resolve` prints for these bytes.
pub fn answer_bytes(bytes: &[u8], options: Options) -> Vec<u8> {
    let mut answer = Vec::new();
    for line in resolve(bytes, options) {
        answer.extend_from_slice(line.as_bytes());
        answer.push(b'\n');
    }
    answer
}

/// Whether the oracle gave up one of the questions.
pub fn gives_up(lines: &[String]) -> bool {
    lines.iter().any(|line| line.ends_with("\tbudget"))
}

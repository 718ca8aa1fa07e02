//! Arguments, taken out as they are understood.

use std::io::{ErrorKind, Write};

pub struct Arguments {
    command: String,
    rest: Vec<String>,
}

impl Arguments {
    pub fn new(command: &str, rest: &[String]) -> Self {
        Self {
            command: command.to_string(),
            rest: rest.to_vec(),
        }
    }

    fn see_help(&self) -> String {
        format!("see `typetool {} --help`", self.command)
    }

    pub fn flag(&mut self, name: &str) -> bool {
        let at = self.rest.iter().position(|argument| argument == name);
        at.map(|at| self.rest.remove(at)).is_some()
    }

    pub fn value(&mut self, name: &str) -> Result<Option<String>, String> {
        let Some(at) = self.rest.iter().position(|argument| argument == name) else {
            return Ok(None);
        };
        self.rest.remove(at);
        if at == self.rest.len() {
            return Err(format!("{name} needs a value; {}", self.see_help()));
        }
        Ok(Some(self.rest.remove(at)))
    }

    pub fn number(&mut self, name: &str) -> Result<Option<u64>, String> {
        self.value(name)?.map(|text| number(&text)).transpose()
    }

    /// What remains, none of it an option.
    pub fn words(&self) -> Result<Vec<String>, String> {
        match self.rest.iter().find(|word| word.starts_with("--")) {
            Some(option) => Err(format!("unknown option {option}; {}", self.see_help())),
            None => Ok(self.rest.clone()),
        }
    }

    /// What remains, as exactly `N` words.
    pub fn exactly<const N: usize>(&self) -> Result<[String; N], String> {
        let words = self.words()?;
        let count = words.len();
        <[String; N]>::try_from(words)
            .map_err(|_| format!("{count} arguments instead of {N}; {}", self.see_help()))
    }

    /// The complaint about words that no form of the command has.
    pub fn wrong(&self) -> String {
        format!("these arguments fit no form; {}", self.see_help())
    }
}

pub fn number(text: &str) -> Result<u64, String> {
    let number = text.parse();
    number.map_err(|_| format!("{text:?} is no number"))
}

/// A closed pipe is no reason to complain.
pub fn print(bytes: &[u8]) -> Result<(), String> {
    let mut out = std::io::stdout();
    match out.write_all(bytes).and_then(|()| out.flush()) {
        Err(error) if error.kind() != ErrorKind::BrokenPipe => {
            Err(format!("standard output: {error}"))
        }
        _ => Ok(()),
    }
}

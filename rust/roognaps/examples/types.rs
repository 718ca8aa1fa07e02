//! Prints the type of each definition of Cairo-M sources.
//!
//!     cargo run --offline -p roognaps --features export --example types -- [MODULE=]FILE.cm...
//!
//! Each file is a module, named by its stem if not said otherwise; `main.cm` first is usual. This goes
//! through the original parser and index builder, so it needs the original sources.

#[cfg(not(originals))]
fn main() -> std::process::ExitCode {
    eprintln!("types: the original Cairo-M sources aren't reachable; see rust/README.md");
    std::process::ExitCode::from(2)
}

#[cfg(originals)]
fn main() -> std::process::ExitCode {
    match with_originals::run() {
        Ok(()) => std::process::ExitCode::SUCCESS,
        Err(message) => {
            eprintln!("{message}");
            std::process::ExitCode::from(2)
        }
    }
}

#[cfg(originals)]
mod with_originals {
    use std::io::Write;

    use roognaps::export::{Source, named};
    use roognaps::{Question, Resolver, Said};

    pub fn run() -> Result<(), String> {
        let words: Vec<String> = std::env::args().skip(1).collect();
        if words.is_empty() {
            return Err("usage: types [MODULE=]FILE.cm...".to_string());
        }
        let sources = words.iter().map(|word| Source::from_argument(word));
        let sources = sources.collect::<Result<Vec<Source>, String>>()?;
        let mut resolver = Resolver::new();
        let (index, lines) = resolver
            .ask_sources(&sources)
            .map_err(|error| error.to_string())?;
        let mut printed = String::new();
        for line in lines {
            let Question::Definition { module, definition } = line.question else {
                continue;
            };
            let (module, definition) = (module as usize, definition as usize);
            let definition = &index.modules[module].definitions[definition];
            let place = place(&sources[module], definition.name_span.0 as usize);
            let said = match line.result {
                Ok(Said::Type(ty)) => named(&index, &ty),
                Ok(other) => other.to_string(),
                Err(refusal) => refusal.to_string(),
            };
            printed.push_str(&format!("{place} {}: {said}\n", definition.name));
        }
        // Who reads may stop early.
        let _ = std::io::stdout().write_all(printed.as_bytes());
        Ok(())
    }

    /// Path, line and column.
    fn place(source: &Source, at: usize) -> String {
        let (line, column) = source.line_and_column(at);
        format!("{}:{line}:{column}", source.path)
    }
}

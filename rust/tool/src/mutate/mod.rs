//! Changes copies of the originals in one place at a time and replays the vectors with each: a
//! vector that answers otherwise shows that it watches the place.

mod equivalents;
#[path = "../../../compiler/originals.rs"]
mod originals;
pub mod rules;

use std::path::{Path, PathBuf};
use std::process::{Command, Stdio};
use std::time::Duration;

use crate::program::wait;
use rules::Place;

/// A replay that takes longer doesn't end.
const TIMEOUT: Duration = Duration::from_secs(60);

#[derive(Debug, Clone, PartialEq, Eq)]
pub enum Outcome {
    /// The vector answers otherwise.
    Caught {
        vector: String,
    },
    /// The oracle itself stops: a panic that no index causes in the originals.
    Stopped,
    Endless,
    /// The changed text is no Rust.
    NotBuilt,
    /// No index can tell the change, for this reason.
    Equivalent {
        reason: &'static str,
    },
    /// No vector tells the change.
    Missed,
}

impl Outcome {
    pub fn text(&self) -> String {
        match self {
            Self::Caught { vector } => format!("caught by {vector}"),
            Self::Stopped => "caught: the oracle stops".to_string(),
            Self::Endless => "caught: the oracle doesn't end".to_string(),
            Self::NotBuilt => "not built".to_string(),
            Self::Equivalent { reason } => format!("equivalent: {reason}"),
            Self::Missed => "MISSED".to_string(),
        }
    }
}

/// Where everything stands.
pub struct Mutation {
    workspace: PathBuf,
    /// The original sources.
    originals: PathBuf,
    /// Their copies, one of them changed.
    copies: PathBuf,
    build: PathBuf,
}

impl Mutation {
    pub fn new(workspace: &Path) -> Result<Self, String> {
        let fault = |error: std::io::Error| format!("{}: {error}", workspace.display());
        let workspace = workspace.canonicalize().map_err(fault)?;
        let originals = originals::root(&workspace);
        if let Some(name) = originals::missing(&originals).first() {
            let folder = originals.display();
            return Err(format!("{folder}: the original {name} isn't there"));
        }
        let folder = workspace.join("target/mutants");
        Ok(Self {
            originals,
            copies: folder.join("originals"),
            build: folder.join("build"),
            workspace,
        })
    }

    fn text(&self, file: &str) -> Result<String, String> {
        self.original(&format!("semantic/src/{file}"))
    }

    fn original(&self, name: &str) -> Result<String, String> {
        let path = originals::original_path(&self.originals, name);
        std::fs::read_to_string(&path).map_err(|error| format!("{}: {error}", path.display()))
    }

    /// All places, in the order of the files and lines.
    pub fn places(&self) -> Result<Vec<Place>, String> {
        let mut files: Vec<&str> = rules::FUNCTIONS.iter().map(|(file, _)| *file).collect();
        files.dedup();
        let mut places = Vec::new();
        for file in files {
            places.extend(rules::places(file, &self.text(file)?));
        }
        Ok(places)
    }

    /// Copies the originals, unchanged, and checks that the vectors hold.
    pub fn prepare(&self) -> Result<(), String> {
        for name in originals::NEEDED {
            self.write(name, &self.original(name)?)?;
        }
        match (self.build()?, self.replay()?) {
            (true, None) => Ok(()),
            (true, Some(outcome)) => Err(format!("unchanged originals: {}", outcome.text())),
            (false, _) => Err("the unchanged originals aren't built".to_string()),
        }
    }

    /// What the vectors say about this change.
    pub fn try_place(&self, place: &Place) -> Result<Outcome, String> {
        let text = self.text(place.file)?;
        let name = format!("semantic/src/{}", place.file);
        self.write(&name, &place.change(&text))?;
        let outcome = match self.build()? {
            false => Outcome::NotBuilt,
            true => self
                .replay()?
                .unwrap_or_else(|| match equivalents::reason(place) {
                    Some(reason) => Outcome::Equivalent { reason },
                    None => Outcome::Missed,
                }),
        };
        self.write(&name, &text)?;
        Ok(outcome)
    }

    /// Writes the copy of an original.
    fn write(&self, name: &str, text: &str) -> Result<(), String> {
        let path = self.copies.join("crates/compiler").join(name);
        let fault = |error: std::io::Error| format!("{}: {error}", path.display());
        let folder = path.parent().expect("it lies in a folder");
        std::fs::create_dir_all(folder).map_err(fault)?;
        std::fs::write(&path, text).map_err(fault)
    }

    /// False if the text is no Rust.
    fn build(&self) -> Result<bool, String> {
        let status = Command::new("cargo")
            .args([
                "build",
                "--offline",
                "--quiet",
                "-j1",
                "-p",
                "oracle",
                "--bin",
                "replay",
            ])
            .current_dir(&self.workspace)
            .env("CAIRO_M_SRC", &self.copies)
            .env("CARGO_TARGET_DIR", &self.build)
            .env("CARGO_PROFILE_DEV_OPT_LEVEL", "0")
            .env("CARGO_PROFILE_DEV_DEBUG", "0")
            .stderr(Stdio::null())
            .status();
        let status = status.map_err(|error| format!("cargo: {error}"))?;
        Ok(status.success())
    }

    /// None if all vectors hold.
    fn replay(&self) -> Result<Option<Outcome>, String> {
        let folder = self.workspace.join("vectors");
        let mut files = crate::vectors::paths(&folder)?;
        // The loader isn't the originals'.
        files.retain(|path| !path.to_string_lossy().contains("malformed-"));
        let mut child = Command::new(self.build.join("debug/replay"))
            .args(files)
            .stdout(Stdio::piped())
            .stderr(Stdio::null())
            .spawn()
            .map_err(|error| format!("replay: {error}"))?;
        let Some(status) = wait(&mut child, TIMEOUT).map_err(|error| format!("replay: {error}"))?
        else {
            return Ok(Some(Outcome::Endless));
        };
        let mut output = String::new();
        if let Some(mut stdout) = child.stdout.take() {
            let read = std::io::Read::read_to_string(&mut stdout, &mut output);
            read.map_err(|error| format!("replay: {error}"))?;
        }
        Ok(match status.code() {
            Some(0) => None,
            Some(1) => Some(Outcome::Caught {
                vector: output.trim_end().to_string(),
            }),
            _ => Some(Outcome::Stopped),
        })
    }
}

//! The corpus: folders of Cairo-M programs with their index files and expected lines.

use std::path::{Path, PathBuf};

/// A program's folder.
#[derive(Debug, Clone)]
pub struct Program {
    pub name: String,
    folder: PathBuf,
    /// The modules' files: `main.cm` first, the others by name.
    pub sources: Vec<PathBuf>,
}

impl Program {
    pub fn index_path(&self) -> PathBuf {
        self.folder.join("index.idx")
    }

    pub fn expected_path(&self) -> PathBuf {
        self.folder.join("expected.txt")
    }

    pub fn index(&self) -> Result<Vec<u8>, String> {
        read(&self.index_path())
    }

    pub fn expected(&self) -> Result<Vec<u8>, String> {
        read(&self.expected_path())
    }
}

fn read(path: &Path) -> Result<Vec<u8>, String> {
    std::fs::read(path).map_err(|error| format!("{}: {error}", path.display()))
}

/// The paths in a folder, in the order of their names.
fn entries(folder: &Path) -> Result<Vec<PathBuf>, String> {
    let fault = |error: std::io::Error| format!("{}: {error}", folder.display());
    let mut paths = Vec::new();
    for entry in std::fs::read_dir(folder).map_err(fault)? {
        paths.push(entry.map_err(fault)?.path());
    }
    paths.sort();
    Ok(paths)
}

/// All programs below the folder, in the order of their names.
pub fn programs(folder: &Path) -> Result<Vec<Program>, String> {
    let mut programs = Vec::new();
    for folder in entries(folder)? {
        if !folder.is_dir() {
            continue;
        }
        let mut sources = entries(&folder)?;
        sources.retain(|path| path.extension().is_some_and(|end| end == "cm"));
        // False stands before true.
        sources.sort_by_key(|path| path.file_stem().is_none_or(|stem| stem != "main"));
        let name = folder.file_name().unwrap_or_default();
        programs.push(Program {
            name: name.to_string_lossy().to_string(),
            folder: folder.clone(),
            sources,
        });
    }
    Ok(programs)
}

#[cfg(originals)]
mod made {
    use export::sources::{Source, export_sources};
    use oracle::{Options, answer_bytes};

    use super::{Program, read};

    impl Program {
        pub fn texts(&self) -> Result<Vec<Source>, String> {
            let sources = self.sources.iter().map(|path| {
                let text = String::from_utf8(read(path)?);
                let stem = path.file_stem().unwrap_or_default();
                Ok(Source {
                    module: stem.to_string_lossy().to_string(),
                    path: path.display().to_string(),
                    text: text.map_err(|error| format!("{}: {error}", path.display()))?,
                })
            });
            sources.collect()
        }

        /// The index file and the oracle's lines, as they are made today.
        pub fn make(&self) -> Result<(Vec<u8>, Vec<u8>), String> {
            let fault = |error: &dyn std::fmt::Display| format!("{}: {error}", self.name);
            let (index, _) = export_sources(&self.texts()?).map_err(|error| fault(&error))?;
            let text = export::text(&index).map_err(|error| fault(&error))?;
            let answer = answer_bytes(text.as_bytes(), Options::default());
            Ok((text.into_bytes(), answer))
        }
    }
}

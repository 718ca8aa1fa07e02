//! `typetool export`.

use export::sources::{Source, export_sources};
use index_file::limits;
use index_file::records::{Index, Question};
use typetool::place;

use super::arguments::{Arguments, print};
use super::{CommandResult, End};

pub fn run(arguments: &mut Arguments) -> CommandResult {
    let fit = arguments.flag("--fit");
    let skip = arguments.number("--skip")?.unwrap_or(0) as usize;
    let mut places = Vec::new();
    while let Some(place) = arguments.value("--at")? {
        places.push(place);
    }
    let words = arguments.words()?;
    if words.is_empty() {
        return Err("no file is named; see `typetool export --help`".to_string());
    }
    let sources = words.iter().map(|word| Source::from_argument(word));
    let sources = sources.collect::<Result<Vec<Source>, String>>()?;
    let (mut index, _) = export_sources(&sources).map_err(|error| error.to_string())?;
    if !places.is_empty() {
        let questions = places.iter().map(|place| question_at(&index, place));
        index.questions = questions.collect::<Result<_, _>>()?;
    }
    let skipped = skip.min(index.questions.len());
    index.questions.drain(..skipped);
    let count = index.questions.len();
    if fit && count > limits::QUESTIONS {
        index.questions.truncate(limits::QUESTIONS);
        eprintln!("{} of {count} questions written", limits::QUESTIONS);
    }
    let text = export::text(&index).map_err(|error| error.to_string())?;
    print(text.as_bytes())?;
    Ok(End::Well)
}

/// The question for `MODULE:BYTE`, the module by its name.
fn question_at(index: &Index, place: &str) -> Result<Question, String> {
    let parts = place.rsplit_once(':');
    let (name, byte) = parts.ok_or_else(|| format!("{place:?} isn't `MODULE:BYTE`"))?;
    let module = index.modules.iter().position(|module| module.name == name);
    let module = module.ok_or_else(|| format!("no module is named {name:?}"))?;
    let position = place::number(byte).ok_or_else(|| format!("{byte:?} is no number"))? as u64;
    if position >= limits::POSITION {
        return Err(format!("{byte} is no position: it isn't below 2^32"));
    }
    Ok(Question::At { module, position })
}

//! Random programs through the original parser and builder.

use export::sources::{Source, export_sources};
use index_file::limits;
use index_file::records::{Index, Question};

use super::{Random, programs};

/// The sources of a random program.
pub fn sources(random: &mut Random) -> Vec<Source> {
    let modules = programs::modules(random).into_iter();
    let sources = modules.map(|module| Source {
        path: format!("{}.cm", module.name),
        module: module.name,
        text: module.text,
    });
    sources.collect()
}

/// An index of a random program, with some of its questions.
pub fn index(random: &mut Random) -> Index {
    loop {
        let sources = sources(random);
        let (mut index, _) = export_sources(&sources).unwrap_or_else(|error| {
            let text: Vec<&str> = sources.iter().map(|s| s.text.as_str()).collect();
            let text = text.join("\n");
            panic!("a generated program doesn't export: {error}\n{text}");
        });
        choose_questions(random, &mut index);
        // Too large ones are rare.
        if limits::passed(&index).is_empty() {
            return index;
        }
    }
}

/// Keeps at most 120 questions and adds some with a context or about types.
fn choose_questions(random: &mut Random, index: &mut Index) {
    while index.questions.len() > 120 {
        let at = random.below(index.questions.len());
        index.questions.swap_remove(at);
    }
    for _ in 0..random.below(20) {
        let module = random.below(index.modules.len());
        let records = &index.modules[module];
        if records.types.is_empty() {
            continue;
        }
        let ty = random.below(records.types.len());
        let question = if random.percent(70) && !records.expressions.is_empty() {
            Question::Expr {
                module,
                expression: random.below(records.expressions.len()),
                context: Some(ty),
            }
        } else {
            Question::Type {
                module,
                ty,
                scope: random.below(records.scopes.len()),
            }
        };
        index.questions.push(question);
    }
}

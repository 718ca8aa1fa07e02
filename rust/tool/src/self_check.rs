//! Compares the oracle's own ways of answering: with and without memo; for indexes in the compared
//! set, children by spans and by records; for programs, the exported file and the original builder's
//! own data; and `at` with `expr`. Beside them the lookups of names with the original's own.

use export::sources::{Source, export_sources};
use index_file::compared::misled_children;
use index_file::load::load;
use index_file::records::{Index, Question};
use oracle::{Answer, Options, Oracle, Outcome, gives_up};

use crate::generate::{self, Kind, Random, program_indexes};
use crate::name_check::{self, Counts};
use crate::tally::{Progress, Tally};

/// What was compared, or the first difference.
pub fn run(count: u64, seed: u64) -> Result<String, String> {
    let mut tally = Tally::default();
    let mut progress = Progress::new();
    let mut seeds = Random::new(seed);
    let mut only_with_memo = 0;
    let mut names = Counts::default();
    name_check::check_planted()?;
    // Behind them an eighth of that about `at`.
    for number in 0..count + count / 8 {
        let seed = seeds.number();
        let kind = match number % 5 {
            _ if number >= count => Kind::At,
            0 | 1 => Kind::Programs,
            2 => Kind::Edges,
            _ => Kind::Records,
        };
        if kind == Kind::Programs {
            let sources = program_indexes::sources(&mut Random::new(seed));
            check_round_trip(&sources, &mut names)
                .map_err(|error| format!("program {seed}: {error}"))?;
        }
        let Ok(index) = load(&generate::file(kind, seed)) else {
            tally.refused_files += 1;
            continue;
        };
        only_with_memo += check_index(&index, &mut tally, &mut names)
            .map_err(|error| format!("{kind:?} {seed}: {error}"))?;
        progress.say(|| tally.report());
    }
    Ok(format!(
        "{}; {only_with_memo} answered only with memo; {}",
        tally.report(),
        names.report()
    ))
}

/// How many questions were answered only with memo, or a difference.
fn check_index(index: &Index, tally: &mut Tally, names: &mut Counts) -> Result<u64, String> {
    let oracle = Oracle::new(index, Options::default());
    name_check::compare(index, &oracle, names)?;
    let plain = oracle.answers();
    check_at(&oracle, index, &plain)?;
    let only_with_memo = check_memo(index, &plain)?;
    if misled_children(index).is_empty() {
        check_spans(index, &plain)?;
    } else {
        tally.outside += 1;
    }
    let lines: Vec<String> = plain.iter().map(Answer::line).collect();
    if gives_up(&lines) {
        tally.given_up += 1;
    } else {
        tally.add(&lines);
    }
    Ok(only_with_memo)
}

/// `at` says what `expr` without context says of the expression that a run through all records finds:
/// a covering one is kept until a later one is as short or shorter.
fn check_at(oracle: &Oracle, index: &Index, plain: &[Answer]) -> Result<(), String> {
    for (question, plain) in index.questions.iter().zip(plain) {
        let Question::At { module, position } = *question else {
            continue;
        };
        let expressions = index.modules.get(module).map(|module| &module.expressions);
        let mut found: Option<(usize, u64)> = None;
        for (number, record) in expressions.into_iter().flatten().enumerate() {
            let (start, end) = record.span;
            let covers = (start..end).contains(&position);
            if covers && found.is_none_or(|(_, length)| end - start <= length) {
                found = Some((number, end - start));
            }
        }
        let owed = found.map_or(Outcome::None, |(expression, _)| {
            let question = Question::Expr {
                module,
                expression,
                context: None,
            };
            oracle.answer(&question).outcome
        });
        if plain.outcome != owed {
            return Err(format!("{} but by all records {owed:?}", plain.line()));
        }
    }
    Ok(())
}

/// With memo fewer demands are open at once, so 8 may become an answer; nothing else differs.
fn check_memo(index: &Index, plain: &[Answer]) -> Result<u64, String> {
    let options = Options {
        memo: true,
        ..Options::default()
    };
    let mut only_with_memo = 0;
    for (plain, memo) in plain.iter().zip(Oracle::new(index, options).answers()) {
        match (&plain.outcome, &memo.outcome) {
            (Outcome::Budget, _) => {}
            (plain, memo) if plain == memo => {}
            (Outcome::Refused(8), _) => only_with_memo += 1,
            _ => return Err(format!("{} but with memo {}", plain.line(), memo.line())),
        }
    }
    Ok(only_with_memo)
}

/// In the compared set, the Rust's spans lead where the records' fields lead.
fn check_spans(index: &Index, plain: &[Answer]) -> Result<(), String> {
    let options = Options {
        real_spans: true,
        ..Options::default()
    };
    for (plain, spans) in plain.iter().zip(Oracle::new(index, options).answers()) {
        if plain.outcome != spans.outcome {
            return Err(format!("{} but by spans {}", plain.line(), spans.line()));
        }
    }
    Ok(())
}

/// The exported file, loaded again, gives the answers, steps and depths of the data it comes from; and
/// its names are found where these data have them.
pub fn check_round_trip(sources: &[Source], names: &mut Counts) -> Result<(), String> {
    let (index, originals) = export_sources(sources).map_err(|error| error.to_string())?;
    let oracle = Oracle::of_originals(&index, originals.clone(), Options::default());
    name_check::compare(&index, &oracle, names)?;
    let mut parts = index.clone();
    // A file holds at most 256 questions; what they are about is the same in each part.
    for questions in index.questions.chunks(index_file::limits::QUESTIONS) {
        parts.questions = questions.to_vec();
        let Ok(text) = export::text(&parts) else {
            // A random program may pass a limit; then there is no file.
            return Ok(());
        };
        let loaded = load(text.as_bytes()).map_err(|refusal| refusal.answer_line())?;
        let from_file = Oracle::new(&loaded, Options::default()).answers();
        let from_originals =
            Oracle::of_originals(&parts, originals.clone(), Options::default()).answers();
        for (file, original) in from_file.iter().zip(&from_originals) {
            if file != original {
                return Err(format!("{} but {}", file.line(), original.line()));
            }
        }
    }
    Ok(())
}

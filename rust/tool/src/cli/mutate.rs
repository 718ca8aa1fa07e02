//! `typetool mutate`.

use std::path::Path;

use typetool::mutate::rules::Place;
use typetool::mutate::{Mutation, Outcome};

use super::arguments::Arguments;
use super::{CommandResult, End};

pub fn run(arguments: &mut Arguments) -> CommandResult {
    let list = arguments.flag("--list");
    let first = arguments.number("--first")?.unwrap_or(1) as usize;
    let last = arguments.number("--last")?.map(|last| last as usize);
    let table = arguments.value("--table")?;
    let [workspace] = arguments.exactly()?;
    let mutation = Mutation::new(Path::new(&workspace))?;
    let places = mutation.places()?;
    let last = last.unwrap_or(places.len()).min(places.len());
    let chosen = (1..).zip(&places).take(last).skip(first.max(1) - 1);
    if list {
        chosen.for_each(|(number, place)| println!("{number}\t{}", describe(place)));
        return Ok(End::Well);
    }
    mutation.prepare()?;
    let mut rows = Vec::new();
    for (number, place) in chosen {
        let outcome = mutation.try_place(place)?;
        println!("{number}\t{}\t{}", describe(place), outcome.text());
        rows.push((place, outcome));
    }
    if let Some(path) = table {
        let written = std::fs::write(&path, markdown(&rows));
        written.map_err(|error| format!("{path}: {error}"))?;
    }
    let missed = rows.iter().any(|(_, outcome)| *outcome == Outcome::Missed);
    Ok(if missed { End::Differs } else { End::Well })
}

fn describe(place: &Place) -> String {
    let Place {
        file,
        line,
        column,
        before,
        after,
        ..
    } = place;
    format!("{file}:{line}:{}\t{before}\t{after}", column + 1)
}

/// The table as it is kept in MUTATIONS.md. Changes that aren't Rust are only counted.
fn markdown(rows: &[(&Place, Outcome)]) -> String {
    let count = |fits: fn(&Outcome) -> bool| rows.iter().filter(|(_, o)| fits(o)).count();
    let not_built = count(|outcome| *outcome == Outcome::NotBuilt);
    let equivalent = count(|outcome| matches!(outcome, Outcome::Equivalent { .. }));
    let missed = count(|outcome| *outcome == Outcome::Missed);
    let tried = rows.len() - not_built;
    let caught = tried - equivalent - missed;
    let mut text = format!(
        "# Changes of the originals and the vectors that tell them\n\n\
         Written by `typetool mutate --table`. Each row is one change of one place of the originals, \
         built and replayed with the vectors of `vectors/`. {tried} changes that are Rust \
         ({not_built} more aren't): {caught} caught, {equivalent} equivalent, {missed} missed.\n\n\
         | place | function | before | after | result |\n|---|---|---|---|---|\n"
    );
    let code = |fragment: &str| match fragment.trim() {
        "" => "nothing".to_string(),
        trimmed => format!("`{}`", trimmed.replace('|', "\\|")),
    };
    for (place, outcome) in rows {
        if *outcome == Outcome::NotBuilt {
            continue;
        }
        text.push_str(&format!(
            "| {}:{}:{} | {} | {} | {} | {} |\n",
            place.file,
            place.line,
            place.column + 1,
            place.function,
            code(place.before),
            code(place.after),
            outcome.text()
        ));
    }
    text
}

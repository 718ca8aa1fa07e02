//! The command line.

mod arguments;
mod check_index;
mod corpus;
#[cfg(originals)]
mod differential;
#[cfg(originals)]
mod export;
mod generate;
mod help;
#[cfg(originals)]
mod hover;
mod mutate;
#[cfg(originals)]
mod name;
#[cfg(originals)]
mod oracle;
#[cfg(originals)]
mod pointed;
#[cfg(originals)]
mod self_check;
mod vectors;

use arguments::Arguments;

use typetool::originals;

/// How a command ends: well, with a difference found (exit status 1), or not at all (2).
pub enum End {
    Well,
    Differs,
}

pub type CommandResult = Result<End, String>;

type Run = fn(&mut Arguments) -> CommandResult;

struct Command {
    name: &'static str,
    summary: &'static str,
    help: &'static str,
    /// None if the command needs the originals and the tool was built without them.
    run: Option<Run>,
}

/// None in a build without the originals.
macro_rules! with_originals {
    ($module:ident) => {{
        #[cfg(originals)]
        let run: Option<Run> = Some($module::run);
        #[cfg(not(originals))]
        let run: Option<Run> = None;
        run
    }};
}

const COMMANDS: &[Command] = &[
    Command {
        name: "oracle",
        summary: "answers an index file by the original Rust",
        help: help::ORACLE,
        run: with_originals!(oracle),
    },
    Command {
        name: "export",
        summary: "turns Cairo-M files into an index file",
        help: help::EXPORT,
        run: with_originals!(export),
    },
    Command {
        name: "hover",
        summary: "says the type at a place of a Cairo-M file, by the proved library",
        help: help::HOVER,
        run: with_originals!(hover),
    },
    Command {
        name: "name",
        summary: "says the definition of the name at a place of a Cairo-M file, and its scope",
        help: help::NAME,
        run: with_originals!(name),
    },
    Command {
        name: "gen",
        summary: "prints a generated index file",
        help: help::GEN,
        run: Some(generate::run),
    },
    Command {
        name: "differential",
        summary: "compares a program with the oracle on many files",
        help: help::DIFFERENTIAL,
        run: with_originals!(differential),
    },
    Command {
        name: "check-index",
        summary: "compares a loading program with the loader on many files",
        help: help::CHECK_INDEX,
        run: Some(check_index::run),
    },
    Command {
        name: "self-check",
        summary: "compares the oracle's ways of answering, and where names are found",
        help: help::SELF_CHECK,
        run: with_originals!(self_check),
    },
    Command {
        name: "corpus",
        summary: "checks or makes again the index files of programs/",
        help: help::CORPUS,
        run: Some(corpus::run),
    },
    Command {
        name: "vectors",
        summary: "checks, lists or makes again the vectors",
        help: help::VECTORS,
        run: Some(vectors::run),
    },
    Command {
        name: "mutate",
        summary: "changes the originals place by place and replays the vectors",
        help: help::MUTATE,
        run: Some(mutate::run),
    },
];

fn usage() -> String {
    let mut text = "usage: typetool COMMAND ...; `typetool COMMAND --help` says more\n".to_string();
    for command in COMMANDS {
        text.push_str(&format!("  {:<13}{}\n", command.name, command.summary));
    }
    text
}

/// Runs the command that the arguments name.
pub fn run(arguments: Vec<String>) -> CommandResult {
    let asks_help = |argument: &String| argument == "--help" || argument == "-h";
    let Some((name, rest)) = arguments.split_first() else {
        return Err(usage());
    };
    if asks_help(name) || name == "help" {
        arguments::print(usage().as_bytes())?;
        return Ok(End::Well);
    }
    let Some(command) = COMMANDS.iter().find(|command| command.name == name) else {
        return Err(format!("{name:?} is no command\n{}", usage()));
    };
    if rest.iter().any(asks_help) {
        arguments::print(format!("{}\n", command.help).as_bytes())?;
        return Ok(End::Well);
    }
    match command.run {
        Some(run) => run(&mut Arguments::new(name, rest)),
        None => originals::needed_for(name).map(|()| End::Well),
    }
}

//! `typetool differential`.

use std::time::Duration;

use typetool::differential::Run;
use typetool::generate::Kind;
use typetool::program::Program;

use super::arguments::{Arguments, number};
use super::{CommandResult, End};

pub fn run(arguments: &mut Arguments) -> CommandResult {
    let kind = arguments.value("--kind")?;
    let timeout = arguments.number("--timeout")?.unwrap_or(20);
    let keep = arguments.value("--keep")?;
    let [path, count, seed] = arguments.exactly()?;
    let mut run = Run {
        program: Program {
            path,
            timeout: Duration::from_secs(timeout),
        },
        kind: Kind::parse(kind.as_deref().unwrap_or("mixed"))?,
        count: number(&count)?,
        seed: number(&seed)?,
        keep: keep.map(Into::into),
    };
    if !run.run()? {
        return Ok(End::Differs);
    }
    if kind.is_none() {
        // The mixed files don't ask `at`.
        run.kind = Kind::At;
        run.count /= 8;
        if !run.run()? {
            return Ok(End::Differs);
        }
    }
    Ok(End::Well)
}

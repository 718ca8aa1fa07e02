//! The command line; see README.md.

mod cli;

use std::ffi::OsString;
use std::process::ExitCode;

use cli::End;

/// Resolution is deep; the usual stack of a thread may not do.
const STACK_BYTES: usize = 512 << 20;

fn main() -> ExitCode {
    let thread = std::thread::Builder::new().stack_size(STACK_BYTES);
    let thread = thread.spawn(|| cli::run(arguments()?)).expect("a thread");
    match thread.join() {
        Ok(Ok(End::Well)) => ExitCode::SUCCESS,
        Ok(Ok(End::Differs)) => ExitCode::FAILURE,
        Ok(Err(message)) => {
            eprintln!("{}", message.trim_end());
            ExitCode::from(2)
        }
        // The panic has been reported.
        Err(_) => ExitCode::from(2),
    }
}

fn arguments() -> Result<Vec<String>, String> {
    let text = |word: OsString| {
        let text = word.into_string();
        text.map_err(|word| format!("{word:?} isn't UTF-8"))
    };
    std::env::args_os().skip(1).map(text).collect()
}

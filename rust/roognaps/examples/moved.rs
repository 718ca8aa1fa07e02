//! The wrong balance: the same three functions in two orders, and the types of the bare numbers in
//! them before and after a function moves (docs/WRONG-BALANCE.md).
//!
//!     cargo run --offline -p roognaps --example moved

use std::path::Path;
use std::process::ExitCode;

use index_file::load::load;
use index_file::records::{DefinitionKind, Module, Node, TypeExpr};
use roognaps::{Question, Resolver, Said};

fn main() -> ExitCode {
    let mut resolver = Resolver::new();
    for name in ["balance_wrong", "balance_moved"] {
        if let Err(message) = show(&mut resolver, name) {
            eprintln!("{name}: {message}");
            return ExitCode::from(2);
        }
    }
    ExitCode::SUCCESS
}

/// Prints each bare number of a program with the function that it stands in, what that returns, and
/// the number's type.
fn show(resolver: &mut Resolver, name: &str) -> Result<(), Box<dyn std::error::Error>> {
    let folder = Path::new(env!("CARGO_MANIFEST_DIR")).join("../programs");
    let folder = folder.join(name);
    let source = std::fs::read_to_string(folder.join("main.cm"))?;
    let file = std::fs::read(folder.join("index.idx"))?;
    let lines = resolver.answers(&file)?;
    let index = load(&file).map_err(|refusal| refusal.answer_line())?;
    println!("{name}/main.cm");
    for line in lines {
        let Question::Expression { module, expression } = line.question else {
            continue;
        };
        let module = &index.modules[module as usize];
        let expression = &module.expressions[expression as usize];
        if !matches!(expression.node, Node::Lit { .. }) {
            continue;
        }
        let (start, end) = expression.span;
        let number = source.get(start as usize..end as usize).unwrap_or("?");
        let (function, returns) = around(module, start).unwrap_or(("?", "?"));
        let Said::Type(ty) = line.result? else {
            continue;
        };
        let mark = if ty.to_string() == returns {
            ""
        } else {
            "   <-- not what the function returns"
        };
        println!("    {number:>5} in {function:<8} returns {returns:<5} type {ty}{mark}");
    }
    Ok(())
}

/// The function whose text has this place, and what it is said to return.
fn around(module: &Module, at: u64) -> Option<(&str, &str)> {
    module.definitions.iter().find_map(|definition| {
        let DefinitionKind::Fn { returns, .. } = definition.kind else {
            return None;
        };
        let (start, end) = definition.full_span;
        let returns = match module.types[returns] {
            TypeExpr::Felt => "felt",
            TypeExpr::Bool => "bool",
            TypeExpr::U32 => "u32",
            _ => "another type",
        };
        (start <= at && at < end).then_some((definition.name.as_str(), returns))
    })
}

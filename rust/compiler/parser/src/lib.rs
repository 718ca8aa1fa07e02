//! The original parser over the shims. The crate root and the lexer are written anew: they are not
//! among the originals at hand.

#![cfg(originals)]
#![allow(clippy::all)]

include!(concat!(env!("OUT_DIR"), "/modules.rs"));

pub mod lexer;

pub use db::{Db, DiscoveredCrate, ParserDatabaseImpl, SourceFile, Upcast};
pub use parser::{parse_file, ParseOutput, ParsedModule};

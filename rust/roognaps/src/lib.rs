//! The types of a Cairo-M program, from its index file.
//!
//! A Cairo-M compiler parses source and builds an index of scopes, definitions and expressions; then
//! it asks what type each of them has. This crate answers these questions by a library whose every
//! function is proved equal to one definition; it adds buffers, enums and stack.
//!
//! ```
//! use roognaps::{Resolver, Type};
//!
//! // fn f(x: u32) { 1 + x }
//! let file = b"index\t1
//! M\tmain
//! S\t-\tmodule
//! S\t0\tfunction
//! T\tu32
//! D\t0\tf\t3\t4\t0\t30\tfn\t0\tx\t0
//! D\t1\tx\t5\t6\t5\t11\tparam\t0
//! E\t1\t24\t25\t-\t1\tplain\t-\t-\tident\tx
//! E\t1\t20\t21\t-\t-\tplain\t-\t-\tlit\t-
//! E\t1\t20\t25\t-\t-\tplain\t-\t-\tbin\t+\t1\t0
//! Q\texpr\t0\t2\t-
//! Q\texpr\t0\t1\t-
//! ";
//! let mut resolver = Resolver::new();
//! assert_eq!(resolver.answer(file, 0)?.ty, Type::U32);
//! for line in resolver.answers(file)? {
//!     println!("{line}");
//! }
//! # Ok::<(), roognaps::Error>(())
//! ```
//!
//! A line says a type, or is refused, or, of the question `at`, says that no expression covers the byte that
//! was asked for ([`Said`]).
//!
//! The file's form is in `docs/FORMAT.md`; `docs/USING.md` goes from source to answers by example,
//! `docs/REFUSALS.md` says what each [`Refusal`] means and what to do about it.
//!
//! # What is proved
//!
//! The library: for any bytes, any numbers of a question and a line and any buffers, what a call gives
//! and what it leaves in the buffers is what the definition says (`include/roognaps.h` has it call by
//! call). It reads and writes nothing outside them, has no state, allocates nothing and calls nothing
//! but `memcpy` and `memset`. Not proved is this crate, which is small: it lends the buffers and reads
//! the lines. What a [`Resolver`] gets is looked at before it is used; where it makes no sense, the call
//! gives [`Error::Library`].
//!
//! Nothing here panics, whatever it is given. Only what a caller hands to [`on_large_stack`], and with
//! the feature `export` the original's own parser and index builder, run as they are.
//!
//! # Stack
//!
//! The most stack that a question was found to take is 4.7 MB; no bound is proved. That is more than
//! the 2 MB of a thread that Rust makes, and too little stack ends the process. So every call that
//! answers runs on a thread of its own with [`STACK_BYTES`], 16 MB, about three times the most that
//! was found; [`on_large_stack`] makes one such thread for many calls.
//!
//! # Threads and time
//!
//! A [`Resolver`] can be sent to another thread; two threads have one each. A call takes a file of at
//! most 65,536 bytes. How long an answer takes has no useful bound: a program of a few lines can ask
//! for very many demands (`docs/DIFFERENCES.md`, 3). Who answers for strangers' files does so in a
//! process with a time limit.
//!
//! # Features
//!
//! - `export`: the module `export` with [`Resolver`]'s `ask_modules`, `ask_sources` and `ask_index`,
//!   for the original compiler's `SemanticIndex`, for source and for records, and with `type_at` and
//!   `type_at_index`, which give the type at a byte of a source. It needs the original sources.

#![warn(missing_docs)]

mod answer;
#[cfg(all(feature = "export", originals))]
pub mod export;
#[cfg(all(feature = "export", originals))]
mod hover;
mod lines;
#[cfg(all(feature = "export", originals))]
mod named;
pub mod raw;
mod refusal;
mod resolver;
mod stack;
mod types;

pub use answer::{Answer, AnswerLine, NoAnswerLine, Question, Said};
pub use lines::Lines;
pub use refusal::{Error, LibraryFault, Refusal, Whose};
pub use resolver::Resolver;
pub use stack::{STACK_BYTES, on_large_stack};
pub use types::{NoType, Type};

//! What `typetool COMMAND --help` prints.

pub const ORACLE: &str = "\
usage: typetool oracle [OPTION...] [FILE]

Prints the lines that `resolve` owes for the index file, or for standard input. A refused file is
answered by its `refused` line, as `resolve` does.

  --question N   ask question N only (from 0); `refused 5 0` if the file lacks it
  --memo         keep finished results within a question, as salsa does; only refusal 8 can differ
  --real-spans   find children by the expressions' own spans, as the Rust does; document 01 goes by
                 the records' fields, which agree on the set that it compares
  --mark         say on standard error what lies outside the compared set
  --steps        say on standard error how many demands each question took, and how many were open
  --budget N     give a question up after N demands (else 200000) and print `budget` in its place

exit status: 0 answered, 2 the file can't be read or an argument is wrong";

pub const EXPORT: &str = "\
usage: typetool export [OPTION...] [MODULE=]FILE...

Prints the index file of Cairo-M files, one a module, named by MODULE or else by the file's name
without its end, in the order given. Each expression and each definition is asked, module by module.

  --at MODULE:BYTE  ask the type at a byte of a module, by its name, in place of all these questions;
                    may be repeated
  --fit             if there are over 256 questions, write the first 256 and say so
  --skip N          leave out the first N questions

exit status: 0 written, 2 a source can't be read or parsed, a limit of an index file is passed, or a
name can't be written; standard error says which";

pub const HOVER: &str = "\
usage: typetool hover [MODULE=]FILE:LINE:COLUMN [[MODULE=]FILE...]
       typetool hover [MODULE=]FILE:BYTE [[MODULE=]FILE...]

Prints the type of the shortest expression at a place of a Cairo-M file, found by the proved library:
where the expression begins and ends (the end is the place behind its last byte), the type with the
names of its structs and functions, or the refusal, and below it the expression's text. `none` where no
expression stands: between expressions, past the end of the line or of the file. Lines and columns are
counted from 1, columns in bytes, the LF being the last of its line; a byte from 0. The further files
are the modules that the file may use. Spans are the original parser's: that of an index access, and of
a call with arguments, ends before the closing bracket, so that the bracket shows what is around it, or
`none`.

This command needs a build with the library: `rt lib` in crates/export, then `cargo build --offline
--release --features library` in rust.

exit status: 0 a type, a refusal or none is printed, 2 the argument names no place, a source can't be
read or parsed, modules import each other in a ring, two have one name or a name can't be written, a
limit of an index file is passed, standard output can't be written, or the tool was built without the
library; one line on standard error says which";

pub const NAME: &str = "\
usage: typetool name [MODULE=]FILE:LINE:COLUMN [[MODULE=]FILE...]
       typetool name [MODULE=]FILE:BYTE [[MODULE=]FILE...]

Prints the name at a place of a Cairo-M file with its place, its definition with its kind and place,
and the scope that supplied it: `module`, with the file, or `function`, `block` or `loop`, with its
place. Of a `use` it also prints what it leads to: the item and the module, and where the item stands if
the module is given. A name may stand in an expression, in a type, or be that of a definition itself.
`none` where no such name stands: at a keyword, a number, a field, a module in a `use`, past the end of
the line or of the file. A name that is found nowhere, and the built-in `assert`, are told as such.

A name in an expression is found as type resolution finds it: by the definition that the original's
index records for an identifier, else by what is visible at the place. A name in a type is the last of
its name, in the order of the index, in the nearest scope that has one, wherever it stands. It is looked
up from the scope of the let, constant, parameter, cast or `new` that has the type; a function's result
and a struct's field from the scope around the function or the struct. A parameter's type is looked up
for the parameter and for the function's signature; both are printed where they differ.

Places are those of `typetool hover`; the end is the place behind the last byte. The further files are
the modules that the file may use. The definitions are found by the original's index and lookups over
it in Rust (rust/index_file), not by the proved library.

exit status: 0 a name or none is printed, 2 the argument names no place, a source can't be read or
parsed, modules import each other in a ring, two have one name or a name can't be written, a limit of an
index file is passed, or standard output can't be written; one line on standard error says which";

pub const GEN: &str = "\
usage: typetool gen KIND SEED
       typetool gen source SEED
       typetool gen fixed [NAME]

Prints one generated index file; the same seed gives the same bytes. KIND is `records` (arbitrary
well-formed records), `programs` (random source through the original parser and builder), `edges`
(limits and seldom rules), `damaged` (copies with small damages), `at` (copies of records and programs
that ask `at`, some of them damaged) or `mixed` (all but `at`). `source` prints the source behind
`programs`. `fixed` lists the files that aren't random, or prints one.

exit status: 0 printed, 2 an argument is wrong";

pub const DIFFERENTIAL: &str = "\
usage: typetool differential [OPTION...] PROGRAM N SEED

Runs PROGRAM (an index file on standard input, lines on standard output) and the oracle on the fixed
files and N random ones. The first difference is reduced and printed with both sides' lines. Files
that the oracle gives up are passed over. Every 5 seconds standard error says how far the run is.

  --kind KIND        as for `gen`; else `mixed`, and then N/8 files of kind `at`
  --timeout SECONDS  for one run of the program; else 20
  --keep DIR         write the differing file there, whole and reduced

exit status: 0 all equal, 1 a difference, 2 the run itself failed";

pub const CHECK_INDEX: &str = "\
usage: typetool check-index run [--keep DIR] PROGRAM N SEED
       typetool check-index line
       typetool check-index count N SEED

`run` compares PROGRAM (an index file on standard input, one line on standard output) with the loader
on N files: right ones, and copies with faults in links, limits, fields, bytes, the first line and the
end; then on N/8 like them that ask `at`. It prints how many of either are accepted and how many
refused by each number, and each difference; the differing files are written to DIR, else to
target/check-index. The line is `accepted` and the numbers of M, S, T, D, E, Q and items, or `refused`,
number and line, parted by tabs. `line` prints the loader's own for standard input. `count` prints the
verdicts of these files, asking no program.

exit status: 0 all equal, 1 a difference, 2 the run itself failed";

pub const SELF_CHECK: &str = "\
usage: typetool self-check N SEED

On N random files compares the oracle with and without memo, children by spans and by records, and
exported programs with the original builder's own data; on N/8 more `at` with `expr`. On all of them it
compares where names are found along the chain of scopes, the scope and the definition, with the
original's own lookups; faults that it plants first must be noticed.

exit status: 0 all equal, 1 a difference, 2 an argument is wrong";

pub const CORPUS: &str = "\
usage: typetool corpus check DIR
       typetool corpus make DIR

DIR has one folder for each Cairo-M program: its modules `NAME.cm`, `main.cm` first and the others by
name, the exported `index.idx` and the oracle's lines `expected.txt`. `check` compares these two with
what export and oracle give today (without the originals, it only loads the index files); `make`
writes them.

exit status: 0 all equal, 1 a difference, 2 the run itself failed";

pub const VECTORS: &str = "\
usage: typetool vectors check DIR
       typetool vectors run [--timeout SECONDS] DIR PROGRAM
       typetool vectors make DIR PROGRAMS
       typetool vectors list FILE...
       typetool vectors show FILE NAME index|answer
       typetool vectors remake DIR PROGRAMS

`check` replays all vectors of DIR against the oracle (without the originals: against the loader) and
compares the coverage file. `run` asks PROGRAM (an index file on standard input, lines on standard
output; 20 seconds for each if not said otherwise) and names the vectors that differ; it needs no
originals. `make` writes them from the fixed list, with the corpus in PROGRAMS;
`remake` makes them in memory and compares every byte. `list` prints the names with the lengths of
index and answer, `show` one index or answer.

exit status: 0 all equal, 1 a difference, 2 the run itself failed";

pub const MUTATE: &str = "\
usage: typetool mutate [OPTION...] WORKSPACE

Changes copies of the originals in one place at a time, builds `replay` with each and replays the
vectors of WORKSPACE/vectors. Prints one line for each place: caught, and by which vector, equivalent
(listed with a reason), not built, or missed. The copies and the build stand in
WORKSPACE/target/mutants.

  --list         print the places only
  --first N      begin with place N (from 1)
  --last N       end with place N
  --table FILE   write the result table there

exit status: 0 none is missed, 1 some are, 2 the run itself failed";

//! The vectors and the corpus through the crate: what is printed, what is read of it, question by
//! question and all at once.

use std::path::{Path, PathBuf};

use index_file::load::load;
use index_file::vectors::{self, Vector};
use roognaps::{AnswerLine, Error, Resolver, on_large_stack};

fn folder(name: &str) -> PathBuf {
    Path::new(env!("CARGO_MANIFEST_DIR")).join("..").join(name)
}

fn replay(name: &str) -> usize {
    let bytes = std::fs::read(folder("vectors").join(name)).expect("the vectors are there");
    let vectors = vectors::read(&bytes).expect("vectors");
    let mut resolver = Resolver::new();
    on_large_stack(|| {
        for vector in &vectors {
            replay_one(&mut resolver, vector);
        }
    })
    .expect("a thread");
    vectors.len()
}

fn replay_one(resolver: &mut Resolver, vector: &Vector) {
    let Vector {
        name,
        index,
        answer,
    } = vector;
    let answer = String::from_utf8(answer.clone()).expect("answers are text");
    assert_eq!(resolver.resolve(index).as_ref(), Ok(&answer), "{name}");
    match load(index) {
        Err(refusal) => {
            let owed = (u32::from(refusal.number), refusal.line as u32);
            refused(resolver, name, index, owed);
        }
        Ok(loaded) => {
            assert_eq!(resolver.check(index), Ok(()), "{name}");
            let lines = resolver.answers(index).expect(name);
            let printed: Vec<String> = lines.iter().map(AnswerLine::to_string).collect();
            assert_eq!(printed, answer.lines().collect::<Vec<_>>(), "{name}");
            assert_eq!(lines.len(), loaded.questions.len(), "{name}");
            one_by_one(resolver, name, index, &lines);
        }
    }
}

/// Every call refuses the file with this number and line.
fn refused(resolver: &mut Resolver, name: &str, index: &[u8], owed: (u32, u32)) {
    let among_the_lines = resolver.lines_from(index, 0, 1).find_map(Result::err);
    for given in [
        resolver.check(index).err(),
        resolver.answers(index).err(),
        resolver.answer(index, 0).err(),
        resolver.line(index, 0, 1).err(),
        among_the_lines,
    ] {
        let given = given.and_then(|error| error.refusal()).expect(name);
        let line = given.line().unwrap_or(0);
        assert_eq!((given.number(), line), owed, "{name}");
    }
}

/// Each question has one line, which is the one among all.
fn one_by_one(resolver: &mut Resolver, name: &str, index: &[u8], lines: &[AnswerLine]) {
    for (number, line) in (0..).zip(lines) {
        let owed = match &line.result {
            Ok(_) => Ok(line.clone()),
            Err(refusal) => Err(Error::Refused(*refusal)),
        };
        let given = resolver.line(index, number, 0);
        assert_eq!(given, owed.clone().map(Some), "{name}");
        let typed = owed.and_then(|line| match line.ty() {
            Some(_) => Ok(line),
            None => Err(Error::Untyped),
        });
        let given = resolver.answer(index, number).map(AnswerLine::from);
        assert_eq!(given, typed, "{name}");
        assert_eq!(resolver.line(index, number, 1), Ok(None), "{name}");
    }
    for number in [0, lines.len() / 2, lines.len().saturating_sub(1)] {
        let left = resolver.lines_from(index, number as u32, 1);
        let left: Vec<AnswerLine> = left.collect::<Result<_, _>>().expect(name);
        assert_eq!(left, lines.get(number + 1..).unwrap_or_default(), "{name}");
    }
    let lacking = resolver.answer(index, lines.len() as u32);
    let refusal = lacking.expect_err(name).refusal().expect(name);
    assert_eq!((refusal.number(), refusal.line()), (5, None), "{name}");
}

#[test]
fn accepted_vectors() {
    assert_eq!(replay("accepted-1.txt") + replay("accepted-2.txt"), 463);
}

#[test]
fn malformed_vectors() {
    assert_eq!(replay("malformed-1.txt") + replay("malformed-2.txt"), 2_940);
}

#[test]
fn corpus() {
    let mut resolver = Resolver::new();
    let mut count = 0;
    for entry in std::fs::read_dir(folder("programs")).expect("the corpus is there") {
        let program = entry.expect("an entry").path();
        if !program.is_dir() {
            continue;
        }
        let index = std::fs::read(program.join("index.idx")).expect("an index");
        let expected = std::fs::read_to_string(program.join("expected.txt")).expect("lines");
        assert_eq!(resolver.resolve(&index), Ok(expected), "{program:?}");
        count += 1;
    }
    assert_eq!(count, 16);
}

//! With a library that answers at random (tools/robust/wrong.c) every call gives a value and ends.

use roognaps::{AnswerLine, Error, Resolver, on_large_stack};

/// Answers, refusals, and results that make no sense.
type Counts = [usize; 3];

fn count<T>(counts: &mut Counts, end: Result<T, Error>) {
    match end {
        // A random library may well say that a question has no line.
        Ok(_) | Err(Error::Untyped) => counts[0] += 1,
        Err(Error::Refused(refusal)) => {
            assert!((1..=10).contains(&refusal.number()));
            counts[1] += 1;
        }
        Err(error) => {
            assert!(!error.to_string().is_empty());
            counts[2] += 1;
        }
    }
}

/// An error among the lines is the last thing.
fn lines(resolver: &mut Resolver, question: u32) -> Result<Vec<AnswerLine>, Error> {
    let mut lines = resolver.lines_from(b"", question, 0);
    let read: Result<Vec<AnswerLine>, Error> = lines.by_ref().collect();
    assert_eq!(lines.next(), None);
    read
}

#[test]
#[ignore = "needs another library; tools/library_runs.py makes it and runs this"]
fn no_call_panics() {
    let counts = on_large_stack(|| {
        let mut resolver = Resolver::new();
        let mut counts = Counts::default();
        for number in 0..50_000 {
            count(&mut counts, resolver.check(b""));
            count(&mut counts, resolver.answer(b"", number));
            count(&mut counts, resolver.line(b"", number, number % 3));
            count(&mut counts, resolver.answers(b""));
            count(&mut counts, lines(&mut resolver, number % 300));
            count(&mut counts, resolver.resolve(b""));
        }
        counts
    });
    let counts = counts.expect("a thread");
    println!("answers, refusals, faults: {counts:?}");
    assert!(counts.iter().all(|count| *count > 1_000), "{counts:?}");
}

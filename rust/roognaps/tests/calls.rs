//! Stack, threads, sizes, and calls one behind the other.

use std::fmt::Write;
use std::thread;

use roognaps::{AnswerLine, Error, Question, Refusal, Resolver, Said, Type};

/// A file with one module and one scope, these lines, and one question about expression 0.
fn expressions(lines: impl IntoIterator<Item = String>) -> Vec<u8> {
    let mut file = "index\t1\nM\tm\nS\t-\tmodule\n".to_string();
    for (number, node) in lines.into_iter().enumerate() {
        let end = 100_000 - number;
        writeln!(file, "E\t0\t{number}\t{end}\t-\t-\tplain\t-\t-\t{node}").expect("a string");
    }
    file.push_str("Q\texpr\t0\t0\t-\n");
    file.into_bytes()
}

/// `[true, [true, ..]]`, so many arrays around each other: the costliest chain.
fn arrays(depth: usize) -> Vec<u8> {
    let arrays = (0..depth).map(|number| format!("arr\t{depth}\t{}", number + 1));
    expressions(arrays.chain(["bool".to_string()]))
}

/// One array or parenthesis around another.
fn chain(depth: usize, form: impl Fn(usize) -> String) -> Vec<u8> {
    expressions(
        (0..depth)
            .map(|number| form(number + 1))
            .chain(["bool".to_string()]),
    )
}

/// Runs on a thread with little stack.
fn on_small_stack<T: Send>(run: impl FnOnce() -> T + Send) -> T {
    thread::scope(|scope| {
        let thread = thread::Builder::new().stack_size(256 << 10);
        let thread = thread.spawn_scoped(scope, run).expect("a thread");
        thread.join().expect("it ends")
    })
}

#[test]
fn the_deepest_questions_from_a_small_stack() {
    on_small_stack(|| {
        let mut resolver = Resolver::new();
        // 255 arrays and the bool in the last are 256 demands. A bool and an array of bools don't fit (error), a
        // bool and an error do, so that the answer goes to and fro from one array to the next.
        for (depth, owed) in [(253, "[bool;2]"), (254, "error"), (255, "[bool;2]")] {
            let given = resolver.answer(&arrays(depth), 0);
            assert_eq!(
                given.map(|answer| answer.ty.to_string()),
                Ok(owed.to_string())
            );
        }
        let deeper = resolver.answer(&arrays(256), 0);
        assert_eq!(deeper, Err(Error::Refused(Refusal::TooDeep)));

        let parentheses = |next: usize| format!("paren\t{next}");
        let nested = |next: usize| format!("arr\t{next}");
        let tuples = |next: usize| format!("tuple\t{next}");
        let file = chain(255, parentheses);
        assert_eq!(
            resolver.answer(&file, 0).map(|answer| answer.ty),
            Ok(Type::Bool)
        );
        let file = chain(249, tuples);
        let ty = resolver.answer(&file, 0).expect("256 types").ty;
        assert_eq!(
            ty.to_string(),
            format!("{}bool{}", "(".repeat(249), ")".repeat(249))
        );
        let lines: Vec<_> = resolver.lines(&file).collect();
        let line = format!("expr\t0\t0\ttype\t{ty}").parse();
        let line: AnswerLine = line.expect("an answer line");
        assert_eq!(lines, [Ok(line)]);
        for file in [chain(255, nested), chain(255, tuples)] {
            let given = resolver.answers(&file).expect("accepted");
            assert_eq!(given.len(), 1);
        }
        for form in [parentheses as fn(usize) -> String, nested, tuples] {
            let given = resolver.answer(&chain(256, form), 0);
            let number = given
                .expect_err("257 demands")
                .refusal()
                .map(Refusal::number);
            assert_eq!(number, Some(8));
        }
    });
}

#[test]
fn checking_takes_little_stack() {
    on_small_stack(|| {
        let mut resolver = Resolver::new();
        assert_eq!(resolver.check(&arrays(511)), Ok(()));
        assert_eq!(
            resolver.check(&arrays(512)),
            Err(Error::Refused(Refusal::Limit { line: 516 }))
        );
    });
}

#[test]
fn sizes_of_files() {
    let mut resolver = Resolver::new();
    assert_eq!(resolver.check(b""), Err(Error::Refused(Refusal::FirstLine)));
    assert_eq!(
        resolver.answers(b""),
        Err(Error::Refused(Refusal::FirstLine))
    );
    assert_eq!(resolver.answers(b"index\t1\n"), Ok(Vec::new()));
    for size in [65_537, 65_538, 1 << 20] {
        let file = vec![b'x'; size];
        let large = Error::Refused(Refusal::Limit { line: 0 });
        assert_eq!(resolver.check(&file), Err(large.clone()));
        assert_eq!(resolver.answer(&file, 0), Err(large.clone()));
        assert_eq!(resolver.answers(&file), Err(large.clone()));
        assert_eq!(resolver.resolve(&file), Ok("refused\t3\t0\n".to_string()));
        assert_eq!(
            large.to_string(),
            "refused with 3: the file has over 65,536 bytes"
        );
    }
    let mut file = b"index\t1\n".to_vec();
    file.resize(65_536, b'\n');
    assert_eq!(
        resolver.check(&file),
        Err(Error::Refused(Refusal::Form { line: 2 }))
    );
}

const LACKING: Error = Error::Refused(Refusal::Link { line: 0 });

#[test]
fn question_numbers() {
    let file = b"index\t1\nQ\tdef\t0\t0\n";
    let mut resolver = Resolver::new();
    for number in [1, 255, 256, 65_536, 1 << 31, u32::MAX] {
        assert_eq!(resolver.answer(file, number), Err(LACKING));
        for line in [0, 1, u32::MAX] {
            assert_eq!(resolver.line(file, number, line), Err(LACKING));
            // At the number of questions there is no line left; above it there is no such place.
            let left: Vec<_> = resolver.lines_from(file, number, line).collect();
            let owed = if number == 1 {
                vec![]
            } else {
                vec![Err(LACKING)]
            };
            assert_eq!(left, owed, "{number}, {line}");
        }
    }
    let given = resolver.answer(b"index\t1\nX\n", 9);
    assert_eq!(given, Err(Error::Refused(Refusal::Form { line: 2 })));
}

/// Every question of index 1 has one line.
#[test]
fn line_numbers() {
    let file = b"index\t1\nQ\tdef\t0\t0\nQ\tdef\t0\t1\n";
    let mut resolver = Resolver::new();
    let lines = resolver.answers(file).expect("accepted");
    let [first, second] = &lines[..] else {
        panic!("{lines:?}");
    };
    assert_eq!(resolver.line(file, 0, 0), Ok(Some(first.clone())));
    assert_eq!(resolver.line(file, 1, 0), Ok(Some(second.clone())));
    for line in [1, 2, 65_535, 65_536, 1 << 31, u32::MAX] {
        assert_eq!(resolver.line(file, 0, line), Ok(None));
        assert_eq!(resolver.line(file, 1, line), Ok(None));
        let left: Vec<_> = resolver.lines_from(file, 0, line).collect();
        assert_eq!(left, [Ok(second.clone())], "{line}");
        assert_eq!(resolver.lines_from(file, 1, line).next(), None, "{line}");
    }
}

/// `at` says a type, a refusal, or `none`, which is a line without a type.
#[test]
fn bytes_of_a_module() {
    let file = b"index\t1\nM\tm\nS\t-\tmodule\nE\t0\t5\t8\t-\t-\tplain\t-\t-\tbool\n\
        E\t0\t9\t10\t-\t-\tplain\t-\t-\tun\t!\t-\n\
        Q\tat\t0\t7\nQ\tat\t0\t8\nQ\tat\t0\t9\nQ\tat\t65535\t4294967295\n";
    let mut resolver = Resolver::new();
    let lines = resolver.answers(file).expect("accepted");
    let results: Vec<_> = lines.iter().map(|line| line.result.clone()).collect();
    let typed = Ok(Said::Type(Type::Bool));
    let missing = Refusal::MissingChild;
    assert_eq!(
        results,
        [typed, Ok(Said::None), Err(missing), Ok(Said::None)]
    );
    let question = Question::At {
        module: 65_535,
        position: u32::MAX,
    };
    assert_eq!(lines[3].question, question);
    let given = resolver.answer(file, 0).map(|answer| answer.ty);
    assert_eq!(given, Ok(Type::Bool));
    assert_eq!(resolver.answer(file, 1), Err(Error::Untyped));
    assert_eq!(resolver.answer(file, 2), Err(Error::Refused(missing)));
    assert_eq!(resolver.line(file, 1, 0), Ok(Some(lines[1].clone())));
    assert_eq!(resolver.line(file, 1, 1), Ok(None));
}

/// 256 lines of the longest text, and of every third one over that: they don't fit into one answer
/// buffer.
fn long_lines() -> Vec<u8> {
    let mut file = "index\t1\nM\tm\nS\t-\tmodule\nT\tfelt\nT\ttuple".to_string();
    // `(felt,felt,..)` of 819 felts has 4,096 bytes.
    file.push_str(&"\t0".repeat(819));
    file.push_str("\nT\ttuple");
    file.push_str(&"\t0".repeat(820));
    file.push('\n');
    for number in 0..256 {
        let t = if number % 3 == 2 { 2 } else { 1 };
        writeln!(file, "Q\ttype\t0\t{t}\t0").expect("a string");
    }
    file.into_bytes()
}

#[test]
fn many_long_lines() {
    let lines = Resolver::new().answers(&long_lines()).expect("accepted");
    assert_eq!(lines.len(), 256);
    for (number, line) in lines.iter().enumerate() {
        match line.ty() {
            Some(ty) => assert_eq!(ty.to_string().len(), 4_096),
            None => assert_eq!((number % 3, &line.result), (2, &Err(Refusal::LongText))),
        }
    }
}

/// The lines come in many parts; whoever stops among them goes on from there, or with another file.
#[test]
fn lines_some_at_a_time() {
    let file = long_lines();
    let mut resolver = Resolver::new();
    let all = resolver.answers(&file).expect("accepted");
    for taken in [0, 1, 2, 3, 100, 255, 256] {
        let first: Vec<_> = resolver.lines(&file).take(taken).collect();
        resolver.check(b"index\t1\n").expect("accepted");
        let rest: Vec<_> = resolver.lines_from(&file, taken as u32, 0).collect();
        let lines: Result<Vec<_>, _> = first.into_iter().chain(rest).collect();
        assert_eq!(lines.as_ref(), Ok(&all), "{taken}");
    }
}

#[test]
fn an_error_ends_the_lines() {
    let mut resolver = Resolver::new();
    let mut lines = resolver.lines(b"index\t1\nX\n");
    assert_eq!(
        format!("{lines:?}"),
        "Lines { file_bytes: 10, from: Some(Position { question: 0, line: 0 }), lines_read: 0 }"
    );
    let refused = Error::Refused(Refusal::Form { line: 2 });
    assert_eq!(lines.next(), Some(Err(refused)));
    assert_eq!(lines.next(), None);
    assert_eq!(lines.next(), None);
}

/// Nothing of one call is seen by the next.
#[test]
fn calls_in_any_order() {
    let files: [&[u8]; 5] = [
        &arrays(255),
        b"index\t1\nQ\tdef\t0\t0\n",
        b"",
        &arrays(256),
        b"index\t1\nM\tm\n",
    ];
    let alone: Vec<_> = files.map(|file| Resolver::new().resolve(file)).into();
    let mut resolver = Resolver::new();
    for first in 0..files.len() {
        for second in 0..files.len() {
            assert_eq!(resolver.resolve(files[first]), alone[first]);
            assert_eq!(resolver.resolve(files[second]), alone[second]);
        }
    }
}

#[test]
fn a_resolver_a_thread() {
    let file = arrays(200);
    thread::scope(|scope| {
        let threads = (0..4).map(|_| {
            scope.spawn(|| {
                let mut resolver = Resolver::new();
                (0..20)
                    .all(|_| resolver.answer(&file, 0).map(|answer| answer.ty) == Ok(Type::Error))
            })
        });
        let threads: Vec<_> = threads.collect();
        for thread in threads {
            assert!(thread.join().expect("it ends"));
        }
    });
}

/// Lengths, not the thirty thousand numbers in them.
#[test]
fn debug_is_short() {
    assert_eq!(
        format!("{:?}", Resolver::new()),
        "Resolver { record_words: 16384, type_words: 8192, places: 256, answer_bytes: 4160 }"
    );
}

/// A text that was told once isn't told again as a source.
#[test]
fn an_error_has_one_text() {
    let error = Resolver::new().check(b"").expect_err("no file");
    assert_eq!(error.to_string(), Refusal::FirstLine.to_string());
    assert!(std::error::Error::source(&error).is_none());
}

//! Generators give the same bytes for the same seed, and files of the promised kind.

use index_file::load::load;
use typetool::generate::{self, Kind, Random, malformed, programs};
use typetool::reduce::reduce;

/// FNV-1a: the bytes of a seed may not change, or the vectors would.
fn hash(bytes: &[u8]) -> u64 {
    let step = |hash: u64, byte: &u8| (hash ^ u64::from(*byte)).wrapping_mul(0x100_0000_01B3);
    bytes.iter().fold(0xCBF2_9CE4_8422_2325, step)
}

#[test]
fn fixed_files_are_accepted_but_for_the_limits() {
    for file in generate::all_fixed_files() {
        let accepted = load(file.text.as_bytes()).is_ok();
        let passed = file.name.starts_with("limit-") && file.name.ends_with("-passed");
        assert!(accepted || passed, "{}", file.name);
    }
}

#[test]
fn changed_lines_are_mostly_refused() {
    let files = malformed::files();
    let refusals = |number: u8| {
        let loaded = files.iter().map(|file| load(file.text.as_bytes()));
        loaded
            .filter(|l| matches!(l, Err(r) if r.number == number))
            .count()
    };
    let counts = [2, 3, 4, 5].map(refusals);
    assert!(counts[0] >= 6, "{counts:?}");
    assert!(counts[1] >= 5, "{counts:?}");
    assert!(counts[2] >= 300, "{counts:?}");
    assert!(counts[3] >= 60, "{counts:?}");
}

/// Of the changed lines of `at` only a small module or another position is right all the same.
#[test]
fn changed_lines_of_at_are_refused() {
    let files = malformed::files_of_at();
    let right: Vec<&str> = files
        .iter()
        .filter(|file| load(file.text.as_bytes()).is_ok())
        .map(|file| file.text.lines().next_back().expect("a line"))
        .collect();
    assert_eq!(files.len() - right.len(), 56);
    for line in right {
        let fields: Vec<&str> = line.split('\t').collect();
        let ["Q", "at", module, position] = fields[..] else {
            panic!("{line:?}");
        };
        assert!(module.parse::<u16>().is_ok() && position.parse::<u32>().is_ok());
    }
}

#[test]
fn names_of_fixed_files_differ_and_have_no_blanks() {
    let mut files = generate::all_fixed_files();
    files.extend(malformed::files());
    files.extend(malformed::files_of_at());
    let mut names: Vec<&str> = files.iter().map(|file| file.name.as_str()).collect();
    assert!(names.iter().all(|name| !name.contains(' ')));
    let count = names.len();
    names.sort_unstable();
    names.dedup();
    assert_eq!(names.len(), count);
}

#[test]
fn record_files_load_and_keep_their_text() {
    for seed in 0..60 {
        let bytes = generate::file(Kind::Records, seed);
        let index = load(&bytes).unwrap_or_else(|refusal| panic!("{seed}: {refusal:?}"));
        assert_eq!(index.to_text().into_bytes(), bytes);
    }
}

#[test]
fn seeds_give_these_bytes() {
    let records: Vec<u8> = (0..40)
        .flat_map(|s| generate::file(Kind::Records, s))
        .collect();
    assert_eq!(hash(&records), RECORDS);
    let modules = (0..40).flat_map(|seed| programs::modules(&mut Random::new(seed)));
    let sources: String = modules.map(|module| module.name + &module.text).collect();
    assert_eq!(hash(sources.as_bytes()), SOURCES);
}

const RECORDS: u64 = 4_957_367_010_748_300_024;
const SOURCES: u64 = 4_944_412_609_899_499_449;

#[test]
fn reducing_keeps_what_matters() {
    let bytes = generate::file(Kind::Records, 5);
    let mut persists = |bytes: &[u8]| load(bytes).is_ok_and(|index| !index.questions.is_empty());
    let reduced = reduce(&bytes, &mut persists);
    assert!(persists(&reduced));
    assert!(reduced.len() < 40, "{}", String::from_utf8_lossy(&reduced));
}

#[cfg(originals)]
mod with_originals {
    use super::*;
    use index_file::compared::misled_children;
    use index_file::records::{Module, Question};
    use oracle::with_large_stack;

    #[test]
    fn program_files_load_and_keep_their_text() {
        with_large_stack(|| {
            for seed in 0..60 {
                let bytes = generate::file(Kind::Programs, seed);
                assert_eq!(bytes, generate::file(Kind::Programs, seed));
                let index = load(&bytes).unwrap_or_else(|refusal| panic!("{seed}: {refusal:?}"));
                assert_eq!(index.to_text().into_bytes(), bytes);
            }
        });
    }

    /// How often positions are asked where a wrong choice would show.
    #[derive(Debug, Default)]
    struct Situations {
        none: usize,
        one: usize,
        nested: usize,
        same_span: usize,
        equally_short: usize,
        end: usize,
        without_bytes: usize,
        absent: usize,
    }

    impl Situations {
        fn add(&mut self, records: &Module, position: u64) {
            let records = &records.expressions;
            let covering: Vec<(u64, u64)> = records
                .iter()
                .filter(|record| record.covers(position))
                .map(|record| record.span)
                .collect();
            let length = |(start, end): &(u64, u64)| end - start;
            let shortest = covering.iter().map(length).min();
            let shortest: Vec<&(u64, u64)> = covering
                .iter()
                .filter(|span| Some(length(span)) == shortest)
                .collect();
            match covering.len() {
                0 => self.none += 1,
                1 => self.one += 1,
                _ => self.nested += usize::from(shortest.len() < covering.len()),
            }
            let same = shortest.windows(2).any(|pair| pair[0] == pair[1]);
            self.same_span += usize::from(same);
            let other = shortest.windows(2).any(|pair| pair[0] != pair[1]);
            self.equally_short += usize::from(other);
            let ends = records.iter().any(|e| e.span.1 == position);
            self.end += usize::from(ends);
            let wrong =
                |&(start, end): &(u64, u64)| start >= end && position >= end && position <= start;
            let without_bytes = records.iter().any(|e| wrong(&e.span));
            self.without_bytes += usize::from(without_bytes);
        }
    }

    #[test]
    fn files_of_at_ask_where_it_matters() {
        let mut seen = Situations::default();
        with_large_stack(|| {
            for seed in 0..200 {
                let Ok(index) = load(&generate::file(Kind::At, seed)) else {
                    continue;
                };
                for question in &index.questions {
                    let Question::At { module, position } = *question else {
                        continue;
                    };
                    match index.modules.get(module) {
                        Some(records) => seen.add(records, position),
                        None => seen.absent += 1,
                    }
                }
            }
        });
        let counts = [
            seen.none,
            seen.one,
            seen.nested,
            seen.same_span,
            seen.equally_short,
            seen.end,
            seen.without_bytes,
            seen.absent,
        ];
        assert!(counts.iter().all(|count| *count >= 100), "{seen:?}");
    }

    #[test]
    fn files_of_at_stay_in_the_compared_set() {
        with_large_stack(|| {
            let files = (0..100).map(|seed| generate::file(Kind::At, seed));
            let indexes = files.filter_map(|bytes| load(&bytes).ok());
            let outside = indexes.filter(|index| !misled_children(index).is_empty());
            // Only those whose records had such spans before.
            let count = outside.count();
            assert!(count < 10, "{count} of 100");
        });
    }

    #[test]
    fn damaged_files_are_often_refused() {
        with_large_stack(|| {
            let files = (0..300).map(|seed| generate::file(Kind::Damaged, seed));
            let refused = files.filter(|bytes| load(bytes).is_err()).count();
            assert!((100..290).contains(&refused), "{refused} of 300");
        });
    }

    #[test]
    fn the_oracles_ways_of_answering_agree() {
        let report = with_large_stack(|| typetool::self_check::run(60, 1));
        assert!(report.is_ok(), "{report:?}");
    }
}

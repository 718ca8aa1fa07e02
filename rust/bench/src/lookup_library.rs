//! The lookups over record words, and a `load` beside them: the static library of the proved crate
//! `lookup_bench`, which is for this benchmark alone. (The library for users takes no record words.)

/// A name by its place in the file.
#[derive(Debug, Clone, Copy)]
pub struct Name {
    /// The place of its first byte.
    pub start: u32,
    /// How many bytes it has.
    pub length: u32,
}

/// Loads a file: 0 where it is accepted, and the words then hold its index; else the refusal's number.
pub fn load(file: &[u8], words: &mut [u32]) -> u32 {
    // SAFETY: both are slices with their lengths, and don't overlap.
    unsafe { bench_load(file.as_ptr(), file.len(), words.as_mut_ptr(), words.len()) }
}

/// The bytes of a file and its words. Scopes, expressions and results are numbers in a module; a module
/// that the index of the words doesn't have has nothing, whatever stands behind those that it has.
#[derive(Clone, Copy)]
pub struct Loaded<'a> {
    /// The bytes, which the names are parts of.
    pub file: &'a [u8],
    /// The words that [`load`] wrote.
    pub words: &'a [u32],
}

/// 0 is none, else it is the number and 1.
fn link(given: u64) -> Option<usize> {
    given.checked_sub(1).map(|number| number as usize)
}

impl Loaded<'_> {
    /// The file and the words, each with its length: what the functions take in front.
    fn parts(self) -> (*const u8, usize, *const u32, usize) {
        let Self { file, words } = self;
        (file.as_ptr(), file.len(), words.as_ptr(), words.len())
    }

    /// The module of a name.
    pub fn module_by_name(self, name: Name) -> Option<usize> {
        let (file, bytes, words, count) = self.parts();
        // SAFETY: both are slices with their lengths, and nothing is written.
        link(unsafe { bench_module_by_name(file, bytes, words, count, name.start, name.length) })
    }

    /// The last definition of a name in the first scope that has one, from scope `s` of module `m`
    /// upward.
    pub fn latest_definition_index_by_name_in_chain(
        self,
        m: u32,
        s: u32,
        name: Name,
    ) -> Option<usize> {
        let (file, bytes, words, count) = self.parts();
        let Name { start, length } = name;
        // SAFETY: both are slices with their lengths, and nothing is written.
        link(unsafe {
            bench_latest_definition_index_by_name_in_chain(
                file, bytes, words, count, m, s, start, length,
            )
        })
    }

    /// The definition that a name leads to, used in scope `s` of module `m` at a span.
    pub fn resolve_name_at_position(
        self,
        m: u32,
        name: Name,
        s: u32,
        span: (u32, u32),
    ) -> Option<usize> {
        let (file, bytes, words, count) = self.parts();
        let Name { start, length } = name;
        // SAFETY: both are slices with their lengths, and nothing is written.
        link(unsafe {
            bench_resolve_name_at_position(
                file, bytes, words, count, m, start, length, s, span.0, span.1,
            )
        })
    }

    /// The definition that expression `e` of module `m` records.
    pub fn definition_for_identifier_expr(self, m: u32, e: u32) -> Option<usize> {
        let (_, _, words, count) = self.parts();
        // SAFETY: a slice with its length, and nothing is written.
        link(unsafe { bench_definition_for_identifier_expr(words, count, m, e) })
    }

    /// The first function definition of module `m` whose scope is `s` or an ancestor of it.
    pub fn first_function_around(self, m: u32, s: u32) -> Option<usize> {
        let (_, _, words, count) = self.parts();
        // SAFETY: a slice with its length, and nothing is written.
        link(unsafe { bench_first_function_around(words, count, m, s) })
    }
}

unsafe extern "C" {
    fn bench_load(
        file: *const u8,
        file_bytes: usize,
        records: *mut u32,
        record_count: usize,
    ) -> u32;

    fn bench_module_by_name(
        file: *const u8,
        file_bytes: usize,
        words: *const u32,
        word_count: usize,
        start: u32,
        length: u32,
    ) -> u64;

    fn bench_latest_definition_index_by_name_in_chain(
        file: *const u8,
        file_bytes: usize,
        words: *const u32,
        word_count: usize,
        m: u32,
        s: u32,
        start: u32,
        length: u32,
    ) -> u64;

    fn bench_resolve_name_at_position(
        file: *const u8,
        file_bytes: usize,
        words: *const u32,
        word_count: usize,
        m: u32,
        start: u32,
        length: u32,
        s: u32,
        from: u32,
        to: u32,
    ) -> u64;

    fn bench_definition_for_identifier_expr(
        words: *const u32,
        word_count: usize,
        m: u32,
        e: u32,
    ) -> u64;

    fn bench_first_function_around(words: *const u32, word_count: usize, m: u32, s: u32) -> u64;
}

#[cfg(test)]
mod tests {
    use super::{Loaded, Name, load};
    use roognaps::raw::RECORD_WORDS;

    /// `const x = 1; fn f(y: u32) { let y = x; y }` and a second module.
    const FILE: &str = "index\t1
M\tmain
S\t-\tmodule
S\t0\tfunction
S\t1\tblock
T\tu32
D\t0\tx\t6\t7\t0\t12\tconst\t-\t0
D\t0\tf\t16\t17\t13\t60\tfn\t0\ty\t0
D\t1\ty\t18\t19\t18\t24\tparam\t0
D\t1\ty\t32\t33\t28\t38\tlet\t-\t1\t-
E\t0\t10\t11\t-\t-\tplain\t-\t-\tlit\t-
E\t1\t36\t37\t-\t0\tplain\t-\t-\tident\tx
E\t2\t40\t41\t-\t3\tplain\t-\t-\tident\ty
M\tother
S\t-\tmodule
";

    fn words() -> Vec<u32> {
        let mut words = vec![0; RECORD_WORDS];
        assert_eq!(load(FILE.as_bytes(), &mut words), 0, "accepted");
        words
    }

    /// Where a file has this text first.
    fn name_in(file: &str, text: &str) -> Name {
        Name {
            start: file.find(text).expect("it is in the file") as u32,
            length: text.len() as u32,
        }
    }

    #[test]
    fn known_answers() {
        let words = words();
        let loaded = Loaded {
            file: FILE.as_bytes(),
            words: &words,
        };
        let name = |text| name_in(FILE, text);
        assert_eq!(loaded.module_by_name(name("main")), Some(0));
        assert_eq!(loaded.module_by_name(name("other")), Some(1));
        assert_eq!(loaded.module_by_name(name("othe")), None);

        let latest = |s, text| loaded.latest_definition_index_by_name_in_chain(0, s, name(text));
        assert_eq!(latest(2, "x"), Some(0));
        assert_eq!(latest(2, "y"), Some(3));
        assert_eq!(latest(0, "y"), None);
        let other = loaded.latest_definition_index_by_name_in_chain(1, 0, name("x"));
        assert_eq!(other, None);

        let at = |s, span| loaded.resolve_name_at_position(0, name("y"), s, span);
        assert_eq!(at(2, (40, 41)), Some(3));
        assert_eq!(at(1, (26, 27)), Some(2));
        assert_eq!(at(0, (40, 41)), None);

        let recorded = [0, 1, 2, 3].map(|e| loaded.definition_for_identifier_expr(0, e));
        assert_eq!(recorded, [None, Some(0), Some(3), None]);

        let around = [0, 1, 2].map(|s| loaded.first_function_around(0, s));
        assert_eq!(around, [Some(1); 3]);
        assert_eq!(loaded.first_function_around(1, 0), None);
    }

    const TWO_MODULES: &str = "index\t1
M\tmain
S\t-\tmodule
M\tother
S\t-\tmodule
T\tu32
D\t0\tf\t3\t4\t0\t30\tfn\t0
E\t0\t10\t11\t-\t0\tplain\t-\t-\tident\tf
";
    const ONE_MODULE: &str = "index\t1
M\ta_name_that_ends_behind_the_place_of_the_other_file's_f
S\t-\tmodule
";

    /// What each lookup by module finds in module 1, asked for its f.
    fn in_module_1(file: &str, words: &[u32]) -> [Option<usize>; 4] {
        let file = file.as_bytes();
        let loaded = Loaded { file, words };
        let name = name_in(TWO_MODULES, "f");
        [
            loaded.latest_definition_index_by_name_in_chain(1, 0, name),
            loaded.resolve_name_at_position(1, name, 0, (10, 11)),
            loaded.definition_for_identifier_expr(1, 0),
            loaded.first_function_around(1, 0),
        ]
    }

    /// A file with two modules, then one with one module into the same buffer: module 1 is absent, though
    /// the first file's rows are still there.
    #[test]
    fn module_of_an_earlier_file() {
        let mut words = vec![0; RECORD_WORDS];
        assert_eq!(load(TWO_MODULES.as_bytes(), &mut words), 0, "accepted");
        assert_eq!(in_module_1(TWO_MODULES, &words), [Some(0); 4]);
        assert_eq!(load(ONE_MODULE.as_bytes(), &mut words), 0, "accepted");
        assert_eq!(in_module_1(ONE_MODULE, &words), [None; 4]);
        // The rows can be found: with two modules in the header they are module 1's.
        words[0] = 2;
        assert_eq!(in_module_1(ONE_MODULE, &words), [Some(0); 4]);
    }

    /// Whatever the words and numbers, a lookup ends and gives something. (Large words are counts that
    /// take long to go through.)
    #[test]
    fn any_words_and_numbers() {
        let numbers = [0, 1, 7, 8, 255, 65_535, u32::MAX];
        let wild: Vec<u32> = (0..RECORD_WORDS as u32).map(|word| word % 251).collect();
        let loaded = words();
        for words in [&loaded[..], &loaded[..600], &wild, &wild[..99], &[]] {
            let file = &FILE.as_bytes()[..words.len().min(FILE.len())];
            let loaded = Loaded { file, words };
            let modules = words.first().map_or(0, |count| *count);
            for m in numbers {
                for n in numbers {
                    let name = Name {
                        start: m,
                        length: n,
                    };
                    let by_module = [
                        loaded.latest_definition_index_by_name_in_chain(m, n, name),
                        loaded.resolve_name_at_position(m, name, n, (n, m)),
                        loaded.definition_for_identifier_expr(m, n),
                        loaded.first_function_around(m, n),
                    ];
                    let module = loaded.module_by_name(name);
                    if m >= modules {
                        assert_eq!(by_module, [None; 4]);
                    }
                    assert!(module.is_none_or(|module| module < modules as usize));
                }
            }
        }
    }
}

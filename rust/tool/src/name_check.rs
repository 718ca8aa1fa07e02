//! Compares the lookups along the chain of scopes, over the records of an index, with the original's own:
//! the definition and the scope that supplied it.

use index_file::load::load;
use index_file::name_lookup::FoundName;
use index_file::records::{DefinitionKind, Index, Module, Node, TypeExpr};
use oracle::{Options, Oracle};

/// At most so many questions by position are asked of a module. Where there are more, not every combination
/// is asked, but every scope, every name and every span is, if there are at most so many of each, as in all
/// index files.
const MOST_BY_POSITION: usize = 20_000;

/// No generated name is this one.
const NOBODY: &str = "nobody's_name";

/// How many questions were compared, and how many of them found a definition.
#[derive(Debug, Default, Clone, Copy, PartialEq, Eq)]
pub struct Count {
    pub compared: u64,
    pub found: u64,
}

/// Of each of the two lookups.
#[derive(Debug, Default, Clone, Copy, PartialEq, Eq)]
pub struct Counts {
    pub latest: Count,
    pub by_position: Count,
}

impl Counts {
    pub fn report(self) -> String {
        let Self {
            latest,
            by_position,
        } = self;
        format!(
            "{} lookups of the latest name equal, {} of them found, and {} of a name by position, {} \
             of them found",
            latest.compared, latest.found, by_position.compared, by_position.found
        )
    }
}

impl Count {
    fn compare(
        &mut self,
        asked: impl FnOnce() -> String,
        ours: Option<FoundName>,
        original: Option<FoundName>,
    ) -> Result<(), String> {
        if ours != original {
            let asked = asked();
            return Err(format!(
                "{asked}: {ours:?}, but by the original {original:?}"
            ));
        }
        self.compared += 1;
        self.found += u64::from(ours.is_some());
        Ok(())
    }
}

/// Asks both lookups in each module: every scope and one that is absent, every name that occurs in the
/// module and one that doesn't, and of the second lookup the spans of all expressions and definitions and
/// those one off them. The oracle's modules must stand in the order of the index.
pub fn compare(index: &Index, oracle: &Oracle, counts: &mut Counts) -> Result<(), String> {
    for (number, module) in index.modules.iter().enumerate() {
        compare_latest(number, module, oracle, &mut counts.latest)?;
        compare_by_position(number, module, oracle, &mut counts.by_position)?;
    }
    Ok(())
}

fn compare_latest(
    number: usize,
    module: &Module,
    oracle: &Oracle,
    count: &mut Count,
) -> Result<(), String> {
    for scope in 0..=module.scopes.len() {
        for name in names(module) {
            let asked = || format!("latest {name} in module {number} from scope {scope}");
            let ours = module.latest_definition_index_by_name_in_chain(scope, name);
            let original = oracle.latest_definition_index_by_name_in_chain(number, scope, name);
            count.compare(asked, ours, original)?;
        }
    }
    Ok(())
}

fn compare_by_position(
    number: usize,
    module: &Module,
    oracle: &Oracle,
    count: &mut Count,
) -> Result<(), String> {
    let (scopes, names, spans) = (module.scopes.len() + 1, names(module), spans(module));
    for [scope, name, span] in questions(scopes, names.len(), spans.len()) {
        let (name, span) = (names[name], spans[span]);
        let asked = || format!("{name} in module {number} from scope {scope} at {span:?}");
        let ours = module.resolve_name_at_position(name, scope, span);
        let original = oracle.resolve_name_at_position(number, name, scope, span);
        count.compare(asked, ours, original)?;
    }
    Ok(())
}

/// The first questions out of all, each a scope, a name and a span, and none twice. All three numbers go up
/// by one at each question, so that the first questions have every scope, every name and every span. When
/// the same three would come again, the scope goes up by one more; when these too would, the span does.
fn questions(scopes: usize, names: usize, spans: usize) -> impl Iterator<Item = [usize; 3]> {
    let all = scopes * names * spans;
    let without_scopes = least_common_multiple(names, spans);
    let again = least_common_multiple(scopes, without_scopes);
    let again_by_scopes = scopes * without_scopes;
    (0..all.min(MOST_BY_POSITION)).map(move |k| {
        [
            (k + k / again) % scopes,
            k % names,
            (k + k / again_by_scopes) % spans,
        ]
    })
}

/// 0 if one of them is.
fn least_common_multiple(a: usize, b: usize) -> usize {
    a / greatest_common_divisor(a, b).max(1) * b
}

fn greatest_common_divisor(a: usize, b: usize) -> usize {
    if b == 0 {
        return a;
    }
    greatest_common_divisor(b, a % b)
}

/// Each name that occurs in the module, once, and one that doesn't.
fn names(module: &Module) -> Vec<&str> {
    let defined = module.definitions.iter().map(|d| d.name.as_str());
    let used = module.expressions.iter().filter_map(|e| match &e.node {
        Node::Ident { name } | Node::StructLit { name, .. } => Some(name.as_str()),
        _ => None,
    });
    let in_types = module.types.iter().filter_map(|ty| match ty {
        TypeExpr::Custom(name) => Some(name.as_str()),
        _ => None,
    });
    let mut names: Vec<&str> = defined.chain(used).chain(in_types).collect();
    names.push(NOBODY);
    names.sort_unstable();
    names.dedup();
    names
}

/// The spans of all expressions, of struct literals' names and of definitions, and those one off them.
fn spans(module: &Module) -> Vec<(u64, u64)> {
    let expressions = module.expressions.iter().map(|e| e.span);
    let literals = module.expressions.iter().filter_map(|e| match e.node {
        Node::StructLit { span, .. } => Some(span),
        _ => None,
    });
    let definitions = module.definitions.iter().map(|d| d.full_span);
    let all = expressions.chain(literals).chain(definitions);
    let mut spans: Vec<(u64, u64)> = all.flat_map(one_off).collect();
    spans.sort_unstable();
    spans.dedup();
    spans
}

fn one_off((start, end): (u64, u64)) -> [(u64, u64); 5] {
    [
        (start, end),
        (start.saturating_sub(1), end),
        (start + 1, end),
        (start, end.saturating_sub(1)),
        (start, end + 1),
    ]
}

/// A constant, two lets in a function, each used in the value of the next, and a use in a block.
const PLANTED_IN: &str = "index 1\nM main\nS - module\nS 0 function\nS 1 block\n\
    D 0 x 6 7 2 10 const - -\nD 1 x 24 25 20 30 let - 0 -\nD 1 x 44 45 40 50 let - 1 -\n\
    E 1 28 29 - 0 plain - - ident x\nE 1 48 49 - 1 plain - - ident x\n\
    E 2 60 61 - 2 plain - - ident x\n";

/// A change of the records that the lookup by position has to see, and the other one too where it is said.
struct Fault {
    what: &'static str,
    seen_by_latest: bool,
    plant: fn(&mut Module),
}

const FAULTS: [Fault; 8] = [
    Fault {
        what: "a definition in another scope",
        seen_by_latest: true,
        plant: |m| m.definitions[2].scope = 2,
    },
    Fault {
        what: "a definition of another name",
        seen_by_latest: true,
        plant: |m| m.definitions[2].name.push('x'),
    },
    Fault {
        what: "definitions of two scopes in another order",
        seen_by_latest: true,
        plant: |m| m.definitions.swap(0, 2),
    },
    Fault {
        what: "another parent",
        seen_by_latest: true,
        plant: |m| m.scopes[2].parent = Some(0),
    },
    // The last of the name in its scope is number 2 in either order.
    Fault {
        what: "definitions of one scope in another order",
        seen_by_latest: false,
        plant: |m| m.definitions.swap(1, 2),
    },
    Fault {
        what: "a definition that begins one later",
        seen_by_latest: false,
        plant: |m| m.definitions[2].full_span.0 += 1,
    },
    Fault {
        what: "a definition of another kind",
        seen_by_latest: false,
        plant: |m| m.definitions[0].kind = DefinitionKind::Struct { fields: vec![] },
    },
    Fault {
        what: "a value that ends one earlier",
        seen_by_latest: false,
        plant: |m| m.expressions[1].span.1 -= 1,
    },
];

/// Each of the faults, planted in the records, is noticed by each lookup that has to see it; without one
/// all is equal.
pub fn check_planted() -> Result<(), String> {
    let text = PLANTED_IN.replace(' ', "\t");
    let index = load(text.as_bytes()).map_err(|refusal| refusal.answer_line())?;
    let oracle = Oracle::new(&index, Options::default());
    compare(&index, &oracle, &mut Counts::default())?;
    for fault in FAULTS {
        let mut changed = index.modules[0].clone();
        (fault.plant)(&mut changed);
        check_noticed(&fault, &changed, &oracle)?;
    }
    Ok(())
}

fn check_noticed(fault: &Fault, changed: &Module, oracle: &Oracle) -> Result<(), String> {
    let what = fault.what;
    let mut count = Count::default();
    if fault.seen_by_latest && compare_latest(0, changed, oracle, &mut count).is_ok() {
        return Err(format!(
            "the lookup of the latest name doesn't notice {what}"
        ));
    }
    if compare_by_position(0, changed, oracle, &mut count).is_ok() {
        return Err(format!("the lookup by position doesn't notice {what}"));
    }
    Ok(())
}

#[cfg(test)]
mod tests {
    use std::collections::HashSet;

    use super::*;
    use crate::generate::Random;

    #[test]
    fn faults_are_noticed() {
        oracle::with_large_stack(check_planted).expect("all are");
    }

    /// No question is asked twice, and all are if they aren't too many; every scope, name and span is asked.
    fn check_questions(parts: [usize; 3]) {
        let [scopes, names, spans] = parts;
        let asked: Vec<[usize; 3]> = questions(scopes, names, spans).collect();
        let all = scopes * names * spans;
        assert_eq!(asked.len(), all.min(MOST_BY_POSITION), "{parts:?}");
        let once: HashSet<&[usize; 3]> = asked.iter().collect();
        assert_eq!(once.len(), asked.len(), "{parts:?}");
        for (part, length) in parts.into_iter().enumerate() {
            let reached: HashSet<usize> = asked.iter().map(|question| question[part]).collect();
            let owed = if all == 0 { 0 } else { length };
            assert!(reached.iter().all(|number| *number < length), "{parts:?}");
            assert_eq!(reached.len(), owed, "part {part} of {parts:?}");
        }
    }

    #[test]
    fn every_scope_name_and_span_is_asked() {
        for parts in [
            [1, 1, 1],
            [2, 1, 1],
            [3, 40, 200],
            [101, 224, 3_404],
            [126, 13, 13],
            [129, 129, 129],
            [2, 2, 6_400],
            [2, MOST_BY_POSITION, MOST_BY_POSITION],
        ] {
            check_questions(parts);
        }
        let mut random = Random::new(7);
        for _ in 0..200 {
            let mut most = |most| random.between(1, most);
            check_questions([most(129), most(40), most(40)]);
            check_questions([most(129), most(1_281), most(6_400)]);
        }
    }

    #[test]
    fn an_empty_part_asks_nothing() {
        for parts in [[0, 0, 0], [0, 3, 4], [3, 0, 4], [3, 4, 0], [0, 0, 4]] {
            check_questions(parts);
        }
    }
}

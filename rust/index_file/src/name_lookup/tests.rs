//! The tables of crates/model/specs/LookupCases.antt, and what they leave open.

use super::*;
use crate::records::{Expr, Origin, Scope, ScopeKind};

fn scope(parent: Option<usize>, kind: ScopeKind) -> Scope {
    Scope { parent, kind }
}

/// A function (scope 1) with a block (scope 2) in it, and a second function (scope 3).
fn scopes() -> Vec<Scope> {
    vec![
        scope(None, ScopeKind::Module),
        scope(Some(0), ScopeKind::Function),
        scope(Some(1), ScopeKind::Block),
        scope(Some(0), ScopeKind::Function),
    ]
}

/// The name stands at the end, so that a test that reads its place differs from one that reads the whole's
/// start.
fn define(scope: usize, name: &str, span: (u64, u64), kind: DefinitionKind) -> Definition {
    Definition {
        scope,
        name: name.to_string(),
        name_span: (span.1, span.1),
        full_span: span,
        kind,
    }
}

fn expression(scope: usize, span: (u64, u64), definition: Option<usize>, node: Node) -> Expr {
    Expr {
        scope,
        span,
        expected: None,
        definition,
        origin: Origin::Plain,
        node,
    }
}

fn identifier(scope: usize, name: &str, span: (u64, u64), definition: Option<usize>) -> Expr {
    let name = name.to_string();
    expression(scope, span, definition, Node::Ident { name })
}

fn function() -> DefinitionKind {
    DefinitionKind::Fn {
        returns: 0,
        parameters: vec![],
    }
}

fn constant(value: Option<usize>) -> DefinitionKind {
    DefinitionKind::Const { ty: None, value }
}

fn variable(value: Option<usize>, destructured: Option<usize>) -> DefinitionKind {
    DefinitionKind::Let {
        ty: None,
        value,
        destructured,
        path: vec![],
    }
}

fn a_use(module: &str, item: &str) -> DefinitionKind {
    DefinitionKind::Use {
        module: module.to_string(),
        item: item.to_string(),
    }
}

/// `names` of LookupCases.
fn names() -> Module {
    let a_struct = DefinitionKind::Struct { fields: vec![] };
    Module {
        name: "names".to_string(),
        scopes: scopes(),
        definitions: vec![
            define(0, "a", (10, 20), a_struct),
            define(0, "f", (30, 90), function()),
            define(1, "a", (40, 45), DefinitionKind::Param { ty: 0 }),
            define(1, "a", (50, 60), variable(Some(0), None)),
            define(2, "b", (62, 66), DefinitionKind::Loop),
            define(0, "a", (100, 110), constant(None)),
            define(0, "c", (200, 220), constant(Some(1))),
            define(0, "u", (230, 240), a_use("other", "u")),
            define(0, "g", (250, 290), function()),
            define(3, "v", (260, 280), variable(None, Some(3))),
            define(3, "w", (262, 280), variable(Some(3), Some(3))),
        ],
        expressions: vec![
            identifier(1, "a", (55, 58), Some(2)),
            identifier(0, "a", (210, 211), Some(6)),
            identifier(1, "a", (70, 71), None),
            identifier(3, "a", (265, 270), None),
        ],
        ..Module::default()
    }
}

fn found(scope: usize, definition: usize) -> Option<FoundName> {
    Some(FoundName { scope, definition })
}

#[test]
fn chains() {
    let module = names();
    let chain = |scope| module.scope_chain(scope).collect::<Vec<usize>>();
    assert_eq!(chain(0), [0]);
    assert_eq!(chain(2), [2, 1, 0]);
    assert_eq!(chain(3), [3, 0]);
    assert_eq!(chain(4), []);
}

/// `latest_in_chain_cases`.
#[test]
fn latest_in_chain() {
    let module = names();
    for (scope, name, owed) in [
        (0, "a", found(0, 5)),
        (1, "a", found(1, 3)),
        (2, "a", found(1, 3)),
        (2, "b", found(2, 4)),
        (1, "b", None),
        (2, "f", found(0, 1)),
        (3, "a", found(0, 5)),
        (3, "b", None),
        (0, "ff", None),
        (4, "a", None),
        (usize::MAX, "a", None),
    ] {
        let answer = module.latest_definition_index_by_name_in_chain(scope, name);
        assert_eq!(answer, owed, "{name} from scope {scope}");
    }
}

/// A name, the scope and the span of its use; the scope and the definition that are found.
type Case = (&'static str, usize, (u64, u64), Option<(usize, usize)>);

/// `position_cases`, scopes without a record, and an end before the start.
const AT_POSITION: [Case; 32] = [
    // The last that begins at the use or before it; the earlier one; in the module's scope the struct from
    // any position, and the const from its own start on.
    ("a", 1, (50, 51), Some((1, 3))),
    ("a", 1, (49, 50), Some((1, 2))),
    ("a", 1, (40, 41), Some((1, 2))),
    ("a", 1, (39, 40), Some((0, 0))),
    ("a", 0, (5, 6), Some((0, 0))),
    ("a", 0, (99, 100), Some((0, 0))),
    ("a", 0, (100, 101), Some((0, 5))),
    // In the value of the let it isn't visible: the whole value, a part of it; not so a span that begins
    // before it or ends behind it.
    ("a", 1, (55, 58), Some((1, 2))),
    ("a", 1, (56, 57), Some((1, 2))),
    ("a", 1, (54, 58), Some((1, 3))),
    ("a", 1, (55, 59), Some((1, 3))),
    // A const is visible in its own value, and so is a let in what it is taken from, unless that is its
    // value too.
    ("c", 0, (210, 211), Some((0, 6))),
    ("v", 3, (265, 270), Some((3, 9))),
    ("w", 3, (265, 270), None),
    ("w", 3, (271, 272), Some((3, 10))),
    // A function, a `use` and a struct may stand behind their use; a const, a let, a parameter and a loop
    // variable may not.
    ("f", 0, (0, 1), Some((0, 1))),
    ("u", 0, (0, 1), Some((0, 7))),
    ("c", 0, (199, 200), None),
    ("c", 0, (200, 201), Some((0, 6))),
    ("b", 2, (61, 62), None),
    ("b", 2, (62, 63), Some((2, 4))),
    ("v", 3, (259, 260), None),
    // The nearest scope that has a visible one; a scope beside or below isn't searched.
    ("a", 2, (70, 71), Some((1, 3))),
    ("a", 2, (55, 58), Some((1, 2))),
    ("a", 2, (39, 40), Some((0, 0))),
    ("a", 3, (70, 71), Some((0, 0))),
    ("a", 3, (270, 271), Some((0, 5))),
    ("b", 1, (70, 71), None),
    ("v", 0, (270, 271), None),
    ("a", 4, (70, 71), None),
    ("a", usize::MAX, (70, 71), None),
    ("a", 1, (58, 0), Some((1, 2))),
];

#[test]
fn at_position() {
    let module = names();
    for (name, scope, span, owed) in AT_POSITION {
        let owed = owed.and_then(|(scope, definition)| found(scope, definition));
        let answer = module.resolve_name_at_position(name, scope, span);
        assert_eq!(answer, owed, "{name} from scope {scope} at {span:?}");
    }
}

/// `const x` in scope 0, and `let x` in scope 1 behind a use at 10: the smallest module on which the two
/// lookups part.
#[test]
fn the_two_lookups_part() {
    let module = Module {
        scopes: scopes()[..2].to_vec(),
        definitions: vec![
            define(0, "x", (0, 5), constant(None)),
            define(1, "x", (20, 30), variable(None, None)),
        ],
        ..Module::default()
    };
    let at_position = module.resolve_name_at_position("x", 1, (10, 11));
    let latest = module.latest_definition_index_by_name_in_chain(1, "x");
    assert_eq!((at_position, latest), (found(0, 0), found(1, 1)));
    // From the let on they say the same.
    let at_position = module.resolve_name_at_position("x", 1, (20, 21));
    assert_eq!(at_position, latest);
}

fn used(module: &Module, expression: usize) -> Option<(&str, (u64, u64), Supplied)> {
    let used = module.name_used_by(expression)?;
    Some((used.name, used.span, used.supplied))
}

#[test]
fn names_of_expressions() {
    let mut module = names();
    let by = |scope, definition| Supplied::By(FoundName { scope, definition });
    let literal = Node::StructLit {
        name: "a".to_string(),
        span: (49, 50),
    };
    let of_assert = Node::StructLit {
        name: "assert".to_string(),
        span: (80, 86),
    };
    module
        .definitions
        .push(define(0, "assert", (300, 310), function()));
    module.expressions.extend([
        expression(1, (39, 79), Some(3), literal),
        identifier(1, "assert", (80, 86), Some(11)),
        identifier(1, "nobody", (80, 86), None),
        expression(1, (80, 90), None, of_assert),
        expression(1, (80, 90), None, Node::Bool),
        identifier(1, "a", (80, 81), Some(12)),
    ]);
    for (expression, owed) in [
        // The recorded definition, though the name at this place means another: its own scope supplies it.
        (0, Some(("a", (55, 58), by(1, 2)))),
        (1, Some(("a", (210, 211), by(0, 6)))),
        // None is recorded: the name is looked up at the expression's span.
        (2, Some(("a", (70, 71), by(1, 3)))),
        (3, Some(("a", (265, 270), by(0, 5)))),
        // A struct literal's name is looked up at its own span, whatever is recorded.
        (4, Some(("a", (49, 50), by(1, 2)))),
        // The built-in function is nobody's definition, recorded or not.
        (5, Some(("assert", (80, 86), Supplied::BuiltIn))),
        (6, Some(("nobody", (80, 86), Supplied::Nowhere))),
        // A struct literal's name is never the built-in function.
        (7, Some(("assert", (80, 86), by(0, 11)))),
        (8, None),
        // A recorded definition that has no record is none.
        (9, Some(("a", (80, 81), by(1, 3)))),
        (10, None),
    ] {
        assert_eq!(used(&module, expression), owed, "expression {expression}");
    }
}

#[test]
fn latest_in_the_root_scope() {
    let module = names();
    assert_eq!(module.latest_in_root("a"), found(0, 5));
    assert_eq!(module.latest_in_root("b"), None);
    assert_eq!(Module::default().latest_in_root("a"), None);
    let mut root_last = names();
    root_last.scopes = vec![
        scope(Some(1), ScopeKind::Block),
        scope(None, ScopeKind::Module),
    ];
    assert_eq!(root_last.latest_in_root("a"), found(1, 3));
}

/// Records that no loader takes: a ring of parents, parents that are absent, links to nothing.
#[test]
fn any_records() {
    let ring = Module {
        scopes: vec![
            scope(Some(1), ScopeKind::Block),
            scope(Some(0), ScopeKind::Block),
            scope(Some(2), ScopeKind::Block),
            scope(Some(usize::MAX), ScopeKind::Block),
        ],
        definitions: vec![
            define(9, "x", (0, 1), constant(None)),
            define(0, "y", (0, 1), variable(Some(9), Some(9))),
        ],
        expressions: vec![identifier(9, "x", (0, 1), Some(9))],
        ..Module::default()
    };
    for scope in [0, 1, 2, 3, 9, usize::MAX] {
        assert!(ring.scope_chain(scope).count() <= scope.saturating_add(1));
        assert_eq!(
            ring.latest_definition_index_by_name_in_chain(scope, "x"),
            None
        );
        assert_eq!(ring.resolve_name_at_position("x", scope, (0, 1)), None);
    }
    assert_eq!(ring.resolve_name_at_position("y", 1, (0, 1)), found(0, 1));
    let nowhere = Some(("x", (0, 1), Supplied::Nowhere));
    assert_eq!(used(&ring, 0), nowhere);
    let empty = Module::default();
    assert_eq!(empty.latest_definition_index_by_name_in_chain(0, "x"), None);
    assert_eq!(empty.resolve_name_at_position("x", 0, (0, 0)), None);
}

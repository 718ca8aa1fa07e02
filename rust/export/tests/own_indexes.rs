//! Indexes that no source text gives, but a compiler might: their errors.

#![cfg(originals)]

use cairo_m_compiler_parser::parser::{Expression, Spanned};
use cairo_m_compiler_semantic as semantic;
use chumsky::span::SimpleSpan;
use export::{ExportError, ModuleIndex, index_text, records};
use semantic::definition::LoopVariableDefRef;
use semantic::semantic_index::from_records::ExpressionPart;
use semantic::semantic_index::{ExpressionInfo, Origin};
use semantic::{
    Definition, DefinitionKind, File, FileScopeId, Scope, ScopeKind, SemanticDatabaseImpl,
    SemanticIndex,
};

fn root_scope() -> Scope {
    Scope::new(None, ScopeKind::Module)
}

/// An index of one definition that ends at this position.
fn with_definition(file: File, end: usize) -> SemanticIndex {
    let definition = Definition {
        file,
        scope_id: FileScopeId::new(0),
        name: "i".to_string(),
        name_span: SimpleSpan::from(0..1),
        full_span: SimpleSpan::from(0..end),
        kind: DefinitionKind::LoopVariable(LoopVariableDefRef {
            name: "i".to_string(),
        }),
    };
    SemanticIndex::from_parts(vec![root_scope()], vec![definition], vec![], None)
}

/// An index of one expression.
fn with_expression(file: File, node: Expression) -> SemanticIndex {
    let expression = ExpressionPart {
        info: ExpressionInfo {
            file,
            ast_node: node,
            ast_span: SimpleSpan::from(10..20),
            scope_id: FileScopeId::new(0),
            expected_type_ast: None,
            origin: Origin::Plain,
        },
        definition: None,
    };
    SemanticIndex::from_parts(vec![root_scope()], vec![], vec![expression], None)
}

fn file() -> File {
    let db = SemanticDatabaseImpl::default();
    File::new(&db, String::new(), "main".to_string())
}

fn exported(index: &SemanticIndex) -> Result<String, ExportError> {
    let name = "main";
    index_text(&[ModuleIndex { name, index }], vec![])
}

fn identifier(name: &str) -> Box<Spanned<Expression>> {
    let span = SimpleSpan::from(10..16);
    let name = Spanned::new(name.to_string(), span);
    Box::new(Spanned::new(Expression::Identifier(name), span))
}

#[test]
fn positions_from_2_to_the_32() {
    let last = (1 << 32) - 1;
    assert!(exported(&with_definition(file(), last)).is_ok());
    let error = exported(&with_definition(file(), last + 1)).unwrap_err();
    assert_eq!(
        error.to_string(),
        "module main: position 4294967296 isn't below 2^32"
    );
}

#[test]
fn numbers_from_65536() {
    let node = |index| Expression::TupleIndex {
        tuple: identifier("t"),
        index,
    };
    assert!(exported(&with_expression(file(), node(65_535))).is_ok());
    let error = exported(&with_expression(file(), node(65_536))).unwrap_err();
    assert_eq!(
        error.to_string(),
        "module main: tuple index 65536 isn't below 65536"
    );
}

/// Only `assert` is a fault: any other callee without a record is answered the same.
#[test]
fn callees_without_a_record() {
    let call = |name| Expression::FunctionCall {
        callee: identifier(name),
        args: vec![],
    };
    let text = exported(&with_expression(file(), call("f"))).expect("it exports");
    assert!(text.ends_with("\tcall\t-\n"), "{text}");
    let error = exported(&with_expression(file(), call("assert"))).unwrap_err();
    let expected = ExportError::UnrecordedAssert {
        module: "main".to_string(),
        start: 10,
        end: 20,
    };
    assert_eq!(error, expected);
}

/// Modules without a scope, or with a wrong first one, have no form in an index file.
#[test]
fn shapes_that_no_builder_makes() {
    let empty = SemanticIndex::from_parts(vec![], vec![], vec![], None);
    let error = exported(&empty).unwrap_err();
    assert!(matches!(error, ExportError::Refused(r) if (r.number, r.line) == (5, 2)));
    assert_eq!(
        error.to_string(),
        "the written index is refused with 5 at line 2"
    );
    // The records alone aren't checked.
    let name = "main";
    let index = &empty;
    assert!(records(&[ModuleIndex { name, index }]).is_ok());
}

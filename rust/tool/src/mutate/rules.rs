//! Which places of the originals are changed, and how.

/// A function whose body is changed: its file below `semantic/src` and its name.
pub const FUNCTIONS: &[(&str, &str)] = &[
    ("type_resolution.rs", "resolve_ast_type"),
    ("type_resolution.rs", "resolve_variable_type"),
    ("type_resolution.rs", "definition_semantic_type"),
    ("type_resolution.rs", "expression_semantic_type"),
    ("type_resolution.rs", "struct_semantic_data"),
    ("type_resolution.rs", "function_semantic_signature"),
    ("type_resolution.rs", "are_types_compatible"),
    ("type_resolution.rs", "get_unary_op_signatures"),
    ("type_resolution.rs", "get_binary_op_signatures"),
    ("semantic_index.rs", "scope"),
    ("semantic_index.rs", "root_scope"),
    ("semantic_index.rs", "resolve_name_at_position"),
    ("semantic_index.rs", "latest_definition_index_by_name"),
    (
        "semantic_index.rs",
        "latest_definition_index_by_name_in_chain",
    ),
    ("semantic_index.rs", "definition"),
    ("semantic_index.rs", "expression"),
    ("semantic_index.rs", "expression_id_by_span"),
    ("semantic_index.rs", "definition_for_identifier_expr"),
    ("types.rs", "from"),
    ("types.rs", "field_type"),
    ("builtins.rs", "is_builtin_function_name"),
];

/// A text and what stands in its place; every place where the text stands is changed once.
pub const RULES: &[(&str, &str)] = &[
    // Types.
    ("TypeData::Felt", "TypeData::U32"),
    ("TypeData::U32", "TypeData::Felt"),
    ("TypeData::Bool", "TypeData::Felt"),
    ("TypeData::Error", "TypeData::Unknown"),
    ("TypeData::Unknown", "TypeData::Error"),
    ("\"felt\"", "\"bool\""),
    ("\"u32\"", "\"u8\""),
    ("\"assert\"", "\"asserts\""),
    // Comparisons and conditions.
    (" == ", " != "),
    (" < ", " <= "),
    (" > ", " >= "),
    (" <= ", " < "),
    (" >= ", " > "),
    ("&& ", "|| "),
    ("|| ", "&& "),
    ("=> true", "=> false"),
    ("=> false", "=> true"),
    ("return true", "return false"),
    ("unwrap_or(false)", "unwrap_or(true)"),
    (
        "!right_is_unsuffixed_literal",
        "right_is_unsuffixed_literal",
    ),
    ("!is_top_level_allowed", "is_top_level_allowed"),
    (".is_none()", ".is_some()"),
    (".is_empty()", ".is_empty() == false"),
    ("Literal(_, None)", "Literal(_, _)"),
    // Contexts.
    (", context_expected)", ", None)"),
    ("Some(left_type)", "None"),
    ("Some(right_type)", "None"),
    ("Some(*param_type)", "None"),
    ("Some(inferred_element_type)", "None"),
    ("Some(index_expected)", "None"),
    (", element_hint)", ", None)"),
    (", element_type);", ", None);"),
    ("(Some(element_type), Some(size))", "(None, None)"),
    ("context)", "None)"),
    // Scopes and positions.
    ("definition.scope_id", "FileScopeId::new(0)"),
    ("expr_info.scope_id", "FileScopeId::new(0)"),
    ("parent_info.scope_id", "expr_info.scope_id"),
    ("|s| s.parent", "|_s| None"),
    ("|ps| ps.parent", "|_ps| None"),
    (
        "def.scope_id == scope_id",
        "def.scope_id == FileScopeId::new(0)",
    ),
    (
        "expr_info.ast_span",
        "chumsky::span::SimpleSpan::from(0..0)",
    ),
    ("position.start", "position.end"),
    ("position.end", "position.start"),
    ("init_span.start", "init_span.end"),
    ("init_span.end", "init_span.start"),
    ("full_span.start", "name_span.start"),
    (", None)", ", context_expected)"),
    // Order and places.
    (".iter()", ".iter().rev()"),
    ("params.push(", "params.insert(0, "),
    ("fields.push(", "fields.insert(0, "),
    ("element_contexts.get(i)", "element_contexts.get(0)"),
    ("*size.value() as usize", "0"),
    ("*count.value() as usize", "0"),
    (".rev()", ""),
    (".skip(1)", ".skip(2)"),
    (".last()", ".first()"),
    ("elements[0]", "elements[elements.len() - 1]"),
    (".get(*index)", ".get(*index + 1)"),
    ("params.get(index)", "params.get(index + 1)"),
    ("element_types[index]", "element_types[0]"),
    ("size: 0,", "size: 1,"),
    ("size: elements.len()", "size: elements.len() + 1"),
    ("return_type(db)", "params(db)[0].1"),
    // Control.
    ("break;", ""),
    ("continue;", ""),
    ("return expected_type;", ""),
    ("return context_type;", ""),
    ("return signature.result;", ""),
    // Lists of alternatives.
    ("BinaryOp::Add | ", ""),
    ("BinaryOp::Mul | ", ""),
    ("BinaryOp::Eq | ", ""),
    (" | BinaryOp::Neq", ""),
    ("crate::definition::DefinitionKind::Function(_)", ""),
    ("| crate::definition::DefinitionKind::Struct(_)", ""),
    ("| crate::definition::DefinitionKind::Use(_)", ""),
    ("|| matches!(expected_type.data(db), TypeData::Felt)", ""),
    // Operator rows.
    ("op: UnaryOp::Neg", "op: UnaryOp::Not"),
    ("op: UnaryOp::Not", "op: UnaryOp::Neg"),
    ("operand: felt", "operand: bool"),
    ("operand: u32", "operand: bool"),
    ("operand: bool", "operand: u32"),
    ("left: felt", "left: bool"),
    ("left: u32", "left: felt"),
    ("left: bool", "left: u32"),
    ("right: felt", "right: u32"),
    ("right: u32", "right: felt"),
    ("right: bool", "right: felt"),
    ("result: felt", "result: u32"),
    ("result: u32", "result: felt"),
    ("result: bool", "result: felt"),
];

/// One change of one place.
#[derive(Debug, Clone, Copy, PartialEq, Eq)]
pub struct Place {
    pub file: &'static str,
    pub function: &'static str,
    /// From 1.
    pub line: usize,
    /// From 0, in the line.
    pub column: usize,
    pub before: &'static str,
    pub after: &'static str,
}

impl Place {
    /// The file's text with this place changed.
    pub fn change(&self, text: &str) -> String {
        let mut lines: Vec<String> = text.split('\n').map(str::to_string).collect();
        let line = &mut lines[self.line - 1];
        line.replace_range(self.column..self.column + self.before.len(), self.after);
        lines.join("\n")
    }
}

/// All places of a file, in its order.
pub fn places(file: &'static str, text: &str) -> Vec<Place> {
    let lines: Vec<&str> = text.split('\n').collect();
    let mut places = Vec::new();
    for (_, function) in FUNCTIONS.iter().filter(|(of, _)| *of == file) {
        for number in body(&lines, function) {
            places.extend(places_of_line(file, function, number, lines[number]));
        }
    }
    places
}

/// The lines of a function, from 0, without its first one.
fn body(lines: &[&str], function: &str) -> std::ops::Range<usize> {
    let starts = |line: &&str| {
        let line = line.trim_start();
        let line = line.strip_prefix("pub").unwrap_or(line);
        let line = line.strip_prefix("(crate)").unwrap_or(line).trim_start();
        let rest = line
            .strip_prefix("fn ")
            .and_then(|l| l.strip_prefix(function));
        rest.is_some_and(|rest| rest.starts_with(['(', '<']))
    };
    let start = lines.iter().position(starts);
    let start = start.unwrap_or_else(|| panic!("no function {function}"));
    let indent = lines[start].len() - lines[start].trim_start().len();
    let end = format!("{}}}", " ".repeat(indent));
    let length = lines[start..].iter().position(|line| *line == end);
    start + 1..start + length.unwrap_or_else(|| panic!("{function} has no end"))
}

fn places_of_line(
    file: &'static str,
    function: &'static str,
    number: usize,
    line: &str,
) -> Vec<Place> {
    let code = line.split("//").next().unwrap_or_default();
    let mut places = Vec::new();
    for (before, after) in RULES {
        for (column, _) in code.match_indices(before) {
            places.push(Place {
                file,
                function,
                line: number + 1,
                column,
                before,
                after,
            });
        }
    }
    places.sort_by_key(|place| place.column);
    places
}

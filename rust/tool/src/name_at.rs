//! The name at a byte of a Cairo-M source: its definition, and the scope that supplied it.

use export::places::{Places, Span, TypeName};
use export::sources::Source;
use index_file::name_lookup::{FoundName, Supplied};
use index_file::records::{Definition, DefinitionKind, Index, Module, ScopeKind};

/// Sources, the records that they are exported as and the places that these lack, in one order.
#[derive(Clone, Copy)]
pub struct Program<'p> {
    pub sources: &'p [Source],
    pub index: &'p Index,
    pub places: &'p [Places],
}

/// One module of a program.
#[derive(Clone, Copy)]
struct Within<'p> {
    program: Program<'p>,
    source: &'p Source,
    records: &'p Module,
    places: &'p Places,
}

/// A name and where it stands.
struct Named<'p> {
    name: &'p str,
    span: Span,
    stands: Stands<'p>,
}

/// What a name stands for.
enum Stands<'p> {
    /// It is the name of this definition itself, which stands in its own scope.
    Definition(FoundName),
    /// An expression uses it.
    Used(Supplied),
    /// A type has it.
    InType(&'p TypeName),
}

const NOT_VISIBLE: &str = "    no definition of this name is visible here, neither in the scope where it \
     stands nor in one around it\n";
const NOT_DEFINED: &str = "    no definition has this name, neither in the scope where it is looked up \
     nor in one around it\n";
const BUILT_IN: &str =
    "    built in: this function is no definition of a file, and no scope supplies it\n";

impl<'p> Program<'p> {
    /// What is said of the name at a byte of a module. None if the module is absent or no name stands
    /// there.
    pub fn shown_at(self, module: usize, byte: u64) -> Option<String> {
        let within = self.module(module)?;
        let named = within.named_at(byte)?;
        let Named { name, span, .. } = named;
        let mut text = format!(
            "{} (bytes {} to {}): {name}\n",
            place(within.source, span),
            span.0,
            span.1
        );
        text.push_str(&within.shown(&named));
        Some(text)
    }

    fn module(self, module: usize) -> Option<Within<'p>> {
        Some(Within {
            program: self,
            source: self.sources.get(module)?,
            records: self.index.modules.get(module)?,
            places: self.places.get(module)?,
        })
    }

    fn module_by_name(self, name: &str) -> Option<Within<'p>> {
        let mut modules = self.index.modules.iter();
        self.module(modules.position(|module| module.name == name)?)
    }
}

impl<'p> Within<'p> {
    /// The name of a definition, a name in a type, or the name of the shortest expression at the byte.
    fn named_at(self, byte: u64) -> Option<Named<'p>> {
        self.definition_at(byte)
            .or_else(|| self.type_name_at(byte))
            .or_else(|| self.use_at(byte))
    }

    fn definition_at(self, byte: u64) -> Option<Named<'p>> {
        let definitions = &self.records.definitions;
        let number = definitions
            .iter()
            .rposition(|definition| covers(definition.name_span, byte))?;
        let definition = &definitions[number];
        Some(Named {
            name: &definition.name,
            span: definition.name_span,
            stands: Stands::Definition(FoundName {
                scope: definition.scope,
                definition: number,
            }),
        })
    }

    fn type_name_at(self, byte: u64) -> Option<Named<'p>> {
        let mut names = self.places.type_names.iter();
        let type_name = names.find(|name| covers(name.span, byte))?;
        Some(Named {
            name: &type_name.name,
            span: type_name.span,
            stands: Stands::InType(type_name),
        })
    }

    /// The byte of a struct literal has to lie within its name.
    fn use_at(self, byte: u64) -> Option<Named<'p>> {
        let expression = self.records.expression_at(byte)?;
        let used = self.records.name_used_by(expression)?;
        covers(used.span, byte).then_some(Named {
            name: used.name,
            span: used.span,
            stands: Stands::Used(used.supplied),
        })
    }

    fn shown(self, named: &Named) -> String {
        match named.stands {
            Stands::Definition(own) => self.found(own, ", this place"),
            Stands::Used(Supplied::By(found)) => self.found(found, ""),
            Stands::Used(Supplied::BuiltIn) => BUILT_IN.to_string(),
            Stands::Used(Supplied::Nowhere) => NOT_VISIBLE.to_string(),
            Stands::InType(type_name) => self.in_type(type_name),
        }
    }

    /// The definition with a remark behind it, what it leads to, and its scope.
    fn found(self, found: FoundName, remark: &str) -> String {
        let Some(definition) = self.records.definitions.get(found.definition) else {
            return String::new();
        };
        let shown = self.definition(definition);
        let leads = self.leads(definition);
        let scope = self.scope(found.scope);
        format!("    definition: {shown}{remark}\n{leads}{scope}")
    }

    /// A type's name is looked up whatever stands before it. A parameter's is looked up twice, for the
    /// parameter and for the signature; both are said where they aren't the same.
    fn in_type(self, type_name: &TypeName) -> String {
        let latest = |scope| {
            let records = self.records;
            records.latest_definition_index_by_name_in_chain(scope, &type_name.name)
        };
        let said = |found: Option<FoundName>| match found {
            Some(found) => self.found(found, ""),
            None => NOT_DEFINED.to_string(),
        };
        let own = latest(type_name.scope);
        match type_name.in_signature.map(latest) {
            Some(in_signature) if in_signature != own => format!(
                "  for the parameter:\n{}  for the function's signature:\n{}",
                said(own),
                said(in_signature)
            ),
            _ => said(own),
        }
    }

    fn definition(self, definition: &Definition) -> String {
        let kind = kind(&definition.kind);
        let place = place(self.source, definition.name_span);
        format!("{kind} {} at {place}", definition.name)
    }

    fn scope(self, scope: usize) -> String {
        let Some(scope) = self.places.scopes.get(scope) else {
            return String::new();
        };
        let (kind, place) = match scope.scope.kind {
            ScopeKind::Module => ("module", self.source.path.clone()),
            ScopeKind::Function => ("function", place(self.source, scope.span)),
            ScopeKind::Block => ("block", place(self.source, scope.span)),
            ScopeKind::Loop => ("loop", place(self.source, scope.span)),
        };
        format!("    scope: {kind} at {place}\n")
    }

    /// A line for each step from a `use` to what it leads to. Imports make no ring, so there are at most as
    /// many steps as modules.
    fn leads(self, definition: &Definition) -> String {
        let mut text = String::new();
        let mut kind = &definition.kind;
        for _ in &self.program.index.modules {
            let DefinitionKind::Use { module, item } = kind else {
                break;
            };
            text.push_str(&format!("    leads to: {item} of module {module}"));
            let Some(other) = self.program.module_by_name(module) else {
                text.push_str(", which isn't given\n");
                break;
            };
            let found = other.records.latest_in_root(item);
            let led = found.and_then(|found| other.records.definitions.get(found.definition));
            let Some(led) = led else {
                text.push_str(", which doesn't have it\n");
                break;
            };
            text.push_str(&format!(": {}\n", other.definition(led)));
            kind = &led.kind;
        }
        text
    }
}

fn covers((start, end): Span, byte: u64) -> bool {
    start <= byte && byte < end
}

/// The end is the place behind the last byte.
fn place(source: &Source, (start, end): Span) -> String {
    let (line, column) = source.line_and_column(start as usize);
    let (end_line, end_column) = source.line_and_column(end as usize);
    format!("{}:{line}:{column}-{end_line}:{end_column}", source.path)
}

fn kind(kind: &DefinitionKind) -> &'static str {
    match kind {
        DefinitionKind::Fn { .. } => "function",
        DefinitionKind::Struct { .. } => "struct",
        DefinitionKind::Const { .. } => "constant",
        DefinitionKind::Let { .. } => "let",
        DefinitionKind::Param { .. } => "parameter",
        DefinitionKind::Use { .. } => "use",
        DefinitionKind::Loop => "loop variable",
    }
}

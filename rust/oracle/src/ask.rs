//! The questions, asked by the three functions of `type_resolution.rs`.

use std::collections::HashSet;
use std::path::PathBuf;
use std::rc::Rc;

use cairo_m_compiler_parser::parser::{Spanned, TypeExpr as AstTypeExpr};
use cairo_m_compiler_semantic as semantic;
use index_file::limits;
use index_file::records::{Expr, Index, Module, Question};
use salsa::{Fault, HasRuntime, Policy};
use semantic::semantic_index::DefinitionIndex;
use semantic::type_resolution::{
    definition_semantic_type, expression_semantic_type, resolve_ast_type,
};
use semantic::{
    Crate, DefinitionId, ExpressionId, File, FileScopeId, SemanticDatabaseImpl, SemanticIndex,
    TypeId,
};

use crate::answer::{Answer, Options, Outcome};
use crate::build::Builder;
use crate::counts::{Counts, TYPE_BUFFER_FULL};
use crate::spans::{TYPE_SPANS, own_span};
use crate::stop::{Stop, catch};
use crate::trees::Trees;
use crate::type_text::TypeText;

/// The five tracked resolution functions other than compatibility.
const DEMANDS: &[&str] = &[
    "resolve_ast_type",
    "definition_semantic_type",
    "expression_semantic_type",
    "struct_semantic_data",
    "function_semantic_signature",
];

/// An index turned into the Rust's data.
pub struct Oracle<'i> {
    index: &'i Index,
    options: Options,
    modules: Vec<RustModule>,
}

struct RustModule {
    types: Vec<Spanned<AstTypeExpr>>,
    /// Types whose tree would be too large; asking one gives up the question.
    too_large: HashSet<usize>,
    index: SemanticIndex,
}

impl RustModule {
    fn new(module: &Module, file: File, options: Options) -> Self {
        let Trees { trees, too_large } = Trees::new(module);
        let builder = Builder {
            module,
            types: &trees,
            file,
            real_spans: options.real_spans,
        };
        let index = builder.index();
        Self {
            types: trees,
            too_large,
            index,
        }
    }
}

/// A database with one file a module, always numbered alike, and one more file that is in no
/// module.
struct Database {
    db: SemanticDatabaseImpl,
    crate_id: Crate,
    files: Vec<File>,
    absent: File,
}

impl Database {
    fn new(index: &Index) -> Self {
        let db = SemanticDatabaseImpl::default();
        let names = || index.modules.iter().map(|module| module.name.clone());
        let files: Vec<File> = names()
            .map(|name| File::new(&db, String::new(), name))
            .collect();
        // No module name has a blank.
        let absent = File::new(&db, String::new(), "absent module".to_string());
        let modules = names().zip(files.iter().copied()).collect();
        let crate_id = Crate::new(&db, modules, String::new(), PathBuf::new(), String::new());
        Self {
            db,
            crate_id,
            files,
            absent,
        }
    }

    fn file(&self, module: usize) -> File {
        *self.files.get(module).unwrap_or(&self.absent)
    }
}

impl<'i> Oracle<'i> {
    pub fn new(index: &'i Index, options: Options) -> Self {
        let files = Database::new(index).files;
        let modules = index.modules.iter().zip(files);
        let modules = modules.map(|(module, file)| RustModule::new(module, file, options));
        Self {
            index,
            options,
            modules: modules.collect(),
        }
    }

    /// Answers from what the original builder made, instead of the records. Then only questions
    /// without a type expression can be asked. The modules must stand in the order of the index.
    pub fn of_originals(index: &'i Index, originals: Vec<SemanticIndex>, options: Options) -> Self {
        let modules = originals.into_iter().map(|index| RustModule {
            types: vec![],
            too_large: HashSet::new(),
            index,
        });
        Self {
            index,
            options,
            modules: modules.collect(),
        }
    }

    /// The original's index of a module; none if the module is absent.
    pub(crate) fn semantic_index(&self, module: usize) -> Option<&SemanticIndex> {
        self.modules.get(module).map(|module| &module.index)
    }

    pub fn answers(&self) -> Vec<Answer> {
        let questions = self.index.questions.iter();
        questions.map(|question| self.answer(question)).collect()
    }

    pub fn answer(&self, question: &Question) -> Answer {
        let database = self.database();
        let outcome = match catch(|| self.said(&database, question)) {
            Ok(outcome) => outcome,
            Err(Stop::MissingChild) => Outcome::Refused(6),
            Err(Stop::Fault(Fault::Cycle)) => Outcome::Refused(7),
            Err(Stop::Fault(Fault::TooManyOpen)) => Outcome::Refused(8),
            Err(Stop::Fault(Fault::Watcher(TYPE_BUFFER_FULL))) => Outcome::Refused(9),
            Err(Stop::Fault(_)) => Outcome::Budget,
        };
        let runtime = database.db.runtime();
        Answer {
            lead: question.lead(),
            outcome,
            steps: runtime.steps(),
            most_open: runtime.most_open(),
        }
    }

    /// A fresh database that has the index of each module and counts as document 01 does.
    fn database(&self) -> Database {
        let database = Database::new(self.index);
        for (module, rust) in self.index.modules.iter().zip(&self.modules) {
            let key = (database.crate_id, module.name.clone());
            semantic::db::module_semantic_index::specify(&database.db, key, Ok(rust.index.clone()));
        }
        let runtime = database.db.runtime();
        runtime.set_policy(Policy {
            demands: DEMANDS,
            memo: self.options.memo,
            max_open: limits::OPEN_DEMANDS,
            max_steps: self.options.budget,
        });
        let modules = database.files.iter().zip(&self.modules);
        let too_large = modules.flat_map(|(file, module)| {
            let spans = module.too_large.iter().map(|t| own_span(TYPE_SPANS, *t));
            spans.map(|span| (*file, span))
        });
        runtime.set_watcher(Rc::new(Counts::new(too_large.collect())));
        database
    }

    /// What is said of a question that isn't stopped.
    fn said(&self, database: &Database, question: &Question) -> Outcome {
        let Some(ty) = self.ask(database, question) else {
            return Outcome::None;
        };
        match TypeText::new(&database.db, &database.files).of(ty) {
            Some(text) => Outcome::Type(text),
            None => Outcome::Refused(10),
        }
    }

    /// The question's type; none where `at` finds no expression. Which one it finds is the change
    /// request's rule, which the original doesn't have; its type is the original's.
    fn ask<'db>(&self, database: &'db Database, question: &Question) -> Option<TypeId<'db>> {
        Some(match *question {
            Question::Expr {
                module,
                expression,
                context,
            } => {
                let context = self.context(database, module, expression, context);
                ask_expression(database, module, expression, context)
            }
            Question::Def { module, definition } => {
                let number = DefinitionIndex::new(definition);
                let definition = DefinitionId::new(&database.db, database.file(module), number);
                definition_semantic_type(&database.db, database.crate_id, definition)
            }
            Question::Type { module, ty, scope } => self.ask_type(database, module, ty, scope),
            Question::At { module, position } => {
                let expression = self.index.expression_at(module, position)?;
                ask_expression(database, module, expression, None)
            }
        })
    }

    /// A context is resolved first, in the expression's scope; an absent expression's isn't.
    fn context<'db>(
        &self,
        database: &'db Database,
        module: usize,
        expression: usize,
        context: Option<usize>,
    ) -> Option<TypeId<'db>> {
        let record = self.expression(module, expression)?;
        Some(self.ask_type(database, module, context?, record.scope))
    }

    fn expression(&self, module: usize, expression: usize) -> Option<&Expr> {
        self.index.modules.get(module)?.expressions.get(expression)
    }

    fn ask_type<'db>(
        &self,
        database: &'db Database,
        module: usize,
        ty: usize,
        scope: usize,
    ) -> TypeId<'db> {
        let type_expr = match self.modules.get(module) {
            Some(module) => module.types[ty].clone(),
            // Whatever it is: the Rust looks for the module first.
            None => Spanned::new(AstTypeExpr::Tuple(vec![]), own_span(TYPE_SPANS, ty)),
        };
        let (file, scope) = (database.file(module), FileScopeId::new(scope));
        resolve_ast_type(&database.db, database.crate_id, file, type_expr, scope)
    }
}

fn ask_expression<'db>(
    database: &'db Database,
    module: usize,
    expression: usize,
    context: Option<TypeId<'db>>,
) -> TypeId<'db> {
    let (file, expression) = (database.file(module), ExpressionId::new(expression));
    expression_semantic_type(&database.db, database.crate_id, file, expression, context)
}

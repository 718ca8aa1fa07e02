//! The records of an index file. A record is known by its place among those of its kind in its
//! module.

/// The version that this crate reads and writes. Later versions add fields and questions.
pub const VERSION: u32 = 1;

#[derive(Debug, Clone, PartialEq, Eq)]
pub struct Index {
    /// The number on the first line.
    pub version: u32,
    pub modules: Vec<Module>,
    pub questions: Vec<Question>,
}

impl Default for Index {
    fn default() -> Self {
        Self {
            version: VERSION,
            modules: Vec::new(),
            questions: Vec::new(),
        }
    }
}

#[derive(Debug, Clone, Default, PartialEq, Eq)]
pub struct Module {
    pub name: String,
    pub scopes: Vec<Scope>,
    pub types: Vec<TypeExpr>,
    pub definitions: Vec<Definition>,
    pub expressions: Vec<Expr>,
}

#[derive(Debug, Clone, Copy, PartialEq, Eq)]
pub enum ScopeKind {
    Module,
    Function,
    Block,
    Loop,
}

#[derive(Debug, Clone, PartialEq, Eq)]
pub struct Scope {
    pub parent: Option<usize>,
    pub kind: ScopeKind,
}

#[derive(Debug, Clone, PartialEq, Eq)]
pub enum TypeExpr {
    Felt,
    Bool,
    U32,
    Custom(String),
    Ptr(usize),
    Tuple(Vec<usize>),
    Array(usize, u64),
}

#[derive(Debug, Clone, PartialEq, Eq)]
pub struct Definition {
    pub scope: usize,
    pub name: String,
    pub name_span: (u64, u64),
    pub full_span: (u64, u64),
    pub kind: DefinitionKind,
}

/// A name with its type: a parameter or a field.
pub type NamedType = (String, usize);

#[derive(Debug, Clone, PartialEq, Eq)]
pub enum DefinitionKind {
    Fn {
        returns: usize,
        parameters: Vec<NamedType>,
    },
    Struct {
        fields: Vec<NamedType>,
    },
    Const {
        ty: Option<usize>,
        value: Option<usize>,
    },
    Let {
        ty: Option<usize>,
        value: Option<usize>,
        destructured: Option<usize>,
        path: Vec<usize>,
    },
    Param {
        ty: usize,
    },
    Use {
        module: String,
        item: String,
    },
    Loop,
}

#[derive(Debug, Clone, PartialEq, Eq)]
pub struct Expr {
    pub scope: usize,
    pub span: (u64, u64),
    pub expected: Option<usize>,
    pub definition: Option<usize>,
    pub origin: Origin,
    pub node: Node,
}

#[derive(Debug, Clone, PartialEq, Eq)]
pub enum Origin {
    Plain,
    Field { parent: usize, name: String },
    Arg { callee: usize, index: usize },
    Assign { lhs: usize },
    Return,
    Cond,
}

/// A child is none where the Rust finds no expression under its span.
pub type Child = Option<usize>;

#[derive(Debug, Clone, PartialEq, Eq)]
pub enum Node {
    Lit {
        suffix: Option<String>,
    },
    Bool,
    Ident {
        name: String,
    },
    Un {
        op: &'static str,
        child: Child,
    },
    Bin {
        op: &'static str,
        left: Child,
        right: Child,
    },
    Call {
        callee: Child,
        args: Vec<Child>,
    },
    Member {
        object: Child,
        field: String,
    },
    Index {
        array: Child,
        index: Child,
    },
    StructLit {
        name: String,
        span: (u64, u64),
    },
    Tuple {
        elements: Vec<Child>,
    },
    TupleIndex {
        tuple: Child,
        index: usize,
    },
    Array {
        elements: Vec<Child>,
    },
    Repeat {
        element: Child,
        size: u64,
    },
    Cast {
        ty: usize,
    },
    New {
        ty: usize,
        count: Child,
    },
    Paren {
        child: Child,
    },
}

pub const UNARY_OPERATORS: [&str; 2] = ["!", "-"];
pub const BINARY_OPERATORS: [&str; 16] = [
    "+", "-", "*", "/", "%", "==", "!=", "<", ">", "<=", ">=", "&&", "||", "&", "|", "^",
];

#[derive(Debug, Clone, PartialEq, Eq)]
pub enum Question {
    Expr {
        module: usize,
        expression: usize,
        context: Option<usize>,
    },
    Def {
        module: usize,
        definition: usize,
    },
    Type {
        module: usize,
        ty: usize,
        scope: usize,
    },
    /// The type at a byte of the module's source.
    At {
        module: usize,
        position: u64,
    },
}

impl Question {
    /// Kind, module and number, as they begin an answer line; of `at` the position is the number.
    pub fn lead(&self) -> (&'static str, usize, usize) {
        match *self {
            Self::Expr {
                module, expression, ..
            } => ("expr", module, expression),
            Self::Def { module, definition } => ("def", module, definition),
            Self::Type { module, ty, .. } => ("type", module, ty),
            Self::At { module, position } => ("at", module, position as usize),
        }
    }
}

//! The salsa attributes that the originals use: `db`, `input`, `interned`, `tracked`.
//!
//! Written without syn and quote. Each macro takes the item apart by tokens and fills a template;
//! function bodies keep their own spans, so that panics name the original's lines.
//!
//! Values with the lifetime `'db` are stored as `'static`. The lifetime is only a marker: no
//! value holds a borrow from the database.

use proc_macro::{Delimiter, Group, Ident, Spacing, TokenStream, TokenTree};

/// On a struct: gives access to its `storage`. On traits and impls: nothing.
#[proc_macro_attribute]
pub fn db(_options: TokenStream, item: TokenStream) -> TokenStream {
    let mut output = item.clone();
    let tokens: Vec<TokenTree> = item.into_iter().collect();
    let is_struct = tokens.iter().any(|t| is_ident(t, "struct"));
    if is_struct {
        let name = ident_after(&tokens, "struct");
        output.extend(fill(
            "impl ::salsa::HasRuntime for NAME {
                 fn runtime(&self) -> &::salsa::Runtime { self.storage.runtime() }
             }",
            &[("NAME", tree(name))],
        ));
    }
    output
}

/// An input struct: a number into the runtime's table of field tuples.
#[proc_macro_attribute]
pub fn input(_options: TokenStream, item: TokenStream) -> TokenStream {
    let item = Struct::parse(item);
    let mut output = fill(
        "ATTRS
         #[derive(Debug, Clone, Copy, PartialEq, Eq, Hash, PartialOrd, Ord)]
         VIS struct NAME(::salsa::Id);
         impl NAME {
             #[allow(clippy::too_many_arguments)]
             pub fn new<SalsaDb: ?Sized + ::salsa::Database>(db: &SalsaDb, PARAMS) -> Self {
                 Self(::salsa::HasRuntime::runtime(db).new_input(stringify!(NAME), (VALUES)))
             }
         }",
        &[
            ("ATTRS", item.attributes.clone()),
            ("VIS", item.visibility.clone()),
            ("NAME", tree(item.name.clone())),
            ("PARAMS", item.parameters()),
            ("VALUES", item.values()),
        ],
    );
    output.extend(item.getters("'db", "input_fields"));
    output
}

/// An interned struct: equal field tuples get one number. It always has the lifetime `'db`.
#[proc_macro_attribute]
pub fn interned(_options: TokenStream, item: TokenStream) -> TokenStream {
    let item = Struct::parse(item);
    let mut output = fill(
        "ATTRS
         #[derive(Debug, Clone, Copy, PartialEq, Eq, Hash, PartialOrd, Ord)]
         VIS struct NAME<'db>(::salsa::Id, ::std::marker::PhantomData<&'db ()>);
         impl<'db> NAME<'db> {
             pub fn new<SalsaDb: ?Sized + ::salsa::Database>(db: &'db SalsaDb, PARAMS) -> Self {
                 let fields: (TYPES) = (VALUES);
                 // SAFETY: the same tuple but for a marker lifetime.
                 let fields: (STATIC) =
                     unsafe { ::std::mem::transmute::<(TYPES), (STATIC)>(fields) };
                 let runtime = ::salsa::HasRuntime::runtime(db);
                 Self(runtime.intern(stringify!(NAME), fields), ::std::marker::PhantomData)
             }
         }",
        &[
            ("ATTRS", item.attributes.clone()),
            ("VIS", item.visibility.clone()),
            ("NAME", tree(item.name.clone())),
            ("PARAMS", item.parameters()),
            ("VALUES", item.values()),
            ("TYPES", item.types()),
            ("STATIC", without_db_lifetime(item.types())),
        ],
    );
    output.extend(item.getters("<'db>", "interned_fields"));
    output
}

/// A tracked function: its calls go through the runtime (memo, cycle detection, counting).
/// Beside the function stands an enum of its name, with `specify` to enter a result beforehand.
#[proc_macro_attribute]
pub fn tracked(_options: TokenStream, item: TokenStream) -> TokenStream {
    let function = Function::parse(item);
    let (types, result) = (function.types, function.result);
    fill(
        TRACKED,
        &[
            ("PREFIX", function.prefix),
            ("NAME", tree(function.name)),
            ("SIGNATURE", function.signature),
            ("BODY", tree(function.body)),
            ("DATABASE", tree(function.database)),
            ("NAMES", function.names),
            ("TYPES", types.clone()),
            ("STATIC", without_db_lifetime(types)),
            ("RESULT", result.clone()),
            ("STATIC_RESULT", without_db_lifetime(result)),
        ],
    )
}

/// The function that asks the runtime for a call, and a type of its name that can enter a result.
const TRACKED: &str = "
    PREFIX fn NAME SIGNATURE {
        fn original SIGNATURE BODY
        // SAFETY (both): the same tuple but for a marker lifetime.
        let key = unsafe { ::std::mem::transmute::<(TYPES), (STATIC)>((NAMES)) };
        let value: STATIC_RESULT = ::salsa::HasRuntime::runtime(DATABASE).call(
            stringify!(NAME),
            key,
            |(NAMES)| unsafe {
                ::std::mem::transmute::<RESULT, STATIC_RESULT>(original(DATABASE, NAMES))
            },
        );
        value
    }
    #[allow(non_camel_case_types, dead_code)]
    pub enum NAME {}
    #[allow(dead_code)]
    impl NAME {
        /// Enters the result of a call that shall not be computed.
        pub fn specify<SalsaDb: ?Sized + ::salsa::Database>(
            db: &SalsaDb,
            key: (STATIC),
            value: STATIC_RESULT,
        ) {
            ::salsa::HasRuntime::runtime(db).specify(stringify!(NAME), key, value);
        }
    }";

/// The parts of a tracked function. The first parameter is the database.
struct Function {
    /// What stands before `fn`.
    prefix: TokenStream,
    name: TokenTree,
    /// From the generics to the result.
    signature: TokenStream,
    body: TokenTree,
    database: TokenTree,
    /// Names and types of the other parameters, each followed by a comma.
    names: TokenStream,
    types: TokenStream,
    result: TokenStream,
}

impl Function {
    fn parse(item: TokenStream) -> Self {
        let tokens: Vec<TokenTree> = item.into_iter().collect();
        let at = tokens.iter().position(|t| is_ident(t, "fn"));
        let at = at.expect("#[salsa::tracked] stands on a function");
        let parameters_at = (at + 2..tokens.len())
            .find(|&i| is_group(&tokens[i], Delimiter::Parenthesis))
            .expect("a parameter list");
        let TokenTree::Group(parameters) = &tokens[parameters_at] else {
            unreachable!("it was found as a group")
        };
        let body_at = tokens.len() - 1;
        assert!(is_group(&tokens[body_at], Delimiter::Brace), "a body");
        let parameters = split_at_commas(parameters.stream());
        let mut names = TokenStream::new();
        let mut types = TokenStream::new();
        for parameter in &parameters[1..] {
            names.extend([parameter[0].clone()]);
            names.extend(stream(","));
            types.extend(parameter[2..].iter().cloned());
            types.extend(stream(","));
        }
        Self {
            prefix: tokens[..at].iter().cloned().collect(),
            name: tokens[at + 1].clone(),
            signature: tokens[at + 2..body_at].iter().cloned().collect(),
            body: tokens[body_at].clone(),
            database: parameters[0][0].clone(),
            names,
            types,
            // Behind the two tokens of `->`.
            result: tokens[parameters_at + 3..body_at].iter().cloned().collect(),
        }
    }
}

/// A struct with named fields, taken apart.
struct Struct {
    attributes: TokenStream,
    visibility: TokenStream,
    name: TokenTree,
    fields: Vec<Field>,
}

struct Field {
    visibility: TokenStream,
    name: TokenTree,
    ty: TokenStream,
    /// `#[returns(ref)]`: the getter gives a reference. `#[return_ref]` has no effect in the
    /// salsa version of the originals (they use such getters' results by value).
    by_reference: bool,
}

impl Struct {
    fn parse(item: TokenStream) -> Self {
        let tokens: Vec<TokenTree> = item.into_iter().collect();
        let (attributes, rest) = split_attributes(&tokens);
        let at = rest.iter().position(|t| is_ident(t, "struct")).unwrap();
        let Some(TokenTree::Group(body)) = rest.last() else {
            panic!("a struct with named fields")
        };
        let fields = split_at_commas(body.stream())
            .into_iter()
            .map(|tokens| {
                let (attributes, rest) = split_attributes(&tokens);
                let colon = rest.iter().position(|t| is_punct(t, ':')).unwrap();
                Field {
                    visibility: rest[..colon - 1].iter().cloned().collect(),
                    name: rest[colon - 1].clone(),
                    ty: rest[colon + 1..].iter().cloned().collect(),
                    by_reference: attributes.iter().any(|a| {
                        a.to_string().replace(char::is_whitespace, "") == "[returns(ref)]"
                    }),
                }
            })
            .collect();
        Self {
            attributes: attributes
                .into_iter()
                .flat_map(|group| [stream("#"), tree(group)])
                .collect(),
            visibility: rest[..at].iter().cloned().collect(),
            name: rest[at + 1].clone(),
            fields,
        }
    }

    fn parameters(&self) -> TokenStream {
        self.list(|f| {
            fill(
                "NAME: TYPE",
                &[("NAME", tree(f.name.clone())), ("TYPE", f.ty.clone())],
            )
        })
    }

    fn values(&self) -> TokenStream {
        self.list(|f| tree(f.name.clone()))
    }

    fn types(&self) -> TokenStream {
        self.list(|f| f.ty.clone())
    }

    fn list(&self, part: impl Fn(&Field) -> TokenStream) -> TokenStream {
        self.fields
            .iter()
            .flat_map(|f| [part(f), stream(",")])
            .collect()
    }

    /// One getter a field; `lifetimes` is `<'db>` if the struct has the lifetime.
    fn getters(&self, lifetimes: &str, table: &str) -> TokenStream {
        let on_struct = if lifetimes == "<'db>" { "<'db>" } else { "" };
        let on_method = if lifetimes == "<'db>" { "" } else { "'db," };
        let methods = self.fields.iter().enumerate().map(|(number, field)| {
            let template = if field.by_reference {
                format!(
                    "VIS fn NAME<{on_method} SalsaDb: ?Sized + ::salsa::Database>(self, db: &'db SalsaDb) -> &'db TYPE {{
                         let fields = ::salsa::HasRuntime::runtime(db).{table}::<(STATIC)>(stringify!(STRUCT), self.0);
                         &fields.{number}
                     }}"
                )
            } else {
                format!(
                    "VIS fn NAME<{on_method} SalsaDb: ?Sized + ::salsa::Database>(self, db: &'db SalsaDb) -> TYPE {{
                         let fields = ::salsa::HasRuntime::runtime(db).{table}::<(STATIC)>(stringify!(STRUCT), self.0);
                         fields.{number}.clone()
                     }}"
                )
            };
            fill(
                &template,
                &[
                    ("VIS", field.visibility.clone()),
                    ("NAME", tree(field.name.clone())),
                    ("TYPE", field.ty.clone()),
                    ("STATIC", without_db_lifetime(self.types())),
                    ("STRUCT", tree(self.name.clone())),
                ],
            )
        });
        fill(
            &format!("#[allow(dead_code)] impl{on_struct} STRUCT{on_struct} {{ METHODS }}"),
            &[
                ("STRUCT", tree(self.name.clone())),
                ("METHODS", methods.collect()),
            ],
        )
    }
}

/// The attribute groups at the front, and what follows them.
fn split_attributes(tokens: &[TokenTree]) -> (Vec<TokenTree>, &[TokenTree]) {
    let mut attributes = Vec::new();
    let mut rest = tokens;
    while let [hash, group, tail @ ..] = rest
        && is_punct(hash, '#')
    {
        attributes.push(group.clone());
        rest = tail;
    }
    (attributes, rest)
}

/// Splits at the commas outside of all brackets, angle brackets included.
fn split_at_commas(tokens: TokenStream) -> Vec<Vec<TokenTree>> {
    let mut parts = vec![Vec::new()];
    let mut depth = 0;
    for token in tokens {
        match &token {
            t if is_punct(t, '<') => depth += 1,
            t if is_punct(t, '>') => depth -= 1,
            t if is_punct(t, ',') && depth == 0 => {
                parts.push(Vec::new());
                continue;
            }
            _ => {}
        }
        parts.last_mut().unwrap().push(token);
    }
    parts.retain(|part| !part.is_empty());
    parts
}

/// Replaces the lifetime `'db` by `'static`.
fn without_db_lifetime(tokens: TokenStream) -> TokenStream {
    let mut after_quote = false;
    tokens
        .into_iter()
        .map(|token| {
            let in_lifetime = after_quote;
            after_quote = matches!(&token, TokenTree::Punct(p) if p.as_char() == '\'' && p.spacing() == Spacing::Joint);
            match token {
                TokenTree::Ident(ident) if in_lifetime && ident.to_string() == "db" => {
                    TokenTree::Ident(Ident::new("static", ident.span()))
                }
                TokenTree::Group(group) => {
                    let mut replaced =
                        Group::new(group.delimiter(), without_db_lifetime(group.stream()));
                    replaced.set_span(group.span());
                    TokenTree::Group(replaced)
                }
                other => other,
            }
        })
        .collect()
}

/// Parses the template and puts token streams in the place of the named identifiers.
fn fill(template: &str, parts: &[(&str, TokenStream)]) -> TokenStream {
    substitute(stream(template), parts)
}

fn substitute(tokens: TokenStream, parts: &[(&str, TokenStream)]) -> TokenStream {
    tokens
        .into_iter()
        .flat_map(|token| match token {
            TokenTree::Ident(ident) => {
                let name = ident.to_string();
                match parts.iter().find(|(part, _)| *part == name) {
                    Some((_, stream)) => stream.clone(),
                    None => tree(TokenTree::Ident(ident)),
                }
            }
            TokenTree::Group(group) => tree(TokenTree::Group(Group::new(
                group.delimiter(),
                substitute(group.stream(), parts),
            ))),
            other => tree(other),
        })
        .collect()
}

fn stream(text: &str) -> TokenStream {
    text.parse().expect("a template of Rust tokens")
}

fn tree(token: TokenTree) -> TokenStream {
    TokenStream::from(token)
}

fn is_ident(token: &TokenTree, text: &str) -> bool {
    matches!(token, TokenTree::Ident(ident) if ident.to_string() == text)
}

fn is_punct(token: &TokenTree, character: char) -> bool {
    matches!(token, TokenTree::Punct(punct) if punct.as_char() == character)
}

fn is_group(token: &TokenTree, delimiter: Delimiter) -> bool {
    matches!(token, TokenTree::Group(group) if group.delimiter() == delimiter)
}

fn ident_after(tokens: &[TokenTree], keyword: &str) -> TokenTree {
    let at = tokens.iter().position(|t| is_ident(t, keyword)).unwrap();
    tokens[at + 1].clone()
}

//! The type at a byte of a source.

use std::ops::Range;

use ::export::sources::{Source, export_sources};
use index_file::limits;
use index_file::records::{self, Index};

use crate::export::{AskError, named};
use crate::{
    AnswerLine, Error, LibraryFault, Question, Refusal, Resolver, Said, Type, on_large_stack,
};

/// The shortest expression at a byte of a source, and its type.
#[derive(Debug, Clone, PartialEq, Eq)]
#[non_exhaustive]
pub struct Hover {
    /// The number of the expression, an E line, in its module.
    pub expression: usize,
    /// Its bytes in the source. Spans are the original parser's: that of an index access, and of a call
    /// with arguments, ends before the closing bracket, so that the bracket shows what is around it, or
    /// `none`.
    pub span: Range<usize>,
    /// Its text in the source, the bytes of `span`.
    pub text: String,
    /// Its type, or refusal 6 to 10.
    pub result: Result<Type, Refusal>,
    /// The result for people: the type with the names of its structs and functions ([`named`]), or the
    /// number and the meaning of the refusal.
    pub shown: String,
}

/// The type, the refusal and the none of these two are the library's answer to `at`, which is proved to be
/// the definition's for the records. Not proved is that the records are those of the source.
///
/// The line of `at` doesn't say which expression it is about. That is found here once more, by the same
/// rule, which isn't proved: of the expressions whose span covers the byte the shortest, of equally short
/// ones the highest number. As a guard the library is also asked for the type of the one that is found. The
/// two lines must be about the byte and about that expression and say the same, and `at` must say `none`
/// exactly if none is found; else the error is [`Error::Library`](crate::Error::Library).
///
/// `type_at` parses on a thread with [`STACK_BYTES`](crate::STACK_BYTES), as `ask_sources` does.
impl Resolver {
    /// The type of the shortest expression at a byte of a source, from 0, through the proved library. The
    /// others of the sources are the modules that it may `use`; `source` is its place among them. None
    /// where no expression covers the byte: between expressions, in a type or the name of a definition,
    /// behind the end, or in a source that isn't there.
    ///
    /// What a closing bracket shows is said at [`Hover::span`].
    ///
    /// ```
    /// use roognaps::export::Source;
    /// use roognaps::{Resolver, Type};
    ///
    /// let source = Source {
    ///     module: "main".to_string(),
    ///     path: "main.cm".to_string(),
    ///     text: "struct Item { price: u32 }\nfn f(item: Item) -> u32 { return 2 * item.price; }".to_string(),
    /// };
    /// let place = source.text.find(".price").expect("it is there");
    /// let sources = [source];
    /// let mut resolver = Resolver::new();
    ///
    /// let hover = resolver.type_at(&sources, 0, place)?.expect("an expression");
    /// assert_eq!(hover.text, "item.price");
    /// assert_eq!(hover.span, place - 4..place + 6);
    /// assert_eq!(hover.result, Ok(Type::U32));
    ///
    /// let hover = resolver.type_at(&sources, 0, place - 1)?.expect("an expression");
    /// assert_eq!(hover.text, "item");
    /// assert_eq!(hover.result, Ok(Type::Struct { module: 0, definition: 0 }));
    /// assert_eq!(hover.shown, "struct main.Item");
    ///
    /// assert_eq!(resolver.type_at(&sources, 0, 0)?, None);
    /// # Ok::<(), roognaps::export::AskError>(())
    /// ```
    pub fn type_at(
        &mut self,
        sources: &[Source],
        source: usize,
        position: usize,
    ) -> Result<Option<Hover>, AskError> {
        on_large_stack(|| {
            let (index, _) = export_sources(sources)?;
            self.type_at_index(&index, sources, source, position)
        })?
    }

    /// The same for sources whose records are at hand, as from [`ask_sources`](Self::ask_sources): for
    /// many bytes of the same sources. The records are asked, whatever their own questions are; the
    /// sources give the text.
    pub fn type_at_index(
        &mut self,
        index: &Index,
        sources: &[Source],
        source: usize,
        position: usize,
    ) -> Result<Option<Hover>, AskError> {
        let (module, position) = place_in_a_file(source, position);
        let found = spanned_at(index, module, position);
        let expression = found.as_ref().map(|(expression, _)| *expression);
        let asked = Index {
            questions: questions(module, position, expression),
            ..index.clone()
        };
        let owed = leads(module, position, expression);
        on_large_stack(|| {
            let lines = self.ask_index(asked)?;
            let result = agreed(&owed, &lines).map_err(Error::from)?;
            let hover = found.zip(result).map(|((expression, span), result)| Hover {
                expression,
                text: text_of(sources.get(source), &span),
                shown: shown(index, &result),
                span,
                result,
            });
            Ok(hover)
        })?
    }
}

/// A module and a position that an index file has a form for. Greater numbers have the answer of the
/// greatest, none: a file has few modules, and no span of it ends behind the greatest position.
fn place_in_a_file(source: usize, position: usize) -> (usize, u64) {
    let module = source.min(limits::LINK as usize - 1);
    (module, (position as u64).min(limits::POSITION - 1))
}

/// The expression that `at` is about, with its span.
fn spanned_at(index: &Index, module: usize, position: u64) -> Option<(usize, Range<usize>)> {
    let number = index.expression_at(module, position)?;
    let (start, end) = index.modules.get(module)?.expressions.get(number)?.span;
    Some((number, start as usize..end as usize))
}

/// The question `at`, and behind it the one about the expression that was found for it.
fn questions(module: usize, position: u64, expression: Option<usize>) -> Vec<records::Question> {
    let at = records::Question::At { module, position };
    let found = expression.map(|expression| records::Question::Expr {
        module,
        expression,
        context: None,
    });
    [at].into_iter().chain(found).collect()
}

/// What the lines of [`questions`] are about. Each number is one of an index file, below 2^32.
fn leads(module: usize, position: u64, expression: Option<usize>) -> Vec<Question> {
    let (module, position) = (module as u32, position as u32);
    let at = Question::At { module, position };
    let found = expression.map(|expression| Question::Expression {
        module,
        expression: expression as u32,
    });
    [at].into_iter().chain(found).collect()
}

/// What the lines say that are owed about `at` alone, where no expression was found: none; or about `at`
/// and the expression: what both say of it.
fn agreed(
    owed: &[Question],
    lines: &[AnswerLine],
) -> Result<Option<Result<Type, Refusal>>, LibraryFault> {
    let are_owed = lines.iter().map(|line| &line.question).eq(owed);
    let results: Vec<_> = lines.iter().map(|line| line.result.as_ref()).collect();
    match &results[..] {
        [Ok(Said::None)] if are_owed => Ok(None),
        [Ok(Said::Type(at)), Ok(Said::Type(found))] if are_owed && at == found => {
            Ok(Some(Ok(at.clone())))
        }
        [Err(at), Err(found)] if are_owed && at == found => Ok(Some(Err(**at))),
        _ => {
            let lines: Vec<String> = lines.iter().map(AnswerLine::to_string).collect();
            Err(LibraryFault::new(format!(
                "{lines:?} are its lines about {owed:?}"
            )))
        }
    }
}

/// The text of a span; nothing where the source has no such span.
fn text_of(source: Option<&Source>, span: &Range<usize>) -> String {
    let text = source.and_then(|source| source.text.get(span.clone()));
    text.unwrap_or_default().to_string()
}

fn shown(index: &Index, result: &Result<Type, Refusal>) -> String {
    match result {
        Ok(ty) => named(index, ty),
        Err(refusal) => refusal.to_string(),
    }
}

#[cfg(test)]
mod tests {
    use super::*;

    /// Of byte 7 of module 0.
    fn agreed(
        expression: Option<usize>,
        lines: &[AnswerLine],
    ) -> Result<Option<Result<Type, Refusal>>, LibraryFault> {
        super::agreed(&leads(0, 7, expression), lines)
    }

    fn lines(texts: &[&str]) -> Vec<AnswerLine> {
        let lines = texts.iter().map(|text| text.parse().expect(text));
        lines.collect()
    }

    #[test]
    fn lines_that_agree() {
        let none = agreed(None, &lines(&["at\t0\t7\tnone"]));
        assert_eq!(none, Ok(None));
        let typed = lines(&["at\t0\t7\ttype\tu32", "expr\t0\t3\ttype\tu32"]);
        assert_eq!(agreed(Some(3), &typed), Ok(Some(Ok(Type::U32))));
        let refused = lines(&["at\t0\t7\trefused\t7", "expr\t0\t3\trefused\t7"]);
        assert_eq!(agreed(Some(3), &refused), Ok(Some(Err(Refusal::Ring))));
    }

    #[test]
    fn lines_that_do_not() {
        let at_and_expr = ["at\t0\t7\ttype\tu32", "expr\t0\t3\ttype\tu32"];
        let cases: [(Option<usize>, &[&str]); 22] = [
            (None, &["at\t0\t7\ttype\tu32"]),
            (None, &["at\t0\t7\trefused\t7"]),
            (None, &[]),
            (Some(3), &["at\t0\t7\tnone", "expr\t0\t3\ttype\tu32"]),
            (Some(3), &["at\t0\t7\ttype\tfelt", "expr\t0\t3\ttype\tu32"]),
            (Some(3), &["at\t0\t7\trefused\t6", "expr\t0\t3\trefused\t7"]),
            (Some(3), &["at\t0\t7\ttype\tu32"]),
            (Some(3), &[]),
            // A type beside a refusal.
            (Some(3), &["at\t0\t7\ttype\tu32", "expr\t0\t3\trefused\t7"]),
            (Some(3), &["at\t0\t7\trefused\t7", "expr\t0\t3\ttype\tu32"]),
            (Some(3), &["at\t0\t7\trefused\t7"]),
            // Lines about something else.
            (None, &["at\t0\t8\tnone"]),
            (None, &["at\t1\t7\tnone"]),
            (Some(3), &["at\t0\t8\ttype\tu32", "expr\t0\t3\ttype\tu32"]),
            (Some(3), &["at\t1\t7\ttype\tu32", "expr\t0\t3\ttype\tu32"]),
            (Some(3), &["at\t0\t7\ttype\tu32", "expr\t0\t4\ttype\tu32"]),
            (Some(3), &["at\t0\t7\ttype\tu32", "expr\t1\t3\ttype\tu32"]),
            (Some(3), &["at\t0\t7\ttype\tu32", "def\t0\t3\ttype\tu32"]),
            (Some(3), &["at\t0\t7\trefused\t7", "expr\t0\t4\trefused\t7"]),
            (Some(3), &["expr\t0\t3\ttype\tu32", "at\t0\t7\ttype\tu32"]),
            // More lines than owed.
            (None, &["at\t0\t7\tnone", "at\t0\t7\tnone"]),
            (Some(3), &[at_and_expr[0], at_and_expr[1], at_and_expr[1]]),
        ];
        for (expression, texts) in cases {
            assert!(agreed(expression, &lines(texts)).is_err(), "{texts:?}");
        }
        let fault = agreed(None, &lines(&["at\t0\t7\ttype\tu32"])).expect_err("a type of nothing");
        assert_eq!(
            fault.to_string(),
            "not the library of this crate: [\"at\\t0\\t7\\ttype\\tu32\"] are its lines about [At { module: 0, position: 7 }]"
        );
    }

    #[test]
    fn every_place_has_a_form_in_a_file() {
        assert_eq!(place_in_a_file(0, 0), (0, 0));
        assert_eq!(place_in_a_file(7, 65_536), (7, 65_536));
        let last = (65_535, u64::from(u32::MAX));
        assert_eq!(place_in_a_file(65_535, u32::MAX as usize), last);
        assert_eq!(place_in_a_file(usize::MAX, usize::MAX), last);
    }
}

//! Spans that stand for records. Positions in a file are below 2^32, so these never meet a real
//! span.

use chumsky::span::SimpleSpan;

pub type Span = SimpleSpan<usize>;

/// Each T has a span of its own, so that two demands for a type expression are the same exactly if
/// record, module and scope are.
pub const TYPE_SPANS: usize = 1 << 40;
/// The span under which `expression_id_by_span` finds an E, unless real spans are asked for.
pub const EXPRESSION_SPANS: usize = 1 << 41;
/// Leads nowhere.
pub const NO_SPAN: usize = 1 << 42;

pub fn own_span(base: usize, number: usize) -> Span {
    Span::from(base + number..base + number)
}

pub fn real_span((start, end): (u64, u64)) -> Span {
    Span::from(start as usize..end as usize)
}

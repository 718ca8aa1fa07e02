//! Which expression stands at a byte of a module's source: the choice of the question `at`.

use std::cmp::Reverse;

use crate::records::{Expr, Index, Module};

impl Expr {
    /// The end is exclusive, so a span whose start isn't below its end covers nothing.
    pub fn covers(&self, position: u64) -> bool {
        let (start, end) = self.span;
        start <= position && position < end
    }
}

impl Module {
    /// The number of the expression with the shortest span that covers the byte; of equally short ones
    /// the highest, wherever they start. None if no expression covers it.
    pub fn expression_at(&self, position: u64) -> Option<usize> {
        let numbered = self.expressions.iter().enumerate();
        let covering = numbered.filter(|(_, expression)| expression.covers(position));
        let shortest = covering.min_by_key(|(number, expression)| {
            let (start, end) = expression.span;
            (end - start, Reverse(*number))
        });
        shortest.map(|(number, _)| number)
    }
}

impl Index {
    /// The same by the module's number; none if the module is absent.
    pub fn expression_at(&self, module: usize, position: u64) -> Option<usize> {
        self.modules.get(module)?.expression_at(position)
    }
}

#[cfg(test)]
mod tests {
    use super::*;
    use crate::records::{Node, Origin};

    fn module(spans: &[(u64, u64)]) -> Module {
        let expressions = spans.iter().map(|span| Expr {
            scope: 0,
            span: *span,
            expected: None,
            definition: None,
            origin: Origin::Plain,
            node: Node::Bool,
        });
        Module {
            name: "main".to_string(),
            expressions: expressions.collect(),
            ..Module::default()
        }
    }

    /// What is found at each of these positions.
    fn found<const N: usize>(spans: &[(u64, u64)], positions: [u64; N]) -> [Option<usize>; N] {
        let module = module(spans);
        positions.map(|position| module.expression_at(position))
    }

    #[test]
    fn start_is_in_and_end_is_out() {
        let at = found(&[(5, 8)], [4, 5, 6, 7, 8, 9]);
        assert_eq!(at, [None, Some(0), Some(0), Some(0), None, None]);
    }

    #[test]
    fn the_shortest_is_found() {
        let nested = [(0, 10), (2, 6), (3, 4)];
        let at = found(&nested, [1, 2, 3, 4, 5, 6]);
        let owed = [0, 1, 2, 1, 1, 0];
        assert_eq!(at, owed.map(Some));
        let outermost_last = [(3, 4), (2, 6), (0, 10)];
        let at = found(&outermost_last, [1, 2, 3, 4, 5, 6]);
        assert_eq!(at, owed.map(|number| Some(2 - number)));
    }

    #[test]
    fn of_equally_short_ones_the_highest_number() {
        assert_eq!(found(&[(2, 6), (2, 6), (0, 9)], [2, 5]), [Some(1); 2]);
        // Wherever they start.
        assert_eq!(
            found(&[(2, 6), (4, 8)], [3, 4, 5, 6]),
            [0, 1, 1, 1].map(Some)
        );
        assert_eq!(
            found(&[(4, 8), (2, 6)], [3, 4, 5, 6]),
            [1, 1, 1, 0].map(Some)
        );
    }

    #[test]
    fn a_span_without_bytes_covers_nothing() {
        assert_eq!(found(&[(5, 5), (7, 4)], [3, 4, 5, 6, 7, 8]), [None; 6]);
        assert_eq!(found(&[(0, 9), (5, 5), (7, 4)], [4, 5, 6]), [Some(0); 3]);
        assert_eq!(found(&[(0, 0)], [0]), [None]);
    }

    #[test]
    fn the_last_positions() {
        let last = u64::from(u32::MAX);
        let spans = [(0, last), (last - 1, last)];
        let at = found(&spans, [0, last - 2, last - 1, last]);
        assert_eq!(at, [Some(0), Some(0), Some(1), None]);
    }

    #[test]
    fn nothing_in_an_empty_or_absent_module() {
        assert_eq!(found(&[], [0, 1]), [None; 2]);
        let index = Index {
            modules: vec![module(&[(0, 1)]), module(&[])],
            ..Index::default()
        };
        let at = [0, 1, 2, 65_535].map(|module| index.expression_at(module, 0));
        assert_eq!(at, [Some(0), None, None, None]);
    }
}

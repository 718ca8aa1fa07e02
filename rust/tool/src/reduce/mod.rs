//! Makes an index smaller while something about it persists.

mod remove;

use index_file::load::load;
use index_file::records::*;

/// Removes lines and records as long as `persists` says yes of the result.
pub fn reduce(bytes: &[u8], persists: &mut dyn FnMut(&[u8]) -> bool) -> Vec<u8> {
    let mut bytes = bytes.to_vec();
    loop {
        let before = bytes.len();
        bytes = reduce_lines(with_fewer_records(bytes, persists), persists);
        // What one way couldn't remove, the other may have made free.
        if bytes.len() == before {
            return bytes;
        }
    }
}

/// The bytes as they are if they don't load.
fn with_fewer_records(bytes: Vec<u8>, persists: &mut dyn FnMut(&[u8]) -> bool) -> Vec<u8> {
    match load(&bytes) {
        Ok(mut index) if persists(index.to_text().as_bytes()) => {
            reduce_records(&mut index, persists);
            index.to_text().into_bytes()
        }
        _ => bytes,
    }
}

fn reduce_lines(mut bytes: Vec<u8>, persists: &mut dyn FnMut(&[u8]) -> bool) -> Vec<u8> {
    // Large parts first, single lines last.
    let mut part = bytes.split(|b| *b == b'\n').count() / 2;
    while part > 0 {
        let mut at = 0;
        loop {
            let lines: Vec<&[u8]> = bytes.split(|b| *b == b'\n').collect();
            if at >= lines.len() {
                break;
            }
            let end = (at + part).min(lines.len());
            let smaller = [&lines[..at], &lines[end..]].concat().join(&b'\n');
            if smaller.len() < bytes.len() && persists(&smaller) {
                bytes = smaller;
            } else {
                at += part;
            }
        }
        part /= 2;
    }
    bytes
}

fn reduce_records(index: &mut Index, persists: &mut dyn FnMut(&[u8]) -> bool) {
    loop {
        let mut smaller_found = false;
        for step in steps(index) {
            let mut smaller = index.clone();
            if !step.apply(&mut smaller) || smaller == *index {
                continue;
            }
            let text = smaller.to_text();
            if load(text.as_bytes()).is_ok() && persists(text.as_bytes()) {
                *index = smaller;
                smaller_found = true;
            }
        }
        if !smaller_found {
            return;
        }
    }
}

/// One way to make an index smaller. Numbers may be out of range after earlier steps.
#[derive(Debug, Clone, Copy)]
enum Step {
    Question(usize),
    Module(usize),
    Expression(usize, usize),
    Definition(usize, usize),
    Type(usize, usize),
    Scope(usize, usize),
    PlainOrigin(usize, usize),
    NoExpected(usize, usize),
    NoRecorded(usize, usize),
    ShorterNode(usize, usize),
    ShorterDefinition(usize, usize),
    NoContext(usize),
}

/// From the last records to the first: what comes later is named by less.
fn steps(index: &Index) -> Vec<Step> {
    let mut steps = Vec::new();
    for question in (0..index.questions.len()).rev() {
        steps.push(Step::Question(question));
        steps.push(Step::NoContext(question));
    }
    for (number, module) in index.modules.iter().enumerate().rev() {
        steps.push(Step::Module(number));
        for expression in (0..module.expressions.len()).rev() {
            steps.push(Step::Expression(number, expression));
            steps.push(Step::PlainOrigin(number, expression));
            steps.push(Step::NoExpected(number, expression));
            steps.push(Step::NoRecorded(number, expression));
            steps.push(Step::ShorterNode(number, expression));
        }
        for definition in (0..module.definitions.len()).rev() {
            steps.push(Step::Definition(number, definition));
            steps.push(Step::ShorterDefinition(number, definition));
        }
        steps.extend(
            (0..module.types.len())
                .rev()
                .map(|ty| Step::Type(number, ty)),
        );
        steps.extend(
            (1..module.scopes.len())
                .rev()
                .map(|scope| Step::Scope(number, scope)),
        );
    }
    steps
}

impl Step {
    /// False if there is nothing to do.
    fn apply(self, index: &mut Index) -> bool {
        let done = match self {
            Self::Question(number) => remove_question(index, number),
            Self::NoContext(number) => remove_context(index, number),
            Self::Module(number) => remove::module(index, number),
            Self::Expression(module, number) => remove::expression(index, module, number),
            Self::Definition(module, number) => remove::definition(index, module, number),
            Self::Type(module, number) => remove::ty(index, module, number),
            Self::Scope(module, number) => remove::scope(index, module, number),
            Self::PlainOrigin(module, number) => {
                expression(index, module, number).map(|e| e.origin = Origin::Plain)
            }
            Self::NoExpected(module, number) => {
                expression(index, module, number).map(|e| e.expected = None)
            }
            Self::NoRecorded(module, number) => {
                expression(index, module, number).map(|e| e.definition = None)
            }
            Self::ShorterNode(module, number) => shorten_node(index, module, number),
            Self::ShorterDefinition(module, number) => shorten_definition(index, module, number),
        };
        done.is_some()
    }
}

fn remove_question(index: &mut Index, number: usize) -> Option<()> {
    index.questions.get(number)?;
    index.questions.remove(number);
    Some(())
}

fn remove_context(index: &mut Index, number: usize) -> Option<()> {
    match index.questions.get_mut(number)? {
        Question::Expr { context, .. } => context.take().map(|_| ()),
        _ => None,
    }
}

/// The last item of a list goes; other nodes become `bool`.
fn shorten_node(index: &mut Index, module: usize, number: usize) -> Option<()> {
    match &mut expression(index, module, number)?.node {
        Node::Call { args: list, .. }
        | Node::Tuple { elements: list }
        | Node::Array { elements: list } => list.pop().map(|_| ()),
        node => {
            *node = Node::Bool;
            Some(())
        }
    }
}

/// The last item of a list goes, or an optional type.
fn shorten_definition(index: &mut Index, module: usize, number: usize) -> Option<()> {
    match &mut definition(index, module, number)?.kind {
        DefinitionKind::Fn {
            parameters: list, ..
        }
        | DefinitionKind::Struct { fields: list } => list.pop().map(|_| ()),
        DefinitionKind::Let { path, ty, .. } => match path.pop() {
            Some(_) => Some(()),
            None => ty.take().map(|_| ()),
        },
        DefinitionKind::Const { ty, .. } => ty.take().map(|_| ()),
        _ => None,
    }
}

fn expression(index: &mut Index, module: usize, number: usize) -> Option<&mut Expr> {
    index.modules.get_mut(module)?.expressions.get_mut(number)
}

fn definition(index: &mut Index, module: usize, number: usize) -> Option<&mut Definition> {
    index.modules.get_mut(module)?.definitions.get_mut(number)
}

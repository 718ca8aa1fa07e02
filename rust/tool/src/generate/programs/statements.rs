//! Statements.

use super::types::Type;
use super::writer::{VARIABLE_NAMES, Writer};

impl Writer<'_> {
    pub fn statement(&mut self, returns: &Type, depth: usize) {
        let choices = if depth == 0 { 14 } else { 19 };
        match self.random.below(choices) {
            0..5 => self.let_statement(),
            5 | 6 => self.tuple_let(),
            7 => self.local_constant(),
            8..11 => self.assignment(),
            11 => {
                let value = self.expression(returns, 2);
                self.line(&format!("return {value};"));
            }
            12 => {
                let condition = self.expression(&Type::Bool, 2);
                self.line(&format!("assert({condition});"));
            }
            13 => {
                let ty = self.ty(1);
                let value = self.expression(&ty, 3);
                self.line(&format!("({value});"));
            }
            _ => self.compound(returns, depth - 1),
        }
    }

    fn compound(&mut self, returns: &Type, depth: usize) {
        match self.random.below(5) {
            0 | 1 => {
                self.headed_block("if", returns, depth);
                if self.random.percent(50) {
                    self.line("else {");
                    self.block(returns, depth);
                }
            }
            2 => self.headed_block("while", returns, depth),
            3 => self.for_loop(returns, depth),
            _ => {
                self.line("loop {");
                self.block(returns, depth);
            }
        }
    }

    fn headed_block(&mut self, keyword: &str, returns: &Type, depth: usize) {
        let condition = self.expression(&Type::Bool, 2);
        self.line(&format!("{keyword} ({condition}) {{"));
        self.block(returns, depth);
    }

    fn for_loop(&mut self, returns: &Type, depth: usize) {
        let visible = self.variables.len();
        let ty = self.random.pick(&[Type::Felt, Type::U32]).clone();
        let start = self.expression(&ty, 1);
        self.variables.push(("i".to_string(), ty.clone()));
        let end = self.expression(&ty, 1);
        self.line(&format!("for (let i = {start}; i < {end}; i = i + 1) {{"));
        self.block(returns, depth);
        self.variables.truncate(visible);
    }

    /// The statements of a block and its closing brace.
    fn block(&mut self, returns: &Type, depth: usize) {
        let visible = self.variables.len();
        self.depth += 1;
        for _ in 0..self.random.between(1, 3) {
            self.statement(returns, depth);
        }
        self.depth -= 1;
        self.variables.truncate(visible);
        self.line("}");
    }

    fn local_constant(&mut self) {
        let name = format!("K{}", self.random.below(3));
        let ty = self.ty(1);
        self.constant(&name, &ty);
        self.variables.push((name, ty));
    }

    fn assignment(&mut self) {
        if self.variables.is_empty() {
            return self.let_statement();
        }
        let (name, ty) = self.random.pick(&self.variables).clone();
        match &ty {
            Type::Array(element, _) | Type::Pointer(element) if self.random.percent(60) => {
                let value = self.expression(element, 2);
                let index = self.expression(&Type::Felt, 1);
                self.line(&format!("{name}[{index}] = {value};"));
            }
            _ => {
                let value = self.expression(&ty, 2);
                self.line(&format!("{name} = {value};"));
            }
        }
    }

    fn let_statement(&mut self) {
        let name = self.random.pick(&VARIABLE_NAMES).to_string();
        let ty = self.ty(2);
        let value = self.expression(&ty, 3);
        if self.random.percent(40) {
            self.line(&format!("let {name}: {ty} = {value};"));
        } else {
            self.line(&format!("let {name} = {value};"));
        }
        self.variables.push((name, ty));
    }

    fn tuple_let(&mut self) {
        let types = [self.ty(1), self.ty(1), self.ty(0)];
        let names: [&str; 3] = std::array::from_fn(|_| *self.random.pick(&VARIABLE_NAMES));
        let [a, b, c] = names;
        let [first, second, third] = types.clone();
        let (pattern, ty) = if self.random.percent(60) {
            (format!("({a}, {b})"), Type::Tuple(vec![first, second]))
        } else {
            let nested = Type::Tuple(vec![second, third]);
            (
                format!("({a}, ({b}, {c}))"),
                Type::Tuple(vec![first, nested]),
            )
        };
        let value = self.expression(&ty, 3);
        let annotation = match self.random.percent(30) {
            true => format!(": {ty}"),
            false => String::new(),
        };
        self.line(&format!("let {pattern}{annotation} = {value};"));
        let names = names.iter().map(|name| name.to_string());
        self.variables.extend(names.zip(types));
    }
}

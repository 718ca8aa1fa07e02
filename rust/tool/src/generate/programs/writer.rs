//! Modules, imports, constants and functions.

use super::types::{Items, Type};
use crate::generate::Random;

pub const VARIABLE_NAMES: [&str; 8] = ["a", "b", "c", "i", "n", "x", "y", "z"];
const FIELD_NAMES: [&str; 5] = ["p", "q", "r", "s", "x"];

pub struct Writer<'r> {
    pub random: &'r mut Random,
    pub text: String,
    pub items: Items,
    pub variables: Vec<(String, Type)>,
    pub depth: usize,
}

impl<'r> Writer<'r> {
    pub fn new(random: &'r mut Random) -> Self {
        Self {
            random,
            text: String::new(),
            items: Items::default(),
            variables: Vec::new(),
            depth: 0,
        }
    }

    pub fn line(&mut self, text: &str) {
        self.text.push_str(&"    ".repeat(self.depth));
        self.text.push_str(text);
        self.text.push('\n');
    }

    pub fn module(&mut self, number: usize, others: &[Items]) {
        self.items.module = number;
        for other in others {
            self.import(other);
        }
        let imported_structs = self.items.structs.len();
        let imported_functions = self.items.functions.len();
        self.choose_structs();
        self.choose_functions();
        for number in 0..self.random.below(4) {
            let name = format!("C{number}");
            let ty = self.ty(1);
            self.constant(&name, &ty);
            self.items.constants.push((name, ty));
        }
        for (number, (name, fields)) in self.items.structs.clone().into_iter().enumerate() {
            if self.leave_to_import(number, imported_structs) {
                continue;
            }
            let fields: Vec<String> = fields.iter().map(|(n, t)| format!("{n}: {t}")).collect();
            self.line(&format!("struct {name} {{ {} }}", fields.join(", ")));
        }
        for (number, (name, parameters, returns)) in
            self.items.functions.clone().into_iter().enumerate()
        {
            if !self.leave_to_import(number, imported_functions) {
                self.function(&name, &parameters, &returns);
            }
        }
        if self.random.percent(5) {
            let (name, ..) = self.items.functions[0].clone();
            self.line(&format!("fn {name}() {{ return; }}"));
        }
    }

    /// Imported items, the first ones, are mostly not written again.
    fn leave_to_import(&mut self, number: usize, imported: usize) -> bool {
        number < imported && !self.random.percent(15)
    }

    fn choose_structs(&mut self) {
        for number in 0..self.random.below(4) {
            let name = format!("S{number}");
            let fields: Vec<(String, Type)> = (0..self.random.below(4))
                .map(|_| (self.random.pick(&FIELD_NAMES).to_string(), self.ty(2)))
                .collect();
            self.items.structs.push((name, fields));
        }
    }

    /// Signatures first: bodies may call forward.
    fn choose_functions(&mut self) {
        for number in 0..self.random.between(1, 4) {
            let name = format!("f{number}");
            let parameters = (0..self.random.below(4)).map(|_| self.ty(2)).collect();
            let returns = match self.random.below(4) {
                0 => Type::Tuple(vec![]),
                _ => self.ty(2),
            };
            self.items.functions.push((name, parameters, returns));
        }
    }

    /// Imports of another module's items. They keep their names and may clash with the own ones; that
    /// is part of the game.
    fn import(&mut self, other: &Items) {
        let module = other.module;
        for function in &other.functions {
            if self.random.percent(40) {
                self.line(&format!("use m{module}::{};", function.0));
                self.items.functions.push(function.clone());
            }
        }
        let mut names = Vec::new();
        for item in &other.structs {
            if self.random.percent(50) {
                names.push(item.0.clone());
                self.items.structs.push(item.clone());
            }
        }
        for item in &other.constants {
            if self.random.percent(50) {
                names.push(item.0.clone());
                self.items.constants.push(item.clone());
            }
        }
        if self.random.percent(10) {
            names.push("missing".to_string());
        }
        if !names.is_empty() {
            self.line(&format!("use m{module}::{{{}}};", names.join(", ")));
        }
        if self.random.percent(5) {
            self.line("use nowhere::thing;");
        }
    }

    pub fn ty(&mut self, depth: usize) -> Type {
        if depth == 0 || self.random.percent(65) {
            return self.named_type();
        }
        match self.random.below(4) {
            0 => Type::Pointer(Box::new(self.ty(depth - 1))),
            1 => {
                let size = self.random.below(4);
                Type::Array(Box::new(self.ty(depth - 1)), size)
            }
            _ => {
                let length = self.random.between(1, 3);
                Type::Tuple((0..length).map(|_| self.ty(depth - 1)).collect())
            }
        }
    }

    fn named_type(&mut self) -> Type {
        match self.random.below(8) {
            0..2 => Type::Felt,
            5 => Type::Bool,
            6.. if !self.items.structs.is_empty() => {
                let number = self.random.below(self.items.structs.len());
                Type::Struct(self.items.structs[number].0.clone())
            }
            _ => Type::U32,
        }
    }

    pub fn constant(&mut self, name: &str, ty: &Type) {
        let value = self.expression(ty, 2);
        if self.random.percent(50) {
            self.line(&format!("const {name}: {ty} = {value};"));
        } else {
            self.line(&format!("const {name} = {value};"));
        }
    }

    fn function(&mut self, name: &str, parameters: &[Type], returns: &Type) {
        self.variables.clear();
        let mut written = Vec::new();
        for ty in parameters {
            let parameter = self.random.pick(&VARIABLE_NAMES).to_string();
            written.push(format!("{parameter}: {ty}"));
            self.variables.push((parameter, ty.clone()));
        }
        let arrow = match returns {
            Type::Tuple(elements) if elements.is_empty() => String::new(),
            _ => format!(" -> {returns}"),
        };
        self.line(&format!("fn {name}({}){arrow} {{", written.join(", ")));
        self.depth += 1;
        for _ in 0..self.random.between(1, 5) {
            self.statement(returns, 2);
        }
        if !arrow.is_empty() {
            let value = self.expression(returns, 2);
            self.line(&format!("return {value};"));
        }
        self.depth -= 1;
        self.line("}");
    }
}

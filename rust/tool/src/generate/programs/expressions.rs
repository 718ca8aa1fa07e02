//! Expressions that should have a given type.

use super::types::Type;
use super::writer::Writer;

impl Writer<'_> {
    /// An expression that should have the type; now and then another one.
    pub fn expression(&mut self, ty: &Type, depth: usize) -> String {
        if self.random.percent(6) {
            let other = self.ty(1);
            return self.expression_of(&other, depth.min(1));
        }
        self.expression_of(ty, depth)
    }

    fn expression_of(&mut self, ty: &Type, depth: usize) -> String {
        let variables = self.variables.iter().chain(&self.items.constants);
        let named: Vec<String> = variables
            .filter(|(_, of)| of == ty)
            .map(|(name, _)| name.clone())
            .collect();
        if !named.is_empty() && self.random.percent(40) {
            return self.random.pick(&named).clone();
        }
        if depth > 0
            && self.random.percent(45)
            && let Some(text) = self.derived(ty, depth - 1)
        {
            return text;
        }
        if self.random.percent(2) {
            return "undefined".to_string();
        }
        self.built(ty, depth)
    }

    /// A call, member, element, cast or parenthesis of the type.
    fn derived(&mut self, ty: &Type, depth: usize) -> Option<String> {
        let named = matches!(ty, Type::Felt | Type::U32 | Type::Bool | Type::Struct(_));
        match self.random.below(7) {
            0..2 => self.call(ty, depth),
            2 => self.member(ty, depth),
            3 => Some(self.tuple_element(ty, depth)),
            4 => Some(self.array_element(ty, depth)),
            5 if named => {
                let other = self.ty(0);
                let value = self.expression_of(&other, depth);
                Some(format!("({value} as {ty})"))
            }
            _ => Some(format!("({})", self.expression(ty, depth))),
        }
    }

    /// A call, now and then with an argument more or less.
    fn call(&mut self, ty: &Type, depth: usize) -> Option<String> {
        let functions = self.items.functions.iter();
        let fitting: Vec<_> = functions.filter(|(_, _, r)| r == ty).cloned().collect();
        if fitting.is_empty() {
            return None;
        }
        let (name, parameters, _) = self.random.pick(&fitting).clone();
        let parameters = parameters.iter();
        let mut arguments: Vec<String> = parameters.map(|p| self.expression(p, depth)).collect();
        if self.random.percent(5) {
            arguments.push(self.expression(&Type::Felt, 0));
        } else if self.random.percent(5) {
            arguments.pop();
        }
        Some(format!("{name}({})", arguments.join(", ")))
    }

    fn member(&mut self, ty: &Type, depth: usize) -> Option<String> {
        let mut found = Vec::new();
        for (name, fields) in &self.items.structs {
            for (field, of) in fields {
                if of == ty {
                    found.push((name.clone(), field.clone()));
                }
            }
        }
        if found.is_empty() {
            return None;
        }
        let (name, field) = self.random.pick(&found).clone();
        let object = self.expression_of(&Type::Struct(name), depth);
        Some(format!("({object}).{field}"))
    }

    fn tuple_element(&mut self, ty: &Type, depth: usize) -> String {
        let other = self.ty(0);
        let mut elements = vec![other; 2];
        let at = self.random.below(2);
        elements[at] = ty.clone();
        let tuple = self.expression_of(&Type::Tuple(elements), depth);
        format!("({tuple}).{at}")
    }

    fn array_element(&mut self, ty: &Type, depth: usize) -> String {
        let container = match self.random.percent(50) {
            true => Type::Array(Box::new(ty.clone()), self.random.between(1, 3)),
            false => Type::Pointer(Box::new(ty.clone())),
        };
        let array = self.expression_of(&container, depth);
        let index = self.expression(&Type::Felt, 0);
        format!("({array})[{index}]")
    }

    /// A literal or operation of the type.
    fn built(&mut self, ty: &Type, depth: usize) -> String {
        let below = depth.saturating_sub(1);
        match ty {
            Type::Felt | Type::U32 => self.number(ty, depth),
            Type::Bool => self.boolean(depth),
            Type::Struct(name) => self.struct_literal(name, below),
            Type::Pointer(inner) => self.pointer(inner, depth),
            Type::Tuple(elements) => {
                let elements = elements.iter();
                let elements: Vec<String> = elements.map(|e| self.expression(e, below)).collect();
                match elements.len() {
                    0 => "()".to_string(),
                    1 => format!("({},)", elements[0]),
                    _ => format!("({})", elements.join(", ")),
                }
            }
            Type::Array(element, size) => {
                if *size > 0 && self.random.percent(30) {
                    return format!("[{}; {size}]", self.expression(element, below));
                }
                let elements: Vec<String> = (0..*size)
                    .map(|_| self.expression(element, below))
                    .collect();
                format!("[{}]", elements.join(", "))
            }
        }
    }

    fn number(&mut self, ty: &Type, depth: usize) -> String {
        let operators: &[&str] = match ty {
            Type::Felt => &["+", "-", "*", "/"],
            _ => &["+", "-", "*", "/", "%", "&", "|", "^"],
        };
        match self.random.below(10) {
            0..4 if depth > 0 => {
                let operator = *self.random.pick(operators);
                let left = self.expression(ty, depth - 1);
                let right = self.expression(ty, depth - 1);
                format!("{left} {operator} {right}")
            }
            4 if depth > 0 => format!("-{}", self.atom(ty, depth - 1)),
            5 => format!("{}{ty}", self.random.below(100)),
            6 => format!("{}u8", self.random.below(100)),
            _ => self.random.below(100).to_string(),
        }
    }

    fn boolean(&mut self, depth: usize) -> String {
        match self.random.below(6) {
            0..3 if depth > 0 => {
                let operands = [Type::Felt, Type::U32, Type::Bool];
                let operand = self.random.pick(&operands).clone();
                let left = match operand != Type::Bool && self.random.percent(30) {
                    true => "7".to_string(),
                    false => self.atom(&operand, depth - 1),
                };
                let right = self.atom(&operand, depth - 1);
                let operators = ["==", "!=", "<", ">", "<=", ">="];
                format!("{left} {} {right}", self.random.pick(&operators))
            }
            3 if depth > 0 => {
                let left = self.atom(&Type::Bool, depth - 1);
                let right = self.atom(&Type::Bool, depth - 1);
                format!("{left} {} {right}", self.random.pick(&["&&", "||"]))
            }
            4 if depth > 0 => format!("!{}", self.atom(&Type::Bool, depth - 1)),
            _ => self.random.pick(&["true", "false"]).to_string(),
        }
    }

    fn struct_literal(&mut self, name: &str, depth: usize) -> String {
        let found = self.items.structs.iter().rev().find(|(n, _)| n == name);
        let mut fields = found.map_or(vec![], |(_, fields)| fields.clone());
        if self.random.percent(5) {
            fields.push(("wrong".to_string(), Type::Felt));
        }
        let mut written = Vec::new();
        for (field, of) in &fields {
            // Structs may hold each other.
            let value = match depth == 0 && of.holds_struct() {
                true => "0".to_string(),
                false => self.expression(of, depth),
            };
            written.push(format!("{field}: {value}"));
        }
        format!("{name} {{ {} }}", written.join(", "))
    }

    /// The grammar has neither arrays nor pointers nor tuples behind `new`.
    fn pointer(&mut self, inner: &Type, depth: usize) -> String {
        match inner {
            Type::Array(..) | Type::Pointer(..) | Type::Tuple(..) => {
                let count = self.expression(&Type::Felt, 0);
                format!("new felt[{count}]")
            }
            _ => {
                let count = self.expression(&Type::Felt, depth.min(1));
                format!("new {inner}[{count}]")
            }
        }
    }

    /// In parentheses unless it is a name or number.
    fn atom(&mut self, ty: &Type, depth: usize) -> String {
        let text = self.expression(ty, depth);
        let simple = text.bytes().all(|b| b.is_ascii_alphanumeric() || b == b'_');
        if simple { text } else { format!("({text})") }
    }
}

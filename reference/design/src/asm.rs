//! The text form of a design, its assembler and its disassembler.
//!
//! A text is a list of functions, the last being main:
//!
//! ```text
//! fun f(x): 4 = x                             # a function of 4 bits; without a width it has 32
//! fun main(x) = let a = f(x), b = 2 in if less(a, b) then add(a, 0x10) else b
//! ```
//!
//! Primitives are called by name. Functions are numbered in order and each body in preorder.

use numbers::{BOUND, CALL, CONSTANT, IF, LET, PARAMETER, PRIMITIVE};
use numbers::{MOST_FUNCTIONS, MOST_NODES, MOST_PARAMETERS, MOST_WIDTH};

use crate::draft::{Draft, Head};
use crate::lexer::{tokens, TextError, Token};
use crate::table::{operation_counts, Function, Node, Refusal, Table};
use crate::tree::{Kind, Tree};

/// Above what 512 nodes need; keeps a text of brackets alone from using up the stack.
const DEEPEST: usize = 600;

/// The operations' names, each at the operation's number.
const NAMES: [&str; 11] = ["add", "sub", "and", "or", "xor", "double", "halve", "lowbit", "equal", "less", "beside"];

/// Table bytes of a text. Tail position and the size of constants are left to the table check.
pub fn assemble(text: &str) -> Result<Vec<u8>, TextError> {
    let mut reader = Reader {
        tokens: tokens(text)?,
        at: 0,
        depth: 0,
        draft: Draft::default(),
        functions: Vec::new(),
        parameters: Vec::new(),
        bound: Vec::new(),
    };
    reader.function()?;
    while *reader.peek() != Token::End {
        reader.function()?;
    }
    Ok(reader.draft.bytes())
}

struct Reader {
    tokens: Vec<(Token, usize)>,
    at: usize,
    depth: usize,
    draft: Draft,
    /// Names and parameter counts so far, the one being read included.
    functions: Vec<(String, usize)>,
    parameters: Vec<String>,
    /// Names of the lets around, innermost last, each with its definiens.
    bound: Vec<(String, usize)>,
}

impl Reader {
    fn peek(&self) -> &Token {
        &self.tokens[self.at].0
    }

    fn line(&self) -> usize {
        self.tokens[self.at].1
    }

    fn error<T>(&self, line: usize, message: String) -> Result<T, TextError> {
        Err(TextError { line, message })
    }

    fn expected<T>(&self, what: &str) -> Result<T, TextError> {
        self.error(self.line(), format!("expected {what}, found {}", self.peek()))
    }

    fn take(&mut self, wanted: Token) -> Result<(), TextError> {
        if *self.peek() != wanted {
            return self.expected(&wanted.to_string());
        }
        self.at += 1;
        Ok(())
    }

    fn take_if(&mut self, wanted: Token) -> bool {
        let there = *self.peek() == wanted;
        self.at += usize::from(there);
        there
    }

    fn name(&mut self, what: &str) -> Result<String, TextError> {
        match self.peek().clone() {
            Token::Name(name) => {
                self.at += 1;
                Ok(name)
            }
            _ => self.expected(what),
        }
    }

    fn function(&mut self) -> Result<(), TextError> {
        self.take(Token::Keyword("fun"))?;
        let line = self.line();
        let name = self.name("a function name")?;
        if operation(&name).is_some() || self.functions.iter().any(|(other, _)| *other == name) {
            return self.error(line, format!("expected a new function name, found `{name}` again"));
        }
        if self.functions.len() == MOST_FUNCTIONS {
            return self.error(line, format!("expected at most {MOST_FUNCTIONS} functions, found another"));
        }
        self.parameters = self.parameter_names()?;
        self.functions.push((name, self.parameters.len()));
        let width = self.width()?;
        let root = self.expression()?;
        self.draft.functions.push(Head { width, ..Head::new(self.parameters.len(), root) });
        match self.peek() {
            Token::End | Token::Keyword("fun") => Ok(()),
            _ => self.expected("`fun` or the end of the text"),
        }
    }

    fn parameter_names(&mut self) -> Result<Vec<String>, TextError> {
        let mut names: Vec<String> = Vec::new();
        self.take(Token::Symbol('('))?;
        if self.take_if(Token::Symbol(')')) {
            return Ok(names);
        }
        loop {
            let line = self.line();
            let name = self.name("a parameter name")?;
            if names.contains(&name) {
                return self.error(line, format!("expected a new parameter name, found `{name}` again"));
            }
            if names.len() == MOST_PARAMETERS {
                return self.error(line, format!("expected at most {MOST_PARAMETERS} parameters, found `{name}` too"));
            }
            names.push(name);
            if self.take_if(Token::Symbol(')')) {
                return Ok(names);
            }
            if !self.take_if(Token::Symbol(',')) {
                return self.expected("`,` or `)`");
            }
        }
    }

    /// The width byte, and the sign before the body: without a width the byte is 0.
    fn width(&mut self) -> Result<u8, TextError> {
        if self.take_if(Token::Symbol('=')) {
            return Ok(0);
        }
        if !self.take_if(Token::Symbol(':')) {
            return self.expected("`:` or `=`");
        }
        let width = match *self.peek() {
            Token::Number(number) if (1..=MOST_WIDTH.into()).contains(&number) => number as u8,
            _ => return self.expected(&format!("a width from 1 to {MOST_WIDTH}")),
        };
        self.at += 1;
        self.take(Token::Symbol('='))?;
        Ok(width)
    }

    fn expression(&mut self) -> Result<usize, TextError> {
        if self.depth == DEEPEST {
            return self.error(self.line(), "expected less nesting".to_string());
        }
        self.depth += 1;
        let found = self.any_expression();
        self.depth -= 1;
        found
    }

    fn any_expression(&mut self) -> Result<usize, TextError> {
        match self.peek().clone() {
            Token::Number(value) => {
                let node = self.node(CONSTANT, 0, value)?;
                self.at += 1;
                Ok(node)
            }
            Token::Keyword("if") => self.conditional(),
            Token::Keyword("let") => self.binding(),
            Token::Symbol('(') => {
                self.at += 1;
                let inner = self.expression()?;
                self.take(Token::Symbol(')'))?;
                Ok(inner)
            }
            Token::Name(name) => {
                if self.tokens[self.at + 1].0 == Token::Symbol('(') {
                    return self.call(&name);
                }
                let bound = self.bound.iter().rev().find(|(other, _)| *other == name);
                let parameter = self.parameters.iter().position(|other| *other == name);
                let node = match (bound, parameter) {
                    (Some(&(_, definiens)), _) => self.node(BOUND, 0, definiens as u32)?,
                    (None, Some(index)) => self.node(PARAMETER, index as u8, 0)?,
                    (None, None) => return self.expected("a parameter or a let name in scope"),
                };
                self.at += 1;
                Ok(node)
            }
            _ => self.expected("an expression"),
        }
    }

    fn node(&mut self, kind: u8, extra: u8, word: u32) -> Result<usize, TextError> {
        if self.draft.items.len() == MOST_NODES {
            return self.error(self.line(), format!("expected at most {MOST_NODES} nodes, found another"));
        }
        Ok(self.draft.add(kind, extra, word))
    }

    fn conditional(&mut self) -> Result<usize, TextError> {
        let node = self.node(IF, 0, 0)?;
        self.take(Token::Keyword("if"))?;
        let condition = self.expression()?;
        self.take(Token::Keyword("then"))?;
        let then = self.expression()?;
        self.take(Token::Keyword("else"))?;
        let other = self.expression()?;
        self.draft.items[node].children = vec![condition, then, other];
        Ok(node)
    }

    fn binding(&mut self) -> Result<usize, TextError> {
        let node = self.node(LET, 0, 0)?;
        self.take(Token::Keyword("let"))?;
        // Definientia don't see each other: the names come into scope with the body.
        let mut names: Vec<(String, usize)> = Vec::new();
        loop {
            let line = self.line();
            let name = self.name("a let name")?;
            if names.iter().any(|(other, _)| *other == name) {
                return self.error(line, format!("expected a new let name, found `{name}` again"));
            }
            if names.len() == 8 {
                return self.error(line, format!("expected at most 8 let names, found `{name}` too"));
            }
            self.take(Token::Symbol('='))?;
            let definiens = self.expression()?;
            names.push((name, definiens));
            if self.take_if(Token::Keyword("in")) {
                break;
            }
            if !self.take_if(Token::Symbol(',')) {
                return self.expected("`,` or `in`");
            }
        }
        let outside = self.bound.len();
        let mut children: Vec<usize> = names.iter().map(|(_, definiens)| *definiens).collect();
        self.bound.extend(names);
        children.push(self.expression()?);
        self.bound.truncate(outside);
        self.draft.items[node].children = children;
        Ok(node)
    }

    fn unknown_callee<T>(&self, name: &str) -> Result<T, TextError> {
        let is_head = |pair: &&[(Token, usize)]| {
            pair[0].0 == Token::Keyword("fun") && matches!(&pair[1].0, Token::Name(other) if other == name)
        };
        let later = match self.tokens[self.at..].windows(2).find(is_head) {
            Some(head) => format!(", which is defined later, on line {}", head[1].1),
            None => String::new(),
        };
        self.error(self.line(), format!("expected a primitive or a function defined so far, found `{name}`{later}"))
    }

    fn call(&mut self, name: &str) -> Result<usize, TextError> {
        let line = self.line();
        let callee = self.functions.iter().position(|(other, _)| other == name);
        let (node, fewest, most) = match (operation(name), callee) {
            (Some(number), _) => {
                let (fewest, most) = operation_counts(number);
                (self.node(PRIMITIVE, number, 0)?, fewest.into(), most.into())
            }
            (None, Some(index)) => {
                let count = self.functions[index].1;
                (self.node(CALL, 0, index as u32 + 1)?, count, count)
            }
            (None, None) => return self.unknown_callee(name),
        };
        self.at += 2;
        let mut children = Vec::new();
        if !self.take_if(Token::Symbol(')')) {
            loop {
                children.push(self.expression()?);
                if self.take_if(Token::Symbol(')')) {
                    break;
                }
                if !self.take_if(Token::Symbol(',')) {
                    return self.expected("`,` or `)`");
                }
            }
        }
        if !(fewest..=most).contains(&children.len()) {
            let wanted = if fewest == most { fewest.to_string() } else { format!("{fewest} to {most}") };
            let plural = if most == 1 { "" } else { "s" };
            let message = format!("expected {wanted} argument{plural} of `{name}`, found {}", children.len());
            return self.error(line, message);
        }
        self.draft.items[node].children = children;
        Ok(node)
    }
}

fn operation(name: &str) -> Option<u8> {
    NAMES.iter().position(|other| *other == name).map(|number| number as u8)
}

/// The text of an accepted table. Assembled again it gives the same design, its nodes in preorder.
pub fn disassemble(bytes: &[u8]) -> Result<String, Refusal> {
    let tree = Tree::read(bytes)?;
    let mut text = String::new();
    for function in tree.functions() {
        let parameters: Vec<String> = (0..tree.parameters(function)).map(parameter_name).collect();
        let width = match Table::new(bytes).width_byte(function) {
            0 => String::new(),
            byte => format!(": {byte}"),
        };
        let body = expression(&tree, tree.root(function));
        text += &format!("fun {}({}){width} = {body}\n", function_name(&tree, function), parameters.join(", "));
    }
    Ok(text)
}

fn function_name(tree: &Tree, function: Function) -> String {
    match function == tree.main() {
        true => "main".to_string(),
        false => format!("f{}", function.0),
    }
}

fn parameter_name(index: usize) -> String {
    format!("p{index}")
}

fn expression(tree: &Tree, node: Node) -> String {
    let parts: Vec<String> = tree.children(node).iter().map(|child| expression(tree, *child)).collect();
    match tree.kind(node) {
        Kind::Constant(value) => value.to_string(),
        Kind::Parameter(index) => parameter_name(index),
        Kind::Bound(definiens) => format!("v{}", definiens.0),
        Kind::Primitive(number) => format!("{}({})", NAMES[usize::from(number)], parts.join(", ")),
        Kind::Call(callee) => format!("{}({})", function_name(tree, callee), parts.join(", ")),
        Kind::If => format!("if {} then {} else {}", parts[0], parts[1], parts[2]),
        Kind::Let => {
            let named = tree.definientia(node).iter().zip(&parts);
            let bindings: Vec<String> = named.map(|(child, part)| format!("v{} = {part}", child.0)).collect();
            format!("let {} in {}", bindings.join(", "), parts[parts.len() - 1])
        }
    }
}

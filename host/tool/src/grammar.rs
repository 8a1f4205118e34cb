//! The grammar of a line: WGSL's expressions over literals and entries. The operators bind as in WGSL, which asks for parentheses wherever
//! most readers would want them.
use std::ops::Range;

use booth::{Binary, Bond, Expr, Kind, Sheet, Type, Unary, Value};

use crate::{
    lexer::{self, fault, Fault, Lexeme, Token},
    make::Told,
};

/// How far parentheses and signs may stand in one another.
const MOST_NESTED: usize = 200;

const LITERAL: &str =
    "here should stand a literal: a number, true or false; settings, vectors and matrices are written with literals";

/// Reads the words of a line behind the entry's name.
pub struct Parser<'a> {
    words: &'a [Lexeme],
    at: usize,
    kind: Kind,
    told: &'a Told,
    nested: usize,
}

/// An expression with how tightly its text holds together, its depth, and the characters that it takes.
struct Part {
    expr: Expr,
    bond: Bond,
    depth: usize,
    at: Range<usize>,
}

impl<'a> Parser<'a> {
    pub fn new(words: &'a [Lexeme], kind: Kind, told: &'a Told) -> Parser<'a> {
        Parser { words, at: 0, kind, told, nested: 0 }
    }

    fn next(&self) -> &'a Lexeme {
        // The last word is an end, and nothing goes past it.
        &self.words[self.at.min(self.words.len() - 1)]
    }

    fn take(&mut self) -> &'a Lexeme {
        let word = self.next();
        self.at += 1;
        word
    }

    fn is(&self, symbol: &str) -> bool {
        matches!(self.next().token, Token::Symbol(found) if found == symbol)
    }

    fn expect(&mut self, symbol: &str, why: &str) -> Result<(), Fault> {
        if !self.is(symbol) {
            return fault(self.next().at.clone(), format!("here should stand {symbol} {why}"));
        }
        self.at += 1;
        Ok(())
    }

    fn end(&mut self) -> Result<(), Fault> {
        match self.next().token {
            Token::End => Ok(()),
            _ => fault(self.next().at.clone(), "the entry has ended before this"),
        }
    }

    /// `: u32 = 5`
    pub fn setting(&mut self) -> Result<Expr, Fault> {
        self.expect(":", "and the setting's type")?;
        let word = self.take();
        let ty = match &word.token {
            Token::Word(name) => lexer::type_named(name).filter(|ty| !ty.is_abstract()),
            _ => None,
        };
        let ty = match ty {
            Some(ty) => ty,
            None => return fault(word.at.clone(), "a setting is of type bool, i32, u32, f32 or f16"),
        };
        self.expect("=", "and what the setting holds")?;
        let content = self.scalar(Some(ty))?;
        self.end()?;
        Ok(Expr::Literal(content))
    }

    /// `= 1u << cell`
    pub fn definition(&mut self) -> Result<Expr, Fault> {
        if self.is(":") {
            return fault(self.next().at.clone(), "only a setting has a type; an expression's is that of its value");
        }
        self.expect("=", "and the entry's expression")?;
        let part = self.expression(0)?;
        self.end()?;
        Ok(part.expr)
    }

    /// Operators that bind at least so tightly, and what stands between them.
    fn expression(&mut self, least: u8) -> Result<Part, Fault> {
        let mut left = self.unary()?;
        while let Some((op, place)) = self.operator(least) {
            self.at += 1;
            let right = self.expression(tightness(op) + 1)?;
            for (side, is_left) in [(&left, true), (&right, false)] {
                if !side.bond.stands_in(op, is_left) {
                    return fault(side.at.clone(), format!("WGSL asks for parentheses around this beside {op}"));
                }
            }
            let depth = 1 + left.depth.max(right.depth);
            let at = left.at.start..right.at.end;
            left = Part { expr: Expr::binary(op, left.expr, right.expr), bond: Bond::of(op), depth, at };
            judge_depth(left.depth, place)?;
        }
        Ok(left)
    }

    fn operator(&self, least: u8) -> Option<(Binary, Range<usize>)> {
        match self.next().token {
            Token::Symbol(symbol) => {
                let op = Binary::of_symbol(symbol).filter(|op| tightness(*op) >= least)?;
                Some((op, self.next().at.clone()))
            }
            _ => None,
        }
    }

    fn unary(&mut self) -> Result<Part, Fault> {
        self.nested += 1;
        if self.nested > MOST_NESTED {
            return fault(self.next().at.clone(), "parentheses and signs stand more than 200 deep here");
        }
        let part = self.sign_or_primary();
        self.nested -= 1;
        part
    }

    fn sign_or_primary(&mut self) -> Result<Part, Fault> {
        let start = self.next().at.clone();
        let op = match self.next().token {
            Token::Symbol("!") => Unary::Not,
            Token::Symbol("~") => Unary::BitNot,
            Token::Symbol("-") if !self.is_negative() => Unary::Neg,
            _ => return self.primary(),
        };
        self.at += 1;
        let operand = self.unary()?;
        let depth = 1 + operand.depth;
        judge_depth(depth, start.clone())?;
        Ok(Part { expr: Expr::unary(op, operand.expr), bond: Bond::Unary, depth, at: start.start..operand.at.end })
    }

    /// Whether a `-` here is the sign of the number that stands right behind it.
    fn is_negative(&self) -> bool {
        match self.words.get(self.at + 1) {
            Some(Lexeme { token: Token::Number(_), at }) => at.start == self.next().at.end,
            Some(Lexeme { token: Token::Word(word), at }) => {
                at.start == self.next().at.end && word.starts_with("inf") && Value::read(word).is_ok()
            }
            _ => false,
        }
    }

    /// Whether parentheses stand behind the word here.
    fn is_call(&self) -> bool {
        self.words.get(self.at + 1).map_or(false, |word| word.token == Token::Symbol("("))
    }

    fn primary(&mut self) -> Result<Part, Fault> {
        let word = self.next();
        let start = word.at.start;
        let expr = match &word.token {
            Token::Symbol("(") => {
                self.at += 1;
                let inner = self.expression(0)?;
                let end = self.next().at.end;
                self.expect(")", "that ends the parentheses")?;
                return Ok(Part { bond: Bond::Unary, at: start..end, ..inner });
            }
            Token::Entry(number) => self.named(self.told.numbered(*number, self.kind))?,
            Token::Quoted(name) => self.named(self.told.named(name, self.kind))?,
            Token::Word(name) if !lexer::is_reserved(name) && self.is_call() => {
                return fault(
                    word.at.clone(),
                    format!("a sheet holds no functions: {name}(..) is none of its operators"),
                );
            }
            Token::Word(name) if !lexer::is_reserved(name) => self.named(self.told.named(name, self.kind))?,
            Token::Word(name) => match lexer::shape(name) {
                Some(shape) => Expr::Literal(self.composite(shape)?),
                None if Value::read(name).is_err() => return fault(word.at.clone(), no_value(name)),
                None => Expr::Literal(self.scalar(None)?),
            },
            Token::Number(_) | Token::Symbol("-") => Expr::Literal(self.scalar(None)?),
            _ => return fault(word.at.clone(), "here should stand a value, an entry, or an expression in parentheses"),
        };
        let end = self.words[self.at - 1].at.end;
        Ok(Part { expr, bond: Bond::Unary, depth: 1, at: start..end })
    }

    fn named(&mut self, found: Result<Expr, String>) -> Result<Expr, Fault> {
        let word = self.take();
        found.map_err(|words| Fault { at: word.at.clone(), words })
    }

    /// One literal with its sign, of a type where one is asked for.
    fn scalar(&mut self, ty: Option<Type>) -> Result<Value, Fault> {
        let start = self.next().at.start;
        let sign = if self.is("-") && self.is_negative() {
            self.at += 1;
            "-"
        } else {
            ""
        };
        let word = self.take();
        let text = match &word.token {
            Token::Number(text) => format!("{sign}{text}"),
            Token::Word(text) if Value::read(text).is_ok() => format!("{sign}{text}"),
            _ => return fault(word.at.clone(), LITERAL),
        };
        let read = match ty {
            Some(ty) => Value::read_as(ty, &text),
            None => Value::read(&text),
        };
        read.map_err(|why| Fault { at: start..word.at.end, words: why.to_string() })
    }

    /// `vec3<f32>(1.0, 2.0, 3.0)`: its shape, perhaps its type, and its components column by column.
    fn composite(&mut self, (columns, rows, alias): (u8, u8, Option<Type>)) -> Result<Value, Fault> {
        let start = self.take().at.start;
        let asked = if self.is("<") { Some(self.parameter(alias)?) } else { alias };
        self.expect("(", "and the components")?;
        let wanted = usize::from(columns * rows);
        let mut parts = vec![self.scalar(asked)?];
        while self.is(",") && parts.len() < wanted {
            self.at += 1;
            parts.push(self.scalar(asked)?);
        }
        let at = start..self.next().at.end;
        if self.is(",") && self.words.get(self.at + 1).map_or(false, |word| word.token == Token::Symbol(")")) {
            // WGSL lets a comma stand behind the last one.
            self.at += 1;
        }
        if self.is(",") || parts.len() < wanted && self.is(")") {
            let found = if self.is(",") { "more" } else { "fewer" };
            return fault(at, format!("this has {wanted} components, and {found} stand here"));
        }
        self.expect(")", "or a comma and another component")?;
        let ty = parts[0].ty();
        if let Some(other) = parts.iter().find(|part| part.ty() != ty) {
            return fault(at, format!("{} and {other} are of two types: write all components alike", parts[0]));
        }
        let bits: Vec<u64> = parts.iter().map(|part| part.components()[0]).collect();
        Value::new(ty, columns, rows, &bits).map_err(|_| Fault { at, words: format!("there is no matrix of {ty}") })
    }

    /// `<f32>`
    fn parameter(&mut self, alias: Option<Type>) -> Result<Type, Fault> {
        self.at += 1;
        let word = self.take();
        let ty = match &word.token {
            Token::Word(name) if alias.is_none() => lexer::type_named(name).filter(|ty| !ty.is_abstract()),
            _ => None,
        };
        match ty {
            Some(ty) => self.expect(">", "behind the type").map(|()| ty),
            None => fault(word.at.clone(), "here should stand bool, i32, u32, f32 or f16"),
        }
    }
}

/// Why a word of the language is no value.
fn no_value(name: &str) -> String {
    match lexer::type_named(name) {
        Some(_) => format!("a sheet holds no conversion {name}(..): give the literal or the setting the type you want"),
        None => format!("{name} has a meaning of its own: an entry of that name stands in quotes"),
    }
}

fn judge_depth(depth: usize, at: Range<usize>) -> Result<(), Fault> {
    match depth > Sheet::MOST_DEEP {
        true => fault(at, "the expression is more than 32 deep here: give a part of it an entry of its own"),
        false => Ok(()),
    }
}

/// Which operators are taken together first where no parentheses stand.
fn tightness(op: Binary) -> u8 {
    match Bond::of(op) {
        Bond::Unary => 9,
        Bond::Product => 8,
        Bond::Sum => 7,
        Bond::Shift => 6,
        Bond::Comparison => 5,
        Bond::Chain(Binary::BitAnd) => 4,
        Bond::Chain(Binary::BitXor) => 3,
        Bond::Chain(Binary::BitOr) => 2,
        Bond::Chain(Binary::And) => 1,
        Bond::Chain(_) => 0,
    }
}

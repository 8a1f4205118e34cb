//! Expressions: what an entry's body says, from bytes and to bytes, and as WGSL writes it.
use std::{fmt, ops};

use crate::{Binary, Type, Unary, Value};

/// An expression over values and earlier entries.
///
/// Rust's operators build one where WGSL has the same; `Expr::unary` and `Expr::binary` build all of them.
///
/// ```
/// use booth::{Binary, Expr};
///
/// let cell = Expr::Entry(0);
/// assert_eq!((Expr::from(1u32) << cell.clone()).to_string(), "1u << #0");
/// let both = Expr::binary(Binary::Lt, cell.clone() + 1u32.into(), Expr::from(8u32) * cell);
/// assert_eq!(both.to_string(), "#0 + 1u < 8u * #0");
/// ```
#[derive(Clone, Debug, PartialEq, Eq)]
pub enum Expr {
    Literal(Value),
    /// An earlier entry by its number.
    Entry(u8),
    Unary(Unary, Box<Expr>),
    Binary(Binary, Box<Expr>, Box<Expr>),
}

impl Expr {
    pub fn unary(op: Unary, operand: Expr) -> Expr {
        Expr::Unary(op, Box::new(operand))
    }

    pub fn binary(op: Binary, left: Expr, right: Expr) -> Expr {
        Expr::Binary(op, Box::new(left), Box::new(right))
    }

    /// The operands, left first.
    pub fn operands(&self) -> Vec<&Expr> {
        match self {
            Expr::Literal(_) | Expr::Entry(_) => vec![],
            Expr::Unary(_, operand) => vec![operand],
            Expr::Binary(_, left, right) => vec![left, right],
        }
    }

    /// The entries that it names, each once, in rising order.
    pub fn names(&self) -> Vec<u8> {
        let mut all = match self {
            Expr::Entry(number) => vec![*number],
            _ => self.operands().into_iter().flat_map(Expr::names).collect(),
        };
        all.sort_unstable();
        all.dedup();
        all
    }

    /// Its nodes one below another: a lone node is 1. A sheet holds at most 32.
    pub fn depth(&self) -> usize {
        1 + self.operands().into_iter().map(Expr::depth).max().unwrap_or(0)
    }

    /// How many bytes a body takes for it.
    pub fn size(&self) -> usize {
        match self {
            Expr::Literal(value) => 4 + 8 * value.components().len(),
            _ => 2 + self.operands().into_iter().map(Expr::size).sum::<usize>(),
        }
    }

    /// The expression in prefix order, as a body has it.
    pub fn write(&self, body: &mut Vec<u8>) {
        match self {
            Expr::Literal(value) => {
                body.push(1);
                body.extend(value.bytes().as_slice());
            }
            Expr::Entry(number) => body.extend([2, *number]),
            Expr::Unary(op, _) => body.extend([3, *op as u8]),
            Expr::Binary(op, ..) => body.extend([4, *op as u8]),
        }
        self.operands().into_iter().for_each(|operand| operand.write(body));
    }

    /// The expression at the head of these bytes, and the bytes after it.
    pub(crate) fn read(bytes: &[u8], depth: usize) -> Option<(Expr, &[u8])> {
        let below = depth.checked_sub(1)?;
        let (head, rest) = (bytes.get(..2)?, bytes.get(2..)?);
        match head[0] {
            1 => {
                let (columns, rows) = (*rest.first()?, *rest.get(1)?);
                let length = 8 * usize::from(columns) * usize::from(rows);
                let components: Vec<u64> = rest.get(2..2 + length)?.chunks_exact(8).map(low_first).collect();
                let value = Value::new(Type::of(head[1])?, columns, rows, &components).ok()?;
                Some((Expr::Literal(value), &rest[2 + length..]))
            }
            2 => Some((Expr::Entry(head[1]), rest)),
            3 => {
                let (operand, rest) = Expr::read(rest, below)?;
                Some((Expr::unary(Unary::of(head[1])?, operand), rest))
            }
            4 => {
                let (left, rest) = Expr::read(rest, below)?;
                let (right, rest) = Expr::read(rest, below)?;
                Some((Expr::binary(Binary::of(head[1])?, left, right), rest))
            }
            _ => None,
        }
    }

    /// The text, with the entries called as `names` has them.
    pub fn with_names<'a, F: Fn(u8) -> String>(&'a self, names: &'a F) -> Written<'a, F> {
        Written { expr: self, names }
    }

    /// How tightly its text holds together.
    fn bond(&self) -> Bond {
        match self {
            Expr::Literal(_) | Expr::Entry(_) | Expr::Unary(..) => Bond::Unary,
            Expr::Binary(op, ..) => Bond::of(*op),
        }
    }
}

fn low_first(bytes: &[u8]) -> u64 {
    bytes.iter().rev().fold(0, |n, b| n << 8 | u64::from(*b))
}

/// The levels of WGSL's grammar. A shift takes unary expressions, a comparison shifts or sums, `&&` and `||` comparisons and chains of
/// themselves, `|`, `&` and `^` unary expressions and chains of themselves; all else stands in parentheses.
#[derive(Clone, Copy, Debug, PartialEq, Eq)]
pub enum Bond {
    Unary,
    Product,
    Sum,
    Shift,
    Comparison,
    /// A chain of `&&`, `||`, `|`, `&` or `^`.
    Chain(Binary),
}

impl Bond {
    pub fn of(op: Binary) -> Bond {
        match op {
            Binary::Mul | Binary::Div | Binary::Rem => Bond::Product,
            Binary::Add | Binary::Sub => Bond::Sum,
            Binary::Shl | Binary::Shr => Bond::Shift,
            Binary::Eq | Binary::Ne | Binary::Lt | Binary::Le | Binary::Gt | Binary::Ge => Bond::Comparison,
            Binary::Or | Binary::And | Binary::BitOr | Binary::BitAnd | Binary::BitXor => Bond::Chain(op),
        }
    }

    /// Whether an operator takes a left, or a right, operand of this level without parentheses.
    pub fn stands_in(self, op: Binary, left: bool) -> bool {
        let here = Bond::of(op);
        if left && self == here && !matches!(here, Bond::Shift | Bond::Comparison) {
            return true;
        }
        match here {
            Bond::Unary => false,
            Bond::Product | Bond::Shift => self == Bond::Unary,
            Bond::Sum => matches!(self, Bond::Unary | Bond::Product),
            Bond::Comparison => matches!(self, Bond::Unary | Bond::Product | Bond::Sum | Bond::Shift),
            Bond::Chain(Binary::Or | Binary::And) => !matches!(self, Bond::Chain(_)),
            Bond::Chain(_) => self == Bond::Unary,
        }
    }
}

/// An expression with its entries' names, to be printed.
pub struct Written<'a, F> {
    expr: &'a Expr,
    names: &'a F,
}

impl<F: Fn(u8) -> String> Written<'_, F> {
    fn part(&self, f: &mut fmt::Formatter, expr: &Expr, bare: bool) -> fmt::Result {
        let written = Written { expr, names: self.names };
        if bare {
            write!(f, "{written}")
        } else {
            write!(f, "({written})")
        }
    }
}

impl<F: Fn(u8) -> String> fmt::Display for Written<'_, F> {
    fn fmt(&self, f: &mut fmt::Formatter) -> fmt::Result {
        match self.expr {
            Expr::Literal(value) => write!(f, "{value}"),
            Expr::Entry(number) => f.write_str(&(self.names)(*number)),
            Expr::Unary(op, operand) => {
                // Behind `-`, a number would be read as its negative and another `-` as `--`.
                let taken = match **operand {
                    Expr::Literal(value) if value.is_scalar() => *op != Unary::Neg,
                    Expr::Unary(Unary::Neg, _) => *op != Unary::Neg,
                    _ => operand.bond() == Bond::Unary,
                };
                write!(f, "{op}")?;
                self.part(f, operand, taken)
            }
            Expr::Binary(op, left, right) => {
                self.part(f, left, left.bond().stands_in(*op, true))?;
                write!(f, " {op} ")?;
                self.part(f, right, right.bond().stands_in(*op, false))
            }
        }
    }
}

/// As WGSL writes it, with `#0` for entry 0.
impl fmt::Display for Expr {
    fn fmt(&self, f: &mut fmt::Formatter) -> fmt::Result {
        write!(f, "{}", self.with_names(&|number| format!("#{number}")))
    }
}

impl<T: Into<Value>> From<T> for Expr {
    fn from(value: T) -> Expr {
        Expr::Literal(value.into())
    }
}

macro_rules! operator {
    ($($name:ident $method:ident)*) => {
        $(impl ops::$name for Expr {
            type Output = Expr;
            fn $method(self, right: Expr) -> Expr {
                Expr::binary(Binary::$name, self, right)
            }
        })*
    };
}

operator!(Add add Sub sub Mul mul Div div Rem rem BitOr bitor BitAnd bitand BitXor bitxor Shl shl Shr shr);

impl ops::Neg for Expr {
    type Output = Expr;
    fn neg(self) -> Expr {
        Expr::unary(Unary::Neg, self)
    }
}

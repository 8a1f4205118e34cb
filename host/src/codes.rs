//! Types, stages and operators, with the numbers that sheets, slots and calls use, and how WGSL writes them.
use std::fmt;

/// The types.
#[derive(Clone, Copy, Debug, PartialEq, Eq, Hash)]
#[repr(u8)]
pub enum Type {
    Bool = 0,
    /// A whole number of 64 bits that has no WGSL type yet: `5`.
    AbstractInt = 1,
    /// A float of 64 bits that has no WGSL type yet: `5.0`.
    AbstractFloat = 2,
    I32 = 3,
    U32 = 4,
    F32 = 5,
    F16 = 6,
}

impl Type {
    /// All types, in the order of their numbers.
    pub const ALL: [Type; 7] =
        [Type::Bool, Type::AbstractInt, Type::AbstractFloat, Type::I32, Type::U32, Type::F32, Type::F16];

    /// The type of a number.
    pub fn of(number: u8) -> Option<Type> {
        Type::ALL.get(usize::from(number)).copied()
    }

    /// The type's name in WGSL, and the paper's own for the two abstract ones.
    pub fn name(self) -> &'static str {
        match self {
            Type::Bool => "bool",
            Type::AbstractInt => "AbstractInt",
            Type::AbstractFloat => "AbstractFloat",
            Type::I32 => "i32",
            Type::U32 => "u32",
            Type::F32 => "f32",
            Type::F16 => "f16",
        }
    }

    /// What WGSL puts behind a number of this type.
    pub fn suffix(self) -> &'static str {
        match self {
            Type::Bool | Type::AbstractInt | Type::AbstractFloat => "",
            Type::I32 => "i",
            Type::U32 => "u",
            Type::F32 => "f",
            Type::F16 => "h",
        }
    }

    pub fn is_integer(self) -> bool {
        matches!(self, Type::AbstractInt | Type::I32 | Type::U32)
    }

    pub fn is_float(self) -> bool {
        matches!(self, Type::AbstractFloat | Type::F32 | Type::F16)
    }

    /// An abstract type stands in expressions only: no setting has it, and WGSL gives it no name.
    pub fn is_abstract(self) -> bool {
        matches!(self, Type::AbstractInt | Type::AbstractFloat)
    }

    /// Whether a component's 8 bytes are a pattern of this type.
    pub(crate) fn takes(self, bits: u64) -> bool {
        match self {
            Type::Bool => bits < 2,
            Type::AbstractInt | Type::AbstractFloat => true,
            Type::I32 | Type::U32 | Type::F32 => bits >> 32 == 0,
            Type::F16 => bits >> 16 == 0,
        }
    }

    /// The pattern as a slot keeps it: of all NaNs of a type there is one.
    pub(crate) fn kept(self, bits: u64) -> u64 {
        let (sign, infinity, nan) = match self {
            Type::AbstractFloat => (1 << 63, 0x7ff0_0000_0000_0000, 0x7ff8_0000_0000_0000),
            Type::F32 => (1 << 31, 0x7f80_0000, 0x7fc0_0000),
            Type::F16 => (1 << 15, 0x7c00, 0x7e00),
            _ => return bits,
        };
        // Without its sign, a NaN lies above the infinity.
        match bits & !sign > infinity {
            true => nan,
            false => bits,
        }
    }
}

/// When an expression is worked out.
#[derive(Clone, Copy, Debug, PartialEq, Eq, PartialOrd, Ord, Hash)]
#[repr(u8)]
pub enum Stage {
    Const = 0,
    Override = 1,
    Exec = 2,
}

impl Stage {
    pub const ALL: [Stage; 3] = [Stage::Const, Stage::Override, Stage::Exec];

    pub fn of(number: u8) -> Option<Stage> {
        Stage::ALL.get(usize::from(number)).copied()
    }

    pub fn name(self) -> &'static str {
        match self {
            Stage::Const => "const",
            Stage::Override => "override",
            Stage::Exec => "exec",
        }
    }
}

/// The operators on one value.
#[derive(Clone, Copy, Debug, PartialEq, Eq, Hash)]
#[repr(u8)]
pub enum Unary {
    /// `!`
    Not = 1,
    /// `-`
    Neg = 2,
    /// `~`
    BitNot = 3,
}

impl Unary {
    pub const ALL: [Unary; 3] = [Unary::Not, Unary::Neg, Unary::BitNot];

    pub fn of(number: u8) -> Option<Unary> {
        Unary::ALL.get(usize::from(number).checked_sub(1)?).copied()
    }

    pub fn symbol(self) -> &'static str {
        match self {
            Unary::Not => "!",
            Unary::Neg => "-",
            Unary::BitNot => "~",
        }
    }
}

/// The operators on two values.
#[derive(Clone, Copy, Debug, PartialEq, Eq, Hash)]
#[repr(u8)]
pub enum Binary {
    /// `||`
    Or = 1,
    /// `&&`
    And = 2,
    /// `+`
    Add = 3,
    /// `-`
    Sub = 4,
    /// `*`
    Mul = 5,
    /// `/`
    Div = 6,
    /// `%`
    Rem = 7,
    /// `==`
    Eq = 8,
    /// `!=`
    Ne = 9,
    /// `<`
    Lt = 10,
    /// `<=`
    Le = 11,
    /// `>`
    Gt = 12,
    /// `>=`
    Ge = 13,
    /// `|`
    BitOr = 14,
    /// `&`
    BitAnd = 15,
    /// `^`
    BitXor = 16,
    /// `<<`
    Shl = 17,
    /// `>>`
    Shr = 18,
}

impl Binary {
    pub const ALL: [Binary; 18] = [
        Binary::Or,
        Binary::And,
        Binary::Add,
        Binary::Sub,
        Binary::Mul,
        Binary::Div,
        Binary::Rem,
        Binary::Eq,
        Binary::Ne,
        Binary::Lt,
        Binary::Le,
        Binary::Gt,
        Binary::Ge,
        Binary::BitOr,
        Binary::BitAnd,
        Binary::BitXor,
        Binary::Shl,
        Binary::Shr,
    ];

    pub fn of(number: u8) -> Option<Binary> {
        Binary::ALL.get(usize::from(number).checked_sub(1)?).copied()
    }

    pub fn symbol(self) -> &'static str {
        const SYMBOLS: [&str; 18] =
            ["||", "&&", "+", "-", "*", "/", "%", "==", "!=", "<", "<=", ">", ">=", "|", "&", "^", "<<", ">>"];
        SYMBOLS[self as usize - 1]
    }

    /// The operator that is written so.
    pub fn of_symbol(symbol: &str) -> Option<Binary> {
        Binary::ALL.into_iter().find(|op| op.symbol() == symbol)
    }
}

macro_rules! printed {
    ($($what:ident by $word:ident)*) => {
        $(impl fmt::Display for $what {
            fn fmt(&self, f: &mut fmt::Formatter) -> fmt::Result {
                f.write_str(self.$word())
            }
        })*
    };
}

printed!(Type by name Stage by name Unary by symbol Binary by symbol);

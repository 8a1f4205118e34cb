//! Scalars from text: WGSL's literals, each rounded once to its type.
use std::{error::Error, fmt};

use crate::{
    decimal::{hexadecimal, is_decimal, odd},
    literal::widened,
    Type, Value,
};

/// Why a word is no literal, in a sentence.
#[derive(Clone, Debug, PartialEq, Eq)]
pub struct BadLiteral(pub String);

impl fmt::Display for BadLiteral {
    fn fmt(&self, f: &mut fmt::Formatter) -> fmt::Result {
        f.write_str(&self.0)
    }
}

impl Error for BadLiteral {}

fn bad<T>(words: String) -> Result<T, BadLiteral> {
    Err(BadLiteral(words))
}

/// A word as a sentence quotes it: at most so many characters of it.
fn cut(word: &str) -> String {
    const MOST: usize = 40;
    match word.char_indices().nth(MOST) {
        Some((place, _)) => word[..place].to_owned() + "…",
        None => word.to_owned(),
    }
}

impl Value {
    /// The scalar that a WGSL literal is, negative ones with their sign: `5u`, `-5i`, `1.5f`, `0.1h`, `0x20`, `1e3`, `true`; and `inf`,
    /// `-inf_f`, `nan_h`. Its type is told by its suffix, and without one by whether it is a float.
    ///
    /// ```
    /// # use booth::{Type, Value};
    /// assert_eq!(Value::read("-5i"), Ok(Value::from(-5i32)));
    /// assert_eq!(Value::read("0.5"), Ok(Value::from(0.5f64)));
    /// assert_eq!(Value::read("-1u").unwrap_err().to_string(), "-1 is not in u32, which goes from 0 to 4294967295");
    /// ```
    pub fn read(word: &str) -> Result<Value, BadLiteral> {
        let (number, suffix) = parted(word);
        let ty = match suffix {
            Some(ty) => ty,
            None if matches!(number, "true" | "false") => Type::Bool,
            None if is_float(number) => Type::AbstractFloat,
            None => Type::AbstractInt,
        };
        scalar_of(ty, number)
    }

    /// The scalar of a type that a literal is; its suffix may be left out.
    ///
    /// ```
    /// # use booth::{Type, Value};
    /// assert_eq!(Value::read_as(Type::U32, "0x20"), Ok(Value::from(32u32)));
    /// assert_eq!(Value::read_as(Type::U32, "32i").unwrap_err().to_string(), "32i is an i32, and a u32 is asked for");
    /// ```
    pub fn read_as(ty: Type, word: &str) -> Result<Value, BadLiteral> {
        match parted(word) {
            (number, None) => scalar_of(ty, number),
            (number, Some(found)) if found == ty => scalar_of(ty, number),
            (_, Some(found)) => {
                bad(format!("{} is {}, and {} is asked for", cut(word), with_article(found), with_article(ty)))
            }
        }
    }
}

fn with_article(ty: Type) -> String {
    match ty {
        Type::AbstractInt | Type::AbstractFloat | Type::I32 | Type::F32 | Type::F16 => format!("an {ty}"),
        Type::Bool | Type::U32 => format!("a {ty}"),
    }
}

/// A literal's number and the type that its suffix tells.
fn parted(word: &str) -> (&str, Option<Type>) {
    let size = word.strip_prefix('-').unwrap_or(word);
    let figures = size.starts_with(|c: char| c.is_ascii_digit() || c == '.');
    let hex = size.starts_with("0x") || size.starts_with("0X");
    for ty in [Type::I32, Type::U32, Type::F32, Type::F16] {
        let number = match word.strip_suffix(ty.suffix()) {
            Some(number) => number,
            None => continue,
        };
        // In a hexadecimal whole number `f` is a digit.
        let digit = ty == Type::F32 && hex && !number.contains(['p', 'P']);
        match number.strip_suffix('_') {
            Some(number) if is_word(number) => return (number, Some(ty)),
            _ if figures && !digit => return (number, Some(ty)),
            _ => {}
        }
    }
    (word, None)
}

/// Whether it is one of the words for what has no digits.
fn is_word(word: &str) -> bool {
    matches!(word, "inf" | "-inf" | "nan")
}

fn is_float(number: &str) -> bool {
    let hex = number.contains(['x', 'X']);
    is_word(number) || number.contains(['.', 'p', 'P']) || !hex && number.contains(['e', 'E'])
}

fn scalar_of(ty: Type, number: &str) -> Result<Value, BadLiteral> {
    match ty {
        Type::Bool => match number {
            "true" => Ok(true.into()),
            "false" => Ok(false.into()),
            _ => bad(format!("{} is no bool: write true or false", cut(number))),
        },
        Type::AbstractInt | Type::I32 | Type::U32 => whole(ty, number),
        Type::AbstractFloat | Type::F32 | Type::F16 => fraction(ty, number),
    }
}

/// The digits of a literal, its sign taken off: whether there was one, and the digits.
fn signed(number: &str) -> (bool, &str) {
    match number.strip_prefix('-') {
        Some(size) => (true, size),
        None => (false, number),
    }
}

/// A whole number in decimal or after `0x`, without its sign.
fn digits(size: &str) -> Option<u128> {
    let (digits, radix) = match size.strip_prefix("0x").or_else(|| size.strip_prefix("0X")) {
        Some(digits) => (digits, 16),
        None => (size, 10),
    };
    let all = !digits.is_empty() && digits.chars().all(|c| c.is_digit(radix));
    match u128::from_str_radix(digits, radix) {
        Ok(n) if all => Some(n),
        // Too many digits: beyond every type.
        Err(_) if all => Some(u128::MAX),
        _ => None,
    }
}

fn whole(ty: Type, number: &str) -> Result<Value, BadLiteral> {
    let (negative, size) = signed(number);
    let size = match digits(size) {
        Some(size) => i128::try_from(size).unwrap_or(i128::MAX),
        None => return bad(format!("{} is no whole number, and {} is asked for", cut(number), with_article(ty))),
    };
    let n = if negative { -size } else { size };
    let (least, most) = match ty {
        Type::U32 => (0, u32::MAX.into()),
        Type::I32 => (i32::MIN.into(), i32::MAX.into()),
        _ => (i64::MIN.into(), i128::from(i64::MAX)),
    };
    if n < least || n > most {
        return bad(format!("{} is not in {ty}, which goes from {least} to {most}", cut(number)));
    }
    Ok(match ty {
        Type::U32 => (n as u32).into(),
        Type::I32 => (n as i32).into(),
        _ => (n as i64).into(),
    })
}

fn fraction(ty: Type, number: &str) -> Result<Value, BadLiteral> {
    let (negative, size) = signed(number);
    let value = match size {
        "inf" => Some(f64::INFINITY),
        "nan" if !negative => Some(f64::NAN),
        _ => None,
    };
    if let Some(x) = value {
        return Ok(endless(ty, if negative { -x } else { x }));
    }
    let beyond = || BadLiteral(format!("{} is beyond the finite range of {ty}", cut(number)));
    if size.starts_with("0x") || size.starts_with("0X") {
        let x = hexadecimal(&size[2..]).and_then(|x| exact(ty, if negative { -x } else { x }));
        return x.ok_or_else(|| BadLiteral(format!("{} is no number that {ty} holds exactly", cut(number))));
    }
    if !is_decimal(size) {
        return bad(format!("{} is no number, and {} is asked for", cut(number), with_article(ty)));
    }
    let read = match ty {
        Type::F32 => number.parse().ok().filter(|x: &f32| x.is_finite()).map(Value::from),
        Type::F16 => Value::f16_near(odd(number)).ok(),
        _ => number.parse().ok().filter(|x: &f64| x.is_finite()).map(Value::from),
    };
    read.ok_or_else(beyond)
}

/// An infinity or the NaN of a float type.
fn endless(ty: Type, x: f64) -> Value {
    match ty {
        Type::F32 => Value::from(x as f32).kept(),
        Type::F16 if x.is_nan() => Value::f16(0x7e00),
        Type::F16 => Value::f16(if x > 0.0 { 0x7c00 } else { 0xfc00 }),
        _ => Value::from(x).kept(),
    }
}

/// A float of 64 bits in another float type, where that holds it.
fn exact(ty: Type, x: f64) -> Option<Value> {
    match ty {
        Type::F32 => Some(x as f32).filter(|near| f64::from(*near) == x).map(Value::from),
        Type::F16 => Value::f16_near(x).ok().filter(|near| widened(near.components()[0] as u16) == x),
        _ => Some(Value::from(x)),
    }
}

//! The words of one line of text.
use std::ops::Range;

use booth::{Type, Value};

/// What a word is.
#[derive(Clone, Debug, PartialEq, Eq)]
pub enum Token {
    /// A number with its suffix, without a sign.
    Number(String),
    /// A word of the language, or a name.
    Word(String),
    /// A name in quotes, without them.
    Quoted(String),
    /// `#0`: an entry by its number.
    Entry(u64),
    Symbol(&'static str),
    End,
}

/// A word and the characters of the line that it takes, counted from 0.
#[derive(Clone, Debug, PartialEq, Eq)]
pub struct Lexeme {
    pub token: Token,
    pub at: Range<usize>,
}

/// A fault of a line: where, and what is wrong there.
#[derive(Clone, Debug, PartialEq, Eq)]
pub struct Fault {
    pub at: Range<usize>,
    pub words: String,
}

/// A fault, as a result.
pub fn fault<T>(at: Range<usize>, words: impl Into<String>) -> Result<T, Fault> {
    Err(Fault { at, words: words.into() })
}

/// The longer ones first, so that `<<` is not read as two.
const SYMBOLS: [&str; 25] = [
    "||", "&&", "==", "!=", "<=", ">=", "<<", ">>", "+", "-", "*", "/", "%", "<", ">", "|", "&", "^", "!", "~", "(",
    ")", ",", ":", "=",
];

/// The words of a line, up to a comment after `//`, with an end behind the last.
pub fn lexemes(line: &str) -> Result<Vec<Lexeme>, Fault> {
    let chars: Vec<char> = line.chars().collect();
    let mut found = Vec::new();
    let mut at = 0;
    while at < chars.len() {
        let start = at;
        let rest = &chars[at..];
        let token = match rest[0] {
            c if c.is_whitespace() => {
                at += 1;
                continue;
            }
            '/' if rest.get(1) == Some(&'/') => break,
            '/' if rest.get(1) == Some(&'*') => {
                return fault(at..at + 2, "a comment begins with // and ends with its line");
            }
            ';' => return fault(at..at + 1, "an entry ends with its line, without ;"),
            '-' if rest.get(1) == Some(&'-') => {
                return fault(at..at + 2, "-- is no operator of WGSL: put the second - in parentheses");
            }
            '"' => quoted(rest, &mut at)?,
            '#' => entry(rest, &mut at)?,
            c if c.is_ascii_digit() || c == '.' => Token::Number(taken(rest, number(rest), &mut at)),
            c if begins_name(c) => Token::Word(taken(rest, run(rest, continues_name), &mut at)),
            c => match SYMBOLS.into_iter().find(|symbol| starts(rest, symbol)) {
                Some(symbol) => {
                    at += symbol.len();
                    Token::Symbol(symbol)
                }
                None => return fault(at..at + 1, format!("{c:?} has no meaning here")),
            },
        };
        found.push(Lexeme { token, at: start..at });
    }
    found.push(Lexeme { token: Token::End, at: at..at + 1 });
    Ok(found)
}

fn starts(rest: &[char], symbol: &str) -> bool {
    rest.len() >= symbol.len() && symbol.chars().zip(rest).all(|(a, b)| a == *b)
}

fn taken(rest: &[char], length: usize, at: &mut usize) -> String {
    *at += length;
    rest[..length].iter().collect()
}

fn run(rest: &[char], goes_on: fn(char) -> bool) -> usize {
    rest.iter().take_while(|c| goes_on(**c)).count()
}

/// How many characters a number takes: letters, digits and points, and a sign behind its exponent's letter.
fn number(rest: &[char]) -> usize {
    let hex = starts(rest, "0x") || starts(rest, "0X");
    let mut length = 0;
    while let Some(c) = rest.get(length) {
        let behind = length.checked_sub(1).map(|last| rest[last]);
        let exponent = if hex { matches!(behind, Some('p' | 'P')) } else { matches!(behind, Some('e' | 'E')) };
        let sign = exponent && matches!(c, '+' | '-') && rest.get(length + 1).map_or(false, char::is_ascii_digit);
        if !(c.is_ascii_alphanumeric() || matches!(c, '.' | '_') || sign) {
            break;
        }
        length += 1;
    }
    length
}

fn quoted(rest: &[char], at: &mut usize) -> Result<Token, Fault> {
    let mut name = String::new();
    let mut chars = rest.iter().enumerate().skip(1);
    while let Some((place, c)) = chars.next() {
        match c {
            '"' => {
                *at += place + 1;
                return Ok(Token::Quoted(name));
            }
            '\\' => match chars.next() {
                Some((_, c @ ('"' | '\\'))) => name.push(*c),
                _ => return fault(*at + place..*at + place + 1, "a \\ stands before a quote or another \\ only"),
            },
            c => name.push(*c),
        }
    }
    fault(*at..*at + rest.len(), "the quote does not end on this line")
}

fn entry(rest: &[char], at: &mut usize) -> Result<Token, Fault> {
    let start = *at;
    let length = run(&rest[1..], |c| c.is_ascii_digit());
    match taken(rest, 1 + length, at)[1..].parse() {
        Ok(number) => Ok(Token::Entry(number)),
        Err(_) => fault(start..start + 1 + length, "behind # stands the number of an entry"),
    }
}

fn begins_name(c: char) -> bool {
    c.is_alphabetic() || c == '_'
}

fn continues_name(c: char) -> bool {
    c.is_alphanumeric() || c == '_'
}

/// The shape and type that a word such as `vec3`, `mat2x3` or `vec3f` stands for.
pub fn shape(word: &str) -> Option<(u8, u8, Option<Type>)> {
    let side = |c: Option<&u8>| c.map(|c| c.wrapping_sub(b'0')).filter(|n| (2..=4).contains(n));
    let (columns, rows, rest) = if let Some(rest) = word.strip_prefix("vec") {
        (1, side(rest.as_bytes().first())?, &rest.as_bytes()[1..])
    } else {
        let rest = word.strip_prefix("mat")?.as_bytes();
        if rest.get(1) != Some(&b'x') {
            return None;
        }
        (side(rest.first())?, side(rest.get(2))?, &rest[3..])
    };
    let ty = match rest {
        b"" => None,
        b"i" if columns == 1 => Some(Type::I32),
        b"u" if columns == 1 => Some(Type::U32),
        b"f" => Some(Type::F32),
        b"h" => Some(Type::F16),
        _ => return None,
    };
    Some((columns, rows, ty))
}

/// The type that a word names.
pub fn type_named(word: &str) -> Option<Type> {
    Type::ALL.into_iter().find(|ty| ty.name() == word)
}

/// Whether a word has a meaning of its own, so that it can be a name only in quotes: in text, or where a list has nothing to say.
pub fn is_reserved(word: &str) -> bool {
    matches!(word, "setting" | "const" | "override" | "exec" | "none")
        || type_named(word).is_some()
        || shape(word).is_some()
        || Value::read(word).is_ok()
}

/// Whether some text can stand as a name without quotes.
pub fn is_name(text: &str) -> bool {
    text.starts_with(begins_name) && text.chars().all(continues_name) && !is_reserved(text)
}

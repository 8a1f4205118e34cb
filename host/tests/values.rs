//! Values as text, both ways, and Rust's own numbers as values, both ways.
#[path = "common/dice.rs"]
mod dice;

use std::convert::TryFrom;

use booth::{Type, Value, WrongType};
use dice::Dice;

/// Every type at its edges, with the text that WGSL has for it; an infinity and a NaN have the crate's own words.
fn scalars() -> Vec<(Value, &'static str)> {
    vec![
        (true.into(), "true"),
        (false.into(), "false"),
        (5u32.into(), "5u"),
        (0u32.into(), "0u"),
        (u32::MAX.into(), "4294967295u"),
        ((-5i32).into(), "-5i"),
        (i32::MAX.into(), "2147483647i"),
        (i32::MIN.into(), "-2147483648i"),
        (0i64.into(), "0"),
        (i64::MAX.into(), "9223372036854775807"),
        (i64::MIN.into(), "-9223372036854775808"),
        (1.5f32.into(), "1.5f"),
        (0.1f32.into(), "0.1f"),
        (1e30f32.into(), "1e30f"),
        (0.0f32.into(), "0.0f"),
        ((-0.0f32).into(), "-0.0f"),
        (f32::MAX.into(), "3.4028235e38f"),
        (f32::from_bits(1).into(), "1e-45f"),
        (f32::INFINITY.into(), "inf_f"),
        (f32::NEG_INFINITY.into(), "-inf_f"),
        (f32::from_bits(0x7fc0_0000).into(), "nan_f"),
        (Value::f16(0x2e66), "0.1h"),
        (Value::f16(0x3555), "0.3333h"),
        (Value::f16(0x7bff), "65504.0h"),
        (Value::f16(0x0400), "6.104e-5h"),
        (Value::f16(0x0001), "6e-8h"),
        (Value::f16(0x8001), "-6e-8h"),
        (Value::f16(0x8000), "-0.0h"),
        (Value::f16(0x7c00), "inf_h"),
        (Value::f16(0xfc00), "-inf_h"),
        (Value::f16(0x7e00), "nan_h"),
        (0.1f64.into(), "0.1"),
        (5.0f64.into(), "5.0"),
        ((-0.0f64).into(), "-0.0"),
        (1e16f64.into(), "1e16"),
        (f64::MAX.into(), "1.7976931348623157e308"),
        (f64::from_bits(1).into(), "5e-324"),
        (f64::INFINITY.into(), "inf"),
        (f64::NEG_INFINITY.into(), "-inf"),
        (f64::from_bits(0x7ff8_0000_0000_0000).into(), "nan"),
    ]
}

/// A scalar prints as WGSL writes it, and its text reads to the same value, also where the type is given.
#[test]
fn scalars_as_text() {
    for (value, text) in scalars() {
        assert_eq!(value.to_string(), text);
        assert_eq!(Value::read(text), Ok(value), "{text}");
        assert_eq!(Value::read_as(value.ty(), text), Ok(value), "{text}");
    }
}

/// Where the type stands elsewhere, the text without a suffix is enough.
#[test]
fn bare_text() {
    for (value, text) in scalars() {
        let bare = text.strip_suffix(value.ty().suffix()).unwrap().trim_end_matches('_');
        assert_eq!(value.bare(), bare);
        assert_eq!(Value::read_as(value.ty(), bare), Ok(value), "{text}");
    }
    assert_eq!(Value::from([1.0f32, -2.5]).bare(), "1.0, -2.5");
}

/// Vectors and matrices name their shape, and their type where it is not an abstract one.
#[test]
fn vectors_and_matrices_as_text() {
    let ones =
        |ty, columns, rows, one: u64| Value::new(ty, columns, rows, &[one; 16][..usize::from(columns * rows)]).unwrap();
    let cases: [(Value, &str, &str); 11] = [
        ([1.0f32, 2.5].into(), "vec2<f32>(1.0, 2.5)", "vec2<f32>"),
        ([1u32, 2, 3].into(), "vec3<u32>(1, 2, 3)", "vec3<u32>"),
        ([i32::MIN, -1, 0, 1].into(), "vec4<i32>(-2147483648, -1, 0, 1)", "vec4<i32>"),
        ([true, false].into(), "vec2<bool>(true, false)", "vec2<bool>"),
        ([1i64, 2].into(), "vec2(1, 2)", "vec2<AbstractInt>"),
        ([1.0f64, f64::INFINITY].into(), "vec2(1.0, inf)", "vec2<AbstractFloat>"),
        (Value::vector(Type::F16, &[0x2e66, 0xfc00, 0x7e00]).unwrap(), "vec3<f16>(0.1, -inf, nan)", "vec3<f16>"),
        (ones(Type::F16, 2, 2, 0x3c00), "mat2x2<f16>(1.0, 1.0, 1.0, 1.0)", "mat2x2<f16>"),
        (ones(Type::F32, 2, 3, 0x3f80_0000), "mat2x3<f32>(1.0, 1.0, 1.0, 1.0, 1.0, 1.0)", "mat2x3<f32>"),
        (ones(Type::AbstractFloat, 2, 2, 0), "mat2x2(0.0, 0.0, 0.0, 0.0)", "mat2x2<AbstractFloat>"),
        (5u32.into(), "5u", "u32"),
    ];
    for (value, text, type_name) in cases {
        assert_eq!((value.to_string().as_str(), value.type_name().as_str()), (text, type_name));
    }
}

/// The pattern that is kept of a float's: its own, or of all NaNs the one that document 01 names.
fn kept(ty: Type, bits: u64) -> u64 {
    match ty {
        Type::F16 if bits & 0x7fff > 0x7c00 => 0x7e00,
        Type::F32 if f32::from_bits(bits as u32).is_nan() => 0x7fc0_0000,
        Type::AbstractFloat if f64::from_bits(bits).is_nan() => 0x7ff8_0000_0000_0000,
        _ => bits,
    }
}

fn there_and_back(ty: Type, bits: u64) {
    let value = Value::scalar(ty, bits).unwrap();
    let text = value.to_string();
    assert_eq!(Value::read(&text).ok(), Value::scalar(ty, kept(ty, bits)).ok(), "{bits:x}: {text}");
}

/// Every pattern of F16 prints and reads to itself, a NaN to the kept one.
#[test]
fn every_f16() {
    (0..=u16::MAX).for_each(|bits| there_and_back(Type::F16, bits.into()));
}

/// So do a hundred thousand patterns each of F32 and AbstractFloat, and those around the edges of every exponent.
#[test]
fn many_f32_and_f64() {
    let mut dice = Dice(0x9e37_79b9_7f4a_7c15);
    for _ in 0..100_000 {
        there_and_back(Type::F32, dice.roll() >> 32);
        there_and_back(Type::AbstractFloat, dice.roll());
    }
    for (ty, width, fraction) in [(Type::F32, 32, 23), (Type::AbstractFloat, 64, 52)] {
        for edge in 0..1 << (width - fraction) {
            let edge: u64 = edge << fraction;
            for bits in [edge, edge | 1, edge | ((1 << fraction) - 1)] {
                there_and_back(ty, bits);
            }
        }
    }
}

/// The number that a finite pattern of F16 is.
fn number(bits: u16) -> f64 {
    let (exponent, fraction) = (i32::from(bits >> 10 & 31), f64::from(bits & 1023));
    match exponent {
        0 => fraction / 16_777_216.0,
        _ => (1024.0 + fraction) * 2f64.powi(exponent - 25),
    }
}

/// A decimal one less in its last place.
fn one_less(decimal: &str) -> String {
    let (mut all, mut borrow) = (decimal.as_bytes().to_vec(), true);
    for digit in all.iter_mut().rev().filter(|c| **c != b'.') {
        match (borrow, *digit) {
            (false, _) => break,
            (true, b'0') => *digit = b'9',
            (true, _) => {
                *digit -= 1;
                borrow = false;
            }
        }
    }
    String::from_utf8(all).unwrap()
}

/// A decimal between two neighbours in F16 is rounded once: the middle to the even one, and the smallest step off it, far below what 64
/// bits tell apart, to the nearer one.
#[test]
fn decimals_round_once() {
    let sides = |text: &str, bits: u16| {
        assert_eq!(Value::read(&format!("{text}h")), Ok(Value::f16(bits)), "{text}");
        assert_eq!(Value::read_as(Type::F16, &format!("-{text}")), Ok(Value::f16(bits | 0x8000)), "-{text}");
    };
    for low in 0..0x7bff {
        let middle = format!("{:.40}", (number(low) + number(low + 1)) / 2.0);
        assert!(middle.ends_with('0'), "{middle} is exact");
        sides(&middle, low + low % 2);
        sides(&one_less(&middle), low);
        sides(&format!("{middle}1"), low + 1);
    }
}

/// The same by hand, and what lies beyond F16 at both ends.
#[test]
fn decimals_by_hand() {
    let cases = [
        ("1.00048828125h", 0x3c00),
        ("1.000488281250000000000000000001h", 0x3c01),
        ("1.00146484375h", 0x3c02),
        ("1.001464843749999999999999999999h", 0x3c01),
        ("100048828125e-11h", 0x3c00),
        ("0.000100048828125000000000000000000001e4h", 0x3c01),
        ("65504h", 0x7bff),
        ("65519.99999999999999999999h", 0x7bff),
        ("-65519.99999999999999999999h", 0xfbff),
        ("0.0000000298023223876953125h", 0x0000),
        ("0.00000002980232238769531250000000000001h", 0x0001),
        ("1e-9999h", 0x0000),
        ("-1e-9999h", 0x8000),
        ("1e-99999999999999999999999h", 0x0000),
        ("0e99999999999999999999999h", 0x0000),
    ];
    for (word, bits) in cases {
        assert_eq!(Value::read(word), Ok(Value::f16(bits)), "{word}");
    }
    for word in ["65520h", "-65520h", "65520.00000000000000000001h", "1e5h", "1e9999h", "1e99999999999999999999999h"] {
        let said = Value::read(word).unwrap_err().to_string();
        assert_eq!(said, format!("{} is beyond the finite range of f16", &word[..word.len() - 1]));
    }
}

/// Ten thousand figures are read as any others.
#[test]
fn very_long_decimals() {
    let zeros = "0".repeat(10_000);
    let nines = "9".repeat(10_000);
    assert_eq!(Value::read(&format!("1.00048828125{zeros}h")), Ok(Value::f16(0x3c00)));
    assert_eq!(Value::read(&format!("1.00048828125{zeros}1h")), Ok(Value::f16(0x3c01)));
    assert_eq!(Value::read(&format!("1.00048828124{nines}h")), Ok(Value::f16(0x3c00)));
    assert_eq!(Value::read(&format!("0.{zeros}1h")), Ok(Value::f16(0)));
    assert_eq!(Value::read(&format!("{zeros}65519.{nines}h")), Ok(Value::f16(0x7bff)));
    assert_eq!(Value::read(&format!("1{zeros}e-10000h")), Ok(Value::f16(0x3c00)));
    assert_eq!(Value::read(&format!("1{zeros}e-10000f")), Ok(1.0f32.into()));
    assert_eq!(Value::read(&format!("{zeros}7u")), Ok(7u32.into()));
    for suffix in ["", "i", "u", "f", "h"] {
        assert!(Value::read(&format!("{nines}{suffix}")).is_err());
        assert!(Value::read(&format!("-0x{nines}{suffix}")).is_err());
    }
}

/// The other forms that WGSL has for a number.
#[test]
fn other_forms() {
    let cases: [(&str, Value); 27] = [
        ("0x20u", 32u32.into()),
        ("0XfFu", 255u32.into()),
        ("0xFFFFFFFFu", u32::MAX.into()),
        ("-0x80000000i", i32::MIN.into()),
        ("0x1f", 31i64.into()),
        ("-0x8000000000000000", i64::MIN.into()),
        ("-0", 0i64.into()),
        ("5f", 5.0f32.into()),
        ("5h", Value::f16(0x4500)),
        ("1e3", 1000.0f64.into()),
        ("1E+3f", 1000.0f32.into()),
        ("1e-3h", Value::f16(0x1419)),
        (".5f", 0.5f32.into()),
        ("-.5", (-0.5f64).into()),
        ("5.", 5.0f64.into()),
        ("5.f", 5.0f32.into()),
        ("16777217f", 16_777_216.0f32.into()),
        ("0x1.8p3f", 12.0f32.into()),
        ("0x1.00000000000000000000000000000000p0", 1.0f64.into()),
        ("0x00000000000000000000000000000000001p-149f", f32::from_bits(1).into()),
        ("0x1.8", 1.5f64.into()),
        ("0x.8p1", 1.0f64.into()),
        ("0X1P+4h", Value::f16(0x4c00)),
        ("-0x0p0", (-0.0f64).into()),
        ("0x0p99999", 0.0f64.into()),
        ("0x1p-1074", f64::from_bits(1).into()),
        ("0x1.fffffffffffffp1023", f64::MAX.into()),
    ];
    for (word, value) in cases {
        assert_eq!(Value::read(word), Ok(value), "{word}");
    }
}

/// Why a word is refused stands in a sentence.
#[test]
fn sentences() {
    let cases = [
        (Type::U32, "32i", "32i is an i32, and a u32 is asked for"),
        (Type::F32, "5u", "5u is a u32, and an f32 is asked for"),
        (Type::Bool, "0.5h", "0.5h is an f16, and a bool is asked for"),
        (Type::AbstractInt, "inf_f", "inf_f is an f32, and an AbstractInt is asked for"),
        (Type::Bool, "1", "1 is no bool: write true or false"),
        (Type::U32, "-1", "-1 is not in u32, which goes from 0 to 4294967295"),
        (Type::U32, "4294967296", "4294967296 is not in u32, which goes from 0 to 4294967295"),
        (Type::I32, "2147483648i", "2147483648 is not in i32, which goes from -2147483648 to 2147483647"),
        (Type::I32, "-2147483649", "-2147483649 is not in i32, which goes from -2147483648 to 2147483647"),
        (
            Type::AbstractInt,
            "9223372036854775808",
            "9223372036854775808 is not in AbstractInt, which goes from -9223372036854775808 to 9223372036854775807",
        ),
        (Type::I32, "1.5", "1.5 is no whole number, and an i32 is asked for"),
        (Type::U32, "cell", "cell is no whole number, and a u32 is asked for"),
        (Type::F32, "true", "true is no number, and an f32 is asked for"),
        (Type::F32, "1e39", "1e39 is beyond the finite range of f32"),
        (Type::F32, "0x1p128", "0x1p128 is no number that f32 holds exactly"),
        (Type::F32, "0x1.0000001p0f", "0x1.0000001p0 is no number that f32 holds exactly"),
        (Type::F32, "0x1p-150", "0x1p-150 is no number that f32 holds exactly"),
        (Type::F16, "0x1.002p0h", "0x1.002p0 is no number that f16 holds exactly"),
        (Type::F16, "65520", "65520 is beyond the finite range of f16"),
        (Type::AbstractFloat, "-1e309", "-1e309 is beyond the finite range of AbstractFloat"),
        (Type::AbstractFloat, "0x1p-1075", "0x1p-1075 is no number that AbstractFloat holds exactly"),
    ];
    for (ty, word, said) in cases {
        assert_eq!(Value::read_as(ty, word).unwrap_err().to_string(), said);
    }
}

/// Words that are no literals are refused, whatever type is asked for.
#[test]
fn no_literals() {
    let words = [
        "", " ", "-", "--5", "+5", "-+5", "5x", "5uu", "5fi", "5 ", " 5", "5_", "1_000", "1..2", "1.2.3", ".", "-.",
        ".f", "e5", ".e5", "1e", "1e+", "1e5e5", "1e5u", "1.5i", "1e1.5", "0x", "-0x", "0xg", "0x.", "0xp3", "0x.p3",
        "0x1p", "0x1p+", "0x1p1.5", "0x1.8p3u", "0x+5", "0x-5", "0b1", "٣", "５", "1e٣", "½", "−5", "True", "-true",
        "true_", "truef", "infinity", "Inf", "inf_", "inf_i", "-inf_u", "inf_x", "inff", "infh", "-inff", "NaN",
        "-nan", "-nan_f", "nanf", "nan__f", "i", "u", "_f", "\0", "5\0", "\"5\"",
    ];
    for word in words {
        assert!(Value::read(word).is_err(), "{word:?} is read as {:?}", Value::read(word));
        for ty in Type::ALL {
            assert!(Value::read_as(ty, word).is_err(), "{word:?} is read as {ty}");
        }
    }
}

/// An exponent that 64 bits do not hold, or just hold, is beyond every type.
#[test]
fn endless_exponents() {
    let far = ["9223372036854775807", "9223372036854775808", "99999999999999999999999"];
    for exponent in far {
        for word in [
            format!("0x1p{exponent}"),
            format!("0x2p{exponent}"),
            format!("0x1p-{exponent}"),
            format!("0x1.8p-{exponent}"),
        ] {
            assert!(Value::read(&word).is_err(), "{word} is read as {:?}", Value::read(&word));
        }
        assert!(Value::read(&format!("1e{exponent}")).is_err());
        assert_eq!(Value::read(&format!("1e-{exponent}")), Ok(0.0f64.into()));
    }
}

/// Fifty thousand words over the characters of literals: none ends in a panic, and one that is read prints to a text that reads to the
/// same value.
#[test]
fn random_words() {
    let alphabet: Vec<char> = "00159aefxpPE.+-_iuhn٣".chars().collect();
    let mut dice = Dice(0x2545_f491_4f6c_dd1d);
    let mut read = 0;
    for _ in 0..50_000 {
        let length = (dice.roll() >> 33) % 9;
        let word: String = (0..length).map(|_| alphabet[(dice.roll() >> 33) as usize % alphabet.len()]).collect();
        for value in Type::ALL.into_iter().map(|ty| Value::read_as(ty, &word)).chain([Value::read(&word)]).flatten() {
            assert_eq!(Value::read(&value.to_string()), Ok(value), "{word}");
            read += 1;
        }
    }
    assert!(read > 10_000, "{read}");
}

macro_rules! both_ways {
    ($($rust:ty, $ty:ident: $a:expr, $b:expr, $c:expr, $d:expr;)*) => {
        $(
            let (a, b, c, d): ($rust, $rust, $rust, $rust) = ($a, $b, $c, $d);
            for x in [a, b, c, d] {
                assert_eq!((Value::from(x).ty(), Value::from(x).is_scalar()), (Type::$ty, true));
                assert_eq!(<$rust>::try_from(Value::from(x)), Ok(x));
            }
            assert_eq!(<[$rust; 2]>::try_from(Value::from([a, b])), Ok([a, b]));
            assert_eq!(<[$rust; 3]>::try_from(Value::from([a, b, c])), Ok([a, b, c]));
            assert_eq!(<[$rust; 4]>::try_from(Value::from([a, b, c, d])), Ok([a, b, c, d]));
            let all = Value::from([a, b, c, d]);
            assert_eq!((all.ty(), all.columns(), all.rows(), all.components().len()), (Type::$ty, 1, 4, 4));
        )*
    };
}

/// Rust's own numbers become values, and come back.
#[test]
fn numbers_of_rust() {
    both_ways! {
        bool, Bool: true, false, false, true;
        i32, I32: i32::MIN, -1, 0, i32::MAX;
        u32, U32: 0, 1, 1 << 31, u32::MAX;
        f32, F32: f32::MIN, -0.0, f32::from_bits(1), f32::INFINITY;
        i64, AbstractInt: i64::MIN, -1, 0, i64::MAX;
        f64, AbstractFloat: f64::MIN, -0.0, f64::from_bits(1), f64::NEG_INFINITY;
    }
    assert_eq!(Value::from(-1i32).components(), [0xffff_ffff], "zeros above");
    assert_eq!(Value::from(f32::from_bits(0xffc0_1234)).components(), [0xffc0_1234], "a NaN keeps its bits");
    assert_eq!(f32::try_from(Value::from(-0.0f32)).map(f32::to_bits), Ok(1 << 31));
}

/// A value of another type or shape is refused with a sentence.
#[test]
fn numbers_of_another_type() {
    let said = |refused: WrongType| refused.to_string();
    assert_eq!(said(i32::try_from(Value::from(5u32)).unwrap_err()), "5u is no i32");
    assert_eq!(said(u32::try_from(Value::from(-5i32)).unwrap_err()), "-5i is no u32");
    assert_eq!(said(bool::try_from(Value::from(1u32)).unwrap_err()), "1u is no bool");
    assert_eq!(said(f32::try_from(Value::f16(0x3c00)).unwrap_err()), "1.0h is no f32");
    assert_eq!(said(i64::try_from(Value::from(5i32)).unwrap_err()), "5i is no AbstractInt");
    assert_eq!(said(f64::try_from(Value::from(1.5f32)).unwrap_err()), "1.5f is no AbstractFloat");
    assert_eq!(said(f32::try_from(Value::from([1.0f32, 2.0])).unwrap_err()), "vec2<f32>(1.0, 2.0) is no f32");
    assert_eq!(
        said(<[f32; 3]>::try_from(Value::from([1.0f32, 2.0])).unwrap_err()),
        "vec2<f32>(1.0, 2.0) is no vec3<f32>"
    );
    assert_eq!(said(<[u32; 2]>::try_from(Value::from([1i32, 2])).unwrap_err()), "vec2<i32>(1, 2) is no vec2<u32>");
    let square = Value::new(Type::F32, 2, 2, &[0; 4]).unwrap();
    assert_eq!(said(<[f32; 4]>::try_from(square).unwrap_err()), "mat2x2<f32>(0.0, 0.0, 0.0, 0.0) is no vec4<f32>");
    assert_eq!(said(<[f32; 2]>::try_from(square).unwrap_err()), "mat2x2<f32>(0.0, 0.0, 0.0, 0.0) is no vec2<f32>");
}

//! F16: a pattern of 16 bits. Arithmetic widens exactly, does one F32 operation and rounds once.
use std::{
    cmp::Ordering,
    ops::{Add, Div, Mul, Neg, Rem, Sub},
};

#[allow(non_camel_case_types)]
#[derive(Clone, Copy, Debug)]
pub struct f16(pub u16);

impl f16 {
    /// The nearest F16, at a tie the even one; beyond the finite range an infinity.
    pub fn from_f64(x: f64) -> Self {
        let bits = x.to_bits();
        let sign = (bits >> 48) as u16 & 0x8000;
        let exponent = (bits >> 52 & 0x7ff) as i32 - 1023;
        let whole = bits & 0xf_ffff_ffff_ffff;
        if x.is_nan() {
            return f16(0x7e00);
        }
        if exponent > 15 {
            return f16(sign | 0x7c00);
        }
        if exponent < -25 {
            return f16(sign);
        }
        let whole = whole | 1 << 52;
        let below = if exponent < -14 { -14 - exponent } else { 0 };
        let places = 42 + below;
        let kept = whole >> places;
        let rest = whole & ((1 << places) - 1);
        let half = 1u64 << (places - 1);
        let up = rest > half || rest == half && kept % 2 == 1;
        // A normal number's leading bit adds one to the exponent field; a carry out of the digits goes there as well.
        let field = if exponent < -14 { 0 } else { (exponent + 14) as u64 };
        f16(sign | ((field << 10) + kept + u64::from(up)) as u16)
    }

    pub fn from_f32(x: f32) -> Self {
        Self::from_f64(f64::from(x))
    }

    /// Exact.
    pub fn to_f32(self) -> f32 {
        let sign = u32::from(self.0 & 0x8000) << 16;
        let field = u32::from(self.0 >> 10 & 0x1f);
        let digits = u32::from(self.0 & 0x3ff);
        match field {
            0 => {
                let size = digits as f32 / 16_777_216.0;
                f32::from_bits(sign | size.to_bits())
            }
            31 => f32::from_bits(sign | 0x7f80_0000 | digits << 13),
            _ => f32::from_bits(sign | (field + 112) << 23 | digits << 13),
        }
    }

    pub fn is_finite(self) -> bool {
        self.0 & 0x7c00 != 0x7c00
    }
}

macro_rules! arithmetic {
    ($($trait:ident $method:ident $sign:tt),*) => { $(
        impl $trait for f16 {
            type Output = f16;
            fn $method(self, other: f16) -> f16 {
                f16::from_f32(self.to_f32() $sign other.to_f32())
            }
        }
    )* };
}

arithmetic! { Add add +, Sub sub -, Mul mul *, Div div /, Rem rem % }

impl Neg for f16 {
    type Output = f16;
    fn neg(self) -> f16 {
        f16(self.0 ^ 0x8000)
    }
}

// The text negates a `&f16`.
impl Neg for &f16 {
    type Output = f16;
    fn neg(self) -> f16 {
        -*self
    }
}

impl PartialEq for f16 {
    fn eq(&self, other: &f16) -> bool {
        self.to_f32() == other.to_f32()
    }
}

impl PartialOrd for f16 {
    fn partial_cmp(&self, other: &f16) -> Option<Ordering> {
        self.to_f32().partial_cmp(&other.to_f32())
    }
}

#[cfg(test)]
mod tests {
    use super::f16;

    #[test]
    fn every_pattern_comes_back() {
        for bits in 0..=u16::MAX {
            let x = f16(bits);
            let back = f16::from_f32(x.to_f32());
            assert!(back.0 == bits || x.to_f32().is_nan() && back.0 == 0x7e00, "{bits:04x}");
        }
    }

    #[test]
    fn edges() {
        let edges: [(f64, u16); 12] = [
            (65504.0, 0x7bff),
            (65519.999, 0x7bff),
            (65520.0, 0x7c00),
            (-65520.0, 0xfc00),
            (2f64.powi(-24), 1),
            (2f64.powi(-25), 0),
            (2f64.powi(-25) * 1.000_000_1, 1),
            (-(2f64.powi(-26)), 0x8000),
            (2f64.powi(-25) * 3.0, 2),
            (2049.0, 0x6800),
            (2051.0, 0x6802),
            (f64::MIN_POSITIVE / 2.0, 0),
        ];
        for (x, bits) in edges {
            assert_eq!(f16::from_f64(x).0, bits, "{x}");
        }
        // Rounded twice, through F32, this one is 1.
        assert_eq!(f16::from_f64(1.0 + 2f64.powi(-11) + 2f64.powi(-40)).0, 0x3c01);
    }

    #[cfg(target_arch = "aarch64")]
    fn machine(x: f64) -> u16 {
        let bits: u32;
        // SAFETY: one conversion between two registers.
        unsafe {
            std::arch::asm!("fcvt {h:h}, {d:d}", "fmov {w:w}, {h:s}", h = out(vreg) _, d = in(vreg) x, w = out(reg) bits)
        };
        bits as u16
    }

    #[cfg(target_arch = "aarch64")]
    #[test]
    fn as_the_machine_rounds() {
        let mut x = 0x9e37_79b9_7f4a_7c15u64;
        for k in 0..3_000_000u64 {
            x ^= x << 13;
            x ^= x >> 7;
            x ^= x << 17;
            // Exponents around F16's range, digits at random, then mostly zeros so that ties occur.
            let digits = if k % 2 == 0 { x & 0xf_ffff_ffff_ffff } else { x & 0xf_ff80_0000_0001 };
            let v = f64::from_bits(x & 1 << 63 | (1023 - 28 + (x >> 52) % 48) << 52 | digits);
            assert_eq!(f16::from_f64(v).0, machine(v), "{v:e}");
        }
    }
}

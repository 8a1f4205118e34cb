//! The two traits of num_traits that the text names. On a `&i64` they, not the inherent methods, are what a method call finds first.

pub trait WrappingNeg: Sized {
    fn wrapping_neg(&self) -> Self;
}

pub trait WrappingShl: Sized {
    fn wrapping_shl(&self, count: u32) -> Self;
}

macro_rules! wrapping {
    ($($t:ty)*) => { $(
        impl WrappingNeg for $t {
            fn wrapping_neg(&self) -> Self {
                <$t>::wrapping_neg(*self)
            }
        }
        impl WrappingShl for $t {
            fn wrapping_shl(&self, count: u32) -> Self {
                <$t>::wrapping_shl(*self, count)
            }
        }
    )* };
}

wrapping! { i32 u32 i64 }

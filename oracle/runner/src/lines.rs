//! The lines of docs/DIFFERENCES.md: every place where the Rust text and document 01 part.

/// One line: its id in docs/DIFFERENCES.md and what the Rust text does there.
#[derive(Clone, Copy, Debug, PartialEq, Eq, PartialOrd, Ord)]
pub enum Line {
    AndCallsOr,
    Shl32Count,
    ShlAbstract,
    ShrAbstract,
    ShrByZero,
    OverrideFloat,
    OverrideRem,
    ScalarVectorOrder,
    BoolOrdered,
    BoolDivision,
    LeftUnconverted,
    ZipShort,
    BitsLengths,
    ShiftLengths,
    ShiftCounts,
    MatrixVectorOrder,
    MixedVector,
}

pub const LINES: [(Line, &str, &str); 17] = [
    (Line::AndCallsOr, "R1", "`&&` works out `||`"),
    (Line::Shl32Count, "R2", "32-bit `<<` reduces the count and does not refuse"),
    (Line::ShlAbstract, "R3", "AbstractInt `<<` above 63 is 0 in Const and Override"),
    (Line::ShrAbstract, "R4", "AbstractInt `>>` above 64 shifts by one more than the count less one modulo 64"),
    (Line::ShrByZero, "R5", "any type `>>` 0 is returned"),
    (Line::OverrideFloat, "R6", "F32 and F16 `+ - * %` not finite pass in Override"),
    (Line::OverrideRem, "R7", "integer `%` by zero and minimum `%` -1 pass in Override"),
    (Line::ScalarVectorOrder, "R8", "scalar-vector `/ %` converts by component"),
    (Line::BoolOrdered, "R9", "Bool is ordered"),
    (Line::BoolDivision, "R10", "Bool `/` in Exec returns the left side"),
    (Line::LeftUnconverted, "R11", "a failed `/` in Exec returns the left side unconverted"),
    (Line::ZipShort, "R12", "a product of unequal inner sizes is cut short"),
    (Line::BitsLengths, "R13", "vector `| & ^` judges lengths before types"),
    (Line::ShiftLengths, "R14", "vector `<< >>` judges lengths before the counts"),
    (Line::ShiftCounts, "R15", "vector `<< >>` converts each count only when its component is worked"),
    (Line::MatrixVectorOrder, "R16", "matrix times vector does each step for all components"),
    (Line::MixedVector, "R17", "scalar-vector `/` in Exec gives a vector of unlike types"),
];

/// Which lines a case needed, as bits in the order of `LINES`.
#[derive(Clone, Copy, Debug, Default, PartialEq, Eq, PartialOrd, Ord)]
pub struct Needed(pub u32);

impl Needed {
    pub fn add(&mut self, line: Line) {
        self.0 |= 1 << line as u32;
    }

    pub fn has(self, line: Line) -> bool {
        self.0 >> line as u32 & 1 == 1
    }

    pub fn none(self) -> bool {
        self.0 == 0
    }

    /// The ids of the lines, as `R6` or `R6 R16`.
    pub fn ids(self) -> String {
        let ids: Vec<&str> = LINES.iter().filter(|(line, ..)| self.has(*line)).map(|l| l.1).collect();
        ids.join(" ")
    }
}

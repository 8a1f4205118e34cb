//! The refusals, with their numbers and names.
use std::{error::Error, fmt};

use crate::Scalar;

/// Why a call, an operation or an entry has no value. Places are byte places in the sheet.
#[derive(Clone, Copy, Debug, PartialEq, Eq, Hash)]
pub enum Refusal {
    /// A shape or type that the unary operator does not take.
    Unary,
    /// Shapes or types that the binary operator does not take, or a failed conversion.
    Binary,
    /// Shapes that should be equal and are not.
    CompwiseBinary,
    AddOverflow,
    SubOverflow,
    MulOverflow,
    DivByZero,
    RemZeroDiv,
    /// The left operand has no room for the count. Of a vector it is that of the first component that refused.
    ShlOverflow {
        count: u32,
        operand: Scalar,
    },
    /// A count above 31 on 32 bits, with the operand as in `ShlOverflow`.
    ShrOverflow {
        count: u32,
        operand: Scalar,
    },
    /// The entry named has no value.
    FromEntry {
        entry: u32,
    },
    SheetTooLong,
    BadMark {
        place: u32,
    },
    CutShort {
        place: u32,
    },
    BadStage {
        place: u32,
    },
    TooManyEntries {
        place: u32,
    },
    BadNode {
        place: u32,
    },
    BadValue {
        place: u32,
    },
    BadRef {
        place: u32,
    },
    TooDeep {
        place: u32,
    },
    Leftover {
        place: u32,
    },
    /// The results do not have 136 bytes for each entry, or a slot has not 136 bytes.
    ResultsSize,
    /// The entry is no setting, or there is no such entry.
    NotASetting,
    /// The new content is not of the setting's type.
    SettingType,
    /// A number that this crate does not know, or a shift's without its operand.
    Other {
        number: u8,
        detail: u32,
    },
}

impl Refusal {
    /// The refusal of a number and a detail; nothing for number 0. A shift's, 9 and 10, take the operand, and are `Other` without one or with
    /// one that is no integer; every other number leaves it out.
    pub fn new(number: u8, detail: u32, operand: Option<Scalar>) -> Option<Refusal> {
        let (count, place, other) = (detail, detail, Refusal::Other { number, detail });
        let operand = operand.filter(|operand| operand.ty().is_integer());
        Some(match number {
            0 => return None,
            1 => Refusal::Unary,
            2 => Refusal::Binary,
            3 => Refusal::CompwiseBinary,
            4 => Refusal::AddOverflow,
            5 => Refusal::SubOverflow,
            6 => Refusal::MulOverflow,
            7 => Refusal::DivByZero,
            8 => Refusal::RemZeroDiv,
            9 => operand.map_or(other, |operand| Refusal::ShlOverflow { count, operand }),
            10 => operand.map_or(other, |operand| Refusal::ShrOverflow { count, operand }),
            11 => Refusal::FromEntry { entry: detail },
            20 => Refusal::SheetTooLong,
            21 => Refusal::BadMark { place },
            22 => Refusal::CutShort { place },
            23 => Refusal::BadStage { place },
            24 => Refusal::TooManyEntries { place },
            25 => Refusal::BadNode { place },
            26 => Refusal::BadValue { place },
            27 => Refusal::BadRef { place },
            28 => Refusal::TooDeep { place },
            29 => Refusal::Leftover { place },
            30 => Refusal::ResultsSize,
            31 => Refusal::NotASetting,
            32 => Refusal::SettingType,
            _ => other,
        })
    }

    /// The detail of an answer that succeeded, or its refusal, with the operand that a shift's has.
    pub(crate) fn of(answer: u64, operand: Option<Scalar>) -> Result<u32, Refusal> {
        match Refusal::new((answer >> 32) as u8, answer as u32, operand) {
            None => Ok(answer as u32),
            Some(refusal) => Err(refusal),
        }
    }

    pub fn number(self) -> u8 {
        self.parts().0
    }

    pub fn name(self) -> &'static str {
        self.parts().1
    }

    pub fn detail(self) -> u32 {
        self.parts().2
    }

    /// The left operand that a refused shift keeps.
    pub fn operand(self) -> Option<Scalar> {
        match self {
            Refusal::ShlOverflow { operand, .. } | Refusal::ShrOverflow { operand, .. } => Some(operand),
            _ => None,
        }
    }

    /// What it means, in a sentence for people.
    pub fn sentence(self) -> String {
        let fixed = match self {
            Refusal::Unary => "the operator does not take a value of this type or shape",
            Refusal::Binary => {
                "the operator does not take two such values, or one does not convert to the other's type"
            }
            Refusal::CompwiseBinary => "the shapes of the two values are not equal",
            Refusal::AddOverflow => "the sum is outside AbstractInt's 64 bits, or is no finite float",
            Refusal::SubOverflow => "the difference is outside AbstractInt's 64 bits, or is no finite float",
            Refusal::MulOverflow => "the product is outside AbstractInt's 64 bits, or is no finite float",
            Refusal::DivByZero => "a whole number by zero, the least one by -1, or a quotient that is no finite float",
            Refusal::RemZeroDiv => {
                "a whole number by zero, the least one by -1, or a remainder that is no finite float"
            }
            Refusal::SheetTooLong => "the sheet has more than 16,384 bytes",
            Refusal::ResultsSize => "the results have not exactly 136 bytes for each entry",
            Refusal::NotASetting => "there is no such entry, or it is no setting",
            Refusal::SettingType => "the new content is not of the setting's type",
            _ => return self.sentence_with_detail(),
        };
        fixed.to_owned()
    }

    fn sentence_with_detail(self) -> String {
        let place = self.detail();
        match self {
            Refusal::ShlOverflow { count, operand } => {
                format!("{operand} << {count} leaves no room for the count {count}")
            }
            Refusal::ShrOverflow { count, operand } => {
                format!("{operand} >> {count}: 32 bits cannot be shifted right by the count {count}")
            }
            Refusal::FromEntry { entry } => format!("no value: #{entry} has none"),
            Refusal::BadMark { .. } => format!("no record begins at byte {place}: its mark is not D5 17"),
            Refusal::CutShort { .. } => format!("byte {place} is missing"),
            Refusal::BadStage { .. } => {
                format!(
                    "the stage at byte {place} is unknown, or the entry named there has a later stage than this one"
                )
            }
            Refusal::TooManyEntries { .. } => format!("the record at byte {place} is one more than 128"),
            Refusal::BadNode { .. } => {
                format!("the node at byte {place} has a tag or an operator that does not stand there")
            }
            Refusal::BadValue { place: 0 } => "an operand or new content is no value of its type".to_owned(),
            Refusal::BadValue { .. } => {
                format!("the value at byte {place} has a type, a shape or bits that do not stand there")
            }
            Refusal::BadRef { .. } => format!("the node at byte {place} names an entry that is not an earlier one"),
            Refusal::TooDeep { .. } => format!("the node at byte {place} is more than 32 deep"),
            Refusal::Leftover { .. } => format!("the expression has ended before byte {place}, and its record goes on"),
            _ => format!("refusal {} with detail {place}", self.number()),
        }
    }

    fn parts(self) -> (u8, &'static str, u32) {
        match self {
            Refusal::Unary => (1, "Unary", 0),
            Refusal::Binary => (2, "Binary", 0),
            Refusal::CompwiseBinary => (3, "CompwiseBinary", 0),
            Refusal::AddOverflow => (4, "AddOverflow", 0),
            Refusal::SubOverflow => (5, "SubOverflow", 0),
            Refusal::MulOverflow => (6, "MulOverflow", 0),
            Refusal::DivByZero => (7, "DivByZero", 0),
            Refusal::RemZeroDiv => (8, "RemZeroDiv", 0),
            Refusal::ShlOverflow { count, .. } => (9, "ShlOverflow", count),
            Refusal::ShrOverflow { count, .. } => (10, "ShrOverflow", count),
            Refusal::FromEntry { entry } => (11, "FromEntry", entry),
            Refusal::SheetTooLong => (20, "SheetTooLong", 0),
            Refusal::BadMark { place } => (21, "BadMark", place),
            Refusal::CutShort { place } => (22, "CutShort", place),
            Refusal::BadStage { place } => (23, "BadStage", place),
            Refusal::TooManyEntries { place } => (24, "TooManyEntries", place),
            Refusal::BadNode { place } => (25, "BadNode", place),
            Refusal::BadValue { place } => (26, "BadValue", place),
            Refusal::BadRef { place } => (27, "BadRef", place),
            Refusal::TooDeep { place } => (28, "TooDeep", place),
            Refusal::Leftover { place } => (29, "Leftover", place),
            Refusal::ResultsSize => (30, "ResultsSize", 0),
            Refusal::NotASetting => (31, "NotASetting", 0),
            Refusal::SettingType => (32, "SettingType", 0),
            Refusal::Other { number, detail } => (number, "Other", detail),
        }
    }
}

/// The name and a sentence: `ShlOverflow: 1u << 32 leaves no room for the count 32`.
impl fmt::Display for Refusal {
    fn fmt(&self, f: &mut fmt::Formatter) -> fmt::Result {
        write!(f, "{}: {}", self.name(), self.sentence())
    }
}

impl Error for Refusal {}

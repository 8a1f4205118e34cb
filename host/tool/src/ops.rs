//! One page on operators, types, stages and refusals, with their codes.
use booth::{Binary, Refusal, Scalar, Stage, Type, Unary};

/// The page.
pub fn page() -> String {
    let mut text = String::from("Types (code, name, how a value is written)\n");
    for ty in Type::ALL {
        text += &format!("  {}  {:<14} {}\n", ty as u8, ty.name(), of_type(ty));
    }
    text += "  Vectors of 2 to 4 components of any type, matrices of 2 to 4 columns and rows of the float types.\n";
    text += "\nStages (code, word)\n";
    for stage in Stage::ALL {
        text += &format!("  {}  {:<14} {}\n", stage as u8, stage.name(), of_stage(stage));
    }
    text += "  3  setting        one value that can be changed; to others it counts as override\n";
    text += "\nOperators on one value (code, sign), a scalar or each component of a vector\n";
    for op in Unary::ALL {
        text += &format!("  {:>2}  {:<3} {}\n", op as u8, op.symbol(), of_unary(op));
    }
    text += "\nOperators on two values (code, sign), scalars or vectors component by component, + - * / % also a scalar with a vector\n";
    for op in Binary::ALL {
        text += &format!("  {:>2}  {:<3} {}\n", op as u8, op.symbol(), of_binary(op));
    }
    text += "\nRefusals (number, name). What a sheet refuses has a byte place as its detail, what a single call refuses has 0.\n";
    let operand = Some(Scalar::from(1u32));
    for refusal in (1..=u8::MAX).filter_map(|number| Refusal::new(number, 0, operand)) {
        if !matches!(refusal, Refusal::Other { .. }) {
            text += &format!("  {:>2}  {:<15} {}\n", refusal.number(), refusal.name(), of_refusal(refusal));
        }
    }
    text
}

fn of_type(ty: Type) -> &'static str {
    match ty {
        Type::Bool => "true, false",
        Type::AbstractInt => "5, -5: a whole number of 64 bits that takes on the type it meets",
        Type::AbstractFloat => "1.5: a float of 64 bits that takes on the float type it meets",
        Type::I32 => "-5i: a whole number of 32 bits with a sign",
        Type::U32 => "5u: a whole number of 32 bits without a sign",
        Type::F32 => "1.5f: a float of 32 bits",
        Type::F16 => "1.5h: a float of 16 bits",
    }
}

fn of_stage(stage: Stage) -> &'static str {
    match stage {
        Stage::Const => "known when the shader is written; names const entries only",
        Stage::Override => "known when the pipeline is made; names const and override entries and settings",
        Stage::Exec => {
            "by the rules for run time, where fewer results are refused; names entries of every stage and settings"
        }
    }
}

fn of_unary(op: Unary) -> &'static str {
    match op {
        Unary::Not => "not: of bools",
        Unary::Neg => "the negative: of numbers but u32; a whole number's least is its own",
        Unary::BitNot => "all bits turned over: of whole numbers",
    }
}

fn of_binary(op: Binary) -> &'static str {
    match op {
        Binary::Or => "or: of two bools, no vectors; both sides are worked out",
        Binary::And => "and: of two bools, no vectors; both sides are worked out",
        Binary::Add => "sum; i32 and u32 wrap around; also of two matrices",
        Binary::Sub => "difference; i32 and u32 wrap around; also of two matrices",
        Binary::Mul => "product; i32 and u32 wrap around; also with matrices",
        Binary::Div => "quotient, cut towards zero for whole numbers; in exec the left value where it would be refused",
        Binary::Rem => "remainder with the left one's sign; in exec 0 where whole numbers would be refused",
        Binary::Eq => "equal: a bool for each component",
        Binary::Ne => "not equal",
        Binary::Lt => "less; not of bools",
        Binary::Le => "less or equal; not of bools",
        Binary::Gt => "greater; not of bools",
        Binary::Ge => "greater or equal; not of bools",
        Binary::BitOr => "or, bit by bit: of bools and whole numbers",
        Binary::BitAnd => "and, bit by bit: of bools and whole numbers",
        Binary::BitXor => "either or, bit by bit: of whole numbers",
        Binary::Shl => "left times 2 to the count, a u32; in exec i32 and u32 take the count modulo 32 and wrap around",
        Binary::Shr => "left by 2 to the count, a u32, rounded down; in exec i32 and u32 take the count modulo 32",
    }
}

fn of_refusal(refusal: Refusal) -> String {
    match refusal {
        Refusal::ShlOverflow { .. } => {
            "before exec: i32 or u32 by more than 31, or a result outside its type (detail: the count; keeps the left operand)"
                .to_owned()
        }
        Refusal::ShrOverflow { .. } => {
            "before exec: i32 or u32 by more than 31 (detail: the count; keeps the left operand)".to_owned()
        }
        Refusal::FromEntry { .. } => "the entry that is named has no value (detail: that entry)".to_owned(),
        Refusal::BadMark { .. } => "a record does not begin with D5 17 (detail: the record's place)".to_owned(),
        Refusal::CutShort { .. } => "a byte is missing (detail: its place)".to_owned(),
        Refusal::BadStage { .. } => {
            "a stage is unknown, or later than that of an entry that names it (detail: the place)".to_owned()
        }
        Refusal::TooManyEntries { .. } => "there are more than 128 entries (detail: the record's place)".to_owned(),
        Refusal::BadNode { .. } => {
            "a tag or an operator is unknown, or does not stand in a setting (detail: the node's place)".to_owned()
        }
        Refusal::BadValue { .. } => {
            "a type, a shape or bits that do not stand there (detail: the node's place, 0 for new content)".to_owned()
        }
        Refusal::BadRef { .. } => "the entry that is named is no earlier one (detail: the node's place)".to_owned(),
        Refusal::TooDeep { .. } => "an expression is more than 32 deep (detail: the node's place)".to_owned(),
        Refusal::Leftover { .. } => "bytes are left behind an expression (detail: the place of the first)".to_owned(),
        other => other.sentence(),
    }
}

//! Why an entry has no value, in one sentence with the operands as they stood.
use booth::{binary, Binary, Expr, Refusal, Results, Slot, Stage, Step, Type, Value};

use crate::names::Names;

/// What an entry came to: its value, or why it has none.
pub fn of_entry(results: &Results, entry: u32, names: &Names) -> String {
    let slot = match results.slot(entry) {
        Some(slot) => slot,
        None => return String::new(),
    };
    let step = results.explain(entry);
    match (slot, step) {
        (Slot::Value(value), _) => value.to_string(),
        (Slot::Malformed, _) => "no value: the slot's bytes are no result".to_owned(),
        (Slot::Refused(refusal), Some(step)) if step.came_to == slot => match step.cause() {
            Some(cause) => of_step(cause, names),
            None => refusal.to_string(),
        },
        // The slot is not what the expression gives: only a results file that nobody worked out can hold it.
        (Slot::Refused(refusal), _) => refusal.to_string(),
    }
}

/// Why one node refused, by its operands.
pub fn of_step(step: &Step, names: &Names) -> String {
    let values: Vec<&Value> = step.operands.iter().filter_map(|operand| operand.came_to.value()).collect();
    match (step.came_to, step.expr, &values[..]) {
        (Slot::Refused(Refusal::FromEntry { entry }), ..) => format!("no value: {} has none", names.write(entry)),
        (Slot::Refused(refusal), Expr::Unary(op, _), [operand]) => {
            format!("{}: {op} does not take {}, here {operand}", refusal.name(), of_type(operand))
        }
        // Of a shift of scalars the sentence has both operands.
        (Slot::Refused(refusal), _, [left, _]) if refusal.operand().is_some() && left.is_scalar() => {
            refusal.to_string()
        }
        (Slot::Refused(refusal), Expr::Binary(op, ..), [left, right]) => {
            let (whole, ty) = (format!("{left} {op} {right}"), met(left.ty(), right.ty()));
            let why = match refusal {
                Refusal::Binary => unpaired(*op, left, right),
                Refusal::CompwiseBinary => {
                    format!("{} and {} have unequal shapes", left.type_name(), right.type_name())
                }
                Refusal::AddOverflow | Refusal::SubOverflow | Refusal::MulOverflow => match ty.is_float() {
                    true => format!("not finite in {ty}"),
                    false => format!("beyond the range of {ty}"),
                },
                Refusal::DivByZero | Refusal::RemZeroDiv if has_zero(right) => match right.is_scalar() {
                    true => "the divisor is zero".to_owned(),
                    false => "a component of the divisor is zero".to_owned(),
                },
                Refusal::DivByZero | Refusal::RemZeroDiv if ty.is_float() => format!("not finite in {ty}"),
                Refusal::DivByZero | Refusal::RemZeroDiv => format!("the least {ty} by -1"),
                other => other.sentence(),
            };
            format!("{}: {whole}: {why}", refusal.name())
        }
        (Slot::Refused(refusal), ..) => refusal.to_string(),
        (Slot::Value(value), ..) => value.to_string(),
        (Slot::Malformed, ..) => "no value".to_owned(),
    }
}

/// Why a pair is Binary: the operator takes no such two, or it does and a value has no conversion, which zeros would have.
fn unpaired(op: Binary, left: &Value, right: &Value) -> String {
    let taken = match (zero(left), zero(right)) {
        (Ok(left), Ok(right)) => binary(op, Stage::Exec, &left, &right) != Err(Refusal::Binary),
        _ => false,
    };
    let shift = matches!(op, Binary::Shl | Binary::Shr);
    match taken {
        true if shift => format!("{right} does not convert to u32"),
        true if left.ty().is_abstract() => format!("{left} does not convert to {}", right.ty()),
        true => format!("{right} does not convert to {}", left.ty()),
        false => format!("{op} does not take {} with {}", of_type(left), of_type(right)),
    }
}

/// Whether a value, or a component of it, equals zero.
fn has_zero(value: &Value) -> bool {
    let equal = zero(value).and_then(|zero| binary(Binary::Eq, Stage::Exec, value, &zero));
    equal.map_or(false, |equal| equal.components().contains(&1))
}

/// The zero of a value's type and shape.
fn zero(like: &Value) -> Result<Value, Refusal> {
    Value::new(like.ty(), like.columns(), like.rows(), &vec![0; like.components().len()])
}

fn of_type(value: &Value) -> String {
    match value.type_name() {
        name if name.starts_with(['A', 'i', 'f']) => format!("an {name}"),
        name => format!("a {name}"),
    }
}

/// The common type of two that meet.
fn met(left: Type, right: Type) -> Type {
    match (left, right) {
        (Type::AbstractInt, other) | (other, Type::AbstractInt) => other,
        (Type::AbstractFloat, other) => other,
        (left, _) => left,
    }
}

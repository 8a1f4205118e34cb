//! The tree of one entry: which operator gave this constant, over which values.
use booth::{Expr, Kind, Results, Slot, Step};
use serde_json::{json, Value as Json};

use crate::{ask::Asked, check, sentence, show};

/// The tree of an entry, and where it has no value because another has none, the trees of those down to where it began.
pub fn shown(asked: &Asked, results: &Results, entry: u32) -> String {
    let mut text = String::new();
    for (turn, entry) in chain(results, entry).into_iter().enumerate() {
        if turn > 0 {
            text += &format!("\n{} has no value because:\n", asked.names.write(entry));
        }
        text += &one(asked, results, entry);
    }
    text
}

/// The entry, and the entries that left it without a value, each named by the one before.
fn chain(results: &Results, entry: u32) -> Vec<u32> {
    let mut all = vec![entry];
    loop {
        let step = results.explain(all[all.len() - 1]);
        match step.as_ref().and_then(Step::cause).map(|cause| cause.expr) {
            // An entry names earlier ones only, so this ends.
            Some(Expr::Entry(earlier)) => all.push((*earlier).into()),
            _ => return all,
        }
    }
}

fn one(asked: &Asked, results: &Results, entry: u32) -> String {
    let (said, step) = match (results.sheet().entries().get(entry as usize), results.explain(entry)) {
        (Some(said), Some(step)) => (said, step),
        _ => return String::new(),
    };
    let number = asked.names.get(entry).map_or_else(String::new, |_| format!(" (#{entry})"));
    let mut text = format!(
        "{}{number}, {}: {}\n",
        asked.names.write(entry),
        said.kind,
        sentence::of_entry(results, entry, &asked.names)
    );
    if results.fits(entry) == Some(false) {
        text += "  this slot is not what its entry gives over the other slots\n";
    }
    match said.kind {
        // A setting has no node but its content, which may have been changed.
        Kind::Setting => text += &format!("  content of the setting; the sheet has {}\n", said.expr),
        Kind::Expression(_) => branch(asked, results, &step, "", "", &mut text),
    }
    text
}

/// One node a line, its operands below it.
fn branch(asked: &Asked, results: &Results, step: &Step, lead: &str, below: &str, text: &mut String) {
    let expr = asked.names.expr(step.expr);
    let came_to = match step.came_to {
        Slot::Value(value) if value.to_string() == expr => String::new(),
        Slot::Value(value) => format!(" = {value}"),
        _ if step.cause().map(|cause| cause.place) == Some(step.place) => {
            format!(" -> {}", sentence::of_step(step, &asked.names))
        }
        _ => " -> no value".to_owned(),
    };
    *text += &format!("  {lead}{expr}{came_to}{}\n", whence(asked, results, step));
    let last = step.operands.len().saturating_sub(1);
    for (number, operand) in step.operands.iter().enumerate() {
        let (lead, more) = if number == last { ("└─ ", "   ") } else { ("├─ ", "│  ") };
        branch(asked, results, operand, &format!("{below}{lead}"), &format!("{below}{more}"), text);
    }
}

/// Where a node's value comes from.
fn whence(asked: &Asked, results: &Results, step: &Step) -> String {
    match step.expr {
        Expr::Literal(_) => String::new(),
        Expr::Unary(op, _) => format!("   [operator {op} at byte {}]", step.place),
        Expr::Binary(op, ..) => format!("   [operator {op} at byte {}]", step.place),
        Expr::Entry(number) => match results.sheet().entries().get(usize::from(*number)) {
            Some(entry) => {
                let expr = asked.names.expr(&entry.expr);
                format!("   [entry {number}, {}: {expr}]", entry.kind)
            }
            None => String::new(),
        },
    }
}

/// The same for programs.
pub fn json(asked: &Asked, results: &Results, entry: u32) -> Json {
    let mut all = show::entry_json(asked, results, entry);
    all["tree"] = results.explain(entry).map_or(Json::Null, |step| tree(asked, &step));
    all["because"] = chain(results, entry).into_iter().skip(1).collect();
    all
}

fn tree(asked: &Asked, step: &Step) -> Json {
    let mut all = json!({
        "expression": asked.names.expr(step.expr),
        "place": step.place,
        "operands": step.operands.iter().map(|operand| tree(asked, operand)).collect::<Vec<Json>>(),
    });
    match step.expr {
        Expr::Literal(_) => {}
        Expr::Entry(number) => all["entry"] = json!(number),
        Expr::Unary(op, _) => all["operator"] = json!(op.symbol()),
        Expr::Binary(op, ..) => all["operator"] = json!(op.symbol()),
    }
    match step.came_to {
        Slot::Value(value) => all["value"] = json!(value.to_string()),
        Slot::Refused(refusal) => all["refusal"] = check::refused(refusal),
        Slot::Malformed => {}
    }
    all
}

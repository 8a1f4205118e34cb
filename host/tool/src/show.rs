//! A sheet and its results as a table.
use booth::{Results, Slot};
use serde_json::{json, Value as Json};

use crate::{ask::Asked, check, sentence};

const HEADS: [&str; 6] = ["#", "name", "stage", "type", "expression", "value"];

/// Beyond this, a cell pushes its own row to the right and no other.
const WIDEST: usize = 44;

/// One entry a row.
pub fn table(asked: &Asked, results: &Results) -> String {
    let mut rows: Vec<Vec<String>> = vec![HEADS.map(str::to_owned).to_vec()];
    rows.extend((0..results.sheet().entries().len() as u32).map(|entry| row(asked, results, entry).to_vec()));
    // A column that says nothing is left out: there are no names.
    let used: Vec<usize> =
        (0..HEADS.len()).filter(|column| *column != 1 || rows[1..].iter().any(|row| !row[1].is_empty())).collect();
    let width = |column: usize| rows.iter().map(|row| row[column].chars().count().min(WIDEST)).max().unwrap_or(0);
    let widths: Vec<usize> = (0..HEADS.len()).map(width).collect();
    rows.iter().map(|row| line(row, &used, &widths)).collect()
}

fn line(row: &[String], used: &[usize], widths: &[usize]) -> String {
    let cells: Vec<String> = used.iter().map(|column| pad(&row[*column], widths[*column], *column == 0)).collect();
    cells.join("  ").trim_end().to_owned() + "\n"
}

fn pad(cell: &str, width: usize, right: bool) -> String {
    let gap = " ".repeat(width.saturating_sub(cell.chars().count()));
    if right {
        gap + cell
    } else {
        cell.to_owned() + &gap
    }
}

fn row(asked: &Asked, results: &Results, entry: u32) -> [String; 6] {
    let said = &results.sheet().entries()[entry as usize];
    let ty = match results.slot(entry) {
        Some(Slot::Value(value)) => value.type_name(),
        _ => "-".to_owned(),
    };
    [
        entry.to_string(),
        asked.names.get(entry).unwrap_or("").to_owned(),
        said.kind.to_string(),
        ty,
        asked.names.expr(&said.expr),
        sentence::of_entry(results, entry, &asked.names),
    ]
}

/// The same for programs: numbers and components as they are beside their texts.
pub fn json(asked: &Asked, results: &Results) -> Json {
    let entries: Vec<Json> =
        (0..results.sheet().entries().len() as u32).map(|entry| entry_json(asked, results, entry)).collect();
    json!({ "bytes": results.sheet().bytes().len(), "entries": entries })
}

/// One entry for programs.
pub fn entry_json(asked: &Asked, results: &Results, entry: u32) -> Json {
    let [_, _, stage, _, expression, came_to] = row(asked, results, entry);
    let mut all = json!({ "number": entry, "name": asked.names.get(entry), "stage": stage, "expression": expression });
    match results.slot(entry) {
        Some(Slot::Value(value)) => {
            let bits: Vec<String> = value.components().iter().map(|bits| format!("{bits:016x}")).collect();
            all["status"] = json!(0);
            all["type"] = json!(value.type_name());
            all["value"] = json!(came_to);
            all["components"] = json!(bits);
        }
        Some(Slot::Refused(refusal)) => {
            all["status"] = json!(refusal.number());
            all["refusal"] = check::refused(refusal);
            all["why"] = json!(came_to);
        }
        _ => all["why"] = json!(came_to),
    }
    all
}

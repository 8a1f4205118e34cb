//! A sheet's own refusals, with the place and the bytes around it.
use std::path::Path;

use booth::{Refusal, Sheet};
use serde_json::{json, Value as Json};

use crate::{ask::entries, complaint::called};

/// `ok: 3 entries, 59 bytes`.
pub fn accepted(sheet: &Sheet) -> String {
    format!("ok: {}, {} bytes\n", entries(sheet.entries().len() as u64), sheet.bytes().len())
}

/// A refused sheet in words: the name and the sentence, and the bytes around the place with a mark under it.
pub fn shown(path: &Path, bytes: &[u8], refusal: Refusal) -> String {
    let sentence = match refusal {
        // The byte is there, but another record's or nobody's: the body's length ends it before.
        Refusal::CutShort { place } if (place as usize) < bytes.len() => {
            format!("the record's body ends before byte {place}, and its expression goes on")
        }
        Refusal::BadMark { place: 0 } if is_text(bytes) => {
            format!("{}; this looks like text, of which `booth make` makes a sheet", refusal.sentence())
        }
        _ => refusal.sentence(),
    };
    let head = format!("{} is refused: {}: {sentence}", path.display(), called(refusal));
    match refusal {
        Refusal::SheetTooLong => head,
        _ => format!("{head}\n{}", around(bytes, refusal.detail() as usize)),
    }
}

/// Whether bytes are the text that `make` reads, or meant to be.
fn is_text(bytes: &[u8]) -> bool {
    let text = std::str::from_utf8(bytes).unwrap_or("").trim_start_matches('\u{feff}').trim_start();
    ["setting", "const", "override", "exec", "//"].into_iter().any(|word| text.starts_with(word))
}

const ROW: usize = 16;

/// Three rows of bytes, the place in the middle one, which is marked. A byte that is missing is shown as `..`.
fn around(bytes: &[u8], place: usize) -> String {
    let row = place / ROW;
    let mut lines = Vec::new();
    for start in (row.saturating_sub(1)..=row + 1).map(|row| row * ROW) {
        let mut cells: Vec<String> = bytes.iter().skip(start).take(ROW).map(|byte| format!("{byte:02x}")).collect();
        if start == row * ROW && place >= bytes.len() {
            cells.push("..".to_owned());
        }
        if !cells.is_empty() {
            lines.push(format!("  {start:>5}  {}", cells.join(" ")));
        }
        if start == row * ROW {
            lines.push(format!("         {}^^ byte {place}", "   ".repeat(place - start)));
        }
    }
    lines.join("\n")
}

/// The same for programs.
pub fn json(bytes: usize, judged: &Result<Sheet, Refusal>) -> Json {
    match judged {
        Ok(sheet) => json!({ "ok": true, "entries": sheet.entries().len(), "bytes": bytes }),
        // Of a file that is too long no more was read than that.
        Err(Refusal::SheetTooLong) => json!({ "ok": false, "refusal": refused(Refusal::SheetTooLong) }),
        Err(refusal) => json!({ "ok": false, "bytes": bytes, "refusal": refused(*refusal) }),
    }
}

/// A refusal for programs; a shift's has the left operand that it keeps.
pub fn refused(refusal: Refusal) -> Json {
    let mut all = json!({
        "number": refusal.number(),
        "name": refusal.name(),
        "detail": refusal.detail(),
        "sentence": refusal.sentence(),
    });
    if let Some(operand) = refusal.operand() {
        all["operand"] = json!(operand.to_string());
    }
    all
}

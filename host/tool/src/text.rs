//! The text form of a sheet, written: one entry a line, as `make` reads it.
use booth::{Kind, Sheet};

use crate::{lexer, names::Names};

/// A sheet as text.
pub fn of(sheet: &Sheet, names: &Names) -> String {
    let mut text = String::new();
    for (number, entry) in (0..).zip(sheet.entries()) {
        let name = names.write(number);
        let expr = names.expr(&entry.expr);
        text += &match (entry.kind, &entry.expr) {
            (Kind::Setting, booth::Expr::Literal(content)) => {
                format!("setting {name}: {} = {}\n", content.ty(), content.bare())
            }
            (kind, _) => format!("{kind} {name} = {expr}\n"),
        };
    }
    text
}

/// A name as the text form writes it: as it is where it is one word, and else in quotes.
pub fn written(name: &str) -> String {
    match lexer::is_name(name) {
        true => name.to_owned(),
        false => quoted(name),
    }
}

/// In quotes, with `\` before a quote and before itself.
pub fn quoted(name: &str) -> String {
    format!("\"{}\"", name.replace('\\', "\\\\").replace('"', "\\\""))
}

//! The entries and who names whom, as a picture.
use std::{
    io::{ErrorKind, Write},
    path::Path,
    process::{Command, Stdio},
};

use booth::{Entry, Kind, Results, Slot, Value};

use crate::{
    ask::Asked,
    complaint::{misused, named, reason, refused, Complaint},
    sentence,
};

const HEAD: &str =
    "digraph sheet {\n  rankdir=LR;\n  node [shape=box, style=filled, fillcolor=white, fontname=\"sans-serif\"];\n";

/// The picture in graphviz's words. With a setting, it and all that moves with it are in colour.
pub fn dot(asked: &Asked, results: &Results, setting: Option<u32>) -> Result<String, Complaint> {
    let moves = match setting {
        Some(entry) => dependents(results, entry)?,
        None => Vec::new(),
    };
    let mut text = String::from(HEAD);
    if let Some(setting) = setting {
        let words = format!("in colour: what moves with {}", asked.names.write(setting));
        text += &format!("  label={};\n", label(&[words]));
    }
    for (number, entry) in (0u32..).zip(results.sheet().entries()) {
        let mut looks = String::new();
        if entry.kind == Kind::Setting {
            looks += ", style=\"filled,rounded\"";
        }
        if results.slot(number).and_then(|slot| slot.value().copied()).is_none() {
            looks += ", fontcolor=red";
        }
        if setting == Some(number) {
            looks += ", fillcolor=orange";
        } else if moves.contains(&number) {
            looks += ", fillcolor=lightyellow, color=orange, penwidth=2";
        }
        text += &format!("  e{number} [label={}{looks}];\n", label(&lines(asked, results, number, entry)));
    }
    for (number, entry) in (0u32..).zip(results.sheet().entries()) {
        for named in entry.expr.names().into_iter().map(u32::from) {
            let coloured = setting == Some(named) || moves.contains(&named);
            text += &format!("  e{named} -> e{number}{};\n", if coloured { " [color=orange, penwidth=2]" } else { "" });
        }
    }
    Ok(text + "}\n")
}

/// What is written into an entry's box: what it is called, what it says, what it came to.
fn lines(asked: &Asked, results: &Results, number: u32, entry: &Entry) -> [String; 3] {
    let name = asked.names.get(number).map_or_else(String::new, |name| format!(" {name}"));
    let expr = asked.names.expr(&entry.expr);
    let value = match results.slot(number) {
        // A box is narrow: of a vector's shift it has the component that failed, and not both vectors.
        Some(Slot::Refused(refusal)) if refusal.operand().is_some() => refusal.to_string(),
        _ => sentence::of_entry(results, number, &asked.names),
    };
    [format!("#{number}{name}"), format!("{}: {}", entry.kind, cut(&expr)), cut(&value)]
}

/// What depends on a setting, by the library: its content is set to what it is, on a copy.
fn dependents(results: &Results, entry: u32) -> Result<Vec<u32>, Complaint> {
    let content = match results.slot(entry) {
        Some(Slot::Value(value)) => value,
        // No setting of fresh results is without a value.
        _ => Value::from(0u32),
    };
    let moved =
        results.clone().set(entry, content).map_err(|refusal| refused(format!("entry {entry}: {}", named(refusal))))?;
    Ok(moved.into_iter().map(u32::from).collect())
}

/// At most so many characters of a long text.
fn cut(text: &str) -> String {
    const MOST: usize = 60;
    match text.char_indices().nth(MOST) {
        Some((place, _)) => text[..place].to_owned() + "…",
        None => text.to_owned(),
    }
}

/// A label of lines, in quotes. Graphviz reads `&` as the start of a character's name, so it is named too.
fn label(lines: &[String]) -> String {
    let escaped = |line: &String| line.replace('&', "&amp;").replace('\\', "\\\\").replace('"', "\\\"");
    format!("\"{}\"", lines.iter().map(escaped).collect::<Vec<_>>().join("\\n"))
}

/// The picture's bytes for a file: DOT for `.dot`, and else what graphviz draws for the ending, as `.svg`, `.png` or `.pdf`.
pub fn drawn(dot: &str, path: &Path) -> Result<Vec<u8>, Complaint> {
    let ending = path.extension().and_then(|ending| ending.to_str()).unwrap_or("").to_ascii_lowercase();
    match &*ending {
        "dot" => Ok(dot.as_bytes().to_vec()),
        "svg" | "png" | "pdf" => run(dot, &ending),
        _ => Err(misused(format!("{}: a picture's name ends with .svg, .png, .pdf or .dot", path.display()))),
    }
}

fn run(dot: &str, ending: &str) -> Result<Vec<u8>, Complaint> {
    let failed = |why: String| misused(format!("graphviz did not draw the picture: {why}"));
    let started = Command::new("dot").arg(format!("-T{ending}")).stdin(Stdio::piped()).stdout(Stdio::piped()).spawn();
    let mut child = match started {
        Err(error) if error.kind() == ErrorKind::NotFound => {
            return Err(failed("there is no `dot` here; it is part of the package graphviz".to_owned()));
        }
        started => started.map_err(|error| failed(reason(&error)))?,
    };
    // All of it is read before anything is drawn, so this does not wait for the output to be taken.
    let fed = child.stdin.take().map_or(Ok(()), |mut input| input.write_all(dot.as_bytes()));
    let output =
        child.wait_with_output().and_then(|output| fed.map(|()| output)).map_err(|error| failed(reason(&error)))?;
    match output.status.success() {
        true => Ok(output.stdout),
        false => Err(failed("`dot` ended with an error".to_owned())),
    }
}

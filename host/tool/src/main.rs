//! The command line: each command's words to what it prints, and the status.
use std::{path::Path, process::ExitCode};

use booth::{Results, Sheet};
use clap::Parser;
use serde_json::Value as Json;
use tool::{
    ask::{self, Asked},
    changes, check,
    complaint::{misused, plain, refused, Complaint},
    explain, files, graph,
    line::{self, Command, Line, State},
    make,
    names::{beside, Names},
    ops, show, text,
};

fn main() -> ExitCode {
    let answered = match Line::try_parse_from(line::spread(std::env::args_os())) {
        Ok(line) => answer(line.command),
        // Help that was asked for is an answer too.
        Err(words) if !words.use_stderr() => Ok(words.render().to_string()),
        Err(words) => {
            words.print().unwrap_or(());
            return ExitCode::from(2);
        }
    };
    match answered.and_then(|text| files::print(&text)) {
        Ok(()) => ExitCode::SUCCESS,
        Err(Complaint { status, words }) => {
            complain(&words);
            ExitCode::from(status)
        }
    }
}

/// A line for standard error; where that is gone, nobody is there to read it.
fn complain(words: &str) {
    use std::io::Write;
    writeln!(std::io::stderr(), "booth: {}", plain(words)).unwrap_or(());
}

fn ask(path: &Path) -> Result<Asked, Complaint> {
    let asked = ask::sheet(path)?;
    asked.note.iter().for_each(|note| complain(note));
    Ok(asked)
}

/// The results in a file, or fresh ones. What makes the file doubtful is said beside the answer.
fn given(asked: &Asked, path: Option<&Path>) -> Result<Results, Complaint> {
    let results = asked.results(path)?;
    path.and_then(|path| asked.doubt(path, &results)).iter().for_each(|note| complain(note));
    Ok(results)
}

/// `cutter.sheet: 5 entries, 113 bytes`.
fn written(path: &Path, asked: &Asked, bytes: usize) -> String {
    format!("{}: {}, {bytes} bytes\n", path.display(), ask::entries(asked.sheet.entries().len() as u64))
}

fn pretty(json: &Json) -> String {
    format!("{json:#}\n")
}

/// What a command prints.
fn answer(command: Command) -> Result<String, Complaint> {
    match command {
        Command::Show { sheet, text: true, .. } => ask(&sheet).map(|asked| text::of(&asked.sheet, &asked.names)),
        Command::Show { sheet, state, json, .. } => show(&sheet, &state, json),
        Command::Check { sheet, json } => judge(&sheet, json),
        Command::Make { text, output } => write_sheet(&text, &output),
        Command::Fresh { sheet, output } => {
            let asked = ask(&sheet)?;
            let results = asked.results(None)?;
            files::apart(&output, &[&sheet, &beside(&sheet)])?;
            files::write(&[(&output, results.bytes())])?;
            Ok(written(&output, &asked, results.bytes().len()) + &asked.without_line(&results))
        }
        Command::Set { sheet, results, changes, json } => set(&sheet, &results, &changes, json),
        Command::Explain { sheet, entry, state, json } => {
            let asked = ask(&sheet)?;
            let entry = asked.entry(&entry)?;
            let mut results = given(&asked, state.results.as_deref())?;
            changes::make(&asked, &mut results, &state.set)?;
            match json {
                true => Ok(pretty(&explain::json(&asked, &results, entry))),
                false => Ok(explain::shown(&asked, &results, entry)),
            }
        }
        Command::Graph { sheet, setting, output } => {
            let asked = ask(&sheet)?;
            let setting = setting.map(|word| asked.setting(&word, &word)).transpose()?;
            let dot = graph::dot(&asked, &asked.results(None)?, setting)?;
            files::apart(&output, &[&sheet, &beside(&sheet)])?;
            files::write(&[(&output, &graph::drawn(&dot, &output)?)])?;
            Ok(format!("{}: {}\n", output.display(), ask::entries(asked.sheet.entries().len() as u64)))
        }
        Command::Ops => Ok(ops::page()),
    }
}

fn show(sheet: &Path, state: &State, json: bool) -> Result<String, Complaint> {
    let asked = ask(sheet)?;
    let mut results = given(&asked, state.results.as_deref())?;
    let moved = changes::make(&asked, &mut results, &state.set)?;
    let changed = !state.set.is_empty();
    if json {
        let mut all = show::json(&asked, &results);
        if changed {
            all["changes"] = moved.json();
        }
        return Ok(pretty(&all));
    }
    let lines = if changed { format!("\n{}", moved.lines(&asked)) } else { String::new() };
    Ok(show::table(&asked, &results) + &lines)
}

fn judge(path: &Path, json: bool) -> Result<String, Complaint> {
    let bytes = files::read(path, Sheet::MOST_BYTES)?;
    let judged = Sheet::new(bytes.clone());
    if json {
        files::print(&pretty(&check::json(bytes.len(), &judged)))?;
    }
    match judged {
        Ok(_) if json => Ok(String::new()),
        Ok(sheet) => Ok(check::accepted(&sheet)),
        Err(refusal) => Err(refused(check::shown(path, &bytes, refusal))),
    }
}

/// The longest text that is read; none of a sheet comes near.
const MOST_TEXT: usize = 4 << 20;

fn write_sheet(path: &Path, output: &Path) -> Result<String, Complaint> {
    let bytes = files::read(path, MOST_TEXT)?;
    if bytes.len() > MOST_TEXT {
        return Err(refused(format!("{}: longer than any text of a sheet", path.display())));
    }
    let source = path.display().to_string();
    let (sheet, names) = make::of_bytes(&source, &bytes)?;
    let asked = Asked { sheet, names, note: None };
    write_with_names(output, path, asked.sheet.bytes(), &asked.names)?;
    Ok(written(output, &asked, asked.sheet.bytes().len()) + &asked.without_line(&asked.results(None)?))
}

/// The sheet and, where it is a file, its names beside it. Neither is written over the text.
fn write_with_names(output: &Path, text: &Path, sheet: &[u8], names: &Names) -> Result<(), Complaint> {
    let (names_path, lines) = (beside(output), names.lines());
    files::apart(output, &[text])?;
    if !files::is_plain(output) {
        return files::write(&[(output, sheet)]);
    }
    files::apart(&names_path, &[text])?;
    files::write(&[(output, sheet), (&names_path, lines.as_bytes())])
}

fn set(sheet: &Path, path: &Path, words: &[String], json: bool) -> Result<String, Complaint> {
    let asked = ask(sheet)?;
    if !files::is_plain(path) {
        return Err(misused(format!("{} is no file that can be replaced", path.display())));
    }
    let mut results = given(&asked, Some(path))?;
    let moved = changes::make(&asked, &mut results, words)?;
    files::apart(path, &[sheet, &beside(sheet)])?;
    files::write(&[(path, results.bytes())])?;
    match json {
        true => Ok(pretty(&moved.json())),
        false => Ok(moved.lines(&asked) + &asked.without_line(&results)),
    }
}

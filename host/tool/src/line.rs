//! The commands, their words and what `--help` says of them.
use std::{ffi::OsString, path::PathBuf};

use clap::{Args, Parser, Subcommand};

const PROVED: &str = "\
Every answer is the library's and is proved: which sheets are accepted, what each entry comes to, what a change works, and that no other
byte moves. Reading your words, printing, and the walk of `explain`, which asks the library for each node, are this program's, and are
not proved.

Status: 0 answered, also where entries have no value; 1 a sheet, a text, results or a change is refused; 2 wrong use or file. Complaints
go to standard error.";

const EXAMPLES: &str = "\
Examples:
  booth make cutter.txt -o cutter.sheet      a sheet from text
  booth show cutter.sheet                    its constants
  booth show cutter.sheet --set cell=32      what they would be, and which moved
  booth explain cutter.sheet limit           which operator gave this one, or why it has no value
  booth ops                                  operators, types, stages and refusals on one page";

/// Sheets of WGSL constants: make them, show them, change their settings, and see which constant came from what.
#[derive(Parser)]
#[command(name = "booth", version, after_help = format!("{EXAMPLES}\n\n{PROVED}"), arg_required_else_help = true)]
pub struct Line {
    #[command(subcommand)]
    pub command: Command,
}

#[derive(Subcommand)]
pub enum Command {
    /// A table of the entries: expressions, and values or why there is none
    #[command(
        after_help = "Examples:\n  booth show cutter.sheet\n  booth show cutter.sheet --set cell=32 scale=0.5\n  booth show cutter.sheet --text > cutter.txt"
    )]
    Show {
        /// A file with a sheet
        sheet: PathBuf,
        #[command(flatten)]
        state: State,
        /// The text that `make` reads, and nothing else
        #[arg(long, conflicts_with_all = ["json", "set", "results"])]
        text: bool,
        /// For programs
        #[arg(long)]
        json: bool,
    },
    /// Whether a sheet is accepted; if not, which check fails and where
    Check {
        /// A file with a sheet
        sheet: PathBuf,
        /// For programs
        #[arg(long)]
        json: bool,
    },
    /// A sheet from text, one entry a line
    #[command(after_help = MAKE)]
    Make {
        /// A file with the text
        text: PathBuf,
        /// The sheet to write; the names go beside it, into SHEET.names
        #[arg(short, value_name = "SHEET")]
        output: PathBuf,
    },
    /// The results of a sheet as a file: 136 bytes an entry
    Fresh {
        /// A file with a sheet
        sheet: PathBuf,
        /// The results to write
        #[arg(short, value_name = "RESULTS")]
        output: PathBuf,
    },
    /// Changes settings in a results file: all of them, or none if one is refused
    #[command(after_help = "Example:\n  booth set cutter.sheet cutter.results cell=32 scale=0.5")]
    Set {
        /// A file with a sheet
        sheet: PathBuf,
        /// The results of that sheet, as `fresh` wrote them
        results: PathBuf,
        /// A setting by name or number, and its new content
        #[arg(required = true, value_name = "ENTRY=CONTENT")]
        changes: Vec<String>,
        /// For programs
        #[arg(long)]
        json: bool,
    },
    /// The tree of one entry: which operator gave this constant, or why it has none
    Explain {
        /// A file with a sheet
        sheet: PathBuf,
        /// A name or a number
        entry: String,
        #[command(flatten)]
        state: State,
        /// For programs
        #[arg(long)]
        json: bool,
    },
    /// A picture of the entries and who names whom
    Graph {
        /// A file with a sheet
        sheet: PathBuf,
        /// A setting by name or number: what moves with it is in colour
        #[arg(long, value_name = "ENTRY")]
        setting: Option<String>,
        /// The picture to write: .svg, .png, .pdf, or .dot for graphviz's own words
        #[arg(short, value_name = "FILE")]
        output: PathBuf,
    },
    /// Operators, types, stages and refusals, with their codes
    Ops,
}

const MAKE: &str = "\
One entry a line; // begins a comment:
  setting cell: u32 = 5
  const   step = 0.25f
  override mask = 1u << cell
  exec    far = vec3<f32>(1.0, 2.0, 4.0) * step

An entry names earlier ones, by name or as #0. A name that is not one word stands in quotes: \"cell size\". An entry without a name
is called by its number: const #3 = 1.

Literals are WGSL's, as `show` prints them: 5, 5i, 5u, 1.5, 1.5f, 1.5h, true, vec2<f32>(1.0, 2.0), mat2x2<f32>(..); and inf, inf_f,
inf_h, nan, nan_f, nan_h. A - right before a number is part of it; -(5) is the operator. Settings, vectors and matrices are written
with literals only: vec2<f32>(1.0, 1.0) * scale is a vector of a setting. Operators bind as in WGSL, which asks for parentheses
where most readers would want them. There are no functions and no conversions.

A sheet holds 128 entries, 16,384 bytes, expressions 32 deep.";

/// Each change behind `--set` as a word of its own, `--set=cell=32`: so `--set` takes every word that is one, and no file behind them.
pub fn spread(words: impl Iterator<Item = OsString>) -> Vec<OsString> {
    let (mut all, mut changes) = (Vec::new(), false);
    for word in words {
        let is_change = word.to_str().map_or(false, |text| text.contains('=') && !text.starts_with("--"));
        if changes && is_change {
            // The word `--set` itself goes with its first change.
            if all.last().map_or(false, |last| last == "--set") {
                all.pop();
            }
            let mut whole = OsString::from("--set=");
            whole.push(word);
            all.push(whole);
        } else {
            changes = word == "--set";
            all.push(word);
        }
    }
    all
}

/// Which state of a sheet is asked about.
#[derive(Args)]
pub struct State {
    /// After these changes, one or more; content is decimal, 0x.. or a WGSL literal, read by the setting's own type
    #[arg(long, value_name = "ENTRY=CONTENT")]
    pub set: Vec<String>,
    /// The results in this file, and not fresh ones
    #[arg(long, value_name = "FILE")]
    pub results: Option<PathBuf>,
}

//! What the tests of the command line share: a folder of their own, and the tool run in it as a person would.
#![allow(dead_code)] // Each test file uses a part of this.
use std::{
    env, fs,
    path::{Path, PathBuf},
    process::{self, Command, Stdio},
};

/// Document 01's example of 59 bytes: a setting of 5, `1u << #0`, and `#1 - 1u`.
pub const EXAMPLE: &[u8; 59] = include_bytes!("../../../../crates/listing/data/example.sheet");

/// The example with one byte changed.
pub fn with(place: usize, byte: u8) -> Vec<u8> {
    let mut sheet = EXAMPLE.to_vec();
    sheet[place] = byte;
    sheet
}

/// A new folder that goes away with its test.
pub struct Folder(PathBuf);

impl Folder {
    pub fn new(test: &str) -> Folder {
        let path = Path::new(env!("CARGO_TARGET_TMPDIR")).join(format!("{test}-{}", process::id()));
        fs::remove_dir_all(&path).unwrap_or(());
        fs::create_dir_all(&path).unwrap();
        Folder(path)
    }

    pub fn path(&self, name: &str) -> PathBuf {
        self.0.join(name)
    }

    pub fn write(&self, name: &str, bytes: impl AsRef<[u8]>) {
        fs::write(self.path(name), bytes).unwrap();
    }

    pub fn read(&self, name: &str) -> Vec<u8> {
        fs::read(self.path(name)).unwrap_or_else(|error| panic!("{name}: {error}"))
    }

    pub fn remove(&self, name: &str) {
        fs::remove_file(self.path(name)).unwrap();
    }

    pub fn read_text(&self, name: &str) -> String {
        String::from_utf8(self.read(name)).unwrap()
    }

    /// The names of all that lies in it, sorted.
    pub fn names(&self) -> Vec<String> {
        let all = fs::read_dir(&self.0).unwrap().map(|entry| entry.unwrap().file_name().to_string_lossy().into_owned());
        let mut all: Vec<String> = all.collect();
        all.sort();
        all
    }

    /// The tool, to be run in this folder. Paths are given relative to it, so that no output holds a path of this machine.
    pub fn command<S: AsRef<std::ffi::OsStr>>(&self, words: &[S]) -> Command {
        let mut command = Command::new(env!("CARGO_BIN_EXE_booth"));
        command.args(words).current_dir(&self.0).stdin(Stdio::null());
        command
    }

    /// Runs the tool with the words of a line.
    pub fn run(&self, line: &str) -> Said {
        self.booth(&line.split_whitespace().collect::<Vec<_>>())
    }

    /// Runs the tool with these words, to its end.
    pub fn booth(&self, words: &[&str]) -> Said {
        let output = self.command(words).output().unwrap();
        Said {
            asked: words.iter().fold("booth".to_owned(), |line, word| line + " " + &shell(word)),
            // A panic ends with 101, a signal with none: both are no answer.
            status: output.status.code().unwrap_or(-1),
            out: String::from_utf8(output.stdout).unwrap(),
            err: String::from_utf8(output.stderr).unwrap(),
        }
    }
}

/// A folder with the example and its fresh results.
pub fn example(test: &str) -> Folder {
    let folder = Folder::new(test);
    folder.write("a.sheet", EXAMPLE);
    folder.run("fresh a.sheet -o a.results").well();
    folder
}

/// What lies in that folder.
pub const FILES: [&str; 2] = ["a.results", "a.sheet"];

impl Drop for Folder {
    fn drop(&mut self) {
        fs::remove_dir_all(&self.0).unwrap_or(());
    }
}

/// A word as a shell would be given it.
fn shell(word: &str) -> String {
    let plain = |c: char| c.is_ascii_alphanumeric() || "-_./=".contains(c);
    match !word.is_empty() && word.chars().all(plain) {
        true => word.to_owned(),
        false => format!("'{}'", word.replace('\'', "'\\''")),
    }
}

/// What the tool said.
pub struct Said {
    pub asked: String,
    pub status: i32,
    pub out: String,
    pub err: String,
}

impl Said {
    /// It went well, and nothing was complained of.
    pub fn well(self) -> Said {
        assert_eq!((self.status, &*self.err), (0, ""), "{} should go well", self.asked);
        self
    }

    /// It ended with this status, a sentence for people, and nothing on standard output.
    pub fn failed(self, status: i32) -> Said {
        assert_eq!(self.status, status, "the status of {}, which said: {}{}", self.asked, self.out, self.err);
        assert_eq!(self.out, "", "standard output of {}", self.asked);
        sentence(&self.asked, &self.err);
        self
    }

    /// The complaint holds each of these.
    pub fn holds(self, parts: &[&str]) -> Said {
        for part in parts {
            assert!(self.err.contains(part), "{} should say {part:?}, and said: {}", self.asked, self.err);
        }
        self
    }

    pub fn json(&self) -> serde_json::Value {
        serde_json::from_str(&self.out).unwrap_or_else(|error| panic!("{}: no JSON: {error}\n{}", self.asked, self.out))
    }
}

/// A complaint has some words and none of those that a program says to itself.
pub fn sentence(asked: &str, words: &str) {
    assert!(words.split_whitespace().count() >= 4, "{asked}: no sentence: {words:?}");
    for sign in ["panicked", "RUST_BACKTRACE", "Os {", "Err(", "Some(", "(os error", "unwrap"] {
        assert!(!words.contains(sign), "{asked}: {words}");
    }
}

/// Whether a program is on the PATH.
pub fn is_there(program: &str) -> bool {
    env::var_os("PATH").map_or(false, |all| env::split_paths(&all).any(|folder| folder.join(program).is_file()))
}

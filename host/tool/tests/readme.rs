//! README's session in the terminal: its very commands are run, and print what stands there.
use std::{env, fs, path::Path, process::Command};

/// A block between fences: the words behind the first fence, and the lines between.
struct Block<'a> {
    words: &'a str,
    lines: Vec<&'a str>,
}

fn blocks(text: &str) -> Vec<Block<'_>> {
    let mut all = Vec::new();
    let mut open: Option<Block> = None;
    for line in text.lines() {
        match (line.strip_prefix("```"), &mut open) {
            (Some(_), Some(_)) => all.extend(open.take()),
            (Some(words), None) => open = Some(Block { words, lines: Vec::new() }),
            (None, Some(block)) => block.lines.push(line),
            (None, None) => {}
        }
    }
    all
}

/// What a shell prints for a command where `./booth` is the tool.
fn run(folder: &Path, command: &str) -> String {
    let here = format!("'{}'", env!("CARGO_BIN_EXE_booth"));
    let output =
        Command::new("sh").current_dir(folder).args(["-c", &command.replace("./booth", &here)]).output().unwrap();
    assert!(output.status.success(), "{command}: {}", String::from_utf8_lossy(&output.stderr));
    String::from_utf8(output.stdout).unwrap()
}

#[test]
fn the_session() {
    let root = Path::new(env!("CARGO_MANIFEST_DIR")).join("../..");
    let readme = fs::read_to_string(root.join("README.md")).unwrap();
    let folder = Path::new(env!("CARGO_TARGET_TMPDIR")).join("readme");
    fs::create_dir_all(&folder).unwrap();
    let mut commands = 0;
    for block in blocks(&readme) {
        match block.words.split_once(' ').unwrap_or((block.words, "")) {
            ("text", name) if !name.is_empty() => fs::write(folder.join(name), block.lines.join("\n") + "\n").unwrap(),
            ("console", _) => {
                let text = block.lines.join("\n") + "\n";
                for part in text.split("$ ").skip(1) {
                    let (command, printed) = part.split_once('\n').unwrap();
                    assert_eq!(run(&folder, command), printed, "{command}");
                    commands += 1;
                }
            }
            _ => {}
        }
    }
    assert_eq!(commands, 9, "commands in README");
}

/// The first command of README, on the example that is part of the repository.
#[test]
fn the_first_command() {
    let root = Path::new(env!("CARGO_MANIFEST_DIR")).join("../..");
    let readme = fs::read_to_string(root.join("README.md")).unwrap();
    let printed = run(&root, "./booth show crates/listing/data/example.sheet");
    let indented: String = printed.lines().map(|line| format!("    {line}\n")).collect();
    assert!(readme.contains(&indented), "README does not have:\n{indented}");
}

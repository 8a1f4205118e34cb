//! booth.h compiles as strict C and as C++, has document 01's numbers and names, and agrees with the library. examples/example.c
//! does what it says, also with the sheets that docs/FORMAT.md shows.
#[path = "common/refusals.rs"]
mod common;

use std::{
    fs,
    io::{self, Write},
    path::{Path, PathBuf},
    process::Command,
};

use common::REFUSALS;

const STRICT: [&str; 4] = ["-pedantic", "-Wall", "-Wextra", "-Werror"];

/// The constants before the refusals, in the header's order.
const CODES: [(&str, u32); 40] = [
    ("SLOT", 136),
    ("SHEET_BYTES", 16384),
    ("ENTRIES", 128),
    ("DEPTH", 32),
    ("BOOL", 0),
    ("ABSTRACT_INT", 1),
    ("ABSTRACT_FLOAT", 2),
    ("I32", 3),
    ("U32", 4),
    ("F32", 5),
    ("F16", 6),
    ("CONST", 0),
    ("OVERRIDE", 1),
    ("EXEC", 2),
    ("SETTING", 3),
    ("NODE_LITERAL", 1),
    ("NODE_REFERENCE", 2),
    ("NODE_UNARY", 3),
    ("NODE_BINARY", 4),
    ("NOT", 1),
    ("NEG", 2),
    ("BITNOT", 3),
    ("OR", 1),
    ("AND", 2),
    ("ADD", 3),
    ("SUB", 4),
    ("MUL", 5),
    ("DIV", 6),
    ("REM", 7),
    ("EQ", 8),
    ("NE", 9),
    ("LT", 10),
    ("LE", 11),
    ("GT", 12),
    ("GE", 13),
    ("BITOR", 14),
    ("BITAND", 15),
    ("BITXOR", 16),
    ("SHL", 17),
    ("SHR", 18),
];

/// Every constant with its value. That of ShlOverflow is BOOTH_REFUSED_SHL_OVERFLOW.
fn constants() -> Vec<(String, u32)> {
    let upper = |name: &str| -> String {
        name.chars().map(|c| if c.is_uppercase() { format!("_{c}") } else { c.to_uppercase().to_string() }).collect()
    };
    let codes = CODES.iter().map(|(name, value)| (format!("BOOTH_{name}"), *value));
    let refusals = REFUSALS.iter().map(|(number, name)| (format!("BOOTH_REFUSED{}", upper(name)), u32::from(*number)));
    codes.chain([("BOOTH_OK".to_owned(), 0)]).chain(refusals).collect()
}

fn name_of(number: u32) -> &'static str {
    match REFUSALS.iter().find(|refusal| u32::from(refusal.0) == number) {
        Some(refusal) => refusal.1,
        None if number == 0 => "ok",
        None => "unknown",
    }
}

/// A path from the folder of this crate.
fn here(path: &str) -> PathBuf {
    Path::new(env!("CARGO_MANIFEST_DIR")).join(path)
}

fn temporary(name: &str) -> PathBuf {
    Path::new(env!("CARGO_TARGET_TMPDIR")).join(name)
}

/// The program of a C file, linked with the library.
fn built(source: &str, name: &str) -> PathBuf {
    let program = temporary(name);
    let mut cc = Command::new("cc");
    cc.arg("-std=c99").args(STRICT).arg("-I").arg(here("")).arg(here(source)).arg(env!("BOOTH_FOUND"));
    let status = cc.args(["-lm", "-o"]).arg(&program).status().expect("cc");
    assert!(status.success(), "{source}");
    program
}

/// Status, standard output and standard error of a program.
fn ran(program: &Path, words: &[&str]) -> (Option<i32>, String, String) {
    let output = Command::new(program).args(words).output().unwrap();
    let text = |bytes| String::from_utf8(bytes).unwrap();
    (output.status.code(), text(output.stdout), text(output.stderr))
}

#[test]
fn the_header_works() {
    let mut said: String = constants().iter().map(|(name, value)| format!("{name} {value}\n")).collect();
    said.extend((0..256).map(|number| format!("{number} {}\n", name_of(number))));
    let unmarked = "7".repeat(129);
    let marked = format!("111{}7", "0".repeat(125));
    said += &format!(
        "check: 0 3\nfresh: 0 3\nstatuses 0 0 0, marks {unmarked}\n\
         a sheet cut short: 22 58\nmarks too short: 30 0\nmarks too long: 30 0\nno setting: 31 0\nstatuses 0 0 0, marks {unmarked}\n\
         marks: 0 2\nstatuses 0 9 11, marks {marked}\n\
         change: 0 2\nstatuses 0 0 0, marks {marked}\n\
         sum: 0 0\nwhich is 2\nnot: 1 0\n\
         quotient: 7 0\nleaves aa aa aa aa aa aa aa aa aa\n\
         shift: 9 32\nleaves 09 04 01 01 20 00 00 00 01\n"
    );
    assert_eq!(ran(&built("tests/header.c", "header"), &[]), (Some(0), said, String::new()));
}

#[test]
fn no_constant_goes_untested() {
    let header = fs::read_to_string(here("booth.h")).unwrap();
    let declared = header.lines().filter_map(|line| {
        let line = line.trim_start().trim_start_matches("#define ");
        let name = line.split(|c: char| c != '_' && !c.is_ascii_alphanumeric()).next()?;
        (line.starts_with("BOOTH_") && !["BOOTH_H", "BOOTH_NUMBER", "BOOTH_DETAIL"].contains(&name)).then_some(name)
    });
    let tested = constants();
    assert_eq!(declared.collect::<Vec<_>>(), tested.iter().map(|(name, _)| name.as_str()).collect::<Vec<_>>());
}

#[test]
fn the_header_is_cpp() {
    let mut cpp = Command::new("c++");
    cpp.args(["-x", "c++", "-std=c++11", "-fsyntax-only"]).args(STRICT).arg("-I").arg(here(""));
    match cpp.arg(here("tests/header.c")).status() {
        Ok(status) => assert!(status.success()),
        Err(error) if error.kind() == io::ErrorKind::NotFound => {
            // Written past the test's own capture, so that it is seen.
            writeln!(io::stderr(), "header: not compiled as C++, for there is no c++").unwrap();
        }
        Err(error) => panic!("c++: {error}"),
    }
}

/// The bytes of the sheet that docs/FORMAT.md shows under a heading, each row in its place.
fn shown(heading: &str) -> Vec<u8> {
    let page = fs::read_to_string(here("../docs/FORMAT.md")).unwrap();
    let below = page.split(heading).nth(1).expect(heading);
    let table = below.split("| place | bytes | what they say |\n|---|---|---|\n").nth(1).expect("a table");
    let mut sheet = Vec::new();
    for row in table.lines().take_while(|line| line.starts_with('|')) {
        let cells: Vec<&str> = row.split('|').map(str::trim).collect();
        let first = sheet.len();
        sheet.extend(cells[2].trim_matches('`').split(' ').map(|byte| u8::from_str_radix(byte, 16).expect(row)));
        let last = sheet.len() - 1;
        assert_eq!(cells[1], if first == last { format!("{first}") } else { format!("{first} to {last}") });
    }
    sheet
}

#[test]
fn the_example_works() {
    let program = built("examples/example.c", "example");
    let example = here("../crates/listing/data/example.sheet");
    let example = example.to_str().unwrap();
    assert_eq!(shown("\n## The example, byte by byte\n"), fs::read(example).unwrap());

    let fresh = "entry 0: ok 5\nentry 1: ok 32\nentry 2: ok 31\n".to_owned();
    let changed =
        "changed entry 0; dependents: 2; worked: 0 1 2\nentry 0: ok 32\nentry 1: ShlOverflow 32, operand 1\nentry 2: FromEntry 1\n";
    assert_eq!(ran(&program, &[example]), (Some(0), fresh.clone(), String::new()));
    assert_eq!(ran(&program, &[example, "32"]), (Some(0), fresh.clone() + changed, String::new()));
    let said = "example: the change is refused: BadValue (26), detail 0\n";
    assert_eq!(ran(&program, &[example, "4294967296"]), (Some(1), fresh.clone(), said.to_owned()));
    let said = "example: not a number of the setting's type: 3x\n";
    assert_eq!(ran(&program, &[example, "3x"]), (Some(2), fresh, said.to_owned()));
}

#[test]
fn the_example_tells_what_is_wrong() {
    let program = built("examples/example.c", "example_wrong");
    let fails = |words: &[&str], status: i32, said: String| {
        assert_eq!(ran(&program, words), (Some(status), String::new(), format!("example: {said}\n")));
    };
    fails(&[], 2, "usage: example SHEET [NUMBER]".to_owned());
    let missing = temporary("no such sheet");
    let missing = missing.to_str().unwrap();
    fails(&[missing], 2, format!("cannot read {missing}"));

    let file = temporary("refused.sheet");
    let refused = file.to_str().unwrap();
    fs::write(refused, [0xd5, 0x18, 0, 0, 0]).unwrap();
    fails(&[refused, "32"], 1, format!("{refused} is refused: BadMark (21), detail 0"));
    fs::write(refused, vec![0; 16385]).unwrap();
    fails(&[refused, "32"], 1, format!("{refused} is refused: SheetTooLong (20), detail 0"));
    fs::write(refused, []).unwrap();
    fails(&[refused, "32"], 1, "the change is refused: NotASetting (31), detail 0".to_owned());
}

#[test]
fn the_example_reads_the_written_sheet() {
    let program = built("examples/example.c", "example_written");
    let file = temporary("written.sheet");
    fs::write(&file, shown("\n## How to write a sheet\n")).unwrap();
    let entries = |scale: &str, reach: &str, flipped: u32| {
        format!(
            "entry 0: ok {scale}\nentry 1: ok type 5, 1x3: 000000003f800000 0000000040000000 0000000040400000\n\
             entry 2: ok type 5, 1x3: {reach}\nentry 3: ok type 0, 1x1: {flipped:016}\n"
        )
    };
    let said = entries("1.5", "000000003fc00000 0000000040400000 0000000040900000", 1)
        + "changed entry 0; dependents: 2; worked: 0 2 3\n"
        + &entries("-0.5", "00000000bf000000 00000000bf800000 00000000bfc00000", 0);
    assert_eq!(ran(&program, &[file.to_str().unwrap(), "-0.5"]), (Some(0), said, String::new()));
}

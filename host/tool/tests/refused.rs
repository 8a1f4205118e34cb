//! What is refused: every refusal of a sheet and of a change, with its number, place and sentence. The status is 1, and nothing stands on standard output but the
//! JSON of `check`.
mod common;

use std::path::Path;

use booth::{check, Refusal, SLOT};
use common::{example, with, Folder, Said, EXAMPLE, FILES};

// Sheets.

/// A record of a stage byte and a body.
fn record(stage: u8, body: &[u8]) -> Vec<u8> {
    [&[0xd5, 0x17, stage, body.len() as u8, (body.len() >> 8) as u8], body].concat()
}

/// An 01 node.
fn literal(ty: u8, columns: u8, rows: u8, components: &[u64]) -> Vec<u8> {
    let bytes = components.iter().flat_map(|bits| bits.to_le_bytes());
    [1, ty, columns, rows].into_iter().chain(bytes).collect()
}

/// `~` so many times over a literal, which is one deep itself.
fn deep(count: usize) -> Vec<u8> {
    record(0, &[[3, 3].repeat(count), literal(4, 1, 1, &[0])].concat())
}

/// Sheets that are refused, with the number and the place that document 01 gives them.
fn refused_sheets() -> Vec<(u8, usize, Vec<u8>)> {
    let one = &EXAMPLE[..17];
    let behind = |sheet: &[u8]| [&EXAMPLE[..], sheet].concat();
    vec![
        (20, 0, vec![0; 16_385]),
        (20, 0, one.repeat(1000)),
        (21, 0, vec![0; 16_384]),
        (21, 0, with(0, 0xd4)),
        (21, 0, with(1, 0)),
        (21, 17, with(17, 0)),
        (21, 17, with(18, 0x71)),
        (21, 59, behind(b"more!")),
        // The first missing byte: of a record's head, of its body in the sheet, of a node in its body.
        (22, 1, vec![0]),
        (22, 1, vec![0xd5]),
        (22, 20, EXAMPLE[..20].to_vec()),
        (22, 22, EXAMPLE[..22].to_vec()),
        (22, 58, EXAMPLE[..58].to_vec()),
        (22, 61, behind(&[0xd5, 0x17])),
        (22, 5, record(0, &[])),
        (22, 6, record(0, &[1])),
        (22, 6, record(0, &[3])),
        (22, 7, record(0, &[3, 1])),
        (22, 16, with(3, 11)),
        (22, 19, [record(0, &[4, 3, 1, 4, 1, 1, 1, 0, 0, 0, 0, 0, 0, 0]), one.to_vec()].concat()),
        // An unknown stage, and a reference to a later one.
        (23, 2, with(2, 4)),
        (23, 19, with(19, 255)),
        (23, 36, with(19, 0)),
        (23, 45, with(40, 0)),
        (24, 17 * 128, one.repeat(129)),
        // Tags and operators; a setting that is no literal.
        (25, 22, with(22, 5)),
        (25, 22, with(22, 0)),
        (25, 22, with(23, 19)),
        (25, 22, with(23, 0)),
        (25, 5, record(0, &[3, 4, 1])),
        (25, 64, behind(&record(3, &[2, 0]))),
        (25, 5, record(3, &[3, 3, 1, 4, 1, 1, 0, 0, 0, 0, 0, 0, 0, 0])),
        // Types, shapes and patterns.
        (26, 24, with(25, 7)),
        (26, 24, with(26, 0)),
        (26, 24, with(27, 5)),
        (26, 5, record(0, &literal(4, 2, 2, &[0; 4]))),
        (26, 5, record(0, &literal(5, 2, 1, &[0; 2]))),
        (26, 5, record(0, &literal(0, 1, 1, &[2]))),
        (26, 5, record(0, &literal(3, 1, 1, &[1 << 32]))),
        (26, 5, record(0, &literal(6, 1, 2, &[0, 1 << 16]))),
        (26, 5, record(0, &[1, 9, 1, 1])),
        (26, 5, record(3, &literal(4, 1, 2, &[0, 0]))),
        (26, 5, record(3, &literal(1, 1, 1, &[5]))),
        (26, 5, record(3, &literal(2, 1, 1, &[5]))),
        (27, 36, with(37, 1)),
        (27, 36, with(37, 2)),
        (27, 45, with(46, 255)),
        (27, 5, record(0, &[2, 0])),
        (28, 5 + 64, deep(32)),
        (28, 59 + 5 + 64, behind(&deep(60))),
        (29, 17, [&with(3, 13)[..17], &[0], &EXAMPLE[17..]].concat()),
        (29, 17, [record(0, &[&literal(4, 1, 1, &[7])[..], &[2, 0]].concat()), one.to_vec()].concat()),
    ]
}

#[test]
fn every_refusal_of_a_sheet() {
    let folder = Folder::new("refused-sheets");
    let mut seen = Vec::new();
    for (number, place, bytes) in refused_sheets() {
        seen.push(number);
        folder.write("a.sheet", &bytes);
        let refusal = Refusal::new(number, place as u32, None).unwrap();
        assert_eq!(check(&bytes), Err(refusal), "{bytes:02x?}");
        let name = format!("{} ({number})", refusal.name());
        let sentence = match number {
            22 if place < bytes.len() => {
                format!("the record's body ends before byte {place}, and its expression goes on")
            }
            _ => refusal.sentence(),
        };
        let said = folder.run("check a.sheet").failed(1).holds(&["a.sheet", &name, &sentence]);
        if number != 20 {
            check_mark(&said, &bytes, place);
        }

        let json = folder.run("check a.sheet --json");
        assert_eq!((json.status, &json.err), (1, &said.err), "{}", json.asked);
        let json = json.json();
        assert_eq!(json["ok"], false);
        assert!(number == 20 || json["bytes"] == bytes.len(), "{json}");
        let found = &json["refusal"];
        assert_eq!((&found["number"], &found["detail"]), (&number.into(), &place.into()));
        assert_eq!((&found["name"], &found["sentence"]), (&refusal.name().into(), &refusal.sentence().into()));
    }
    seen.dedup();
    assert_eq!(seen, (20..=29).collect::<Vec<u8>>());
}

/// The mark stands under the byte of the place, or under the gap where it is missing.
fn check_mark(said: &Said, bytes: &[u8], place: usize) {
    let lines: Vec<&str> = said.err.lines().collect();
    let at = lines.iter().position(|line| line.contains("^^")).unwrap_or_else(|| panic!("no mark: {}", said.err));
    let column = lines[at].find("^^").unwrap();
    assert!(lines[at].ends_with(&format!("^^ byte {place}")), "{}", said.err);
    let shown = bytes.get(place).map_or_else(|| "..".to_owned(), |byte| format!("{byte:02x}"));
    assert_eq!(&lines[at - 1][column..column + 2], shown, "{}", said.err);
    let start = lines[at - 1].split_whitespace().next().unwrap();
    assert_eq!(start.parse::<usize>(), Ok(place / 16 * 16), "{}", said.err);
}

#[test]
fn a_refused_sheet_is_refused_by_every_command() {
    let folder = example("refused-commands");
    folder.write("bad.sheet", with(22, 5));
    let before = folder.names();
    for line in [
        "check bad.sheet",
        "show bad.sheet",
        "show bad.sheet --json",
        "show bad.sheet --text",
        "show bad.sheet --set 0=32",
        "show bad.sheet --results a.results",
        "fresh bad.sheet -o b.results",
        "set bad.sheet a.results 0=32",
        "explain bad.sheet 0",
        "graph bad.sheet -o b.dot",
    ] {
        folder.run(line).failed(1).holds(&["bad.sheet", "BadNode (25)", "^^ byte 22"]);
    }
    assert_eq!(folder.names(), before);
}

#[test]
fn endless_files_are_read_to_their_limit() {
    if !Path::new("/dev/zero").exists() {
        return println!("no /dev/zero here: nothing was tried");
    }
    let folder = example("refused-endless");
    folder.run("check /dev/zero").failed(1).holds(&["SheetTooLong (20)"]);
    let more = "3 entries take 408 bytes, and it has more";
    folder.run("show a.sheet --results /dev/zero").failed(1).holds(&["ResultsSize (30)", more]);
    folder.run("make /dev/zero -o b.sheet").failed(1).holds(&["/dev/zero"]);
    assert_eq!(folder.names(), FILES);
}

// Changes.

#[test]
fn results_of_a_wrong_size() {
    let folder = example("refused-size");
    for size in [0, 1, 135, 136, 407, 409, 544, 128 * SLOT, 128 * SLOT + 1, 100_000] {
        folder.write("b.results", vec![0; size]);
        for line in [
            "set a.sheet b.results 0=32",
            "set a.sheet b.results 0=32 --json",
            "show a.sheet --results b.results",
            "explain a.sheet 1 --results b.results",
        ] {
            folder.run(line).failed(1).holds(&["b.results", "ResultsSize (30)", "136"]);
        }
        assert_eq!(folder.read("b.results"), vec![0; size]);
    }
}

/// Every command that takes changes, with these words: it fails with this status, says this, and leaves the results as they were.
fn check_changes(folder: &Folder, words: &[&str], status: i32, parts: &[&str]) {
    let before = folder.read("a.results");
    for line in [
        "set a.sheet a.results",
        "set --json a.sheet a.results",
        "show a.sheet --set",
        "show --json a.sheet --set",
        "explain a.sheet 1 --set",
    ] {
        let command: Vec<&str> = line.split(' ').collect();
        folder.booth(&[&command, words].concat()).failed(status).holds(parts);
        assert_eq!(folder.read("a.results"), before, "{command:?} {words:?} wrote");
    }
    assert_eq!(folder.names(), FILES);
}

#[test]
fn no_setting() {
    let folder = example("refused-setting");
    for word in ["1=5", "#2=5", "1=x", "2=1.5"] {
        check_changes(&folder, &[word], 1, &[word, "NotASetting (31)", "its stage is override"]);
    }
    // The last two have more digits than 64 bits hold.
    let past = "3=1 99=1 128=1 #255=0 256=0 4294967296=1 18446744073709551616=1 #99999999999999999999=1";
    for word in past.split(' ') {
        check_changes(&folder, &[word], 1, &[word, "NotASetting (31)", "the sheet has 3 entries"]);
    }
    folder.write("v.txt", "const v = vec2<f32>(1.0, 2.0)");
    folder.run("make v.txt -o v.sheet").well();
    for (sheet, entry) in [("a.sheet", "1"), ("a.sheet", "#2"), ("v.sheet", "v"), ("a.sheet", "3")] {
        folder.run(&format!("graph {sheet} -o b.dot --setting {entry}")).failed(1).holds(&["NotASetting (31)"]);
    }
    ["v.txt", "v.sheet", "v.sheet.names"].into_iter().for_each(|name| folder.remove(name));
    for command in [&["graph", "a.sheet", "-o", "b.dot", "--setting"][..], &["explain", "a.sheet"]] {
        for entry in ["3", "#99", "18446744073709551616"] {
            folder.booth(&[command, &[entry]].concat()).failed(1).holds(&[entry, "3 entries"]);
        }
        for entry in ["nobody", "", "#", "#-1", "+1", "1.0", "0x1", "1 "] {
            folder.booth(&[command, &[entry]].concat()).failed(2);
        }
    }
    assert_eq!(folder.names(), FILES);
}

#[test]
fn words_of_another_type() {
    let folder = example("refused-words");
    for (word, why) in [
        ("0=5i", "i32"),
        ("0=5f", "f32"),
        ("0=5h", "f16"),
        ("0=1.5", "whole"),
        ("0=5.0", "whole"),
        ("0=1e3", "whole"),
        ("0=-1", "4294967295"),
        ("0=-1u", "4294967295"),
        ("0=4294967296", "4294967295"),
        ("0=0x100000000", "4294967295"),
        ("0=99999999999999999999999999999999999999999999", "4294967295"),
        ("0=true", "u32"),
        ("0=inf", "u32"),
        ("0=nan", "u32"),
        ("0=five", "u32"),
        ("0=0x", "u32"),
        ("0=+5", "u32"),
        ("0= 5", "u32"),
        ("0=5 ", "u32"),
        ("0=5,6", "u32"),
        ("0=vec2<u32>(1, 2)", "u32"),
        ("0=５", "u32"),
    ] {
        check_changes(&folder, &[word], 2, &[word, why]);
    }
    for word in ["0", "=", "=5", "0=", "", "5u", "a b"] {
        check_changes(&folder, &[word], 2, &["ENTRY=CONTENT"]);
    }
    for word in ["nobody=5", "cell=5", "0x0=5", "0.0=5", " 0=5", "0 =5", "##0=5", "0==5"] {
        check_changes(&folder, &[word], 2, &[word.rsplit_once('=').unwrap().0, "numbers"]);
    }
    folder.run("set a.sheet a.results -- -0=5").failed(2);
}

#[test]
fn contents_of_every_type() {
    let folder = Folder::new("refused-types");
    folder.write("t.txt", "setting b: bool = true\nsetting i: i32 = 1\nsetting f: f32 = 1\nsetting h: f16 = 1\n");
    folder.run("make t.txt -o t.sheet").well();
    let words = "b=1 b=0 b=True b=1u i=2147483648 i=-2147483649 i=1u i=1.0 i=0x80000000 f=1h f=1i f=1u f=3.5e38 f=-1e39 f=true f=1e f=. \
        f=-nan f=0x1p129 f=1.5.5 f=vec2 h=65520 h=1f h=-65520 h=x h=infinity h=inf_f h=-";
    for word in words.split_whitespace() {
        folder.run(&format!("show t.sheet --set {word}")).failed(2).holds(&[word]);
    }
}

#[test]
fn all_changes_or_none() {
    let folder = example("refused-all");
    for words in [&["0=6", "1=5"][..], &["0=6", "0=7", "2=5"], &["1=5", "0=6"], &["0=6", "99=1"]] {
        check_changes(&folder, words, 1, &["NotASetting (31)"]);
    }
    for words in [&["0=6", "0=x"][..], &["0=6", "nobody=1", "0=8"], &["0=6", "0=-1"]] {
        check_changes(&folder, words, 2, &["booth: "]);
    }
    // What is no change is a word too many.
    check_changes(&folder, &["0=6", "more"], 2, &["more"]);
}

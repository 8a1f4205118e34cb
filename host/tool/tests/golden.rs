//! What each command prints, on one sheet of each kind, is what stands in `tests/golden/`. `BOOTH_GOLDEN=write` writes those files anew.
//!
//! Of each kind there is its text (`.txt`); what people are shown (`.people`); what programs are (`.programs`); the pictures in graphviz's words (`.dot`);
//! and the results as document 01 lists them (`.listing`), taken from the JSON and held to what the independent model of `vectors/` lists.
mod common;

use std::{fs, path::Path, process::Command};

use booth::{Expr, Kind as Of, Results, Sheet, Value};
use common::{is_there, Folder, Said, EXAMPLE};
use serde_json::Value as Json;

/// A sheet and what is asked about it.
struct Kind {
    name: &'static str,
    /// Words for `--set` and `set`, each list made at once.
    changes: &'static [&'static [&'static str]],
    /// Words behind `explain SHEET`.
    explained: &'static [&'static [&'static str]],
    /// The setting that a picture has in colour.
    coloured: Option<&'static str>,
}

#[test]
fn example() {
    check_kind(&Kind {
        name: "example",
        changes: &[&["0=32"], &["0=0"], &["0=0x1f", "#0=31u"], &["0=5"]],
        explained: &[&["0"], &["1"], &["#2"], &["0", "--set", "0=32"], &["2", "--set", "0=32"]],
        coloured: Some("0"),
    });
}

#[test]
fn integers() {
    check_kind(&Kind {
        name: "integers",
        changes: &[
            &["cell=32"],
            &["least=-1", "cell=0"],
            &["apart=8"],
            &["cell=5"],
            &["0=0xffffffff", "1=2147483647i"],
        ],
        explained: &[&["limit"], &["some"], &["too_wide"], &["least"], &["limit", "--set", "cell=32"]],
        coloured: Some("cell"),
    });
}

#[test]
fn floats() {
    check_kind(&Kind {
        name: "floats",
        changes: &[&["step=1e-45"], &["half=1", "hot=-inf", "blank=0"], &["cold=0.0"], &["hot=nan", "half=-inf_h"]],
        explained: &[&["kept"], &["rest_hot"], &["once"], &["blank"], &["kept", "--set", "half=0x1p-24"]],
        coloured: Some("hot"),
    });
}

#[test]
fn halves() {
    check_kind(&Kind {
        name: "halves",
        changes: &[&["step=3"], &["step=0x1p-24"], &["step=65504"]],
        explained: &[&["past"], &["fine"], &["from_odd", "--set", "step=65504"]],
        coloured: Some("step"),
    });
}

#[test]
fn vectors() {
    check_kind(&Kind {
        name: "vectors",
        changes: &[&["scale=0"], &["many=0"], &["scale=-1.5f", "many=-2i"]],
        explained: &[&["cubes"], &["chain"], &["uneven"], &["parts", "--set", "scale=3e38"]],
        coloured: Some("scale"),
    });
}

#[test]
fn matrices() {
    check_kind(&Kind {
        name: "matrices",
        changes: &[&["factor=3e38"], &["factor=-0.0"]],
        explained: &[&["nine"], &["no_sum"], &["scaled", "--set", "factor=1e38"]],
        coloured: Some("factor"),
    });
}

#[test]
fn bools() {
    check_kind(&Kind {
        name: "bools",
        changes: &[&["on=false"], &["level=0", "edge=0"]],
        explained: &[&["chain"], &["both_sides"], &["on"]],
        coloured: Some("on"),
    });
}

#[test]
fn chain() {
    check_kind(&Kind {
        name: "chain",
        changes: &[&["count=31"], &["count=0", "other=4294967295"], &["count=64"], &["other=3"]],
        explained: &[&["twice"], &["last"], &["either"], &["last", "--set", "count=1"]],
        coloured: Some("count"),
    });
}

#[test]
fn empty() {
    check_kind(&Kind { name: "empty", changes: &[], explained: &[], coloured: None });
}

#[test]
fn names() {
    check_kind(&Kind {
        name: "names",
        changes: &[&["a b=40"], &["say \"hi\"=1", "#0=6"], &["1=0.25"]],
        explained: &[
            &["back\\slash\\"],
            &["a=b"],
            &["5u"],
            &["日本"],
            &["_last9"],
            &["// no comment"],
            &["--", "-dash"],
            &["back\\slash\\", "--set", "a b=40"],
        ],
        coloured: Some("a b"),
    });
}

/// Every command on one sheet.
fn check_kind(kind: &Kind) {
    let name = kind.name;
    let folder = Folder::new(&format!("golden-{name}"));
    let file = |ending: &str| format!("{name}.{ending}");
    let sheet = file("sheet");
    let mut people = String::new();
    let mut programs = String::new();

    match name {
        "example" => folder.write(&sheet, EXAMPLE),
        _ => {
            folder.write(&file("txt"), stored(&file("txt")));
            told(&mut people, &folder.booth(&["make", &file("txt"), "-o", &sheet]).well());
        }
    }
    told(&mut people, &folder.booth(&["check", &sheet]).well());
    told(&mut programs, &folder.booth(&["check", &sheet, "--json"]).well());
    let table = folder.booth(&["show", &sheet]).well();
    told(&mut people, &table);
    let shown = folder.booth(&["show", &sheet, "--json"]).well();
    told(&mut programs, &shown);
    check_names(&folder, &sheet, &shown);
    let text = folder.booth(&["show", &sheet, "--text"]).well();
    told(&mut people, &text);
    check_text(&folder, &sheet, &text.out);

    told(&mut people, &check_fresh(&folder, &sheet, &table.out));
    let mut listings = listed(&sheet, &[], &[shown.json()]);
    for (number, words) in kind.changes.iter().enumerate() {
        let (states, [asked, set, set_json]) = check_change(&folder, &sheet, words);
        if number == 0 {
            told(&mut people, &asked);
            told(&mut programs, &set_json);
        }
        told(&mut people, &set);
        listings += &listed(&sheet, words, &states);
    }
    for words in kind.explained {
        let whole = [&["explain", &*sheet], *words].concat();
        told(&mut people, &folder.booth(&whole).well());
        let said = folder.booth(&[&["explain", "--json", &*sheet], *words].concat()).well();
        said.json();
        told(&mut programs, &said);
    }
    golden(&file("people"), &people);
    golden(&file("programs"), &programs);
    check_model(&folder, &listings);
    golden(&file("listing"), &listings);
    golden(&file("dot"), &check_pictures(&folder, &sheet, kind.coloured));
}

/// Adds a command and what it printed.
fn told(text: &mut String, said: &Said) {
    *text += &format!("$ {}\n{}\n", said.asked, said.out);
}

/// The names in JSON are those of the file beside the sheet, letter by letter.
fn check_names(folder: &Folder, sheet: &str, shown: &Said) {
    let json = shown.json();
    let found = json["entries"].as_array().unwrap().iter().map(|entry| entry["name"].as_str());
    let names = format!("{sheet}.names");
    if folder.names().contains(&names) {
        let stored = folder.read_text(&names);
        assert!(found.eq(stored.lines().map(|line| Some(line).filter(|line| !line.is_empty()))), "{}", shown.asked);
    } else {
        assert!(found.flatten().next().is_none(), "{}", shown.asked);
    }
}

/// `show --text` is what `make` makes the same sheet and the same names of.
fn check_text(folder: &Folder, sheet: &str, text: &str) {
    folder.write("again.txt", text);
    folder.booth(&["make", "again.txt", "-o", "again.sheet"]).well();
    assert_eq!(folder.read("again.sheet"), folder.read(sheet), "the sheet of its own text: {text}");
    let names = format!("{sheet}.names");
    if folder.names().contains(&names) {
        assert_eq!(folder.read_text("again.sheet.names"), folder.read_text(&names));
    }
}

/// `fresh` writes the library's own results, and they show as no results do.
fn check_fresh(folder: &Folder, sheet: &str, table: &str) -> Said {
    let said = folder.booth(&["fresh", sheet, "-o", "fresh.results"]).well();
    assert_eq!(folder.read("fresh.results"), fresh(folder.read(sheet)).bytes());
    assert_eq!(folder.booth(&["show", sheet, "--results", "fresh.results"]).well().out, table);
    said
}

fn fresh(sheet: Vec<u8>) -> Results {
    Results::fresh(Sheet::new(sheet).unwrap()).unwrap()
}

/// A change with `show --set`, with `set`, and as a sheet that had the new content from the start: all three are one. Answers the sheet for
/// programs before the change and after each of its words, what `show --set` said, and what `set` did, to people and to programs.
fn check_change(folder: &Folder, sheet: &str, words: &[&str]) -> (Vec<Json>, [Said; 3]) {
    let asked = folder.booth(&[&["show", sheet, "--set"], words].concat()).well();
    let (table, lines) = asked.out.split_once("\n\n").unwrap();

    folder.booth(&["fresh", sheet, "-o", "set.results"]).well();
    let set = folder.booth(&[&["set", sheet, "set.results"], words].concat()).well();
    let more = set.out.strip_prefix(lines).unwrap_or_else(|| panic!("{}: {}", set.asked, set.out));
    let after = folder.booth(&["show", sheet, "--results", "set.results"]).well();
    assert_eq!(after.out.trim_end(), table, "{} and {}", after.asked, asked.asked);

    folder.booth(&["fresh", sheet, "-o", "json.results"]).well();
    let set_json = folder.booth(&[&["set", "--json", sheet, "json.results"], words].concat()).well();
    let show_json = folder.booth(&[&["show", "--json", sheet, "--set"], words].concat()).well();
    assert_eq!(set_json.json(), show_json.json()["changes"], "{}", show_json.asked);
    // `set` shows no table, so it names the entries without a value.
    let without = set_json.json()["no_value"].as_array().unwrap().len();
    let refused = show_json.json()["entries"].as_array().unwrap().iter().filter(|entry| entry["status"] != 0).count();
    assert_eq!((without, more.is_empty()), (refused, refused == 0), "{more}");
    assert!(more.is_empty() || more.starts_with("no value: "), "{more}");
    assert_eq!(folder.read("json.results"), folder.read("set.results"), "{}", set_json.asked);

    let mut bytes = folder.read(sheet);
    for given in set_json.json()["set"].as_array().unwrap() {
        put(&mut bytes, given["entry"].as_u64().unwrap() as usize, given["content"].as_str().unwrap());
    }
    assert_eq!(folder.read("set.results"), fresh(bytes).bytes(), "{}", set.asked);

    let states = (0..=words.len()).map(|count| match count {
        0 => folder.booth(&["show", "--json", sheet]).well().json(),
        _ => folder.booth(&[&["show", "--json", sheet, "--set"], &words[..count]].concat()).well().json(),
    });
    (states.collect(), [asked, set, set_json])
}

/// Puts a setting's content into a sheet's bytes.
fn put(bytes: &mut [u8], entry: usize, content: &str) {
    let said = Sheet::new(bytes.to_vec()).unwrap().entries()[entry].clone();
    let old = match (said.kind, said.expr) {
        (Of::Setting, Expr::Literal(old)) => old,
        _ => panic!("{entry} is no setting"),
    };
    let new = Value::read_as(old.ty(), content).unwrap().components()[0];
    // Behind the tag, the type, the columns and the rows.
    bytes[said.body][4..].copy_from_slice(&new.to_le_bytes());
}

/// The listing of each state, under the words that ask `listing` for them.
fn listed(sheet: &str, words: &[&str], states: &[Json]) -> String {
    let mut line = format!("$ listing {sheet}");
    for state in states.iter().skip(1) {
        let given = state["changes"]["set"].as_array().unwrap().last().unwrap()["entry"].as_u64().unwrap();
        let entry = &state["entries"][given as usize];
        let bits = entry["components"][0].as_str().unwrap().trim_start_matches('0');
        let bits = if bits.is_empty() { "0" } else { bits };
        line += &format!(" {given} {} {bits}", numbers(entry["type"].as_str().unwrap()).0);
    }
    assert_eq!(states.len(), words.len() + 1);
    states.iter().fold(line + "\n", |text, state| text + &listing(state)) + "\n"
}

/// The model of `vectors/`, which knows 01 and not the library, lists the same, where there is a python3 to run it.
fn check_model(folder: &Folder, listings: &str) {
    if !is_there("python3") {
        return println!("no `python3` here: the model was not asked");
    }
    let model = Path::new(env!("CARGO_MANIFEST_DIR")).join("../../vectors/listing.py");
    for asked in listings.split("$ listing ").skip(1) {
        let (words, text) = asked.split_once('\n').unwrap();
        let mut python = Command::new("python3");
        python.arg("-B").arg(&model).args(words.split(' ')).current_dir(folder.path("."));
        let said = python.output().unwrap();
        assert_eq!(String::from_utf8(said.stdout).unwrap() + "\n", text, "listing {words}");
    }
}

/// What `show --json` says, as document 01 lists it.
fn listing(state: &Json) -> String {
    let entries = state["entries"].as_array().unwrap();
    let mut text = format!("sheet {}\n", entries.len());
    for entry in entries {
        let (number, status) = (&entry["number"], entry["status"].as_u64().unwrap());
        let refusal = &entry["refusal"];
        assert_eq!(refusal["number"].as_u64(), Some(status).filter(|status| *status != 0));
        assert_eq!(refusal["operand"].is_string(), [9, 10].contains(&status), "{refusal}");
        if status == 0 {
            let (code, columns, rows) = numbers(entry["type"].as_str().unwrap());
            let bits =
                entry["components"].as_array().unwrap().iter().map(|bits| format!(" {}", bits.as_str().unwrap()));
            text += &format!("{number} 0 {code} {columns} {rows} 0{}\n", bits.collect::<String>());
        } else if let Some(operand) = refusal["operand"].as_str() {
            let operand = Value::read(operand).unwrap();
            let (code, bits) = (operand.ty() as u8, operand.components()[0]);
            text += &format!("{number} {status} {code} 1 1 {} {bits:016x}\n", refusal["detail"]);
        } else {
            text += &format!("{number} {status} 0 0 0 {}\n", refusal["detail"]);
        }
    }
    text
}

/// A type's code, columns and rows from its name.
fn numbers(name: &str) -> (usize, u32, u32) {
    const TYPES: [&str; 7] = ["bool", "AbstractInt", "AbstractFloat", "i32", "u32", "f32", "f16"];
    let (shape, ty) = name.split_once('<').unwrap_or(("", name));
    let code = TYPES.iter().position(|known| *known == ty.trim_end_matches('>')).unwrap();
    let sides: Vec<u32> = shape.chars().filter_map(|c| c.to_digit(10)).collect();
    match sides[..] {
        [] => (code, 1, 1),
        [rows] => (code, 1, rows),
        [columns, rows] => (code, columns, rows),
        _ => panic!("{name}"),
    }
}

/// The pictures in graphviz's words, one plain and one in colour; and, where graphviz is, that it draws them with every name as it is.
fn check_pictures(folder: &Folder, sheet: &str, coloured: Option<&str>) -> String {
    let mut all = String::new();
    let colours = coloured.map(|setting| vec!["--setting", setting]);
    for words in [Some(vec![]), colours].into_iter().flatten() {
        folder.booth(&[&["graph", sheet, "-o", "picture.dot"], &words[..]].concat()).well();
        all += &folder.read_text("picture.dot");
        if !is_there("dot") {
            println!("no `dot` here: no picture was drawn");
            continue;
        }
        folder.booth(&[&["graph", sheet, "-o", "picture.svg"], &words[..]].concat()).well();
        let drawn = texts(&folder.read_text("picture.svg"));
        let shown = folder.booth(&["show", "--json", sheet]).well().json();
        for entry in shown["entries"].as_array().unwrap() {
            let head = match entry["name"].as_str() {
                Some(name) => format!("#{} {name}", entry["number"]),
                None => format!("#{}", entry["number"]),
            };
            assert!(drawn.contains(&head), "{head:?} is not in the picture: {drawn:?}");
        }
    }
    all
}

/// The texts of a picture, each as a reader sees it. Every tag has to be one of those that graphviz writes, and to be closed.
fn texts(svg: &str) -> Vec<String> {
    let mut open: Vec<&str> = Vec::new();
    let mut all = Vec::new();
    let mut rest = svg;
    while let Some(start) = rest.find('<') {
        let text = &rest[..start];
        if open.last() == Some(&"text") {
            all.push(plain(text));
        }
        let end = start
            + if rest[start..].starts_with("<!--") {
                rest[start..].find("-->").unwrap() + 2
            } else {
                rest[start..].find('>').unwrap()
            };
        let tag = &rest[start + 1..end];
        let name = tag.split_whitespace().next().unwrap().trim_start_matches('/');
        if !tag.starts_with(['?', '!']) {
            assert!(["svg", "g", "title", "polygon", "path", "text"].contains(&name), "the tag {name}");
            if tag.starts_with('/') {
                assert_eq!(open.pop(), Some(name));
            } else if !tag.ends_with('/') {
                open.push(name);
            }
        }
        rest = &rest[end + 1..];
    }
    assert!(open.is_empty(), "not closed: {open:?}");
    all
}

/// A text of XML without its escapes.
fn plain(text: &str) -> String {
    let mut parts = text.split('&');
    let mut all = parts.next().unwrap().to_owned();
    for part in parts {
        let (name, rest) = part.split_once(';').unwrap();
        all.push(match name {
            "lt" => '<',
            "gt" => '>',
            "quot" => '"',
            "amp" => '&',
            _ => char::from_u32(name.strip_prefix('#').unwrap().parse().unwrap()).unwrap(),
        });
        all += rest;
    }
    // Graphviz keeps spaces by writing them so.
    all.replace('\u{a0}', " ")
}

#[test]
fn ops() {
    let folder = Folder::new("golden-ops");
    golden("ops.people", &folder.booth(&["ops"]).well().out);
}

#[test]
fn help() {
    let folder = Folder::new("golden-help");
    let whole = folder.booth(&["--help"]).well().out;
    assert!(whole.contains("Usage: booth") && whole.contains("proved"), "{whole}");
    for command in ["show", "check", "make", "fresh", "set", "explain", "graph", "ops"] {
        let line = whole.lines().find(|line| line.trim_start().starts_with(&format!("{command} ")));
        assert!(line.map_or(false, |line| line.split_whitespace().count() > 3), "{command} has no line in {whole}");
        let page = folder.booth(&[command, "--help"]).well().out;
        assert!(page.contains(&format!("Usage: booth {command}")), "{page}");
        assert_eq!(folder.booth(&["help", command]).well().out, page);
        let json = ["show", "check", "set", "explain"].contains(&command);
        assert_eq!(page.contains("--json"), json, "{page}");
    }
    let version = folder.booth(&["--version"]).well().out;
    assert_eq!(version, format!("booth {}\n", env!("CARGO_PKG_VERSION")));
}

fn stored(name: &str) -> String {
    let path = Path::new(env!("CARGO_MANIFEST_DIR")).join("tests/golden").join(name);
    fs::read_to_string(&path)
        .unwrap_or_else(|error| panic!("tests/golden/{name}: {error}; BOOTH_GOLDEN=write makes the outputs"))
}

/// Compares an output with the stored one, or stores it.
fn golden(name: &str, found: &str) {
    if std::env::var_os("BOOTH_GOLDEN").map_or(false, |word| word == "write") {
        let path = Path::new(env!("CARGO_MANIFEST_DIR")).join("tests/golden").join(name);
        fs::write(path, found).unwrap();
        return;
    }
    let stored = stored(name);
    if found == stored {
        return;
    }
    let mut command = "the start";
    let (mut was, mut is) = (stored.lines(), found.lines());
    for line in 1.. {
        let pair = (was.next(), is.next());
        command = pair.1.filter(|line| line.starts_with('$')).unwrap_or(command);
        if pair.0 != pair.1 || pair == (None, None) {
            panic!(
                "tests/golden/{name}, line {line}, under {command}\n  stored: {}\n  now:    {}\nIf the new output is right, BOOTH_GOLDEN=write stores it.",
                pair.0.unwrap_or("(the end)"),
                pair.1.unwrap_or("(the end)"),
            );
        }
    }
}

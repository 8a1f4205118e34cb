//! Texts that `make` refuses, with line, column and the line shown, and files of names that do not fit.
mod common;

use std::fs;

use common::{example, sentence, Folder};

// Texts.

/// A text that is refused: the line, what the mark stands under (nothing for the end of the line), and some of the words.
type Fault = (&'static str, usize, &'static str, &'static str);

const FAULTS: &[Fault] = &[
    // Names.
    ("const a = b", 1, "b", "no entry called b"),
    ("const a = 1\nconst c = a + b", 2, "b", "no entry called b"),
    ("const a = \"x y\"", 1, "\"x y\"", "no entry called"),
    ("const a = b\nconst b = 1", 1, "b", "earlier"),
    ("const ab = 1 + ab", 1, "ab", "earlier"),
    ("const a = #1\nconst b = 1", 1, "#1", "earlier"),
    ("const a = #0", 1, "#0", "earlier"),
    ("const a = #99999999999999999999", 1, "#99999999999999999999", "number"),
    ("const a = #", 1, "#", "number"),
    ("exec e = 1\nconst c = e", 2, "e", "exec"),
    ("exec e = 1\noverride c = 2 * e", 2, "e", "exec"),
    ("override o = 1\nconst c = #0", 2, "#0", "override"),
    ("setting s: u32 = 1\nconst c = s", 2, "s", "setting"),
    ("const a = 1\nconst a = 2", 2, "a", "name"),
    ("const a = 1\nconst \"a\" = 2", 2, "\"a\"", "name"),
    ("const = 1", 1, "=", "name"),
    ("const", 1, "", "name"),
    ("const 5 = 1", 1, "5", "name"),
    ("const \"\" = 1", 1, "\"\"", "name"),
    ("const \" a\" = 1", 1, "\" a\"", "name"),
    ("const \"12\" = 1", 1, "\"12\"", "number"),
    ("const \"#1\" = 1", 1, "\"#1\"", "number"),
    ("const \"a\tb\" = 1", 1, "\"a\tb\"", "print"),
    ("const \"a\u{1b}[31m\" = 1", 1, "\"a\u{1b}[31m\"", "print"),
    ("const u32 = 1", 1, "u32", "quotes"),
    ("const vec3f = 1", 1, "vec3f", "quotes"),
    ("const inf = 1", 1, "inf", "quotes"),
    ("const #1 = 1", 1, "#1", "#0"),
    ("const \"a = 1", 1, "\"a = 1", "quote"),
    ("const a = \"x\\y\"", 1, "\\", "\\"),
    // Entries.
    ("let a = 1", 1, "let", "setting, const, override or exec"),
    ("5", 1, "5", "setting, const, override or exec"),
    ("const a 5", 1, "5", "="),
    ("const a", 1, "", "="),
    ("const a = 1 2", 1, "2", "ended"),
    ("const a = 1;", 1, ";", "ends with its line"),
    ("const a = 1 /* one */", 1, "/*", "//"),
    ("const a = 1 @", 1, "@", "'@'"),
    ("const a = 1 = 2", 1, "=", "ended"),
    ("const a: u32 = 1", 1, ":", "setting"),
    ("setting a = 1", 1, "=", "type"),
    ("setting a: i64 = 1", 1, "i64", "bool, i32, u32, f32 or f16"),
    ("setting a: AbstractInt = 1", 1, "AbstractInt", "bool, i32, u32, f32 or f16"),
    ("setting a: vec2<f32> = vec2<f32>(1.0, 2.0)", 1, "vec2", "bool, i32, u32, f32 or f16"),
    ("setting a: f32 = vec2<f32>(1.0, 2.0)", 1, "vec2", "literal"),
    ("setting a: f32", 1, "", "="),
    ("setting a: f32 =", 1, "", "number"),
    ("setting a: u32 = 1 + 2", 1, "+", "ended"),
    ("setting a: u32 = -1", 1, "-1", "u32"),
    ("setting a: u32 = 1.5", 1, "1.5", "u32"),
    ("setting a: u32 = 5i", 1, "5i", "i32"),
    ("setting a: bool = 1", 1, "1", "true or false"),
    ("setting a: f16 = 65520", 1, "65520", "f16"),
    ("setting a: u32 = #0", 1, "#0", "number"),
    // Parentheses and signs.
    ("const a = (1 + 2", 1, "", ")"),
    ("const a = ((1)", 1, "", ")"),
    ("const a = 1 + 2)", 1, ")", "ended"),
    ("const a = ()", 1, ")", "value"),
    ("const a =", 1, "", "value"),
    ("const a = 1 +", 1, "", "value"),
    ("const a = * 1", 1, "*", "value"),
    ("const a = 1 + * 2", 1, "*", "value"),
    ("const a = !", 1, "", "value"),
    ("const a = --1", 1, "--", "--"),
    ("const a = 5--3", 1, "--", "--"),
    ("const a = 1 & 2 == 3", 1, "2 == 3", "parentheses"),
    ("const a = 1 == 2 & 3", 1, "1 == 2", "parentheses"),
    ("const a = 1 << 2 << 3", 1, "1 << 2", "parentheses"),
    ("const a = 1 + 2 << 3", 1, "1 + 2", "parentheses"),
    ("const a = 1 << 2 + 3", 1, "2 + 3", "parentheses"),
    ("const a = 1 | 2 & 3", 1, "2 & 3", "parentheses"),
    ("const a = 1 < 2 < 3", 1, "1 < 2", "parentheses"),
    ("const a = true || false && true", 1, "false && true", "parentheses"),
    ("const a = true && false || true", 1, "true && false", "parentheses"),
    // Literals.
    ("const a = -5u", 1, "-5u", "u32"),
    ("const a = 1.5x", 1, "1.5x", "1.5x"),
    ("const a = 0x", 1, "0x", "0x"),
    ("const a = 0xg", 1, "0xg", "0xg"),
    ("const a = 1e", 1, "1e", "1e"),
    ("const a = 1_000", 1, "1_000", "1_000"),
    ("const a = 5ii", 1, "5ii", "5i"),
    ("const a = 1.5u", 1, "1.5u", "u32"),
    ("const a = 1.2.3", 1, "1.2.3", "1.2.3"),
    ("const a = .", 1, ".", "."),
    ("const a = 9223372036854775808", 1, "9223372036854775808", "9223372036854775807"),
    ("const a = -9223372036854775809", 1, "-9223372036854775809", "-9223372036854775808"),
    ("const a = 4294967296u", 1, "4294967296u", "4294967295"),
    ("const a = 2147483648i", 1, "2147483648i", "2147483647"),
    ("const a = 1e400", 1, "1e400", "AbstractFloat"),
    ("const a = 3.5e38f", 1, "3.5e38f", "f32"),
    ("const a = -65520h", 1, "-65520h", "f16"),
    ("const a = 0x1p-1075", 1, "0x1p-1075", "exact"),
    ("const a = 0x1p-9223372036854775808", 1, "0x1p-9223372036854775808", "exact"),
    ("const a = 0x2p9223372036854775807", 1, "0x2p9223372036854775807", "exact"),
    // Vectors and matrices.
    ("const a = vec3<f32>(1.0, 2.0)", 1, "vec3<f32>(1.0, 2.0)", "3"),
    ("const a = 1 + vec2<f32>(1.0, 2.0, 3.0)", 1, "vec2<f32>(1.0, 2.0,", "2"),
    ("const a = mat2x2<f32>(1.0, 2.0, 3.0)", 1, "mat2x2<f32>(1.0, 2.0, 3.0)", "4"),
    ("const a = vec2<f32>()", 1, ")", "number"),
    ("const a = vec2<f32>(1.0,)", 1, ")", "number"),
    ("const a = vec2<f32>(1.0 2.0)", 1, "2.0", ")"),
    ("const a = vec2<f32>(1.0, 2.0", 1, "", ")"),
    ("const a = vec2<f32>", 1, "", "("),
    ("const a = vec2", 1, "", "("),
    ("const a = vec2<f64>(1.0, 2.0)", 1, "f64", "bool, i32, u32, f32 or f16"),
    ("const a = vec2<>(1.0, 2.0)", 1, ">", "bool, i32, u32, f32 or f16"),
    ("const a = vec2<f32(1.0, 2.0)", 1, "(", ">"),
    ("const a = vec2(1, 2.0)", 1, "vec2(1, 2.0)", "two types"),
    ("const a = vec2(1u, 2i)", 1, "vec2(1u, 2i)", "two types"),
    ("const a = vec2(true, 1)", 1, "vec2(true, 1)", "two types"),
    ("const a = vec2<i32>(1, 2u)", 1, "2u", "i32"),
    ("const a = vec2<u32>(1, -2)", 1, "-2", "u32"),
    ("const a = mat2x2<i32>(1, 2, 3, 4)", 1, "mat2x2<i32>(1, 2, 3, 4)", "matrix"),
    ("const a = mat2x2(1, 2, 3, 4)", 1, "mat2x2(1, 2, 3, 4)", "matrix"),
    ("const a = vec5<f32>(1.0)", 1, "vec5", "vec5"),
    ("const b = 1.0f\nconst a = vec2<f32>(b, 1.0)", 2, "b", "literal"),
    ("const a = vec2<f32>(-b, 1.0)", 1, "-", "literal"),
    ("const a = 1.0f * f32(5)", 1, "f32", "no conversion"),
    ("const a = bool(1)", 1, "bool", "no conversion"),
    ("const a = 1 + none", 1, "none", "quotes"),
    ("const a = override", 1, "override", "quotes"),
    ("const a = max(1, 2)", 1, "max", "no functions"),
    ("const max = 1\nconst a = max(1, 2)", 2, "max", "no functions"),
    ("const a = vec2<f32>(1.0, 2.0,,)", 1, "vec2<f32>(1.0, 2.0,", "more"),
    // Lines.
    ("\n\n// three\nconst a = ?", 4, "?", "'?'"),
    ("const a = 1\r\nconst b = ?\r\n", 2, "?", "'?'"),
    ("\tconst\ta\t=\t1\t@", 1, "@", "'@'"),
    ("const größe = 日本", 1, "日本", "no entry called"),
    ("const a = \u{7}", 1, "\u{7}", "meaning"),
];

#[test]
fn every_fault_of_a_text() {
    let folder = Folder::new("texts-texts");
    for (text, line, marked, words) in FAULTS {
        check_fault(&folder, text, *line, marked, words);
    }
}

/// The complaint has line and column, the line as it stands, and a mark under what it means.
fn check_fault(folder: &Folder, text: &str, number: usize, marked: &str, words: &str) {
    folder.write("t.txt", text);
    let said = folder.run("make t.txt -o t.sheet").failed(1).holds(&[words]);
    let lines: Vec<&str> = said.err.lines().collect();
    assert_eq!(lines.len(), 3, "{}", said.err);
    let place = lines[0].strip_prefix(&format!("booth: t.txt:{number}:")).unwrap_or_else(|| panic!("{}", said.err));
    let column: usize = place.split(':').next().unwrap().parse().unwrap();

    let line = text.lines().nth(number - 1).unwrap();
    let (part, before) = shown_part(line, column - 1);
    let printed = part.replace(|c: char| c.is_control() && c != '\t', "\u{fffd}");
    assert_eq!(lines[1], format!("  {printed}"));
    let lead: String = part.chars().take(before).map(|c| if c == '\t' { '\t' } else { ' ' }).collect();
    let width = marked.chars().count();
    assert_eq!(lines[2], format!("  {lead}{}", "^".repeat(width.max(1))), "{}", said.err);
    let under: String = line.chars().skip(column - 1).take(width).collect();
    assert_eq!(under, marked, "{}", said.err);
    assert!(!marked.is_empty() || column == line.chars().count() + 1, "{}", said.err);
    assert_eq!(folder.names(), ["t.txt"]);
}

/// Of a long line, 80 characters to either side of a place, with a mark of its own where something is left out; and the place in that.
fn shown_part(line: &str, place: usize) -> (String, usize) {
    let from = place.saturating_sub(80);
    let mut part: Vec<char> = line.chars().skip(from).take(161).collect();
    if from > 0 {
        part[0] = '…';
    }
    if part.len() == 161 {
        part[160] = '…';
    }
    (part.into_iter().collect(), place - from)
}

#[test]
fn limits_of_a_text() {
    let folder = Folder::new("texts-limits");
    let make = |text: &str| {
        folder.write("t.txt", text);
        let said = folder.run("make t.txt -o t.sheet").well();
        folder.run("check t.sheet").well();
        fs::remove_file(folder.path("t.sheet")).unwrap();
        fs::remove_file(folder.path("t.sheet.names")).unwrap();
        said.out
    };
    let entries = |count: usize| (0..count).map(|n| format!("const a{n} = {n}\n")).collect::<String>();
    assert_eq!(make(&entries(128)), "t.sheet: 128 entries, 2176 bytes\n");
    check_fault(&folder, &entries(129), 129, "const", "128");

    // Records of 137 and 17 bytes, and then of 13 or of twice 7.
    let sheet = |rest: &str| {
        let big = "const #_ = mat4x4f(0, 1, 2, 3, 4, 5, 6, 7, 8, 9, 10, 11, 12, 13, 14, 15)\n".repeat(119);
        let all = big + &"const #_ = 1\n".repeat(4) + rest;
        let lines = all.lines().enumerate().map(|(n, line)| line.replace("#_", &format!("#{n}")) + "\n");
        lines.collect::<String>()
    };
    assert_eq!(make(&sheet("const #_ = ~~~#0")), "t.sheet: 124 entries, 16384 bytes\nno value: #123\n");
    check_fault(&folder, &sheet("const #_ = #0\nconst #_ = #0"), 125, "const #124 = #0", "16385 bytes");

    let name = |count: usize| "x".repeat(count);
    make(&format!("const {} = 1", name(64)));
    check_fault(&folder, &format!("const {} = 1", name(65)), 1, &name(65), "64");
    let tilde = |count: usize| format!("const a = {}1", "~".repeat(count));
    make(&tilde(31));
    check_fault(&folder, &tilde(32), 1, "~", "32 deep");
    check_fault(&folder, &tilde(40), 1, "~", "32 deep");
    check_fault(&folder, &tilde(1000), 1, "~", "200 deep");
    let sum = |count: usize| format!("const a = 1{}", " + 1".repeat(count));
    make(&sum(31));
    check_fault(&folder, &sum(32), 1, "+", "32 deep");
    check_fault(&folder, &sum(10_000), 1, "+", "32 deep");
    let nest = |count: usize| format!("const a = {}1{}", "(".repeat(count), ")".repeat(count));
    make(&nest(100));
    check_fault(&folder, &nest(300), 1, "(", "200 deep");
    check_fault(&folder, &nest(10_000), 1, "(", "200 deep");
    // Many nodes, none of them deep.
    let tree = (0..9).fold("1u".to_owned(), |part, _| format!("({part} + {part})"));
    make(&format!("const a = {tree}"));
    let tree = (0..3).fold(tree, |part, _| format!("({part} + {part})"));
    folder.write("t.txt", format!("const a = {tree}"));
    folder.run("make t.txt -o t.sheet").failed(1).holds(&["t.txt:1:1: ", "16384"]);
}

#[test]
fn texts_that_are_no_text() {
    let folder = Folder::new("texts-bytes");
    for (bytes, place) in [
        (&b"const a = \xff"[..], "t.txt:1:11: "),
        (b"\xff\xfec\0o\0n\0", "t.txt:1:1: "),
        (b"const a = 1\nconst b\xc3 = 2\n", "t.txt:2:8: "),
        (b"// gr\xc3\xb6\xc3\xc3e\nconst a = 1", "t.txt:1:7: "),
        (b"const a = 1\n\xe6\x97", "t.txt:2:1: "),
    ] {
        folder.write("t.txt", bytes);
        folder.run("make t.txt -o t.sheet").failed(1).holds(&[place, "UTF-8", "^"]);
    }
    assert_eq!(folder.names(), ["t.txt"]);
    for good in ["", "\n", "// nothing", " \t \r\n\r\n", "\u{feff}", "\u{feff}// nothing\n"] {
        folder.write("t.txt", good);
        assert_eq!(folder.run("make t.txt -o t.sheet").well().out, "t.sheet: 0 entries, 0 bytes\n");
        assert_eq!((folder.read("t.sheet"), folder.read("t.sheet.names")), (vec![], vec![]));
        folder.run("show t.sheet").well();
    }
    for good in
        ["const a=1\r\nexec\tb=a//x\r\n", "\u{feff}const a = 1\nexec b = a", "const a = 1 // ?\n\n  exec b = \"a\" "]
    {
        folder.write("t.txt", good);
        folder.run("make t.txt -o t.sheet").well();
        assert_eq!(folder.run("show t.sheet --text").well().out, "const a = 1\nexec b = a\n");
    }
}

// Names.

const NAMED: [&str; 4] =
    ["show a.sheet --set 0=32", "show a.sheet --text", "explain a.sheet 2 --set #0=32", "show a.sheet --json"];

#[test]
fn names_that_do_not_fit() {
    let folder = example("texts-names");
    let all = || NAMED.map(|line| folder.run(line).well().out);
    let plain = all();
    folder.write("a.sheet.names", "cell\nmask\nlimit\n");
    let named = all();
    assert!(plain.iter().zip(&named).all(|(plain, named)| plain != named && named.contains("mask")));

    let long = "x".repeat(65) + "\nb\nc\n";
    let huge = "a\nb\nc\n".repeat(100_000);
    for (names, why) in [
        (&b""[..], "0 lines"),
        (b"a\nb\n", "2 lines"),
        (b"a\nb\nc\nd\n", "4 lines"),
        (b"a\nb\nc\n\n", "4 lines"),
        (b"a\nb\na\n", "again"),
        (b"a\x07\nb\nc\n", "line 1"),
        (b"a\nb\x1b[31m\nc\n", "line 2"),
        (b"a\nb\0\nc\n", "line 2"),
        (b"a\n b\nc\n", "line 2"),
        (b"a\nb\nc \n", "line 3"),
        (b"a\n1\nc\n", "line 2"),
        (b"a\n#1\nc\n", "line 2"),
        (b"a\rx\nb\nc\n", "line 1"),
        (b"a\n\xff\nc\n", "text"),
        (b"\xff\xfea\0\n\0", "text"),
        (long.as_bytes(), "64"),
        (huge.as_bytes(), "lines"),
    ] {
        folder.write("a.sheet.names", names);
        check_left_out(&folder, &plain, why);
    }
    fs::remove_file(folder.path("a.sheet.names")).unwrap();
    fs::create_dir(folder.path("a.sheet.names")).unwrap();
    check_left_out(&folder, &plain, "irectory");
    fs::remove_dir(folder.path("a.sheet.names")).unwrap();

    // These fit: ends of lines of another system, no end of the last line, entries without a name.
    for names in ["cell\r\nmask\r\nlimit\r\n", "cell\nmask\nlimit"] {
        folder.write("a.sheet.names", names);
        assert_eq!(all(), named);
    }
    folder.write("a.sheet.names", "\nmask\n\n");
    let said = folder.run("show a.sheet --text").well();
    assert_eq!(said.out, "setting #0: u32 = 5\noverride mask = 1u << #0\noverride #2 = mask - 1u\n");
}

/// The names are left out with a note, and all else is as if there were none.
fn check_left_out(folder: &Folder, plain: &[String], why: &str) {
    for (line, plain) in NAMED.iter().zip(plain) {
        let said = folder.run(line).holds(&["a.sheet.names", why]);
        assert_eq!((said.status, &said.out), (0, plain), "{}", said.asked);
        sentence(&said.asked, &said.err);
        assert!(!said.err.contains(['\u{1b}', '\u{7}', '\u{0}']), "{:?}", said.err);
    }
    let said = folder.run("graph a.sheet -o b.dot").holds(&["a.sheet.names", why]);
    assert_eq!(said.status, 0);
    assert!(folder.read_text("b.dot").contains("1u << #0"));
    folder.run("show a.sheet --set cell=32").failed(2).holds(&["a.sheet.names", "cell"]);
    // Whether a sheet is accepted has nothing to do with names.
    folder.run("check a.sheet").well();
}

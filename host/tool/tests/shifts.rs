//! Refused shifts keep their left operand: document 01's example through every command, and vectors, which say which component failed.
mod common;

use booth::{Refusal, Results, Scalar, Sheet, SLOT};
use common::{example, Folder, EXAMPLE};
use serde_json::json;
use tool::{ask::Asked, check, explain, graph, names::Names, show};

/// What the example's second entry comes to where its setting is 32.
const LOST: &str = "ShlOverflow: 1u << 32 leaves no room for the count 32";

#[test]
fn the_example() {
    let folder = example("shifts-example");
    folder.run("set a.sheet a.results 0=32").well();
    let bytes = folder.read("a.results");
    let slot = |entry: usize| &bytes[entry * SLOT..(entry + 1) * SLOT];
    let expected = |head: &[u8]| [head, &vec![0; SLOT - head.len()]].concat();
    assert_eq!(slot(0), expected(&[0, 4, 1, 1, 0, 0, 0, 0, 32]));
    assert_eq!(slot(1), expected(&[9, 4, 1, 1, 32, 0, 0, 0, 1]));
    assert_eq!(slot(2), expected(&[11, 0, 0, 0, 1]));
    let results = Results::of(Sheet::new(EXAMPLE.to_vec()).unwrap(), bytes.clone()).unwrap();
    assert_eq!(
        results.to_string(),
        "sheet 3\n0 0 4 1 1 0 0000000000000020\n1 9 4 1 1 32 0000000000000001\n2 11 0 0 0 1\n"
    );

    let shown = folder.run("show a.sheet --results a.results").well().out;
    assert!(shown.lines().any(|line| line.ends_with(LOST)), "{shown}");
    let json = folder.run("show a.sheet --json --results a.results").well().json();
    let (lost, after) = (&json["entries"][1], &json["entries"][2]);
    assert_eq!((&lost["status"], &lost["why"]), (&json!(9), &json!(LOST)));
    assert_eq!(lost["refusal"]["operand"], "1u");
    assert_eq!((&after["status"], &after["refusal"]["operand"]), (&json!(11), &json!(null)));
    let explained = folder.run("explain a.sheet 1 --set 0=32 --json").well().json();
    assert_eq!(explained["tree"]["refusal"], lost["refusal"], "the node's and the entry's");
}

/// A refusal for programs has its operand, and others have none.
#[test]
fn refusals_for_programs() {
    let lost = |operand| check::refused(Refusal::ShlOverflow { count: 64, operand });
    assert_eq!(
        lost(Scalar::abstract_int(-1)),
        json!({
            "number": 9,
            "name": "ShlOverflow",
            "detail": 64,
            "operand": "-1",
            "sentence": "-1 << 64 leaves no room for the count 64",
        })
    );
    assert_eq!(lost(Scalar::from(i32::MIN))["operand"], "-2147483648i");
    assert_eq!(
        check::refused(Refusal::ShrOverflow { count: 32, operand: Scalar::from(u32::MAX) })["operand"],
        "4294967295u"
    );
    assert!(check::refused(Refusal::DivByZero).get("operand").is_none());
    assert!(check::refused(Refusal::Other { number: 9, detail: 32 }).get("operand").is_none());
}

/// Entries that are refused, each with its number, the operand that it keeps, and its sentence.
const LOST_VECTORS: [(&str, u8, &str, &str); 5] = [
    (
        "vec3<u32>(1, 2, 3) << vec3<u32>(0, 1, 31)",
        9,
        "3u",
        "ShlOverflow: vec3<u32>(1, 2, 3) << vec3<u32>(0, 1, 31): 3u << 31 leaves no room for the count 31",
    ),
    (
        "vec4<i32>(7, -5, 9, -1) << vec4<u32>(0, 40, 1, 50)",
        9,
        "-5i",
        "ShlOverflow: vec4<i32>(7, -5, 9, -1) << vec4<u32>(0, 40, 1, 50): -5i << 40 leaves no room for the count 40",
    ),
    (
        "vec2(-9223372036854775808, 1) << vec2(1, 63)",
        9,
        "-9223372036854775808",
        "ShlOverflow: vec2(-9223372036854775808, 1) << vec2(1, 63): \
         -9223372036854775808 << 1 leaves no room for the count 1",
    ),
    (
        "vec2<i32>(-4, -8) >> vec2<u32>(31, 32)",
        10,
        "-8i",
        "ShrOverflow: vec2<i32>(-4, -8) >> vec2<u32>(31, 32): -8i >> 32: 32 bits cannot be shifted right by the count 32",
    ),
    ("1u + (4294967295u << 1)", 9, "4294967295u", "ShlOverflow: 4294967295u << 1 leaves no room for the count 1"),
];

/// Of a vector the sentence names the operand and the count of the first component that failed.
#[test]
fn vectors() {
    let folder = Folder::new("shifts-vectors");
    let lines = LOST_VECTORS.iter().enumerate().map(|(entry, lost)| format!("const #{entry} = {}\n", lost.0));
    folder.write("v.txt", lines.collect::<String>() + "const after = #0\n");
    folder.run("make v.txt -o v.sheet").well();
    let json = folder.run("show v.sheet --json").well().json();
    for ((_, number, operand, why), found) in LOST_VECTORS.iter().zip(json["entries"].as_array().unwrap()) {
        assert_eq!((&found["status"], &found["refusal"]["operand"]), (&json!(number), &json!(operand)));
        assert_eq!(found["why"], *why);
    }
    assert_eq!(json["entries"][5]["why"], "no value: #0 has none");
    // In a picture's box the component stands alone.
    folder.run("graph v.sheet -o v.dot").well();
    let dot = folder.read_text("v.dot");
    for words in ["ShlOverflow: 3u << 31 leaves no room for the count 31", "ShlOverflow: -5i << 40 leaves no room"] {
        assert!(dot.contains(&format!("\\n{words}")), "{dot}");
    }
}

/// The example's results with a slot for its second entry that was not worked out here.
fn with_slot(head: [u8; 16]) -> (Asked, Results) {
    let sheet = Sheet::new(EXAMPLE.to_vec()).unwrap();
    let mut bytes = Results::fresh(sheet.clone()).unwrap().bytes().to_vec();
    bytes[SLOT..SLOT + 16].copy_from_slice(&head);
    (Asked { sheet: sheet.clone(), names: Names::default(), note: None }, Results::of(sheet, bytes).unwrap())
}

/// A slot from elsewhere is said as it stands: with its operand where it is well formed, and as no result where it has none.
#[test]
fn slots_from_elsewhere() {
    let (asked, results) = with_slot([10, 3, 1, 1, 40, 0, 0, 0, 0xfe, 0xff, 0xff, 0xff, 0, 0, 0, 0]);
    let said = "ShrOverflow: -2i >> 40: 32 bits cannot be shifted right by the count 40";
    assert!(show::table(&asked, &results).contains(said));
    assert!(explain::shown(&asked, &results, 1).contains(said));
    assert!(graph::dot(&asked, &results, None).unwrap().contains(said.split_at(50).0));
    assert_eq!(show::entry_json(&asked, &results, 1)["refusal"]["operand"], "-2i");
    assert_eq!(results.fits(1), Some(false));

    for head in [[9, 0, 0, 0, 32], [9, 5, 1, 1, 32], [9, 4, 1, 2, 32]] {
        let mut slot = [0; 16];
        slot[..5].copy_from_slice(&head);
        let (asked, results) = with_slot(slot);
        assert!(show::table(&asked, &results).contains("no value: the slot's bytes are no result"), "{head:?}");
        assert!(show::entry_json(&asked, &results, 1).get("refusal").is_none());
    }
}

/// The page of refusals says of these two, and of no other, that they keep it.
#[test]
fn the_page() {
    let page = tool::ops::page();
    let kept: Vec<&str> = page.lines().filter(|line| line.contains("keeps the left operand")).collect();
    assert_eq!(kept.len(), 2, "{page}");
    assert!(kept[0].contains("9  ShlOverflow") && kept[1].contains("10  ShrOverflow"), "{kept:?}");
}

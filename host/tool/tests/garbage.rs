//! Garbage of all lengths, in every place where the tool reads: a sentence and status 1 or 2, or an answer, and never a panic.
mod common;
#[path = "../../tests/common/dice.rs"]
mod dice;

use std::path::Path;

use booth::{Results, Sheet, SLOT};
use common::{example, sentence, EXAMPLE};
use dice::Dice;
use tool::{ask::Asked, changes, complaint::Complaint, explain, graph, make, names::Names, show, text};

/// The longest garbage.
const LONGEST: usize = 20_000;

/// Every length up to 300, and some up to the longest: for what takes its time.
fn lengths() -> impl Iterator<Item = usize> {
    (0..=300).chain((301..LONGEST).step_by(997)).chain([16_383, 16_384, 16_385, LONGEST])
}

/// The sheets of the other tests.
fn kinds() -> Vec<Sheet> {
    let texts = [
        include_str!("golden/integers.txt"),
        include_str!("golden/floats.txt"),
        include_str!("golden/vectors.txt"),
        include_str!("golden/matrices.txt"),
        include_str!("golden/bools.txt"),
        include_str!("golden/chain.txt"),
        include_str!("golden/names.txt"),
    ];
    let example = Sheet::new(EXAMPLE.to_vec()).unwrap();
    texts.iter().map(|text| make::sheet("", text).unwrap().0).chain([example]).collect()
}

/// A complaint has a status and a sentence.
fn check_complaint(complaint: &Complaint) {
    assert!(complaint.status == 1 || complaint.status == 2, "{}", complaint.words);
    sentence("garbage", &complaint.words);
}

/// A sheet from anywhere: refused with words, or shown in every way. Answers whether it was accepted.
fn try_sheet(bytes: &[u8]) -> bool {
    let judged = Sheet::new(bytes.to_vec());
    assert_eq!(tool::check::json(bytes.len(), &judged)["ok"], judged.is_ok());
    match judged {
        Err(refusal) => {
            assert!((20..=29).contains(&refusal.number()), "{refusal}");
            let words = tool::check::shown(Path::new("a.sheet"), bytes, refusal);
            assert!(words.contains(refusal.name()), "{words}");
            false
        }
        Ok(sheet) => {
            try_results(&Results::fresh(sheet.clone()).unwrap());
            let told = text::of(&sheet, &Names::default());
            let (again, _) = make::sheet("a.txt", &told).unwrap_or_else(|fault| panic!("{}", fault.words));
            // The NaNs of a type have one text, so not every byte comes back.
            assert_eq!(again.bytes().len(), bytes.len(), "{told}");
            assert_eq!(text::of(&again, &Names::default()), told);
            true
        }
    }
}

/// Results from anywhere are shown in every way.
fn try_results(results: &Results) {
    let asked = Asked { sheet: results.sheet().clone(), names: Names::default(), note: None };
    let count = asked.sheet.entries().len();
    assert_eq!(show::table(&asked, results).lines().count(), count + 1);
    assert_eq!(show::json(&asked, results)["entries"].as_array().unwrap().len(), count);
    for entry in 0..count as u32 {
        assert!(explain::shown(&asked, results, entry).lines().count() > 1);
        assert_eq!(explain::json(&asked, results, entry)["number"], entry);
    }
    for setting in [None, Some(0), Some(count as u32)] {
        if let Err(complaint) = graph::dot(&asked, results, setting) {
            check_complaint(&complaint);
        }
    }
}

#[test]
fn garbage_sheets() {
    let mut dice = Dice(0x1234_5678_9abc_def1);
    for length in 0..=LONGEST {
        try_sheet(&dice.bytes(length));
        try_sheet(&vec![dice.roll() as u8; length]);
        let mut marked = dice.bytes(length);
        marked.iter_mut().zip([0xd5, 0x17, 3, 12, 0, 1, 4, 1, 1]).for_each(|(byte, known)| *byte = known);
        try_sheet(&marked);
    }
    let kinds = kinds();
    let mut accepted = 0;
    for turn in 0..4_000 {
        let mut bytes = kinds[turn % kinds.len()].bytes().to_vec();
        for _ in 0..1 + dice.below(2) {
            let place = dice.below(bytes.len());
            match dice.below(8) {
                0 => bytes.truncate(place + 1),
                1 => bytes.insert(place, dice.roll() as u8),
                2 => bytes[place] = dice.roll() as u8,
                _ => bytes[place] = bytes[place].wrapping_add(dice.of(&[1, 255, 16, 128])),
            }
        }
        accepted += usize::from(try_sheet(&bytes));
    }
    assert!(accepted > 400, "{accepted} of the changed sheets were accepted");
}

#[test]
fn garbage_results() {
    let mut dice = Dice(0xfeed_beef_1234_5671);
    for sheet in kinds() {
        let count = sheet.entries().len();
        for turn in 0..20 {
            let mut slots = Results::fresh(sheet.clone()).unwrap().bytes().to_vec();
            match turn {
                0 => slots = dice.bytes(SLOT * count),
                1 => slots = vec![0; SLOT * count],
                2 => slots = vec![0xff; SLOT * count],
                _ => {
                    for _ in 0..turn * turn {
                        // Often one of the first bytes of a slot, on which most hangs.
                        let within = dice.of(&[4, 8, 16, SLOT]);
                        let place = SLOT * dice.below(count) + dice.below(within);
                        slots[place] = dice.roll() as u8 >> dice.below(8);
                    }
                }
            }
            let mut results = Results::of(sheet.clone(), slots).unwrap();
            try_results(&results);
            let asked = Asked { sheet: sheet.clone(), names: Names::default(), note: None };
            match changes::make(&asked, &mut results, &["0=1".to_owned()]) {
                Ok(moved) => assert!(moved.others.is_empty(), "{moved:?}"),
                Err(complaint) => check_complaint(&complaint),
            }
            try_results(&results);
        }
    }
}

/// Words that a text may be made of, and some that it may not.
fn soup() -> Vec<&'static str> {
    const WORDS: &str = "const setting override exec a b #0 #1 #300 : = ( ) < > , + - * / % == != <= >= | & ^ ~ ! << >> || && vec2 mat2x2<f32>( \
        f32 u32 bool 1 5u -5i 0.5f 1h 0x 0x1p4 1e 1e999 inf -inf_h nan true \" \\ // é 日 _ . ; ' 1e-400h 0x1p-99999999999999999999 0x1p-9223372036854775808 \
        9999999999999999999999999999 \u{202e} \u{1b}[31m";
    let others = ["\"a b\"", "vec3<f32>(1.0, 2.0, 3.0)", "\t", "\r", "\u{0}", "\u{a0}", "\u{2028}"];
    WORDS.split_ascii_whitespace().chain(others).collect()
}

/// A text from anywhere: refused with a place, or made. Answers whether it was made.
fn try_text(text: &str) -> bool {
    match make::sheet("a.txt", text) {
        Err(complaint) => {
            check_complaint(&complaint);
            assert!(complaint.status == 1 && complaint.words.starts_with("a.txt:"), "{}", complaint.words);
            false
        }
        Ok((sheet, names)) => {
            assert_eq!(names.0.len(), sheet.entries().len());
            let told = text::of(&sheet, &names);
            let (again, called) = make::sheet("a.txt", &told).unwrap_or_else(|fault| panic!("{}", fault.words));
            assert_eq!((again.bytes(), called), (sheet.bytes(), names), "{told}");
            true
        }
    }
}

#[test]
fn garbage_texts() {
    let soup = soup();
    let mut dice = Dice(0x00dd_ba11_00dd_ba11);
    for length in 0..=LONGEST {
        try_text(&String::from_utf8_lossy(&dice.bytes(length)));
        let ascii: String = (0..length).map(|_| char::from(32 + dice.below(95) as u8)).collect();
        try_text(&ascii);
        try_text(&format!("const a = {ascii}"));
    }
    for length in lengths() {
        try_text(&dice.of(&soup).repeat(length));
        try_text(&format!("const a = {}", dice.of(&soup).repeat(length)));
        let words: Vec<&str> = (0..length).map(|_| dice.of(&soup)).collect();
        try_text(&words.join(dice.of(&["", " ", "\n"])));
    }
    let mut made = 0;
    for _ in 0..20_000 {
        let words: Vec<&str> = (0..1 + dice.below(7)).map(|_| dice.of(&soup)).collect();
        made += usize::from(try_text(&format!("const b = 1\nexec a = {}", words.join(" "))));
        try_text(&format!("setting a: {} = {}", dice.of(&["u32", "f16", "bool", "x"]), words.join("")));
    }
    assert!(made > 500, "{made} texts were made");
    let chars: Vec<char> =
        include_str!("golden/names.txt").chars().chain(include_str!("golden/floats.txt").chars()).collect();
    for _ in 0..1_000 {
        let mut changed = chars.clone();
        let place = dice.below(changed.len());
        let letter = dice.of(&soup).chars().next().unwrap();
        match dice.below(3) {
            0 => drop(changed.remove(place)),
            1 => changed.insert(place, letter),
            _ => changed[place] = letter,
        }
        try_text(&changed.into_iter().collect::<String>());
    }
}

#[test]
fn garbage_words() {
    let soup = soup();
    let mut dice = Dice(0xabad_1dea_0bad_cafe);
    let mut made = 0;
    for sheet in kinds() {
        let names = Names((0..sheet.entries().len()).map(|n| Some("a b".to_owned()).filter(|_| n == 0)).collect());
        let asked = Asked { sheet, names, note: None };
        let fresh = Results::fresh(asked.sheet.clone()).unwrap();
        for _ in 0..2_000 {
            let content: String = (0..1 + dice.below(3)).map(|_| dice.of(&soup)).collect();
            let name = dice.of(&["0", "1", "2", "a b", "#0", "", "a", "=", "300", "99999999999999999999", "#", "0=0"]);
            let mut results = fresh.clone();
            match changes::make(&asked, &mut results, &[format!("{name}={content}")]) {
                Ok(_) => made += 1,
                Err(complaint) => {
                    check_complaint(&complaint);
                    assert_eq!(results, fresh, "a refused word wrote");
                }
            }
            if let Err(complaint) = asked.entry(&content) {
                check_complaint(&complaint);
            }
        }
    }
    assert!(made > 50, "{made} words were taken");
}

#[test]
fn garbage_names() {
    let mut dice = Dice(0x5eed_5eed_5eed_5eed);
    for length in lengths() {
        let likely = (0..length).map(|_| dice.of(b"a\nb \n\r\xc3\xb6\t#1\0")).collect();
        for bytes in [dice.bytes(length), likely] {
            let lines = bytes.split(|byte| *byte == b'\n').count();
            for entries in [0, 1, 3, lines - 1, lines] {
                match Names::of(&bytes, entries) {
                    Ok(names) => assert_eq!(Names::of(names.lines().as_bytes(), entries), Ok(names)),
                    Err(why) => sentence("names", &why),
                }
            }
        }
    }
}

#[test]
fn garbage_through_the_tool() {
    let folder = example("garbage");
    let mut dice = Dice(0xc0ff_ee00_c0ff_ee01);
    for length in [0, 1, 4, 5, 17, 59, 300, 4_000, 16_384, 16_385, 20_000] {
        let mut garbage = dice.bytes(length);
        if length % 2 == 1 {
            garbage.iter_mut().zip([0xd5, 0x17]).for_each(|(byte, mark)| *byte = mark);
        }
        folder.write("b", &garbage);
        for line in [
            "check b",
            "show b",
            "show b --json",
            "make b -o c",
            "set b a.results 0=1",
            "explain b 0",
            "fresh b -o c",
            "set a.sheet b 0=1",
            "show a.sheet --results b",
        ] {
            let said = folder.run(line);
            match length {
                0 => assert!([0, 1].contains(&said.status), "{} said {}", said.asked, said.err),
                _ => drop(said.failed(1)),
            }
        }
    }
}

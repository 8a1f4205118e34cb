//! Sheets as text and back: what is printed reads to the same sheet and names, and no text ends in a panic.
#[path = "../../tests/common/mod.rs"]
mod common;

use std::{cell::Cell, collections::HashSet, fmt, fs};

use booth::{Binary, Expr, Kind, Sheet, Stage, Type, Unary, Value};
use proptest::{
    collection::vec,
    option,
    prelude::*,
    sample::{select, Index},
    test_runner::{Config, TestCaseError, TestRunner},
};
use tool::{
    make,
    names::{self, Names},
    text,
};

/// Names that need quotes, or look as if they did.
#[rustfmt::skip]
const ODD: [&str; 64] = [
    "setting", "const", "override", "exec", "none", "true", "false", "inf", "-inf", "inf_f", "nan", "nan_h", "inff", "-nan", "NaN",
    "infinity", "bool", "i32", "u32", "f16", "AbstractInt", "vec2", "vec2f", "vec3<f32>", "vec5", "vec", "mat2x3", "mat4x4h", "mat2x",
    "mat2x3i", "_", "__", "a b", "a  b", "5u", "5x", "0x", "1..2", "-5", "-a", "a--b", "a#0", "a//b", "//", "\"", "\\", "\\\"", "a\"b", "'",
    "=", "a = b", ":", "(", ",", "e\u{301}", "é", "名前", "🙂", "²", "٣", "a\u{2028}b", "a\u{a0}b", "\u{feff}a", "\u{200e}",
];

/// The edges of a float type with so many bits of exponent and of fraction, of both signs: around zero, the smallest normal number, one,
/// the infinity, and the last NaN.
fn edges(exponent: u32, fraction: u32) -> Vec<u64> {
    let sign: u64 = 1 << (exponent + fraction);
    let (one, infinity) = (((1 << (exponent - 1)) - 1) << fraction, ((1 << exponent) - 1) << fraction);
    let sizes = [1, 1 << fraction, one, infinity, sign - 2].into_iter().flat_map(|size| [size - 1, size, size + 1]);
    sizes.flat_map(|size| [size, sign | size]).collect()
}

/// A pattern of a type: an edge, a number with few figures, or any.
fn bits(ty: Type) -> BoxedStrategy<u64> {
    let (edges, width) = match ty {
        Type::Bool => (vec![0, 1], 1),
        Type::AbstractInt => (vec![0, 1, i64::MAX as u64, i64::MIN as u64, u64::MAX], 64),
        Type::I32 | Type::U32 => (vec![0, 1, 0x7fff_ffff, 0x8000_0000, 0xffff_ffff], 32),
        Type::AbstractFloat => (edges(11, 52), 64),
        Type::F32 => (edges(8, 23), 32),
        Type::F16 => (edges(5, 10), 16),
    };
    let short = (-999i32..=999, -40i32..=40).prop_map(move |(figures, power)| {
        let x = f64::from(figures) * 10f64.powi(power);
        match ty {
            Type::AbstractFloat => x.to_bits(),
            Type::F32 => (x as f32).to_bits().into(),
            _ => figures as u64 & (u64::MAX >> (64 - width)),
        }
    });
    prop_oneof![select(edges), short, any::<u64>().prop_map(move |bits| bits >> (64 - width))].boxed()
}

fn scalar(types: Vec<Type>) -> impl Strategy<Value = Value> {
    select(types).prop_flat_map(|ty| bits(ty).prop_map(move |bits| Value::scalar(ty, bits).unwrap()))
}

/// A vector or a matrix.
fn shaped() -> impl Strategy<Value = Value> {
    (select(Type::ALL.to_vec()), 1..=4u8, 2..=4u8).prop_flat_map(|(ty, columns, rows)| {
        let columns = if ty.is_float() { columns } else { 1 };
        vec(bits(ty), usize::from(columns * rows)).prop_map(move |bits| Value::new(ty, columns, rows, &bits).unwrap())
    })
}

/// A literal, or the wish for an entry, which `settled` makes into one that may be named.
fn leaf() -> BoxedStrategy<Expr> {
    let leaf = prop_oneof![
        3 => scalar(Type::ALL.to_vec()).prop_map(Expr::Literal),
        1 => shaped().prop_map(Expr::Literal),
        3 => any::<u8>().prop_map(Expr::Entry),
    ];
    leaf.boxed()
}

/// A bush of operators, or a stem of up to 32 nodes one below another.
fn expr() -> impl Strategy<Value = Expr> {
    let bush = leaf().prop_recursive(7, 24, 2, |inner| {
        prop_oneof![
            (select(Unary::ALL.to_vec()), inner.clone()).prop_map(|(op, operand)| Expr::unary(op, operand)),
            (select(Binary::ALL.to_vec()), inner.clone(), inner)
                .prop_map(|(op, left, right)| Expr::binary(op, left, right)),
        ]
    });
    let stem = |lengths| {
        let node =
            (select(Unary::ALL.to_vec()), select(Binary::ALL.to_vec()), option::weighted(0.7, leaf()), any::<bool>());
        (leaf(), vec(node, lengths)).prop_map(|(leaf, nodes)| {
            nodes.into_iter().fold(leaf, |below, (unary, binary, beside, left)| match (beside, left) {
                (None, _) => Expr::unary(unary, below),
                (Some(beside), true) => Expr::binary(binary, below, beside),
                (Some(beside), false) => Expr::binary(binary, beside, below),
            })
        })
    };
    prop_oneof![10 => bush, 1 => stem(0..=31), 1 => stem(31..=31)]
}

fn entry() -> impl Strategy<Value = (Kind, Expr)> {
    let concrete = vec![Type::Bool, Type::I32, Type::U32, Type::F32, Type::F16];
    prop_oneof![
        1 => scalar(concrete).prop_map(|content| (Kind::Setting, Expr::Literal(content))),
        3 => (select(Stage::ALL.to_vec()), expr()).prop_map(|(stage, expr)| (Kind::Expression(stage), expr)),
    ]
}

fn name() -> impl Strategy<Value = String> {
    let any =
        prop_oneof![select(ODD.to_vec()).prop_map(str::to_owned), "[a-z_][a-z0-9_]{0,9}", "[ -~]{1,64}", "\\PC{1,64}"];
    any.prop_filter("a name", |name| names::judge(name).is_ok())
}

/// A sheet with its names. A fault prints it as text.
struct Named(Sheet, Names);

impl fmt::Debug for Named {
    fn fmt(&self, f: &mut fmt::Formatter) -> fmt::Result {
        write!(f, "\n{}", text::of(&self.0, &self.1))
    }
}

/// The expression with each wish made into an entry that may be named, where there is one.
fn settled(expr: Expr, allowed: &[u8]) -> Expr {
    match expr {
        Expr::Entry(wish) if allowed.is_empty() => Expr::from(u32::from(wish)),
        Expr::Entry(wish) => Expr::Entry(allowed[usize::from(wish) % allowed.len()]),
        Expr::Unary(op, operand) => Expr::unary(op, settled(*operand, allowed)),
        Expr::Binary(op, left, right) => Expr::binary(op, settled(*left, allowed), settled(*right, allowed)),
        literal => literal,
    }
}

/// An accepted sheet of at most so many entries, with names for all, for some or for none.
fn named(most: usize) -> impl Strategy<Value = Named> {
    let entries = prop_oneof![
        2 => vec((entry(), option::of(name())), 0..=most),
        1 => vec((entry(), Just(None)), 0..=most),
        1 => vec((entry(), name().prop_map(Some)), most),
    ];
    entries.prop_map(|entries| {
        let (mut builder, mut kinds, mut all) = (Sheet::builder(), Vec::<Kind>::new(), Names::default());
        let mut seen = HashSet::new();
        for ((kind, expr), name) in entries {
            let allowed: Vec<u8> =
                (0..).zip(&kinds).filter(|(_, other)| other.stage() <= kind.stage()).map(|(n, _)| n).collect();
            let expr = settled(expr, &allowed);
            // A record has 5 bytes before its body.
            if builder.bytes().len() + 5 + expr.size() > Sheet::MOST_BYTES {
                break;
            }
            builder.push(kind, &expr);
            kinds.push(kind);
            all.0.push(name.filter(|name| seen.insert(name.clone())));
        }
        Named(builder.build().expect("an accepted sheet"), all)
    })
}

/// A literal as the library keeps it: what a lone entry of it comes to.
fn kept(value: &Value) -> Value {
    let mut builder = Sheet::builder();
    builder.entry(Stage::Const, Expr::Literal(*value));
    let results = builder.build().and_then(Sheet::fold).unwrap();
    *results.slot(0).unwrap().value().unwrap()
}

/// The expression with its NaNs as they are kept: text has one word for all of them.
fn with_kept(expr: &Expr) -> Expr {
    match expr {
        Expr::Literal(value) => Expr::Literal(kept(value)),
        Expr::Entry(number) => Expr::Entry(*number),
        Expr::Unary(op, operand) => Expr::unary(*op, with_kept(operand)),
        Expr::Binary(op, left, right) => Expr::binary(*op, with_kept(left), with_kept(right)),
    }
}

/// A sheet's text has a line for each entry, reads to the same bytes and names, and these print to the same text.
fn there_and_back(sheet: &Sheet, names: &Names) -> Result<(), TestCaseError> {
    let mut expected = Sheet::builder();
    for entry in sheet.entries() {
        expected.push(entry.kind, &with_kept(&entry.expr));
    }
    let printed = text::of(sheet, names);
    prop_assert_eq!(printed.matches('\n').count(), sheet.entries().len());
    let (read, called) = make::sheet("t", &printed).map_err(|fault| TestCaseError::fail(fault.words))?;
    prop_assert_eq!(read.bytes(), expected.bytes(), "{}", printed);
    prop_assert_eq!(&called, names);
    prop_assert_eq!(text::of(&read, &called), printed);
    Ok(())
}

/// Whether a text is accepted; if so it goes there and back, and else the complaint begins with the text's own name.
fn judged(text: &str) -> Result<bool, TestCaseError> {
    match make::sheet("t", text) {
        Ok((sheet, names)) => there_and_back(&sheet, &names).map(|()| true),
        Err(complaint) => {
            prop_assert!(complaint.status == 1 && complaint.words.starts_with("t:"), "{}", complaint.words);
            Ok(false)
        }
    }
}

/// Runs a property over so many cases.
fn run<S: Strategy>(cases: u32, strategy: S, property: impl Fn(S::Value) -> Result<(), TestCaseError>) {
    let config = Config { cases, failure_persistence: None, ..Config::default() };
    TestRunner::new(config).run(&strategy, property).unwrap_or_else(|fault| panic!("{fault}"));
}

/// Generated sheets of all operators, types, shapes and patterns, up to 128 entries and 32 deep, with odd names.
#[test]
fn generated_sheets() {
    let (full, deepest) = (Cell::new(0), Cell::new(0));
    run(400, named(Sheet::MOST_ENTRIES), |Named(sheet, names)| {
        full.set(full.get() + u32::from(sheet.entries().len() == Sheet::MOST_ENTRIES));
        let deep = sheet.entries().iter().any(|entry| entry.expr.depth() == Sheet::MOST_DEEP);
        deepest.set(deepest.get() + u32::from(deep));
        there_and_back(&sheet, &names)
    });
    assert!(full.get() > 20 && deepest.get() > 100, "{} full, {} of the greatest depth", full.get(), deepest.get());
}

/// One expression under one operator under another: every operator, every kind of operand, both sides.
#[test]
fn every_pair_of_operators() {
    let vector = Expr::from([-1i32, 2]);
    let leaves =
        [Expr::Entry(0), Expr::from(5i32), Expr::from(-5i32), Expr::from(f32::NEG_INFINITY), Expr::from(true), vector];
    let unary = |below: &Expr| Unary::ALL.map(|op| Expr::unary(op, below.clone()));
    let binary = |l: &Expr, r: &Expr| Binary::ALL.map(|op| Expr::binary(op, l.clone(), r.clone()));
    let over = |below: &Expr| -> Vec<Expr> {
        let beside = Expr::Entry(0);
        [&unary(below)[..], &binary(below, &beside), &binary(&beside, below)].concat()
    };
    let mut seen = 0;
    for leaf in &leaves {
        for expr in over(leaf).iter().flat_map(over) {
            let mut builder = Sheet::builder();
            builder.setting(1u32);
            builder.entry(Stage::Exec, expr);
            there_and_back(&builder.build().unwrap(), &Names(vec![None, None])).unwrap();
            seen += 1;
        }
    }
    assert_eq!(seen, 6 * 39 * 39);
}

/// Thirty-two deep in every operator, on its left and on its right.
#[test]
fn every_operator_at_its_deepest() {
    let grown = |over: &dyn Fn(Expr) -> Expr| (1..Sheet::MOST_DEEP).fold(Expr::from(5i32), |below, _| over(below));
    let unary = Unary::ALL.map(|op| grown(&|below| Expr::unary(op, below)));
    let left = Binary::ALL.map(|op| grown(&|below| Expr::binary(op, below, true.into())));
    let right = Binary::ALL.map(|op| grown(&|below| Expr::binary(op, true.into(), below)));
    for expr in unary.into_iter().chain(left).chain(right) {
        assert_eq!(expr.depth(), Sheet::MOST_DEEP);
        let mut builder = Sheet::builder();
        builder.entry(Stage::Const, expr);
        there_and_back(&builder.build().unwrap(), &Names(vec![None])).unwrap();
    }
}

/// Every accepted sheet of the stored list, and those of the listing's cases.
#[test]
fn stored_sheets() {
    let mut sheets = common::accepted();
    assert!(sheets.len() > 1_700, "{}", sheets.len());
    let cases = fs::read_dir(common::at_root("crates/listing_cases/data")).unwrap();
    let files: Vec<Vec<u8>> = cases.map(|file| fs::read(file.unwrap().path()).unwrap()).collect();
    let accepted = files.into_iter().filter(|sheet| booth::check(sheet).is_ok());
    let before = sheets.len();
    sheets.extend(accepted);
    assert!(sheets.len() - before >= 4, "{} files", sheets.len() - before);
    for bytes in sheets {
        let sheet = Sheet::new(bytes).unwrap();
        let none = Names(vec![None; sheet.entries().len()]);
        there_and_back(&sheet, &none).unwrap();
    }
}

/// Names that no one would choose, all in one sheet, each named by an entry of its own.
#[test]
fn odd_names() {
    let mut builder = Sheet::builder();
    for name in ODD.map(|_| builder.setting(1u32)) {
        builder.entry(Stage::Exec, -name);
    }
    let names = ODD.iter().map(|name| Some(name.to_string())).chain(ODD.map(|_| None)).collect();
    there_and_back(&builder.build().unwrap(), &Names(names)).unwrap();
}

/// Any text at all is read or refused.
#[test]
fn any_text() {
    run(3_000, "\\PC{0,60}(\n\\PC{0,60}){0,3}", |text| judged(&text).map(drop));
    run(3_000, vec(any::<char>(), 0..60), |text| judged(&text.into_iter().collect::<String>()).map(drop));
}

/// Operands and operators of the language one after another, with signs and parentheses that do not care for one another.
#[test]
fn any_words() {
    let words = |words: &'static str| select(words.split(' ').collect::<Vec<&str>>());
    let head = select(vec!["const a = ", "override b = ", "exec #1 = ", "setting c: f32 = "]);
    let sign = prop_oneof![6 => Just(""), 4 => words("- ! ~ ( -( !- -- ~("), 1 => Just("- ")];
    let number = words("1 -1 1u -5i 1.5f -.5h 0x1p3 0xf 1e-5 1e true inf -inf nan_f inff");
    let other = words("#0 #0 #0 #1 a z vec2f(1,2) vec2(1,-2) mat2x2<f16>(1,2,3,inf) vec2 f32");
    let end = prop_oneof![2 => Just(""), 1 => Just(")")];
    let piece =
        (sign, prop_oneof![number, other], end).prop_map(|(sign, operand, end)| format!("{sign}{operand}{end}"));
    let operator = words("+ - * / % == != < <= > >= | & ^ && || << >> ++ , = ) ( // :");
    let text = (head, vec((piece, operator, select(vec!["", " "])), 1..5)).prop_map(|(head, pieces)| {
        let mut text = head.to_owned();
        for (place, (piece, operator, gap)) in pieces.into_iter().enumerate() {
            text += &if place == 0 { piece } else { format!("{gap}{operator}{gap}{piece}") };
        }
        text
    });
    let accepted = Cell::new(0);
    run(20_000, text, |text| {
        judged(&format!("setting #0: u32 = 1\n{text}")).map(|good| accepted.set(accepted.get() + u32::from(good)))
    });
    assert!(accepted.get() > 1_000, "{}", accepted.get());
}

/// A valid text with some characters deleted, put in or replaced is read or refused; what is read goes there and back.
#[test]
fn changed_text() {
    let chars: Vec<char> = "()<>|&=!+-*/%^~,:\"\\#.0159exfhiu_ \n\tanv²٣".chars().collect();
    let edits = vec((any::<Index>(), option::of(select(chars)), any::<bool>()), 1..4);
    let text = (named(3), edits).prop_map(|(Named(sheet, names), edits)| {
        let mut text: Vec<char> = text::of(&sheet, &names).chars().collect();
        for (place, put, keep) in edits {
            let place = place.index(text.len() + 1);
            let end = (place + usize::from(!keep)).min(text.len());
            text.splice(place..end, put);
        }
        text.into_iter().collect::<String>()
    });
    let accepted = Cell::new(0);
    run(8_000, text, |text| judged(&text).map(|good| accepted.set(accepted.get() + u32::from(good))));
    assert!(accepted.get() > 800, "{}", accepted.get());
}

/// Twenty thousand of anything, side by side, with gaps or on lines, ends in an answer.
#[test]
fn endless_text() {
    let pieces = "( ) - ! ~ 1+ 1-( a 9 # #0 #9 \" \"\" \\ vec2( vec2(1, 1, < // . 0x 1e ² const setting";
    for piece in pieces.split(' ').chain(["const a = 1", "const #0 = 1"]) {
        for gap in ["", " ", "\t", "\n", "\r\n"] {
            for head in ["", "const a = ", "const \"", "setting a: u32 = ", "const a = vec2("] {
                judged(&(head.to_owned() + &format!("{piece}{gap}").repeat(20_000))).unwrap();
            }
        }
    }
}

//! Expressions as WGSL writes them, sheets put together entry by entry, and entries explained node by node.
use booth::{Binary, Entry, Expr, Kind, Refusal, Results, Scalar, Sheet, Slot, Stage, Step, Type, Unary, Value, SLOT};

use Binary::*;
use Unary::{BitNot, Neg, Not};

/// The text with the first three entries called a, b and c.
fn text(expr: &Expr) -> String {
    expr.with_names(&|entry| ["a", "b", "c"][usize::from(entry)].to_owned()).to_string()
}

/// Three entries to build expressions of.
fn abc() -> [Expr; 3] {
    [0, 1, 2].map(Expr::Entry)
}

/// `a outer (b inner c)`.
fn on_the_right(outer: Binary, inner: Binary) -> Expr {
    let [a, b, c] = abc();
    Expr::binary(outer, a, Expr::binary(inner, b, c))
}

/// `(a inner b) outer c`.
fn on_the_left(inner: Binary, outer: Binary) -> Expr {
    let [a, b, c] = abc();
    Expr::binary(outer, Expr::binary(inner, a, b), c)
}

/// Operators beside one another have the parentheses that WGSL's grammar asks for.
#[test]
fn pairs_of_operators() {
    let cases = [
        (on_the_left(Add, Mul), "(a + b) * c"),
        (on_the_right(Add, Mul), "a + b * c"),
        (on_the_left(Mul, Add), "a * b + c"),
        (on_the_left(Add, Add), "a + b + c"),
        (on_the_right(Add, Add), "a + (b + c)"),
        (on_the_left(Sub, Sub), "a - b - c"),
        (on_the_right(Sub, Sub), "a - (b - c)"),
        (on_the_right(Mul, Div), "a * (b / c)"),
        (on_the_left(Rem, Mul), "a % b * c"),
        (on_the_right(Shl, Add), "a << (b + c)"),
        (on_the_left(Shl, Shl), "(a << b) << c"),
        (on_the_left(Shl, Shr), "(a << b) >> c"),
        (on_the_left(Shl, Add), "(a << b) + c"),
        (on_the_left(Shl, Lt), "a << b < c"),
        (on_the_right(Lt, Add), "a < b + c"),
        (on_the_left(Lt, Eq), "(a < b) == c"),
        (on_the_right(Eq, Lt), "a == (b < c)"),
        (on_the_left(Eq, Eq), "(a == b) == c"),
        (on_the_left(Lt, And), "a < b && c"),
        (on_the_right(And, Or), "a && (b || c)"),
        (on_the_left(And, Or), "(a && b) || c"),
        (on_the_left(And, And), "a && b && c"),
        (on_the_right(And, And), "a && (b && c)"),
        (on_the_left(BitAnd, BitOr), "(a & b) | c"),
        (on_the_left(BitAnd, BitAnd), "a & b & c"),
        (on_the_left(BitXor, BitXor), "a ^ b ^ c"),
        (on_the_right(BitOr, BitOr), "a | (b | c)"),
        (on_the_right(BitOr, Mul), "a | (b * c)"),
        (on_the_left(BitAnd, Eq), "(a & b) == c"),
        (on_the_left(BitAnd, And), "(a & b) && c"),
    ];
    for (expr, expected) in cases {
        assert_eq!(text(&expr), expected);
    }
}

/// What an operator takes bare on its left and on its right, from WGSL's grammar: all 648 pairs.
#[test]
fn every_pair_of_operators() {
    const PRODUCTS: &str = "* / %";
    const SUMS: &str = "+ - * / %";
    const SHIFTS: &str = "+ - * / % << >>";
    const COMPARISONS: &str = "+ - * / % << >> == != < <= > >=";
    let bare = |outer: Binary| -> (String, &str) {
        match outer.symbol() {
            "*" | "/" | "%" => (PRODUCTS.to_owned(), ""),
            "+" | "-" => (SUMS.to_owned(), PRODUCTS),
            "<<" | ">>" => (String::new(), ""),
            "==" | "!=" | "<" | "<=" | ">" | ">=" => (SHIFTS.to_owned(), SHIFTS),
            chain @ ("&&" | "||") => (format!("{chain} {COMPARISONS}"), COMPARISONS),
            chain => (chain.to_owned(), ""),
        }
    };
    let among = |operators: &str, op: Binary| operators.split(' ').any(|symbol| symbol == op.symbol());
    for outer in Binary::ALL {
        let (left, right) = bare(outer);
        for inner in Binary::ALL {
            let inside = if among(&left, inner) { format!("a {inner} b") } else { format!("(a {inner} b)") };
            assert_eq!(text(&on_the_left(inner, outer)), format!("{inside} {outer} c"));
            let inside = if among(right, inner) { format!("b {inner} c") } else { format!("(b {inner} c)") };
            assert_eq!(text(&on_the_right(outer, inner)), format!("a {outer} {inside}"));
        }
    }
}

/// A sign stands before what it belongs to, and no two `-` make `--`, nor does `-` before a number make a negative one.
#[test]
fn signs() {
    let [a, b, _] = abc();
    let vector = || Expr::from([-1.0f32, 2.0]);
    let cases = [
        (Expr::unary(Neg, a.clone()), "-a"),
        (Expr::unary(Neg, 5.into()), "-(5i)"),
        (Expr::unary(Neg, (-5).into()), "-(-5i)"),
        (Expr::from(-5), "-5i"),
        (Expr::unary(Neg, Expr::from(f64::INFINITY)), "-(inf)"),
        (Expr::unary(Neg, Expr::unary(Neg, a.clone())), "-(-a)"),
        (Expr::unary(Neg, Expr::unary(BitNot, a.clone())), "-~a"),
        (Expr::unary(BitNot, Expr::unary(Neg, a.clone())), "~-a"),
        (Expr::unary(BitNot, Expr::unary(BitNot, a.clone())), "~~a"),
        (Expr::unary(BitNot, (-5).into()), "~-5i"),
        (Expr::unary(Not, true.into()), "!true"),
        (Expr::unary(Not, Expr::binary(And, a.clone(), b.clone())), "!(a && b)"),
        (Expr::unary(Neg, Expr::binary(Mul, a.clone(), b.clone())), "-(a * b)"),
        (Expr::binary(Mul, Expr::unary(Neg, a.clone()), b), "-a * b"),
        (Expr::binary(Sub, a.clone(), (-5).into()), "a - -5i"),
        (Expr::binary(Sub, a.clone(), Expr::unary(Neg, 5.into())), "a - -(5i)"),
        (Expr::binary(Sub, a.clone(), Expr::unary(Neg, a)), "a - -a"),
        (Expr::unary(Neg, vector()), "-vec2<f32>(-1.0, 2.0)"),
        (Expr::binary(Lt, vector(), vector()), "vec2<f32>(-1.0, 2.0) < vec2<f32>(-1.0, 2.0)"),
    ];
    for (expr, expected) in cases {
        assert_eq!(text(&expr), expected);
    }
}

/// Rust's operators build the expressions of the same names, and entries go by number where no names are given.
#[test]
fn operators_of_rust() {
    let built: [fn(Expr, Expr) -> Expr; 10] = [
        |l, r| l + r,
        |l, r| l - r,
        |l, r| l * r,
        |l, r| l / r,
        |l, r| l % r,
        |l, r| l | r,
        |l, r| l & r,
        |l, r| l ^ r,
        |l, r| l << r,
        |l, r| l >> r,
    ];
    for (build, op) in built.into_iter().zip([Add, Sub, Mul, Div, Rem, BitOr, BitAnd, BitXor, Shl, Shr]) {
        assert_eq!(build(Expr::Entry(7), 1u32.into()).to_string(), format!("#7 {op} 1u"));
    }
    assert_eq!((-Expr::Entry(127)).to_string(), "-#127");
}

/// Bytes of a body, nodes below one another, and the entries named.
#[test]
fn sizes_depths_and_names() {
    let [a, b, c] = abc();
    let square = Value::new(Type::F16, 4, 4, &[0; 16]).unwrap();
    let cases = [
        (a.clone(), 2, 1, vec![0]),
        (Expr::from(5u32), 12, 1, vec![]),
        (Expr::from([1i32, 2, 3]), 28, 1, vec![]),
        (Expr::Literal(square), 132, 1, vec![]),
        (Expr::unary(Neg, b.clone()), 4, 2, vec![1]),
        (Expr::from(1u32) << c.clone(), 16, 2, vec![2]),
        ((c.clone() + a.clone()) * (c.clone() - Expr::unary(Neg, a.clone())), 16, 4, vec![0, 2]),
        (c + b + a, 10, 3, vec![0, 1, 2]),
    ];
    for (expr, size, depth, names) in cases {
        let mut body = Vec::new();
        expr.write(&mut body);
        assert_eq!((expr.size(), body.len(), expr.depth(), expr.names()), (size, size, depth, names), "{expr}");
    }
}

/// Document 01's example.
const EXAMPLE: [u8; 59] = [
    0xd5, 0x17, 3, 12, 0, 1, 4, 1, 1, 5, 0, 0, 0, 0, 0, 0, 0, //
    0xd5, 0x17, 1, 16, 0, 4, 17, 1, 4, 1, 1, 1, 0, 0, 0, 0, 0, 0, 0, 2, 0, //
    0xd5, 0x17, 1, 16, 0, 4, 4, 2, 1, 1, 4, 1, 1, 1, 0, 0, 0, 0, 0, 0, 0,
];

fn example() -> Sheet {
    let mut builder = Sheet::builder();
    let cell = builder.setting(5u32);
    let mask = builder.entry(Stage::Override, Expr::from(1u32) << cell);
    builder.entry(Stage::Override, mask - 1u32.into());
    builder.build().unwrap()
}

/// The builder writes the example byte for byte, and its entries are what was put in.
#[test]
fn the_example_is_built() {
    let sheet = example();
    assert_eq!(sheet.bytes(), EXAMPLE);
    assert_eq!(Sheet::new(EXAMPLE.to_vec()).as_ref(), Ok(&sheet));
    let step = Kind::Expression(Stage::Override);
    let entries = [
        Entry { kind: Kind::Setting, expr: 5u32.into(), body: 5..17 },
        Entry { kind: step, expr: Expr::binary(Shl, 1u32.into(), Expr::Entry(0)), body: 22..38 },
        Entry { kind: step, expr: Expr::binary(Sub, Expr::Entry(1), 1u32.into()), body: 43..59 },
    ];
    assert_eq!(sheet.entries(), entries);
}

/// `~` so many times over an expression.
fn turned(times: usize, expr: Expr) -> Expr {
    (0..times).fold(expr, |expr, _| Expr::unary(BitNot, expr))
}

/// The number and the detail with which these entries are refused, or how many there are.
fn judged(entries: &[(Kind, Expr)]) -> Result<usize, (u8, u32)> {
    let mut builder = Sheet::builder();
    for (number, (kind, expr)) in entries.iter().enumerate() {
        let named = builder.push(*kind, expr);
        assert_eq!(named, Expr::Entry(number as u8));
    }
    builder.build().map(|sheet| sheet.entries().len()).map_err(|refusal| (refusal.number(), refusal.detail()))
}

/// As many entries, as deep an expression and as many bytes as a sheet holds are built, and one more has the library's number.
#[test]
fn limits_of_the_builder() {
    let five = || (Kind::Setting, Expr::from(5u32));
    assert_eq!(judged(&vec![five(); 128]), Ok(128));
    assert_eq!(judged(&vec![five(); 129]), Err((24, 128 * 17)));

    let deep = |times| [(Kind::Expression(Stage::Const), turned(times, 5u32.into()))];
    assert_eq!(judged(&deep(31)), Ok(1));
    assert_eq!(judged(&deep(32)), Err((28, 5 + 2 * 32)));

    // 119 records of 137 bytes are 16,303.
    let square = Expr::Literal(Value::new(Type::F32, 4, 4, &[0; 16]).unwrap());
    let mut entries = vec![(Kind::Expression(Stage::Exec), square); 119];
    entries.push((Kind::Expression(Stage::Exec), turned(28, [1u32, 2].into())));
    assert_eq!(judged(&entries), Ok(120), "81 more bytes, 16,384");
    entries[119].1 = turned(20, [1u32, 2].into());
    entries.push(five());
    assert_eq!(judged(&entries), Err((20, 0)), "65 and 17 more bytes, 16,385");

    // A body of more bytes than its record can count.
    let long = (0..13).fold(Expr::from([0u32; 4]), |expr, _| Expr::binary(Add, expr.clone(), expr));
    assert_eq!(judged(&[(Kind::Setting, long)]), Err((20, 0)));
}

/// What may not stand in a setting or be named has the library's number, at the node's place.
#[test]
fn refusals_of_the_builder() {
    let entry = |stage, expr| (Kind::Expression(stage), expr);
    let setting = |content: Value| (Kind::Setting, Expr::Literal(content));
    let five = || setting(5u32.into());
    let square = Value::new(Type::F32, 2, 2, &[0; 4]).unwrap();
    for content in [[1u32, 2].into(), square, Value::from(5i64), Value::from(0.5f64)] {
        assert_eq!(judged(&[setting(content)]), Err((26, 5)), "{content}");
        assert_eq!(judged(&[five(), setting(content)]), Err((26, 17 + 5)), "{content}");
    }
    assert_eq!(judged(&[five(), (Kind::Setting, Expr::Entry(0))]), Err((25, 17 + 5)));
    assert_eq!(judged(&[five(), (Kind::Setting, Expr::unary(Neg, 5.into()))]), Err((25, 17 + 5)));

    assert_eq!(judged(&[entry(Stage::Exec, Expr::Entry(0))]), Err((27, 5)), "itself");
    assert_eq!(
        judged(&[five(), entry(Stage::Exec, Expr::from(1u32) << Expr::Entry(2)), five()]),
        Err((27, 17 + 5 + 2 + 12))
    );
    assert_eq!(
        judged(&[five(), entry(Stage::Const, Expr::Entry(0))]),
        Err((23, 17 + 5)),
        "a setting is of stage Override"
    );
    for (early, late) in [(Stage::Const, Stage::Override), (Stage::Const, Stage::Exec), (Stage::Override, Stage::Exec)]
    {
        assert_eq!(
            judged(&[entry(late, 5.into()), entry(early, Expr::Entry(0))]),
            Err((23, 17 + 5)),
            "{early} names {late}"
        );
        assert_eq!(judged(&[entry(early, 5.into()), entry(late, Expr::Entry(0))]), Ok(2), "{late} names {early}");
    }
}

/// A node and those below it: its place, its text and what it came to.
fn nodes(step: &Step) -> Vec<(usize, String, Slot)> {
    let below = step.operands.iter().flat_map(nodes);
    [(step.place, step.expr.to_string(), step.came_to)].into_iter().chain(below).collect()
}

fn node(place: usize, text: &str, came_to: Slot) -> (usize, String, Slot) {
    (place, text.to_owned(), came_to)
}

fn value(n: u32) -> Slot {
    Slot::Value(n.into())
}

/// Every node of the example has its place and its value, and nothing refuses.
#[test]
fn the_example_is_explained() {
    let results = example().fold().unwrap();
    let explained = |entry| nodes(&results.explain(entry).unwrap());
    assert_eq!(explained(0), [node(5, "5u", value(5))]);
    let mask = [node(22, "1u << #0", value(32)), node(24, "1u", value(1)), node(36, "#0", value(5))];
    assert_eq!(explained(1), mask);
    let last = [node(43, "#1 - 1u", value(31)), node(45, "#1", value(32)), node(47, "1u", value(1))];
    assert_eq!(explained(2), last);
    assert!((0..3).all(|entry| results.explain(entry).unwrap().cause().is_none()));
    assert_eq!(results.explain(3), None);
    assert_eq!(results.explain(u32::MAX), None);
}

/// After the setting is 32, the node that refused is found: the shift, and in the entry after it the name of the entry that has no value.
#[test]
fn a_refusal_is_explained() {
    let mut results = example().fold().unwrap();
    assert_eq!(results.set(0, 32u32), Ok(vec![1, 2]));
    let step = |entry| results.explain(entry).unwrap();
    assert_eq!(nodes(&step(0)), [node(5, "5u", value(32))], "what its slot holds, not what it says");

    let lost = Slot::Refused(Refusal::ShlOverflow { count: 32, operand: Scalar::from(1u32) });
    let mask = [node(22, "1u << #0", lost), node(24, "1u", value(1)), node(36, "#0", value(32))];
    assert_eq!(nodes(&step(1)), mask);
    assert_eq!(step(1).cause().map(|cause| cause.place), Some(22));

    let from = Slot::Refused(Refusal::FromEntry { entry: 1 });
    let last = [node(43, "#1 - 1u", from), node(45, "#1", from), node(47, "1u", value(1))];
    assert_eq!(nodes(&step(2)), last);
    assert_eq!(step(2).cause().map(|cause| cause.place), Some(45));
}

/// The slot of a refused shift is what its entry gives only with the operand that it had: with another, or another count, it is not.
#[test]
fn a_refused_shift_fits_with_its_operand() {
    let mut results = example().fold().unwrap();
    assert_eq!(results.set(0, 32u32), Ok(vec![1, 2]));
    assert_eq!([0, 1, 2].map(|entry| results.fits(entry)), [Some(true); 3]);
    // The detail's first byte, the operand's type, its first byte.
    for (place, byte) in [(4, 33), (1, 3), (8, 2)] {
        let mut bytes = results.bytes().to_vec();
        bytes[SLOT + place] = byte;
        let changed = Results::of(example(), bytes).unwrap();
        assert!(matches!(changed.slot(1), Some(Slot::Refused(_))), "well formed");
        assert_eq!([0, 1, 2].map(|entry| changed.fits(entry)), [Some(true), Some(false), Some(true)]);
    }
}

/// A refused shift's slot holds an operand and is none: who names it has no value.
#[test]
fn a_refused_shift_is_no_operand() {
    let mut bytes = example().fold().unwrap().bytes().to_vec();
    bytes[SLOT..SLOT + 9].copy_from_slice(&[9, 4, 1, 1, 32, 0, 0, 0, 1]);
    let mut results = Results::of(example(), bytes).unwrap();
    assert_eq!(results.slot(1), Some(Slot::Refused(Refusal::ShlOverflow { count: 32, operand: 1u32.into() })));
    let from = Slot::Refused(Refusal::FromEntry { entry: 1 });
    let last = [node(43, "#1 - 1u", from), node(45, "#1", from), node(47, "1u", value(1))];
    assert_eq!(nodes(&results.explain(2).unwrap()), last);

    // So it is to the library: the entry stands beside the change and names the slot as it is.
    let mut builder = Sheet::builder();
    let cell = builder.setting(5u32);
    let lost = builder.entry(Stage::Const, Expr::from(1u32) << 32u32.into());
    builder.entry(Stage::Override, lost + cell);
    results = builder.build().unwrap().fold().unwrap();
    assert_eq!(results.slot(2), Some(from));
    assert_eq!(results.set(0, 6u32), Ok(vec![2]));
    assert_eq!(results.slot(2), Some(from));
}

/// Of two operands that refuse, the left one is the cause, and both are worked out.
#[test]
fn the_left_cause_comes_first() {
    let by_zero = |op| Expr::binary(op, 1.into(), 0.into());
    let mut builder = Sheet::builder();
    builder.entry(Stage::Const, by_zero(Rem) + by_zero(Div));
    let results = builder.build().unwrap().fold().unwrap();
    let sum = results.explain(0).unwrap();
    assert_eq!(sum.came_to, Slot::Refused(Refusal::RemZeroDiv));
    assert_eq!(sum.cause().map(|cause| cause.place), Some(5 + 2));
    assert_eq!(sum.operands[1].came_to, Slot::Refused(Refusal::DivByZero));
}

/// Over bytes that are no slots, who names such an entry has no value from it.
#[test]
fn slots_that_are_none() {
    let results = Results::of(example(), vec![0xaa; 3 * SLOT]).unwrap();
    assert_eq!(nodes(&results.explain(0).unwrap()), [node(5, "5u", Slot::Malformed)]);
    let from = Slot::Refused(Refusal::FromEntry { entry: 0 });
    let mask = [node(22, "1u << #0", from), node(24, "1u", value(1)), node(36, "#0", from)];
    assert_eq!(nodes(&results.explain(1).unwrap()), mask);
    assert_eq!(Results::of(example(), vec![0; 3 * SLOT - 1]), Err(Refusal::ResultsSize));
}

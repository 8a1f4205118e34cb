//! What a comparison found: counts by line, the smallest input of each line, and every difference that no line explains.
use std::collections::BTreeMap;

use crate::{
    case::{Answer, Case, Operand, Refusal},
    lines::{Needed, LINES},
    mended::mended,
    ops,
};

/// One difference: the case, the Rust text's answer, document 01's over the text's scalar operators, and the other side's.
#[derive(Clone)]
pub struct Difference {
    pub case: Case,
    pub text: Answer,
    pub ours: Answer,
    pub other: Answer,
}

impl Difference {
    /// Whether the other side parts from document 01 in the operand of a refused shift alone.
    fn in_operand(&self) -> bool {
        match (&self.ours, &self.other) {
            (Answer::Refused(ours), Answer::Refused(other)) => ours.parts_in_operand(other),
            _ => false,
        }
    }
}

#[derive(Default)]
pub struct Report {
    pub cases: u64,
    pub equal: u64,
    /// Cases that the text cannot be asked, answered alike.
    pub malformed: u64,
    pub by_lines: BTreeMap<Needed, u64>,
    smallest: BTreeMap<Needed, (u64, Difference)>,
    /// Refused `<<` and `>>` with the left operand that document 02 asks for.
    pub with_operand: [u64; 2],
    /// Differences that no line explains; the first are kept.
    pub unexplained: u64,
    /// Those of them that part in the operand of a refused shift alone.
    pub operands: u64,
    pub first: Vec<Difference>,
    pub panics: u64,
    seen: BTreeMap<(bool, u8, u8), Vec<bool>>,
}

const TYPES: [&str; 7] = ["Bool", "AbstractInt", "AbstractFloat", "I32", "U32", "F32", "F16"];
const STAGES: [&str; 3] = ["Const", "Override", "Exec"];
const UNARY: [&str; 3] = ["!", "-", "~"];
const BINARY: [&str; 18] =
    ["||", "&&", "+", "-", "*", "/", "%", "==", "!=", "<", "<=", ">", ">=", "|", "&", "^", "<<", ">>"];

fn name<'a>(names: &[&'a str], code: usize) -> &'a str {
    names.get(code).copied().unwrap_or("?")
}

fn literal(ty: u8, bits: u64) -> String {
    match ty {
        0 => (bits != 0).to_string(),
        1 => (bits as i64).to_string(),
        2 => format!("{:?}", f64::from_bits(bits)),
        3 => (bits as u32 as i32).to_string(),
        5 => format!("{:?}", f32::from_bits(bits as u32)),
        6 => format!("{:?}", text::half::f16(bits as u16).to_f32()),
        _ => bits.to_string(),
    }
}

/// An operand as words: `I32 5`, `U32 (0, 0)`, `F16 [(1.0, 2.0), (3.0, 4.0)]` column by column.
pub fn operand(v: &Operand) -> String {
    let ty = name(&TYPES, v.ty.into());
    let comps: Vec<String> = v.used().iter().map(|&b| literal(v.ty, b)).collect();
    if !v.well_formed() {
        return format!("{ty} {}x{} {:x?}", v.cols, v.rows, v.used());
    }
    let columns: Vec<String> = comps.chunks(v.rows.into()).map(|c| format!("({})", c.join(", "))).collect();
    match (v.is_scalar(), v.is_vector()) {
        (true, _) => format!("{ty} {}", comps[0]),
        (_, true) => format!("{ty} {}", columns[0]),
        _ => format!("{ty} [{}]", columns.join(", ")),
    }
}

pub fn case(c: &Case) -> String {
    let stage = name(&STAGES, c.stage.into());
    let at = usize::from(c.op).wrapping_sub(1);
    match &c.right {
        None => format!("{}{} in {stage}", name(&UNARY, at), operand(&c.left)),
        Some(r) => format!("{} {} {} in {stage}", operand(&c.left), name(&BINARY, at), operand(r)),
    }
}

/// A refusal as words: `7`, `21 with 5`, `9 with 32 of U32 1`.
fn refusal(r: &Refusal) -> String {
    let Refusal { number, detail, operand: carried } = *r;
    match (number, detail, carried) {
        (_, _, Some((ty, bits))) => format!("{number} with {detail} of {}", operand(&Operand::scalar(ty, bits))),
        (9 | 10, _, None) => format!("{number} with {detail} and no operand"),
        (_, 0, None) => number.to_string(),
        (_, _, None) => format!("{number} with {detail}"),
    }
}

pub fn answer(a: &Answer) -> String {
    match a {
        Answer::Value(v) => operand(v),
        Answer::Refused(r) => refusal(r),
        Answer::Mixed(cs) => {
            let cs: Vec<String> =
                cs.iter().map(|(ty, b)| format!("{} {}", name(&TYPES, (*ty).into()), literal(*ty, *b))).collect();
            format!("mixed ({})", cs.join(", "))
        }
        Answer::Panicked(words) => format!("panic: {words}"),
    }
}

/// The line for a difference that no line explains.
pub fn unexplained(d: &Difference) -> String {
    let (case, text, other) = (case(&d.case), answer(&d.text), answer(&d.other));
    match d.in_operand() {
        true => format!("operand differs: {case}: Rust {text}; asked for {}; other {other}", answer(&d.ours)),
        false => format!("unexplained: {case}: Rust {text}; other {other}"),
    }
}

/// Smaller is easier to read: fewer components, then fewer that are not zero, then simpler patterns.
fn weight(c: &Case) -> u64 {
    let all = c.left.used().iter().chain(c.right.iter().flat_map(|r| r.used()));
    let bits = |b: &u64| 1 + u64::from(b.count_ones()) + u64::from(64 - b.leading_zeros()) / 8;
    all.map(|b| 1_000_000 + if *b == 0 { 0 } else { 1_000 * bits(b) }).sum::<u64>() * 4 + u64::from(c.stage)
}

impl Report {
    /// Asks the text, and sorts the case with the other side's answer.
    pub fn add(&mut self, case: &Case, other: Answer) {
        let text = ops::answer(case);
        let other = other.kept();
        self.cases += 1;
        self.mark(case);
        self.panics += u64::from(matches!(text, Answer::Panicked(_)));
        let (ours, needed) = mended(case, &text);
        if ours == other && (text == other || !needed.none()) {
            if let Answer::Refused(Refusal { number: number @ (9 | 10), operand: Some(_), .. }) = other {
                self.with_operand[usize::from(number) - 9] += 1;
            }
            if text == other {
                self.equal += 1;
                self.malformed += u64::from(case.malformed().is_some());
            } else {
                *self.by_lines.entry(needed).or_default() += 1;
                let found = Difference { case: *case, text, ours, other };
                let weight = weight(case);
                let best = self.smallest.entry(needed).or_insert_with(|| (weight, found.clone()));
                if weight < best.0 {
                    *best = (weight, found);
                }
            }
            return;
        }
        let found = Difference { case: *case, text, ours, other };
        self.unexplained += 1;
        self.operands += u64::from(found.in_operand());
        if self.first.len() < 200 {
            self.first.push(found);
        }
    }

    /// Notes which set of operator, stage, types and shapes a case belongs to.
    pub fn mark(&mut self, case: &Case) {
        if case.malformed().is_some() {
            return;
        }
        let code = |v: &Operand| usize::from(v.ty) * 25 + usize::from(v.cols) * 5 + usize::from(v.rows);
        let at = code(&case.left) * 175 + case.right.as_ref().map_or(0, code);
        self.seen.entry((case.right.is_some(), case.op, case.stage)).or_insert_with(|| vec![false; 175 * 175])[at] =
            true;
    }

    /// How many of the 163,350 sets of binary operator, stage, types and shapes, and of the 495 unary ones, were seen.
    pub fn covered(&self) -> (usize, usize) {
        let count = |binary: bool| {
            let sets = self.seen.iter().filter(|(key, _)| key.0 == binary);
            sets.map(|(_, set)| set.iter().filter(|seen| **seen).count()).sum()
        };
        (count(true), count(false))
    }

    /// The ids of lines that no case needed.
    pub fn never_needed(&self) -> Vec<&'static str> {
        let unseen = |line| !self.by_lines.keys().any(|needed| needed.has(line));
        LINES.iter().filter(|l| unseen(l.0)).map(|l| l.1).collect()
    }

    pub fn print(&self) {
        let (binary, unary) = self.covered();
        println!(
            "{} cases: {} of 163350 sets of binary operator, stage, types and shapes, {} of 495 unary",
            self.cases, binary, unary
        );
        println!(
            "{} answered alike, {} of them malformed; {} panics of the text",
            self.equal, self.malformed, self.panics
        );
        println!(
            "{} refused << and {} refused >> with the same left operand; {} with another or none",
            self.with_operand[0], self.with_operand[1], self.operands
        );
        for (needed, count) in &self.by_lines {
            let (_, smallest) = &self.smallest[needed];
            println!("{count:8} under {}", needed.ids());
            println!(
                "         {}: Rust {}; other {}",
                case(&smallest.case),
                answer(&smallest.text),
                answer(&smallest.other)
            );
        }
        for (line, id, words) in LINES {
            let count: u64 = self.by_lines.iter().filter(|(needed, _)| needed.has(line)).map(|(_, n)| n).sum();
            println!("{id:4} {count:8} {words}");
        }
        self.first.iter().for_each(|found| println!("{}", unexplained(found)));
        println!("{} differences under no line", self.unexplained);
    }
}

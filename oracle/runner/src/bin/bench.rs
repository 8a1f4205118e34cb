//! Times the linked library and the Rust text on the same inputs. ns a call: the best of many runs, in which the two take turns.
//!
//! `booth` goes from bytes to a slot. `Rust` is the text's operator on values that are ready; `Rust, bytes` the same from bytes to a slot.
//! The sheet has no counterpart in the text: its change is held against its fresh evaluation.
use std::time::Instant;

use booth::{raw_binary, raw_change, raw_check, raw_fresh, raw_unary, SLOT};
use runner::{case::Operand, ops};
use text::{
    inst::{LiteralInstance, MatInstance, VecInstance},
    Error, Instance,
};

/// The same value, out of the compiler's sight.
fn hidden<T: Copy>(x: T) -> T {
    // SAFETY: a read of a live value.
    unsafe { std::ptr::read_volatile(&x) }
}

/// ns a turn, of that many turns one after the other.
fn timed<T>(turns: u32, mut call: impl FnMut() -> T) -> f64 {
    let start = Instant::now();
    (0..turns).for_each(|_| {
        hidden(&call());
    });
    start.elapsed().as_nanos() as f64 / f64::from(turns)
}

/// The best of many runs.
fn best<T>(turns: u32, mut call: impl FnMut() -> T) -> f64 {
    (0..40).map(|_| timed(turns, &mut call)).fold(f64::MAX, f64::min)
}

fn bytes(v: &Operand) -> Vec<u8> {
    let mut all = vec![v.ty, v.cols, v.rows];
    v.used().iter().for_each(|bits| all.extend(bits.to_le_bytes()));
    all
}

/// The text's value of an operand's bytes.
fn value(bytes: &[u8]) -> Instance {
    let (ty, cols, rows) = (bytes[0], bytes[1], usize::from(bytes[2]));
    let column = |bytes: &[u8]| -> Vec<Instance> {
        let numbers = bytes.chunks_exact(8).map(|b| u64::from_le_bytes(b.try_into().unwrap()));
        numbers.map(|bits| ops::literal(ty, bits).into()).collect()
    };
    match (cols, rows) {
        (1, 1) => ops::literal(ty, u64::from_le_bytes(bytes[3..].try_into().unwrap())).into(),
        (1, _) => VecInstance::new(column(&bytes[3..])).into(),
        _ => MatInstance::from_cols(
            bytes[3..].chunks_exact(8 * rows).map(|c| VecInstance::new(column(c)).into()).collect(),
        )
        .into(),
    }
}

/// The text's answer as an answer of the library, its value in a slot.
fn settle(answer: Result<Instance, Error>, slot: &mut [u8; SLOT]) -> u64 {
    let value = match answer {
        Ok(value) => value,
        Err(e) => return u64::from(e.number().0) << 32 | u64::from(e.number().1),
    };
    let mut ty = 0;
    let mut at = 8;
    let mut put = |slot: &mut [u8; SLOT], part: &LiteralInstance| {
        let bits;
        (ty, bits) = ops::bits(part);
        slot[at..at + 8].copy_from_slice(&bits.to_le_bytes());
        at += 8;
    };
    slot[8..].fill(0);
    let (cols, rows) = match &value {
        Instance::Literal(l) => {
            put(slot, l);
            (1, 1)
        }
        Instance::Vec(v) => {
            v.iter().for_each(|part| put(slot, part.unwrap_literal_ref()));
            (1, v.iter().count() as u8)
        }
        Instance::Mat(m) => {
            let parts = m.iter_cols().flat_map(|c| c.unwrap_vec_ref().iter());
            parts.for_each(|part| put(slot, part.unwrap_literal_ref()));
            (m.c() as u8, m.r() as u8)
        }
        _ => return u64::MAX,
    };
    slot[..8].copy_from_slice(&[0, ty, cols, rows, 0, 0, 0, 0]);
    0
}

/// One line: the same calls through the library, through the text on values that are ready, and through the text from bytes to a slot.
fn line<G, R>(
    name: &str,
    given: &[G],
    ready: &[R],
    booth: impl Fn(&G, &mut [u8; SLOT]) -> u64,
    text: impl Fn(&R) -> Result<Instance, Error>,
    text_bytes: impl Fn(&G, &mut [u8; SLOT]) -> u64,
) {
    let (mut slot, mut other) = ([0; SLOT], [0; SLOT]);
    for g in given {
        let (a, b) = (booth(g, &mut slot), text_bytes(g, &mut other));
        assert_eq!((a, slot), (b, other), "{name}: the two answers");
        assert_eq!(a, 0, "{name}: refused");
    }
    // The three take turns, so that a slow moment of the machine falls on each alike.
    let (mut ours, mut theirs, mut whole) = (f64::MAX, f64::MAX, f64::MAX);
    for _ in 0..200 {
        ours = ours.min(timed(10, || given.iter().fold(0, |sum, g| sum ^ booth(hidden(g), &mut slot))));
        theirs = theirs.min(timed(10, || {
            ready.iter().for_each(|r| {
                hidden(&text(hidden(r)));
            })
        }));
        whole = whole.min(timed(10, || given.iter().fold(0, |sum, g| sum ^ text_bytes(hidden(g), &mut other))));
    }
    let n = given.len() as f64;
    let (ours, theirs, whole) = (ours / n, theirs / n, whole / n);
    println!("| {name} | {ours:.1} | {theirs:.1} | {whole:.1} | {:.2} | {:.2} |", ours / theirs, ours / whole);
}

/// A binary operator on some pairs of operands, in Const.
fn binary(name: &str, op: u8, pairs: &[(Operand, Operand)]) {
    let given: Vec<_> = pairs.iter().map(|(l, r)| (bytes(l), bytes(r))).collect();
    let ready: Vec<_> = given.iter().map(|(l, r)| (value(l), value(r))).collect();
    line(
        name,
        &given,
        &ready,
        |(l, r), slot| raw_binary(op, 0, l, r, slot),
        |(l, r)| ops::binary(op, ops::stage(0), l, r),
        |(l, r), slot| settle(ops::binary(op, ops::stage(0), &value(l), &value(r)), slot),
    );
}

/// A unary operator on some operands.
fn unary(name: &str, op: u8, operands: &[Operand]) {
    let given: Vec<_> = operands.iter().map(bytes).collect();
    let ready: Vec<_> = given.iter().map(|v| value(v)).collect();
    line(
        name,
        &given,
        &ready,
        |v, slot| raw_unary(op, 0, v, slot),
        |v| ops::unary(op, v),
        |v, slot| settle(ops::unary(op, &value(v)), slot),
    );
}

/// A small number, never 0, as a pattern of a type.
fn small(ty: u8, n: u32) -> u64 {
    let n = 1 + n % 9;
    match ty {
        2 => f64::from(n).mul_add(1.25, 0.5).to_bits(),
        5 => u64::from((n as f32 * 1.25 + 0.5).to_bits()),
        6 => u64::from(text::half::f16::from_f32(n as f32 * 1.25 + 0.5).0),
        _ => n.into(),
    }
}

fn one((ty, cols, rows): (u8, u8, u8), k: u32) -> Operand {
    let comps: Vec<u64> = (0..u32::from(cols * rows)).map(|i| small(ty, k + 7 * i)).collect();
    Operand::new(ty, cols, rows, &comps)
}

fn pairs(l: (u8, u8, u8), r: (u8, u8, u8)) -> Vec<(Operand, Operand)> {
    (0..32).map(|k| (one(l, 5 * k + 3), one(r, 3 * k + 1))).collect()
}

fn operands(v: (u8, u8, u8)) -> Vec<Operand> {
    (0..32).map(|k| one(v, 5 * k + 3)).collect()
}

const TYPES: [&str; 7] = ["Bool", "AbstractInt", "AbstractFloat", "I32", "U32", "F32", "F16"];

fn operators() {
    println!("| Const, ns a call | booth | Rust | Rust, bytes | booth / Rust | booth / Rust, bytes |");
    println!("|---|---|---|---|---|---|");
    for ty in 1..7 {
        for (op, sign) in [(3, "+"), (4, "-"), (5, "*"), (6, "/"), (7, "%")] {
            binary(&format!("{} {sign}", TYPES[usize::from(ty)]), op, &pairs((ty, 1, 1), (ty, 1, 1)));
        }
    }
    for (l, r) in [(1, 3), (1, 5), (1, 6), (2, 5), (2, 6)] {
        binary(&format!("{} + {}", TYPES[l], TYPES[r]), 3, &pairs((l as u8, 1, 1), (r as u8, 1, 1)));
    }
    for ty in 1..7 {
        binary(&format!("{} <", TYPES[usize::from(ty)]), 10, &pairs((ty, 1, 1), (ty, 1, 1)));
    }
    for ty in [1, 3, 4] {
        binary(&format!("{} <<", TYPES[usize::from(ty)]), 17, &pairs((ty, 1, 1), (4, 1, 1)));
        binary(&format!("{} >>", TYPES[usize::from(ty)]), 18, &pairs((ty, 1, 1), (4, 1, 1)));
    }
    for ty in [1, 2, 3, 5, 6] {
        unary(&format!("- {}", TYPES[usize::from(ty)]), 2, &operands((ty, 1, 1)));
    }
    for ty in [1, 3, 4] {
        unary(&format!("~ {}", TYPES[usize::from(ty)]), 3, &operands((ty, 1, 1)));
    }
    for ty in [3, 5, 6] {
        unary(&format!("- vec4 of {}", TYPES[usize::from(ty)]), 2, &operands((ty, 1, 4)));
        binary(&format!("vec4 of {} +", TYPES[usize::from(ty)]), 3, &pairs((ty, 1, 4), (ty, 1, 4)));
        binary(&format!("vec4 of {} *", TYPES[usize::from(ty)]), 5, &pairs((ty, 1, 4), (ty, 1, 4)));
    }
    for ty in [2, 5, 6] {
        binary(&format!("mat4 times vec4, {}", TYPES[usize::from(ty)]), 5, &pairs((ty, 4, 4), (ty, 1, 4)));
        binary(&format!("vec4 times mat4, {}", TYPES[usize::from(ty)]), 5, &pairs((ty, 1, 4), (ty, 4, 4)));
        binary(&format!("mat4 times mat4, {}", TYPES[usize::from(ty)]), 5, &pairs((ty, 4, 4), (ty, 4, 4)));
    }
}

/// A full sheet: 128 entries, 16,384 bytes. Entry 0 is a setting; the next `dependents` each name the one before, the rest none. Every other
/// entry adds seven literals to its first operand and then has as many `~` around it as fill the sheet.
fn sheet(dependents: usize) -> Vec<u8> {
    let literal = |n: u8| [&[1, 4, 1, 1, n][..], &[0; 7]].concat();
    let record = |stage: u8, body: &[u8]| [&[0xd5, 0x17, stage, body.len() as u8, 0][..], body].concat();
    let mut bodies: Vec<Vec<u8>> = (1..128)
        .map(|entry| {
            let first = if entry <= dependents { vec![2, entry as u8 - 1] } else { literal(9) };
            (0..7).fold(first, |body, k| [&[4, 3][..], &body, &literal(k + 1)].concat())
        })
        .collect();
    let setting = record(3, &literal(5));
    let mut size = setting.len() + bodies.iter().map(|body| body.len() + 5).sum::<usize>();
    for entry in (0..127).cycle() {
        if size == 16384 {
            break;
        }
        bodies[entry].splice(0..0, [3, 3]);
        size += 2;
    }
    bodies.iter().fold(setting, |all, body| [all, record(1, body)].concat())
}

fn sheets() {
    println!();
    println!("| a sheet of 128 entries, 16,384 bytes | check, ns | fresh, ns | change, ns | change / fresh |");
    println!("|---|---|---|---|---|");
    for dependents in [0, 10, 127] {
        let sheet = sheet(dependents);
        let mut results = vec![0; 128 * SLOT];
        assert_eq!((sheet.len(), raw_check(&sheet)), (16384, 128));
        assert_eq!(raw_fresh(&sheet, &mut results), 128);
        let check = best(20, || raw_check(hidden(&sheet)));
        let fresh = best(20, || raw_fresh(hidden(&sheet), &mut results));
        let mut bits = 0;
        let change = best(20, || {
            bits += 1;
            assert_eq!(raw_change(hidden(&sheet), &mut results, 0, 4, bits % 7), dependents as u64);
        });
        println!("| {dependents} dependents | {check:.0} | {fresh:.0} | {change:.0} | {:.2} |", change / fresh);
    }
}

fn main() {
    operators();
    sheets();
}

//! The cases: every operator, type pair, shape pair and stage, with edges and random content. The same for one seed on every machine.
use crate::case::{Case, Operand};

/// xorshift64*, and the edges to pick from.
pub struct Dice {
    state: u64,
    edges: Vec<Vec<u64>>,
}

impl Dice {
    pub fn new(seed: u64) -> Self {
        Dice { state: seed | 1, edges: (0..7).map(edges).collect() }
    }

    pub fn roll(&mut self) -> u64 {
        self.state ^= self.state >> 12;
        self.state ^= self.state << 25;
        self.state ^= self.state >> 27;
        self.state.wrapping_mul(0x2545_f491_4f6c_dd1d)
    }

    pub fn below(&mut self, n: usize) -> usize {
        (self.roll() >> 33) as usize % n
    }

    pub fn pick<T: Copy>(&mut self, from: &[T]) -> T {
        from[self.below(from.len())]
    }

    pub fn edge(&mut self, ty: u8) -> u64 {
        let ty = usize::from(ty);
        let at = self.below(self.edges[ty].len());
        self.edges[ty][at]
    }
}

const BOOL: u8 = 0;
const ABSTRACT_INT: u8 = 1;
const ABSTRACT_FLOAT: u8 = 2;
const I32: u8 = 3;
const U32: u8 = 4;
const F32: u8 = 5;
const F16: u8 = 6;

/// All type and shape pairs of an operand: 4 types of 4 shapes, 3 of 13.
pub fn kinds() -> Vec<(u8, u8, u8)> {
    let mut all = vec![];
    for ty in 0..7 {
        all.extend((1..=4).map(|rows| (ty, 1, rows)));
        if matches!(ty, ABSTRACT_FLOAT | F32 | F16) {
            all.extend((2..=4).flat_map(|cols| (2..=4).map(move |rows| (ty, cols, rows))));
        }
    }
    all
}

#[rustfmt::skip]
const WHOLE: [i64; 40] = [
    0, 1, -1, 2, -2, 3, 5, -5, 7, -7, 30, 31, 32, 33, 62, 63, 64, 65, 66, 96, 127, 128, 2049, 65504, 65519,
    65520, -65520, 16_777_217, 0x3fff_ffff, 0x7fff_ffff, 0x8000_0000, -0x8000_0000, -0x8000_0001, 0xffff_ffff,
    0x1_0000_0000, 0x20_0000_0000_0001, 1 << 62, i64::MAX, i64::MIN, i64::MIN + 1,
];

#[rustfmt::skip]
const REAL: [f64; 34] = [
    0.0, -0.0, 1.0, -1.0, 0.5, 1.5, 2.0, 3.0, -7.0, 10.0, 0.1, 2048.0, 65504.0, -65504.0, 65519.99, 65520.0,
    16_777_217.0, 1e-8, 5.960_464_477_539_063e-8, 2.980_232_238_769_531e-8, 6.103_515_625e-5,
    1.401_298_464_324_817e-45, 7.006_492_321_624_085e-46, 1.175_494_350_822_287_5e-38,
    3.402_823_466_385_288_6e38, -3.402_823_466_385_288_6e38, 3.402_823_567e38, 4e38,
    2.225_073_858_507_201_4e-308, 5e-324, f64::MAX, f64::INFINITY, f64::NEG_INFINITY, f64::NAN,
];

/// The edges of a type, as patterns.
pub fn edges(ty: u8) -> Vec<u64> {
    let mut all: Vec<u64> = match ty {
        BOOL => vec![0, 1],
        ABSTRACT_INT => WHOLE.iter().map(|&n| n as u64).collect(),
        I32 | U32 => WHOLE.iter().map(|&n| u64::from(n as u32)).collect(),
        ABSTRACT_FLOAT => REAL.iter().map(|x| x.to_bits()).collect(),
        F32 => REAL.iter().map(|&x| u64::from((x as f32).to_bits())).collect(),
        _ => REAL.iter().map(|&x| u64::from(text::half::f16::from_f64(x).0)).collect(),
    };
    match ty {
        ABSTRACT_FLOAT => {
            all.extend([0x3ff0_0000_0000_0001, 0x7fef_ffff_ffff_fffe, 0x000f_ffff_ffff_ffff, 0xfff0_0000_0000_0001])
        }
        F32 => all.extend([0x3f80_0001, 0x7f7f_fffe, 0x007f_ffff, 0xff80_0001]),
        F16 => all.extend([0x3c01, 0x7bfe, 0x03ff, 0xfc01]),
        _ => (),
    }
    all.sort_unstable();
    all.dedup();
    all
}

/// Any pattern of a type.
fn any(ty: u8, dice: &mut Dice) -> u64 {
    let bits = dice.roll();
    match ty {
        BOOL => bits >> 63,
        ABSTRACT_INT | ABSTRACT_FLOAT => bits >> (dice.below(4) * dice.below(16)),
        F16 => bits >> 48,
        F32 => bits >> 32,
        _ => bits >> (32 + dice.below(2) * dice.below(32)),
    }
}

/// A pattern with which few operators refuse: small whole numbers and halves, no zero.
fn tame(ty: u8, dice: &mut Dice) -> u64 {
    let n = 1 + dice.below(12) as i64;
    let signed = if dice.below(3) == 0 && ty != U32 { -n } else { n };
    match ty {
        BOOL => n as u64 & 1,
        ABSTRACT_INT => signed as u64,
        I32 | U32 => u64::from(signed as u32),
        ABSTRACT_FLOAT => (signed as f64 / 2.0).to_bits(),
        F32 => u64::from((signed as f32 / 2.0).to_bits()),
        _ => u64::from(text::half::f16::from_f64(signed as f64 / 2.0).0),
    }
}

/// A float of middling exponent and random digits, so that sums and quotients round.
fn middling(ty: u8, dice: &mut Dice) -> u64 {
    let bits = dice.roll();
    match ty {
        ABSTRACT_FLOAT => bits & 0x800f_ffff_ffff_ffff | (1013 + (bits >> 56 & 15)) << 52,
        F32 => (bits & 0x807f_ffff) | (117 + (bits >> 40 & 15)) << 23,
        F16 => (bits & 0x83ff) | (9 + (bits >> 40 & 7)) << 10,
        _ => any(ty, dice),
    }
}

/// A float whose square is near the top of its range.
fn large(ty: u8, dice: &mut Dice) -> u64 {
    let bits = dice.roll();
    match ty {
        ABSTRACT_FLOAT => bits & 0x800f_ffff_ffff_ffff | (1023 + 508 + (bits >> 56 & 7)) << 52,
        F32 => (bits & 0x807f_ffff) | (127 + 60 + (bits >> 40 & 7)) << 23,
        F16 => (bits & 0x83ff) | (15 + 5 + (bits >> 40 & 7)) << 10,
        _ => any(ty, dice),
    }
}

/// A count: mostly one that a shift of some type takes.
fn count(ty: u8, dice: &mut Dice) -> u64 {
    match dice.below(8) {
        0 => dice.edge(ty),
        1 => 0,
        2..=4 => dice.below(34) as u64,
        _ => dice.below(70) as u64,
    }
}

/// How an operand's components are drawn.
#[derive(Clone, Copy, PartialEq)]
enum Mood {
    Edges,
    Any,
    Tame,
    Middling,
    Large,
    Count,
    /// Tame but for one edge.
    OneEdge,
    /// All zero but for one edge.
    Zeros,
}

const MOODS: [Mood; 7] = [Mood::Edges, Mood::Any, Mood::Tame, Mood::Middling, Mood::Large, Mood::OneEdge, Mood::Zeros];

fn one(ty: u8, mood: Mood, dice: &mut Dice) -> u64 {
    match mood {
        Mood::Edges => dice.edge(ty),
        Mood::Any => any(ty, dice),
        Mood::Tame | Mood::OneEdge => tame(ty, dice),
        Mood::Middling => middling(ty, dice),
        Mood::Large => large(ty, dice),
        Mood::Count => count(ty, dice),
        Mood::Zeros => 0,
    }
}

fn operand((ty, cols, rows): (u8, u8, u8), mood: Mood, dice: &mut Dice) -> Operand {
    let n = usize::from(cols * rows);
    let mood = if mood == Mood::Count && !matches!(ty, ABSTRACT_INT | I32 | U32) { Mood::Edges } else { mood };
    let mut comps: Vec<u64> = (0..n).map(|_| one(ty, mood, dice)).collect();
    if matches!(mood, Mood::OneEdge | Mood::Zeros) {
        comps[dice.below(n)] = dice.edge(ty);
    }
    Operand::new(ty, cols, rows, &comps)
}

fn pair(op: u8, stage: u8, l: (u8, u8, u8), r: (u8, u8, u8), dice: &mut Dice) -> Case {
    let (mut left, mut right) = (dice.pick(&MOODS), dice.pick(&MOODS));
    if op >= 17 && dice.below(4) > 0 {
        right = Mood::Count;
    } else if dice.below(3) == 0 {
        left = right;
    }
    if dice.below(4) == 0 {
        left = Mood::Tame;
    }
    Case { op, stage, left: operand(l, left, dice), right: Some(operand(r, right, dice)) }
}

/// Whether document 01 gives the operator some answer other than Binary for all operands of two such types.
fn may_meet(op: u8, l: u8, r: u8) -> bool {
    match op {
        17 | 18 => matches!(r, ABSTRACT_INT | U32),
        _ => {
            l == r
                || l == ABSTRACT_INT && r != BOOL
                || r == ABSTRACT_INT && l != BOOL
                || matches!((l, r), (2, 5 | 6) | (5 | 6, 2))
        }
    }
}

/// Every pair of edges of two scalars.
fn scalar_edges(visit: &mut dyn FnMut(Case)) {
    for l in 0..7 {
        for r in 0..7 {
            let (ls, rs) = (edges(l), edges(r));
            for op in 1..=18 {
                let sparse = if may_meet(op, l, r) { 1 } else { 11 };
                for stage in 0..3 {
                    for &a in ls.iter().step_by(sparse) {
                        for &b in rs.iter().step_by(sparse) {
                            visit(Case { op, stage, left: Operand::scalar(l, a), right: Some(Operand::scalar(r, b)) });
                        }
                    }
                }
            }
        }
    }
}

/// Every unary operator over every type and shape, and negation of every F16.
fn unaries(dice: &mut Dice, visit: &mut dyn FnMut(Case)) {
    for kind in kinds() {
        for op in 1..=3 {
            for stage in 0..3 {
                for mood in MOODS {
                    for _ in 0..4 {
                        visit(Case { op, stage, left: operand(kind, mood, dice), right: None });
                    }
                }
            }
        }
        for &bits in edges(kind.0).iter().filter(|_| kind.1 * kind.2 == 1) {
            (1..=3).for_each(|op| visit(Case { op, stage: 0, left: Operand::scalar(kind.0, bits), right: None }));
        }
    }
    for bits in 0..=0xffff {
        visit(Case { op: 2, stage: 2, left: Operand::scalar(F16, bits), right: None });
    }
}

/// Every operator, stage, and pair of types and shapes, some times over.
fn every_pair(times: usize, dice: &mut Dice, visit: &mut dyn FnMut(Case)) {
    for l in kinds() {
        for r in kinds() {
            for op in 1..=18 {
                for stage in 0..3 {
                    for _ in 0..times {
                        visit(pair(op, stage, l, r, dice));
                    }
                }
            }
        }
    }
}

/// Random scalars of one type, or of two that have a common type.
fn random_scalars(times: usize, dice: &mut Dice, visit: &mut dyn FnMut(Case)) {
    for _ in 0..times {
        let (op, stage) = (1 + dice.below(18) as u8, dice.below(3) as u8);
        let l = dice.below(7) as u8;
        let r = if op >= 17 {
            dice.pick(&[U32, ABSTRACT_INT])
        } else {
            dice.pick(&[l, l, l, ABSTRACT_INT, ABSTRACT_FLOAT])
        };
        visit(pair(op, stage, (l, 1, 1), (r, 1, 1), dice));
    }
}

/// Vectors and scalars with vectors where the order of checks shows: `/ %`, bits and shifts.
fn orders(times: usize, dice: &mut Dice, visit: &mut dyn FnMut(Case)) {
    for _ in 0..times {
        let (op, stage) = (dice.pick(&[3, 5, 6, 6, 6, 7, 7, 7, 14, 15, 16, 17, 17, 18, 18]), dice.below(3) as u8);
        let (l, r) = (dice.below(7) as u8, dice.below(7) as u8);
        let l = if op >= 14 {
            dice.pick(&[ABSTRACT_INT, I32, U32, U32, l])
        } else {
            dice.pick(&[ABSTRACT_INT, ABSTRACT_INT, l])
        };
        let r =
            if op >= 17 { dice.pick(&[ABSTRACT_INT, ABSTRACT_INT, U32, r]) } else { dice.pick(&[ABSTRACT_INT, r, r]) };
        let n = 2 + dice.below(3) as u8;
        let m = if dice.below(6) == 0 { 2 + dice.below(3) as u8 } else { n };
        let (a, b) = if (3..=7).contains(&op) { dice.pick(&[(1, n), (n, 1), (n, m)]) } else { (n, m) };
        visit(pair(op, stage, (l, 1, a), (r, 1, b), dice));
    }
}

/// Scalars with vectors whose vector has a component, mostly the last, that does not convert, and a divisor that is zero before it.
fn late_conversions(times: usize, dice: &mut Dice, visit: &mut dyn FnMut(Case)) {
    for _ in 0..times {
        let (op, stage) = (dice.pick(&[3, 4, 5, 6, 6, 7, 7]), dice.below(3) as u8);
        let vector = dice.pick(&[ABSTRACT_INT, ABSTRACT_INT, ABSTRACT_FLOAT]);
        let scalar = if vector == ABSTRACT_INT { dice.pick(&[I32, U32, F16]) } else { dice.pick(&[F32, F16]) };
        let n = 2 + dice.below(3) as u8;
        let mut v = operand((vector, 1, n), dice.pick(&[Mood::Tame, Mood::Zeros, Mood::Edges]), dice);
        let last = if dice.below(4) == 0 { dice.below(n.into()) } else { usize::from(n) - 1 };
        v.comps[last] = if vector == ABSTRACT_INT { 1 << 40 } else { f64::MAX.to_bits() };
        let s = operand((scalar, 1, 1), dice.pick(&[Mood::Zeros, Mood::Tame]), dice);
        let (left, right) = if dice.below(2) == 0 { (v, s) } else { (s, v) };
        visit(Case { op, stage, left, right: Some(right) });
    }
}

/// Products whose inner sizes fit, most of them of numbers near the top of the range.
fn products(times: usize, dice: &mut Dice, visit: &mut dyn FnMut(Case)) {
    for _ in 0..times {
        let stage = dice.below(3) as u8;
        let ty = dice.pick(&[ABSTRACT_FLOAT, F32, F16]);
        let other = dice.pick(&[ty, ty, ty, ABSTRACT_FLOAT, F32]);
        let mut size = || 2 + dice.below(3) as u8;
        let (inner, a, b) = (size(), size(), size());
        let vector = dice.pick(&[ty, other, ABSTRACT_INT]);
        let (l, r) = dice.pick(&[
            ((ty, inner, a), (vector, 1, inner)),
            ((vector, 1, inner), (ty, a, inner)),
            ((ty, inner, a), (other, b, inner)),
        ]);
        let case = pair(5, stage, l, r, dice);
        let flat = Case { left: operand(l, Mood::Large, dice), right: Some(operand(r, Mood::Large, dice)), ..case };
        visit(if dice.below(2) == 0 { case } else { flat });
    }
}

/// All cases of a seed, in order.
pub fn each(seed: u64, visit: &mut dyn FnMut(Case)) {
    let dice = &mut Dice::new(seed);
    unaries(dice, visit);
    scalar_edges(visit);
    every_pair(4, dice, visit);
    random_scalars(300_000, dice, visit);
    orders(300_000, dice, visit);
    late_conversions(60_000, dice, visit);
    products(300_000, dice, visit);
}

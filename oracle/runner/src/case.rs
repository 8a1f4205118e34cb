//! A case, an answer, and the `ops` list: records of a case with its answer, all numbers low byte first.

/// Type, columns, rows and components as document 01 numbers and orders them; components beyond the shape are 0.
#[derive(Clone, Copy, Debug, PartialEq, Eq, Default)]
pub struct Operand {
    pub ty: u8,
    pub cols: u8,
    pub rows: u8,
    pub comps: [u64; 16],
}

/// One direct call. A unary one has no right operand.
#[derive(Clone, Copy, Debug, PartialEq, Eq)]
pub struct Case {
    pub op: u8,
    pub stage: u8,
    pub left: Operand,
    pub right: Option<Operand>,
}

/// A refusal: document 01's number and detail, and the left operand of a refused shift, its type and its bits.
#[derive(Clone, Copy, Debug, PartialEq, Eq)]
pub struct Refusal {
    pub number: u8,
    pub detail: u32,
    pub operand: Option<(u8, u64)>,
}

impl Refusal {
    /// One that says no more than its number.
    pub const fn plain(number: u8) -> Self {
        Refusal { number, detail: 0, operand: None }
    }

    /// A shift's: the number, the count, and the type and bits of its left operand.
    pub const fn shift(number: u8, detail: u32, operand: (u8, u64)) -> Self {
        Refusal { number, detail, operand: Some(operand) }
    }

    /// Whether two part in nothing but the operand.
    pub fn parts_in_operand(&self, other: &Refusal) -> bool {
        (self.number, self.detail) == (other.number, other.detail) && self.operand != other.operand
    }
}

/// What one side answers.
#[derive(Clone, Debug, PartialEq, Eq)]
pub enum Answer {
    Value(Operand),
    Refused(Refusal),
    /// A vector whose components have unlike types; no slot can hold it.
    Mixed(Vec<(u8, u64)>),
    Panicked(String),
}

/// Status bytes of the two kinds of answer that document 01 does not have.
pub const MIXED: u8 = 254;
pub const PANICKED: u8 = 255;

impl Operand {
    pub fn new(ty: u8, cols: u8, rows: u8, comps: &[u64]) -> Self {
        let mut all = [0; 16];
        all[..comps.len()].copy_from_slice(comps);
        Operand { ty, cols, rows, comps: all }
    }

    pub fn scalar(ty: u8, bits: u64) -> Self {
        Operand::new(ty, 1, 1, &[bits])
    }

    pub fn count(&self) -> usize {
        usize::from(self.cols) * usize::from(self.rows)
    }

    /// The components in use.
    pub fn used(&self) -> &[u64] {
        &self.comps[..self.count().min(16)]
    }

    pub fn is_scalar(&self) -> bool {
        (self.cols, self.rows) == (1, 1)
    }

    pub fn is_vector(&self) -> bool {
        self.cols == 1 && self.rows > 1
    }

    pub fn is_matrix(&self) -> bool {
        self.cols > 1
    }

    /// A type and a shape of document 01, and each component a pattern of that type.
    pub fn well_formed(&self) -> bool {
        let shape = match (self.cols, self.rows) {
            (1, 1..=4) => true,
            (2..=4, 2..=4) => matches!(self.ty, 2 | 5 | 6),
            _ => false,
        };
        let below = match self.ty {
            0 => 2,
            1 | 2 => u64::MAX,
            3..=5 => 1 << 32,
            6 => 1 << 16,
            _ => 0,
        };
        shape && self.used().iter().all(|&bits| bits < below || below == u64::MAX)
    }

    /// The same with every NaN as document 01 keeps it, so that all NaNs are equal.
    pub fn kept(mut self) -> Self {
        let n = self.count().min(16);
        self.comps[..n].iter_mut().for_each(|bits| *bits = kept(self.ty, *bits));
        self
    }
}

fn kept(ty: u8, bits: u64) -> u64 {
    match ty {
        2 if f64::from_bits(bits).is_nan() => 0x7ff8_0000_0000_0000,
        5 if f32::from_bits(bits as u32).is_nan() => 0x7fc0_0000,
        6 if bits & 0x7fff > 0x7c00 => 0x7e00,
        _ => bits,
    }
}

impl Case {
    /// Document 01's refusal of a direct call before any operator is asked: 25, 23, 26 in that order.
    pub fn malformed(&self) -> Option<u8> {
        let last = if self.right.is_some() { 18 } else { 3 };
        if !(1..=last).contains(&self.op) {
            return Some(25);
        }
        if self.stage > 2 {
            return Some(23);
        }
        let good = self.left.well_formed() && self.right.map_or(true, |r| r.well_formed());
        (!good).then_some(26)
    }
}

impl Answer {
    /// The same with every NaN as document 01 keeps it.
    pub fn kept(self) -> Self {
        match self {
            Answer::Value(v) => Answer::Value(v.kept()),
            Answer::Mixed(cs) => Answer::Mixed(cs.into_iter().map(|(t, b)| (t, kept(t, b))).collect()),
            other => other,
        }
    }
}

fn put_operand(out: &mut Vec<u8>, v: &Operand, count: usize) {
    out.extend([v.ty, v.cols, v.rows, count as u8]);
    v.comps[..count].iter().for_each(|bits| out.extend(bits.to_le_bytes()));
}

/// One record: the rest's length in two bytes, kind, operator, stage, operands, status, detail, value. A refusal has zeros as its value, or
/// the operand of a refused shift.
/// A mixed vector has type 255, and its components' types in its detail, four bits each, component 0 lowest.
pub fn put_record(out: &mut Vec<u8>, case: &Case, answer: &Answer) {
    let start = out.len();
    out.extend([0, 0, 1 + u8::from(case.right.is_some()), case.op, case.stage]);
    put_operand(out, &case.left, case.left.count().min(16));
    if let Some(right) = &case.right {
        put_operand(out, right, right.count().min(16));
    }
    let (status, detail, value) = match answer {
        Answer::Value(v) => (0, 0, *v),
        Answer::Refused(r) => {
            let operand = r.operand.map_or_else(Operand::default, |(ty, bits)| Operand::scalar(ty, bits));
            (r.number, r.detail, operand)
        }
        Answer::Mixed(cs) => {
            let types = cs.iter().rev().fold(0, |d, (ty, _)| d << 4 | u32::from(*ty));
            let bits: Vec<u64> = cs.iter().map(|c| c.1).collect();
            (MIXED, types, Operand::new(255, 1, cs.len() as u8, &bits))
        }
        Answer::Panicked(_) => (PANICKED, 0, Operand::default()),
    };
    out.push(status);
    out.extend(detail.to_le_bytes());
    put_operand(out, &value, value.count().min(16));
    let rest = (out.len() - start - 2) as u16;
    out[start..start + 2].copy_from_slice(&rest.to_le_bytes());
}

fn take<'a>(list: &mut &'a [u8], count: usize) -> Option<&'a [u8]> {
    let head = list.get(..count)?;
    *list = &list[count..];
    Some(head)
}

fn get_operand(rest: &mut &[u8]) -> Option<Operand> {
    let head = take(rest, 4)?;
    let (ty, cols, rows, count) = (head[0], head[1], head[2], usize::from(head[3]));
    if count > 16 {
        return None;
    }
    let bytes = take(rest, 8 * count)?;
    let comps: Vec<u64> = bytes.chunks_exact(8).map(|c| u64::from_le_bytes(c.try_into().unwrap())).collect();
    Some(Operand::new(ty, cols, rows, &comps))
}

/// The operand that stands beside a refusal: none where all is 0, and nothing if it is no scalar.
fn carried(value: &Operand) -> Option<Option<(u8, u64)>> {
    match *value == Operand::default() {
        true => Some(None),
        false => value.is_scalar().then_some(Some((value.ty, value.comps[0]))),
    }
}

/// The next record of a list, or nothing if the bytes are no record.
pub fn get_record(list: &mut &[u8]) -> Option<(Case, Answer)> {
    let size = u16::from_le_bytes(take(list, 2)?.try_into().ok()?);
    let mut rest = take(list, usize::from(size))?;
    let head = take(&mut rest, 3)?;
    let (kind, op, stage) = (head[0], head[1], head[2]);
    let left = get_operand(&mut rest)?;
    let right = if kind == 2 { Some(get_operand(&mut rest)?) } else { None };
    let status = take(&mut rest, 1)?[0];
    let detail = u32::from_le_bytes(take(&mut rest, 4)?.try_into().ok()?);
    let value = get_operand(&mut rest)?;
    let answer = match status {
        0 => Answer::Value(value),
        MIXED => {
            let types = (0..value.count()).map(|k| (detail >> (4 * k) & 15) as u8);
            Answer::Mixed(types.zip(value.comps).collect())
        }
        PANICKED => Answer::Panicked(String::new()),
        number => Answer::Refused(Refusal { number, detail, operand: carried(&value)? }),
    };
    (rest.is_empty() && (kind == 1 || kind == 2)).then_some((Case { op, stage, left, right }, answer))
}

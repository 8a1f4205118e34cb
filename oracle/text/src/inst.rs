//! Values: a literal, a vector of literals, a matrix of column vectors. Pointers and references are here only because the text names them.
use std::{cell::RefCell, rc::Rc};

use crate::{
    half::f16,
    syntax::{AddressSpace, BinaryOperator},
    ty::{Ty, Type},
    Error, ShaderStage,
};

#[derive(Clone, Debug, PartialEq)]
pub enum Instance {
    Literal(LiteralInstance),
    Vec(VecInstance),
    Mat(MatInstance),
    Ptr(PtrInstance),
    Ref(RefInstance),
}

#[derive(Clone, Copy, Debug, PartialEq)]
pub enum LiteralInstance {
    Bool(bool),
    AbstractInt(i64),
    AbstractFloat(f64),
    I32(i32),
    U32(u32),
    F32(f32),
    F16(f16),
}

#[derive(Clone, Debug, PartialEq)]
pub struct VecInstance {
    components: Vec<Instance>,
}

#[derive(Clone, Debug, PartialEq)]
pub struct MatInstance {
    columns: Vec<Instance>,
}

#[derive(Clone, Debug, PartialEq)]
pub enum MemView {
    Whole,
    Component(usize),
}

#[derive(Clone, Debug, PartialEq)]
pub struct PtrInstance {
    pub ptr: RefInstance,
}

#[derive(Clone, Debug, PartialEq)]
pub struct RefInstance {
    pub space: AddressSpace,
    pub view: MemView,
    pub ptr: Rc<RefCell<Instance>>,
}

impl Instance {
    pub fn unwrap_literal_ref(&self) -> &LiteralInstance {
        match self {
            Instance::Literal(l) => l,
            _ => panic!("not a literal"),
        }
    }
    pub fn unwrap_vec_ref(&self) -> &VecInstance {
        match self {
            Instance::Vec(v) => v,
            _ => panic!("not a vector"),
        }
    }
    pub fn unwrap_vec_mut(&mut self) -> &mut VecInstance {
        match self {
            Instance::Vec(v) => v,
            _ => panic!("not a vector"),
        }
    }
}

impl LiteralInstance {
    pub fn unwrap_u32(&self) -> u32 {
        match self {
            LiteralInstance::U32(n) => *n,
            _ => panic!("not a U32"),
        }
    }
}

impl VecInstance {
    pub fn new(components: Vec<Instance>) -> Self {
        VecInstance { components }
    }
    pub fn n(&self) -> usize {
        self.components.len()
    }
    pub fn iter(&self) -> impl Iterator<Item = &Instance> + '_ {
        self.components.iter()
    }
    pub fn iter_mut(&mut self) -> impl Iterator<Item = &mut Instance> + '_ {
        self.components.iter_mut()
    }

    /// Document 01's sum of products: p0, p1, p0+p1, p2 and so on, each step by the text's own `*` and `+`. Unequal counts are Binary.
    pub fn dot(&self, rhs: &VecInstance, stage: ShaderStage) -> Result<LiteralInstance, Error> {
        if self.n() != rhs.n() {
            return Err(Error::Binary(BinaryOperator::Multiplication, self.ty(), rhs.ty()));
        }
        let product =
            |k: usize| self.components[k].unwrap_literal_ref().op_mul(rhs.components[k].unwrap_literal_ref(), stage);
        (1..self.n()).try_fold(product(0)?, |sum, k| sum.op_add(&product(k)?, stage))
    }
}

impl MatInstance {
    pub fn from_cols(columns: Vec<Instance>) -> Self {
        MatInstance { columns }
    }
    pub fn c(&self) -> usize {
        self.columns.len()
    }
    pub fn r(&self) -> usize {
        self.columns[0].unwrap_vec_ref().n()
    }
    pub fn iter_cols(&self) -> impl Iterator<Item = &Instance> + '_ {
        self.columns.iter()
    }
    pub fn iter_cols_mut(&mut self) -> impl Iterator<Item = &mut Instance> + '_ {
        self.columns.iter_mut()
    }
    /// The rows as columns.
    pub fn transpose(&self) -> MatInstance {
        let row = |k: usize| self.iter_cols().map(|column| column.unwrap_vec_ref().components[k].clone()).collect();
        MatInstance::from_cols((0..self.r()).map(|k| VecInstance::new(row(k)).into()).collect())
    }
}

impl Ty for LiteralInstance {
    fn ty(&self) -> Type {
        match self {
            LiteralInstance::Bool(_) => Type::Bool,
            LiteralInstance::AbstractInt(_) => Type::AbstractInt,
            LiteralInstance::AbstractFloat(_) => Type::AbstractFloat,
            LiteralInstance::I32(_) => Type::I32,
            LiteralInstance::U32(_) => Type::U32,
            LiteralInstance::F32(_) => Type::F32,
            LiteralInstance::F16(_) => Type::F16,
        }
    }
    fn inner_ty(&self) -> Type {
        self.ty()
    }
}

impl Ty for VecInstance {
    fn ty(&self) -> Type {
        Type::Vec
    }
    fn inner_ty(&self) -> Type {
        self.components[0].unwrap_literal_ref().ty()
    }
}

impl Ty for MatInstance {
    fn ty(&self) -> Type {
        Type::Mat
    }
    fn inner_ty(&self) -> Type {
        self.columns[0].unwrap_vec_ref().inner_ty()
    }
}

impl Ty for Instance {
    fn ty(&self) -> Type {
        match self {
            Instance::Literal(l) => l.ty(),
            Instance::Vec(v) => v.ty(),
            Instance::Mat(m) => m.ty(),
            Instance::Ptr(_) => Type::Ptr,
            Instance::Ref(_) => Type::Ref,
        }
    }
    fn inner_ty(&self) -> Type {
        match self {
            Instance::Vec(v) => v.inner_ty(),
            Instance::Mat(m) => m.inner_ty(),
            other => other.ty(),
        }
    }
}

macro_rules! into {
    ($($from:ty => $case:path: $to:ty),* $(,)?) => { $(
        impl From<$from> for $to {
            fn from(x: $from) -> $to {
                $case(x)
            }
        }
    )* };
}

into! {
    bool => LiteralInstance::Bool: LiteralInstance,
    i64 => LiteralInstance::AbstractInt: LiteralInstance,
    f64 => LiteralInstance::AbstractFloat: LiteralInstance,
    i32 => LiteralInstance::I32: LiteralInstance,
    u32 => LiteralInstance::U32: LiteralInstance,
    f32 => LiteralInstance::F32: LiteralInstance,
    f16 => LiteralInstance::F16: LiteralInstance,
    LiteralInstance => Instance::Literal: Instance,
    VecInstance => Instance::Vec: Instance,
    MatInstance => Instance::Mat: Instance,
    PtrInstance => Instance::Ptr: Instance,
    RefInstance => Instance::Ref: Instance,
}

impl From<RefInstance> for PtrInstance {
    fn from(r: RefInstance) -> Self {
        PtrInstance { ptr: r }
    }
}

impl From<PtrInstance> for RefInstance {
    fn from(p: PtrInstance) -> Self {
        p.ptr
    }
}

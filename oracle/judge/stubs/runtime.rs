//! The registered constants. Runtime functions are left out: none is ever called.

pub mod layout;

use std::collections::HashMap;

use crate::lir::{IrValue, Memory};
use crate::typechecker::scope::ResolvedName;

#[derive(Clone, Copy, Debug)]
pub struct RuntimeFunctionRef;

/// The address of a constant's bytes, which the judge keeps.
#[derive(Clone)]
pub struct ConstantValue(pub *const ());

impl ConstantValue {
    pub fn ptr(&self) -> *const () {
        self.0
    }
}

pub struct Constant {
    pub name: ResolvedName,
    pub value: ConstantValue,
}

pub struct Rt {
    pub constants: HashMap<ResolvedName, Constant>,
}

pub struct RuntimeFunction {
    pub func: Function,
}

pub struct Function;

impl Function {
    pub fn parameter_types(&self) -> &[()] {
        unreachable!()
    }
    pub fn ir_function(&self) -> fn(&mut Memory, Vec<IrValue>) {
        unreachable!()
    }
}

impl Rt {
    pub fn constants(&self) -> &HashMap<ResolvedName, Constant> {
        &self.constants
    }
    pub fn get_function(&self, _: RuntimeFunctionRef) -> RuntimeFunction {
        unreachable!()
    }
}

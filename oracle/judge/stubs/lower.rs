//! Nothing is lowered here.

pub fn lower_to_lir() {}

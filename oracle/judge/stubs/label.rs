//! A label is a block's position.

#[derive(Clone, Copy, Debug, PartialEq, Eq, Hash)]
pub struct LabelRef(pub usize);

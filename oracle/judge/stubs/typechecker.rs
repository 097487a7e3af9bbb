//! Scopes and resolved names are numbers here; types are never looked at.

pub mod scope {
    #[derive(Clone, Copy, Debug, PartialEq, Eq, PartialOrd, Ord, Hash)]
    pub struct ScopeRef(pub usize);

    #[derive(Clone, Copy, Debug, PartialEq, Eq, Hash)]
    pub struct ResolvedName(pub usize);
}

pub mod types {
    use crate::runtime::layout::Layout;

    #[derive(Debug)]
    pub struct Type;

    #[derive(Debug)]
    pub struct Signature;

    pub enum Primitive {
        String,
    }

    impl Primitive {
        pub fn layout(&self) -> Layout {
            Layout::of::<usize>()
        }
    }
}

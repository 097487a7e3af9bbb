//! Names, kept once each.

use std::cell::RefCell;
use std::collections::HashMap;

#[derive(Clone, Copy, Debug, PartialEq, Eq, PartialOrd, Ord, Hash)]
pub struct Identifier(usize);

thread_local! {
    static NAMES: RefCell<HashMap<String, usize>> = RefCell::new(HashMap::new());
}

impl From<String> for Identifier {
    fn from(name: String) -> Self {
        NAMES.with_borrow_mut(|names| {
            let next = names.len();
            Identifier(*names.entry(name).or_insert(next))
        })
    }
}

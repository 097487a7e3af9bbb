//! What only the instructions left out would use.

#[derive(Debug)]
pub struct RotoString;

impl From<&str> for RotoString {
    fn from(_: &str) -> Self {
        RotoString
    }
}

pub type CloneFn = unsafe extern "C" fn(*mut (), *mut ());
pub type DropFn = unsafe extern "C" fn(*mut ());
pub type EqFn = unsafe extern "C" fn(*mut (), *mut ()) -> bool;

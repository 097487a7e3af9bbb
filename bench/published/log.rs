//! Stands where the crate `log` would: the loop's `trace!` says nothing.

extern crate proc_macro;

use proc_macro::TokenStream;

#[proc_macro]
pub fn trace(_arguments: TokenStream) -> TokenStream {
    TokenStream::new()
}

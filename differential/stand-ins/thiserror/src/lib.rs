//! Stands in for `thiserror::Error`. The derive emits nothing: the comparison never prints these errors.
use proc_macro::TokenStream;

#[proc_macro_derive(Error, attributes(error))]
pub fn error(_item: TokenStream) -> TokenStream {
    TokenStream::new()
}

//! Stand-in for thiserror: `#[derive(Error)]` that adds nothing, since no line of a replay shows an error's text.

use proc_macro::TokenStream;

/// Takes the `#[error(..)]` attributes and derives nothing.
#[proc_macro_derive(Error, attributes(error))]
pub fn derive_error(_item: TokenStream) -> TokenStream {
    TokenStream::new()
}

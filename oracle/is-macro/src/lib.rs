//! Stands in for the crate is-macro, which Debian lacks. The three files of the original use none of the
//! methods that its derive makes, so this one makes none.
use proc_macro::TokenStream;

#[proc_macro_derive(Is)]
pub fn derive_is(_input: TokenStream) -> TokenStream {
    TokenStream::new()
}

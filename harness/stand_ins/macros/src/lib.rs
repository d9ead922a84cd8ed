//! Stand-in for the derives of the `macros` and `salsa` crates: they derive nothing.

use proc_macro::TokenStream;

#[proc_macro_derive(TypeFoldable, attributes(type_foldable))]
pub fn type_foldable(_: TokenStream) -> TokenStream {
    TokenStream::new()
}

#[proc_macro_derive(TypeVisitable, attributes(type_visitable))]
pub fn type_visitable(_: TokenStream) -> TokenStream {
    TokenStream::new()
}

#[proc_macro_derive(SalsaValue)]
pub fn salsa_value(_: TokenStream) -> TokenStream {
    TokenStream::new()
}
